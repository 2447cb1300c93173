"""The cases of the program `seen`, read from its source and worked by document 01 in Python, held to crates/seen/stdout.

`bin/test seen --write` writes that file instead.
"""

import lent
from sources import Printer, program
from stored import hold


def tell(rt, sight):
    rt.print(f"{sight}\n")


def tell_arrows(rt, run, depths, records):
    """The arrow of each square."""
    shape, marks = SEEN["SHAPE"], SEEN["MARKS"]
    for square in range(len(marks)):
        place = divmod(square, shape.columns)
        tell(rt, f"square {square} {lent.arrow(shape, SEEN['RULES'].square_side, run, marks, depths, records, *place)}")


def tell_rows(rt, marks, depths, wet_depth, rows):
    """The wet rows, and what the row slice holds afterwards."""
    count = lent.wet_rows(SEEN["SHAPE"], marks, depths, wet_depth, rows)
    tell(rt, f"{count} rows {' '.join(map(str, rows))}")


GIVEN = {
    "tell": tell,
    "tell_arrows": tell_arrows,
    "tell_rows": tell_rows,
    "arrow": lent.arrow,
    "fresh": lent.freshens,
    "fresh_run": lent.fresh_run,
    "step": lent.steps_by,
    "take_back": lent.takes_back,
    "run_after": lent.run_after,
}
SEEN = program("seen", GIVEN)


if __name__ == "__main__":
    told = Printer()
    SEEN["main"](told)
    hold("seen", told.printed())
