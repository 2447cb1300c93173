"""What every part of the validation shares: claims, tables of the page, step limits by name, answers at several clocks, and uneven ground."""
import tempfile
from pathlib import Path

from meadow.logs.nights import blocks_of
from meadow.programs import printed_of_named


class Wrong(Exception):
    """A claim of the page that does not hold."""


def claim(holds, text):
    """Fails the part where a claim does not hold."""
    if not holds:
        raise Wrong(text)


def limits(tolerance, shortest, longest, update):
    """The fields of a `run` line by name; a sheet that is given none has the usual ones."""
    return {"tolerance": tolerance, "shortest": shortest, "longest": longest, "update": update}


USUAL = {}


def answers_at(sheet, clocks):
    """The answers at several clocks, in their order, of one run by `hatchlog`: the log writes the rate 0 of a hatch at each of them."""
    row, column = sheet.ground()[0]
    log = [f"hatch\t1\t{row}\t{column}", *(f"{clock}\t1\t0" for clock in clocks)]
    with tempfile.TemporaryDirectory() as room:
        names = Path(room) / "sheet", Path(room) / "log"
        for name, text in zip(names, (sheet.text(clocks[-1]), "\n".join(log) + "\n")):
            name.write_text(text, encoding="ascii")
        answers, refused = blocks_of(printed_of_named("hatchlog", *names))
    claim(refused is None and len(answers) == len(clocks), f"hatchlog refuses the run: {refused}")
    return answers


def uneven(place, most):
    """A number from 0 to `most` that looks like no pattern and is the same on every machine."""
    row, column = place
    return (7_919 * row * row + 1_299_709 * column + 104_729 * row * column + 15_485_863 * (row + 1)) // 7 % (most + 1)


def table(heads, rows):
    """A Markdown table, line by line."""
    yield row_of(heads)
    yield "|" + "---|" * len(heads)
    yield from (row_of(row) for row in rows)


def row_of(fields):
    """A row of it; whole numbers are parted by thousands."""
    return "| " + " | ".join(f"{field:,}" if isinstance(field, int) else str(field) for field in fields) + " |"
