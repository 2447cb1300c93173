"""Where a sheet that reads well is at fault: the squares, table rows and rules that a refusal by 1 to 5 is about, and what to write there.

The number is `meadow`'s; what is looked for here are the places that it can be about, by the ranges and in the order of document 01.
"""
from typing import NamedTuple

from ..rule.ranges import LAST_CLOCK, MOST_ROWS_OF_A_TABLE, RANGES, fine
from ..sheets.lines import CLOSED, GRID, INFLOW, MINUTE, RAIN, SECOND, SHEET_LINES
from ..sheets.reading import MOST_SQUARES, Lines, meadow_of, read
from .units import square, time

RUN_LINE, FIRST_SQUARE = 2, 3
# what a person calls a thing, and how its number is made of a person's
SAID = {
    "rows": ("the number of rows", ""),
    "columns": ("the number of columns", ""),
    "side": ("the side of a square", "m"),
    "bed": ("the bed", "µm: metres times 1,000,000"),
    "roughness": ("the roughness", "n times 10,000"),
    "soak rate": ("the soak rate", "µm an hour: mm times 1,000"),
    "depth": ("the depth", "µm: metres times 1,000,000"),
    "tolerance": ("the slope tolerance", "ten-thousandths"),
    "shortest": ("the shortest step", "ms: seconds times 1,000"),
    "longest": ("the longest step", "ms: seconds times 1,000"),
    "update": ("the update time", "ms: seconds times 1,000"),
    "end": ("the end", "ms: minutes times 60,000"),
    "edge": ("the edge slope", "ten-thousandths"),
    "edition": ("the edition", "1 is document 01's rule"),
    "from": ("its beginning", "ms: minutes times 60,000"),
    "to": ("its end", "ms: minutes times 60,000"),
    "rate": ("the rain's rate", "µm an hour: mm times 1,000"),
    "litres": ("the inflow", "litres a second"),
}


class Fault(NamedTuple):
    """A line of the sheet, what is wrong there, and what to do."""

    line: int
    what: str
    do: str

    def __str__(self):
        return f"line {self.line}: {self.what}: {self.do}"


def out_of_range(line, values, where=""):
    """A fault for each value, by the name of its range, that lies outside."""
    for name, value in values.items():
        if not fine(name, value):
            thing, unit = SAID.get(name, (f"the {name}", ""))
            least, most = RANGES[name]
            yield Fault(line, f"{where}{thing} is {value:,}", f"write {least:,} to {most:,}{f' ({unit})' if unit else ''}")


def shape_faults(text, most_squares):
    """Of 1: rows, columns and side of line 1."""
    grid = Lines(text).take(GRID)
    yield from out_of_range(1, grid)
    squares = grid["rows"] * grid["columns"]
    if fine("rows", grid["rows"]) and fine("columns", grid["columns"]) and squares > most_squares:
        larger = f"with twice the side they would be {-(-grid['rows'] // 2)} by {-(-grid['columns'] // 2)}"
        yield Fault(1, f"{grid['rows']} by {grid['columns']} are {squares:,} squares", f"at most {most_squares:,} are taken; {larger}")


def ground_of(sheet):
    """Each square that is not closed: its line, its place, its values."""
    for row, column in sheet.ground():
        yield FIRST_SQUARE + row * sheet.columns + column, (row, column), sheet.squares[row, column]


def ground_faults(sheet, _end):
    """Of 2: exits off the rim, beds, roughness and soak rates."""
    m = meadow_of(sheet)
    for line, place, values in ground_of(sheet):
        if values["mark"] == "e" and None not in m.beside(line - FIRST_SQUARE):
            yield Fault(line, f"the exit at {square(place)} is not on the rim", "write o for its mark, or move the exit to the rim")
        lent = {"bed": values["bed"], "roughness": values["roughness"], "soak rate": values["rate"]}
        yield from out_of_range(line, lent, f"{square(place)}: ")


def depth_faults(sheet, _end):
    """Of 3: depths at the start."""
    for line, place, values in ground_of(sheet):
        yield from out_of_range(line, {"depth": values["depth"]}, f"{square(place)}: ")


def rows_with_lines(sheet, kind):
    """Each row of a table: its line, and its values by name."""
    first = FIRST_SQUARE + len(sheet.squares) + (len(sheet.rain) if kind == INFLOW else 0)
    names = [field.name for field in SHEET_LINES[kind]]
    for at, row in enumerate(sheet.rain if kind == RAIN else sheet.inflow):
        yield first + at, dict(zip(names, row))


def place_faults(sheet, line, values, thing="hatch"):
    """Of 4, or of 13: a thing off the grid, or on a closed square."""
    place = values["row"], values["column"]
    if place not in sheet.squares:
        shape = f"rows go from 0 to {sheet.rows - 1}, columns from 0 to {sheet.columns - 1}"
        swapped = "; row and column may be swapped" if place[::-1] in sheet.squares else ""
        yield Fault(line, f"the {thing} at {square(place)} is off the grid", shape + swapped)
    elif sheet.squares[place]["mark"] == CLOSED:
        yield Fault(line, f"the {thing} at {square(place)} stands on a closed square", f"move the {thing}, or open the square")


def table_faults(sheet, _end):
    """Of 4: rows of rain and inflow."""
    for kind in (RAIN, INFLOW):
        rows = list(rows_with_lines(sheet, kind))
        if len(rows) > MOST_ROWS_OF_A_TABLE:
            line = rows[MOST_ROWS_OF_A_TABLE][0]
            yield Fault(line, f"there are {len(rows)} {kind} lines", f"at most {MOST_ROWS_OF_A_TABLE} are taken, so put some together")
        for line, values in rows:
            yield from out_of_range(line, {name: value for name, value in values.items() if name not in ("row", "column")}, f"{kind}: ")
            if values["from"] > values["to"]:
                yield Fault(line, f"{kind}: it ends at {values['to']:,} ms, before it begins at {values['from']:,} ms", "swap the two, or mend one")
            if kind == INFLOW:
                yield from place_faults(sheet, line, values)


def good_ends(end, update):
    """The nearest ends that are multiples of an update time, below and above, no later than a week."""
    below = min(end, LAST_CLOCK) // update * update
    return [good for good in (below, below + update) if good <= LAST_CLOCK]


def likely_unit(end, update):
    """The unit that an end was likely written in, with what it is in ms; None where it is no such slip."""
    for unit, times in (("seconds", SECOND), ("minutes", MINUTE)):
        if 0 < end < update and end * times % update == 0 and end * times <= LAST_CLOCK:
            return unit, end * times
    return None


def run_faults(sheet, end):
    """Of 5: the run line."""
    yield from out_of_range(RUN_LINE, {**sheet.run, "end": end})
    shortest, longest, update = (sheet.run[name] for name in ("shortest", "longest", "update"))
    if shortest > longest:
        yield Fault(RUN_LINE, f"the longest step, {longest:,} ms, is under the shortest, {shortest:,} ms", "swap the two, or mend one")
    if fine("update", update) and (meant := likely_unit(end, update)):
        said = f"the end, {end:,} ms, is less than the update time, {update:,} ms, and likely in {meant[0]}"
        yield Fault(RUN_LINE, said, f"write {meant[1]} ({time(meant[1])})")
    elif fine("update", update) and end % update != 0:
        nearest = " or ".join(f"{good} ({time(good)})" for good in good_ends(end, update))
        yield Fault(RUN_LINE, f"the end, {end:,} ms, is no multiple of the update time, {update:,} ms", f"write {nearest}")


BY_NUMBER = {2: ground_faults, 3: depth_faults, 4: table_faults, 5: run_faults}


def faults(number, text, most_squares=MOST_SQUARES):
    """Every place that a refusal by 1 to 5 can be about, in the sheet's order."""
    found = shape_faults(text, most_squares) if number == 1 else BY_NUMBER[number](*read(text, most_squares))
    return sorted(found, key=lambda fault: fault.line)
