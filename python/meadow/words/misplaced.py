"""What a line refused by 12 should be, from where it stands, and the likely slip: in the line itself, in its place among the others, or in
the shape that line 1 says. The line's number is `meadow`'s; the text is read by the one reader of sheets."""
from difflib import get_close_matches
from typing import NamedTuple

from ..sheets.lines import CLOSED, GRID, INFLOW, RAIN, RUN, SHEET_LINES, SQUARE, place_of, values_of
from ..sheets.reading import MOST_BYTES, Lines, fields_well
from .faults import FIRST_SQUARE, RUN_LINE
from .slips import field_slips, mended, remark_slip, shown
from .units import square


class Wanted(NamedTuple):
    """What a line may be: its kinds and, for a square's, the place; and line 1 as far as it was read."""

    kinds: list
    place: tuple = None
    grid: dict = None

    def forms(self):
        """How such a line is written."""
        for kind in self.kinds:
            names = [field.name for field in SHEET_LINES[kind]]
            if kind == SQUARE:
                head = [kind, *map(str, self.place)]
                yield "→".join([*head, "o or e", *names[place_of(kind, "mark") :]])
                yield "→".join([*head, CLOSED])
            else:
                yield "→".join([kind, *names])


def lines_in(text):
    """Every line of a text, one without its newline too."""
    lines = Lines(text)
    return lines.lines + ([lines.rest] if lines.rest else [])


def word_of(line):
    """A line's first field."""
    return line.split("\t")[0]


def wanted(text, number):
    """What the line of a number may be, where all lines before it read well."""
    if number <= RUN_LINE:
        return Wanted([GRID if number == 1 else RUN])
    grid = Lines(text).take(GRID)
    place = divmod(number - FIRST_SQUARE, grid["columns"])
    if place[0] < grid["rows"]:
        return Wanted([SQUARE], place, grid)
    after_inflow = word_of(lines_in(text)[number - 2]) == INFLOW
    return Wanted([INFLOW] if after_inflow else [RAIN, INFLOW], None, grid)


def squares_said(every):
    """The places of all lines that are a square's, in their order."""
    parted = [line.split("\t") for line in every]
    values = [values_of(SQUARE, fields) for word, *fields in parted if word == SQUARE and fields_well(SQUARE, fields)]
    return [(said["row"], said["column"]) for said in values]


def shape_slip(every, grid):
    """The slip where the squares are those of another shape than line 1 says."""
    places, shape = squares_said(every), (grid["rows"], grid["columns"])
    rows, columns = (1 + max((place[at] for place in places), default=-1) for at in (0, 1))
    if not places or (rows, columns) == shape or places != [(row, column) for row in range(rows) for column in range(columns)]:
        return None
    said = f"the squares are those of {rows} rows and {columns} columns"
    if (rows, columns) == shape[::-1]:
        return f"rows and columns are swapped in line 1: {said}, so write {GRID}→{rows}→{columns}→{grid['side']}"
    return f"{said}, and line 1 says {shape[0]} and {shape[1]}: mend line 1, or the squares"


def place_slip(said, due, every):
    """The slip where a square's line is good in itself but not the one that is due."""
    slip = shape_slip(every, due.grid)
    if slip:
        return slip
    if due.place is None:
        there = due.grid["rows"] * due.grid["columns"]
        return f"all {there} squares of line 1 are there already, and {square(said)} is one more: mend line 1, or delete it"
    missing = "is out of its order" if due.place in squares_said(every) else "is missing"
    return f"{square(due.place)} {missing}, and {square(said)} stands in its place: write the squares row by row"


def word_slip(word, due, every):
    """The slip where a line has not the word of a kind that is due."""
    if word == "":
        return "it is blank: delete it"
    if word.lower() in SHEET_LINES and word != word.lower():
        return f"the word {word} is not in small letters: write {word.lower()}"
    if word == RAIN and due.kinds == [INFLOW]:
        return "it is rain after inflow: put every rain line before the first inflow line"
    if word in SHEET_LINES and due.place:
        return shape_slip(every, due.grid) or f"{square(due.place)} is missing: say it before the first {word} line"
    if word in SHEET_LINES:
        return f"a {word} line does not stand here: {' or '.join(due.kinds)} does"
    near = get_close_matches(word.lower(), due.kinds, 1)
    return f"its word is {shown(word)}" + (f": did you mean {near[0]}?" if near else "")


def slips_in(line, due, every):
    """The slips of a line that is there."""
    if remark := remark_slip(line):
        return [remark]
    line, slips = mended(line, every)
    word, *fields = line.split("\t")
    if due.grid and squares_said([line]):
        (said,) = squares_said([line])
        return slips if said == due.place else [*slips, place_slip(said, due, every)]
    if word in due.kinds:
        return [*slips, *field_slips(word, fields)]
    return [*slips, word_slip(word, due, every)]


def slips_at(text, number):
    """The likely slips where a text was refused by 12 with a line."""
    if number == 0:
        return [f"it has more than {MOST_BYTES:,} bytes, the most that are read: fewer squares, or fewer rain and inflow lines"]
    if "\0" in text:
        return ["the file is saved as UTF-16: save it as plain text or UTF-8"]
    every, due = lines_in(text), wanted(text, number)
    if number > len(every):
        missing = f"; {square(due.place)} is missing" if due.place else ""
        shape = shape_slip(every, due.grid) if due.place else None
        return [f"the sheet ends before it, after {len(every)} lines{missing}", *filter(None, [shape])]
    slips = slips_in(every[number - 1], due, every)
    if number > len(Lines(text).lines):
        slips.append("the last line has no newline at its end: press Enter after it")
    return slips
