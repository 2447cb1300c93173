"""Document 02, #104, with #106's fourth grid: a sheet moved to a set of four grids with a note, and back. Texts have a letter for each byte;
what is refused is refused by number and line."""
from typing import NamedTuple

from ..rule.ranges import fine
from ..rule.refusals import Refused, check, refuse_if
from ..sheets.files import all_opened
from ..sheets.lines import CLOSED, GRID, MARKS, RUN, SQUARE, Sheet, place_of, refused_text
from ..sheets.reading import Lines, meadow_of, read
from .office import METRES, WHOLE, OfficeGrid, office_text, read_office

MOST_FILE = 262_144
MOST_SQUARES = 4_096
# each grid of a set: the field of a square that it holds, and how it is written
GRIDS = {"bed": METRES, "depth": METRES, "roughness": WHOLE, "rate": WHOLE}
# how the files of a set that has a name are called
ENDINGS = {"note": ".note", **{name: f".{name}.asc" for name in GRIDS}}


class Set(NamedTuple):
    """The texts of a set's files, in the order in which they are judged."""

    note: str
    bed: str
    depth: str
    roughness: str
    rate: str

    def grids(self):
        """The texts of the grids by the field that they hold."""
        return {name: getattr(self, name) for name in GRIDS}


class Note(NamedTuple):
    """What a note says: a sheet but for what its squares hold; the marks are letters in square order."""

    rows: int
    columns: int
    side: int
    run: dict
    marks: list
    rain: list
    inflow: list

    def plan(self):
        """What the grids must agree with: the shape, the side, and where it is closed."""
        return self.rows, self.columns, self.side, [mark == CLOSED for mark in self.marks]


def up_to_mark(line):
    """A square's line ended after its mark."""
    return "\t".join(line.split("\t")[: place_of(SQUARE, "mark") + 1])


def note_of(text):
    """The note of a sheet that reads well: "the sheet, each `cell` line ended after its mark"."""
    return "\n".join(up_to_mark(line) if line.startswith(SQUARE) else line for line in text.split("\n"))


def places_of(grid):
    """The squares of a shape in their order, one after the other: the shape may be far out of range."""
    for row in range(grid["rows"] if grid["columns"] else 0):
        for column in range(grid["columns"]):
            yield row, column


def take_mark(lines, place):
    """The mark of a square, whose line must come next and end after it; else 12 with its number."""
    mark = lines.next()[-1:]
    if mark not in MARKS or lines.next() != "\t".join([SQUARE, *map(str, place), mark]):
        raise Refused(12, lines.at + 1)
    lines.at += 1
    return mark


def read_note(text):
    """What a note says; a text that is none is 12 with its line."""
    lines = Lines(text)
    grid, run = lines.take(GRID), lines.take(RUN)
    marks = [take_mark(lines, place) for place in places_of(grid)]
    return Note(*grid.values(), run, marks, *lines.take_tables())


def plan_of(grid):
    """What the note must agree with of a grid."""
    return grid.rows, grid.columns, grid.side, [number is None for number in grid.numbers]


def sheet_said(note, grids):
    """The sheet that a note and its grids say, and the end of its run; its shape is good."""
    run = dict(note.run)
    end = run.pop("end")
    sheet = Sheet(note.rows, note.columns, note.side, **run)
    for square, (place, mark) in enumerate(zip(sorted(sheet.squares), note.marks, strict=True)):
        if mark != CLOSED:
            sheet.squares[place] = {"mark": mark, **{name: grid.numbers[square] for name, grid in grids.items()}}
    sheet.rain, sheet.inflow = note.rain, note.inflow
    return sheet, end


def moved_back(texts):
    """The sheet's text of a set: the length of each file, all text in the files' order, 14, and then 1 to 5."""
    if any(len(text) > MOST_FILE for text in texts):
        raise Refused(12, 0)
    note = read_note(texts.note)
    grids = {name: read_office(text, GRIDS[name]) for name, text in texts.grids().items()}
    refuse_if(any(plan_of(grid) != note.plan() for grid in grids.values()), 14)
    refuse_if(not all(fine(name, getattr(note, name)) for name in ("rows", "columns", "side")), 1)
    sheet, end = sheet_said(note, grids)
    check(meadow_of(sheet), end)
    return sheet.text(end)


def moved_out(text):
    """The set of a sheet's text: every sheet that reads well, up to 64 by 64."""
    if len(text) > MOST_FILE:
        raise Refused(12, 0)
    sheet, end = read(text, MOST_SQUARES)
    check(meadow_of(sheet), end)
    squares = [sheet.squares[place] for place in sorted(sheet.squares)]
    grids = {name: OfficeGrid(sheet.rows, sheet.columns, sheet.side, [square.get(name) for square in squares]) for name in GRIDS}
    return Set(note_of(text), **{name: office_text(grid, GRIDS[name]) for name, grid in grids.items()})


def set_paths(*words):
    """The five files of a set by what they are: the files themselves, or a folder and the set's name in it."""
    if len(words) == 2:
        words = [f"{words[0].rstrip('/') or words[0]}/{words[1]}{ending}" for ending in ENDINGS.values()]
    return dict(zip(ENDINGS, words, strict=True))


def named_back(given):
    """What `from_survey` prints of the bytes at its standard input, the names of a set's five files."""
    texts = all_opened(given, len(Set._fields))
    try:
        refuse_if(texts is None, 12)
        return moved_back(Set(*(text.decode("latin-1") for text in texts)))
    except Refused as refused:
        return refused_text(refused.number, refused.line)
