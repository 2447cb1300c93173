"""Document 02, #104: a grid in the survey office's form. It is written with one space between two fields, corners 0, NODATA -9999, and metres
with six decimals; it is read with one or more spaces and with fewer decimals, and everything else is 12 with its line."""
import re
from typing import NamedTuple

from ..rule.refusals import Refused
from ..sheets.reading import MOST_NUMBER, NUMBER
from .depths import metres
from .grids import NO_DATA, esri_text
from .places import Place

CLOSED_TEXT = str(NO_DATA)
DECIMALS = 6
METRES, WHOLE = re.compile(r"(0|[1-9][0-9]{0,9})(?:\.([0-9]{1,6}))?"), NUMBER


class OfficeGrid(NamedTuple):
    """A grid as it is read: a number for each square in square order, in µm where it is in metres; None where the square is closed."""

    rows: int
    columns: int
    side: int
    numbers: list


def number_of(kind, text):
    """A number in µm, or a whole one; None where the text is none, or is more than a number may be."""
    found = kind.fullmatch(text)
    if not found:
        return None
    value = int(found[1] + (found[2] or "").ljust(DECIMALS, "0")) if kind is METRES else int(text)
    return value if value <= MOST_NUMBER else None


class OfficeLines:
    """A grid's lines, read one after the other."""

    def __init__(self, text):
        *self.lines, self.rest = text.split("\n")
        self.at = 0

    def take(self):
        """The fields of the next line, parted by spaces; a line that is not there, or begins or ends with a space, has an empty one."""
        line = self.lines[self.at] if self.at < len(self.lines) else ""
        self.at += 1
        return re.split(" +", line)

    def refuse_if(self, bad):
        """12 with the line that was read last."""
        if bad:
            raise Refused(12, self.at)

    def head(self, word, kind):
        """The number of a line of the header."""
        fields = self.take()
        value = number_of(kind, fields[1]) if len(fields) == 2 and fields[0] == word else None
        self.refuse_if(value is None)
        return value

    def corner(self, word):
        """A corner, which is 0."""
        self.refuse_if(self.head(word, METRES) != 0)

    def row(self, kind, columns):
        """The numbers of a row."""
        fields = self.take()
        self.refuse_if(len(fields) != columns)
        numbers = [None if field == CLOSED_TEXT else number_of(kind, field) for field in fields]
        self.refuse_if(any(number is None and field != CLOSED_TEXT for number, field in zip(numbers, fields)))
        return numbers


def read_office(text, kind):
    """The grid of a text, of metres or of whole numbers. Without columns it has no row's line, however many rows it says."""
    lines = OfficeLines(text)
    columns, rows = lines.head("ncols", WHOLE), lines.head("nrows", WHOLE)
    lines.corner("xllcorner")
    lines.corner("yllcorner")
    side = lines.head("cellsize", WHOLE)
    lines.refuse_if(lines.take() != ["NODATA_value", CLOSED_TEXT])
    numbers = []
    for _ in range(rows if columns else 0):
        numbers += lines.row(kind, columns)
    if lines.at != len(lines.lines) or lines.rest:
        raise Refused(12, lines.at + 1)
    return OfficeGrid(rows, columns, side, numbers)


def office_text(grid, kind):
    """A grid as we write it."""
    texts = [None if number is None else metres(number) if kind is METRES else str(number) for number in grid.numbers]
    rows = [texts[at : at + grid.columns] for at in range(0, len(texts), grid.columns)]
    return esri_text(rows, grid.side, Place().corner)
