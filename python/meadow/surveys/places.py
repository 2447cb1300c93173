"""Where on a map a sheet lies: the side file that stands beside it, with the corner and the height that its beds count from. It has the sheet's
whole name and .place after it, so that no two sheets share one.

It is written as the head of an ESRI grid, and one line more: `datum`, the height in metres that is 0 in the sheet. Where the survey has a
projection, a .prj file beside its grid, its lines follow, each after the word `prj`.
"""
from decimal import Decimal
from pathlib import Path
from typing import NamedTuple

from ..sheets.lines import Unreadable
from .grids import corner_of, head_of, head_text, number, plain

DATUM = "datum"
PROJECTION = "prj "
SUFFIX = ".place"
# a .prj file may have any letters, and they come back byte for byte
LETTERS = {"encoding": "utf-8", "errors": "surrogateescape"}


class Place(NamedTuple):
    """The south-west corner in metres, the height of the sheet's zero, and the lines of the survey's projection."""

    corner: tuple = (Decimal(0), Decimal(0))
    datum: Decimal = Decimal(0)
    projection: tuple = ()

    def middle(self, sheet, place):
        """The middle of a square, in metres east and north."""
        row, column = place
        half = Decimal(sheet.side) / 2
        return self.corner[0] + column * sheet.side + half, self.corner[1] + (sheet.rows - 1 - row) * sheet.side + half


def place_file(sheet_file):
    """The side file of a sheet."""
    return Path(f"{sheet_file}{SUFFIX}")


def older_place_file(sheet_file):
    """What the side file of a sheet was called before it had the sheet's whole name; None where there is none."""
    path = Path(sheet_file).with_suffix(SUFFIX)
    return path if path.exists() else None


def write_new(files, replace):
    """Writes texts by their paths. Nothing is written over that says something else, without a word for it."""
    for path, text in files.items():
        if path.exists() and not replace and path.read_text(**LETTERS) != text:
            raise Unreadable(f"{path} is there already: take another name, or give --replace")
    for path, text in files.items():
        path.write_text(text, **LETTERS)


def place_text(sheet, place):
    """The side file's text, of a sheet or of a grid with the shape and side of one."""
    head = head_text((sheet.rows, sheet.columns), sheet.side, place.corner)
    return head + f"{DATUM} {plain(place.datum)}\n" + "".join(f"{PROJECTION}{line}\n" for line in place.projection)


def projection_text(place):
    """What stands in the survey's .prj file."""
    return "".join(f"{line}\n" for line in place.projection)


def place_in(path, sheet, what="sheet"):
    """Where a sheet or a grid lies by a side file. A file of another shape is another one's."""
    lines = path.read_text(**LETTERS).splitlines()
    heads, first = head_of(lines, path.name)
    if (heads.get("nrows"), heads.get("ncols"), heads.get("cellsize")) != (sheet.rows, sheet.columns, sheet.side):
        raise Unreadable(f"{path.name} is another {what}'s: its shape or side is not that of the {what}")
    word, *values = lines[first].split() if first < len(lines) else [""]
    if word != DATUM or len(values) != 1:
        raise Unreadable(f"{path.name}, line {first + 1}: it should be {DATUM} and a height")
    for at, line in enumerate(lines[first + 1 :], first + 2):
        if not line.startswith(PROJECTION):
            raise Unreadable(f"{path.name}, line {at}: it should be a line of a .prj file, and begin with {PROJECTION.strip()}")
    datum, projection = number(values[0], f"{path.name}, line {first + 1}"), [line.removeprefix(PROJECTION) for line in lines[first + 1 :]]
    return Place(corner_of(heads, path.name), datum, tuple(projection))


def place_beside(sheet_file, sheet):
    """Where a sheet lies by its side file; None where there is none."""
    path = place_file(sheet_file)
    return place_in(path, sheet) if path.exists() else None
