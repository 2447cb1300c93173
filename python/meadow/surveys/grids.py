"""Grids of numbers as people have them: ESRI ASCII grids, and CSV as a spreadsheet writes it, in metres or whatever unit is meant.

An ESRI grid has ncols, nrows, the south-west corner (or the centre of the south-west square), cellsize, NODATA_value, and then its rows
from the north. A CSV has one line a row; its fields are parted by semicolons, tabs or commas, and by the first two a decimal comma may be
written; an empty field, or -9999, is no number. A `?` stands for one that the survey could not see. Corners are kept digit by digit as they
were written.
"""
import re
from decimal import Decimal, InvalidOperation
from pathlib import Path
from typing import NamedTuple

from ..sheets.holes import UNSEEN
from ..sheets.lines import Unreadable

NO_DATA = Decimal(-9999)
CORNERS = {"xllcorner": "xllcenter", "yllcorner": "yllcenter"}
# how map programs write NODATA where it is no number
NOT_A_NUMBER = ("nan", "-nan")
# the sides of squares that are not square, and the least side in m that is one
OBLONG, LEAST_SIDE = ("dx", "dy"), Decimal("0.1")
# how a TIFF begins, in either order of its bytes
TIFF = (b"II*\0", b"MM\0*", b"II+\0", b"MM\0+")
HEADS = ("ncols", "nrows", "cellsize", "nodata_value", *CORNERS, *CORNERS.values())


class Grid(NamedTuple):
    """Rows of numbers from the north, None where there is none; where it lies, None where the file does not say; and the squares that the
    survey could not see, which have no number either."""

    rows: list
    side: Decimal = None
    corner: tuple = None
    unseen: frozenset = frozenset()

    def shape(self):
        """How many rows and columns it has."""
        return len(self.rows), len(self.rows[0])

    def at(self, place):
        """The number at a square."""
        return self.rows[place[0]][place[1]]


def number(text, where):
    """A number as it was written, exactly."""
    try:
        value = Decimal(text)
    except InvalidOperation:
        value = None
    if value is None or not value.is_finite():
        unit = re.fullmatch(r"(\S*\d) ?[A-Za-z%][A-Za-z0-9%/]*", text)
        raise Unreadable(f"{where}: {text!r} is no number" + (f": write {unit[1]}, without its unit" if unit else ""))
    return value


def head_of(lines, name):
    """The heads of an ESRI grid by their names in small letters, and how many lines they take."""
    heads = {}
    for at, line in enumerate(lines):
        words = line.split()
        if not words or words[0].lower() not in HEADS:
            return heads, at
        if len(words) != 2 or words[0].lower() in heads:
            raise Unreadable(f"{name}, line {at + 1}: {line.strip()!r} is no head of a grid")
        no_number = words[0].lower() == "nodata_value" and words[1].lower() in NOT_A_NUMBER
        heads[words[0].lower()] = NO_DATA if no_number else number(words[1], f"{name}, line {at + 1}")
    return heads, len(lines)


def value_of(text, where, empty):
    """A square's number; None where there is none, and `?` as it is."""
    value = text if text == UNSEEN else None if text.lower() in NOT_A_NUMBER else number(text, where)
    return None if value == empty else value


def grid_of(rows, side=None, corner=None):
    """The grid of rows in which a `?` may stand."""
    unseen = frozenset((row, column) for row, values in enumerate(rows) for column, value in enumerate(values) if value == UNSEEN)
    return Grid([[None if value == UNSEEN else value for value in values] for values in rows], side, corner, unseen)


def corner_of(heads, name):
    """The south-west corner; where the centre of its square is said, half a side from it."""
    found = []
    for corner, centre in CORNERS.items():
        if (corner in heads) == (centre in heads):
            raise Unreadable(f"{name}: it says no {corner}, or says it twice")
        found.append(heads[corner] if corner in heads else heads[centre] - heads["cellsize"] / 2)
    return tuple(found)


def hold_one_side(lines, name):
    """A grid has one side for its squares; with two, dx and dy, they are oblong."""
    sides = dict(line.split()[:2] for line in lines if line.split()[:1] and line.split()[0].lower() in OBLONG and len(line.split()) == 2)
    if sides:
        said = " and ".join(f"{side} {long}" for side, long in sides.items())
        raise Unreadable(f"{name}: it has {said} for one cellsize: make its squares square, by gdalwarp -tr 5 5 say")


def hold_metres(grid):
    """A grid is in metres: one with a side far under a metre, at a corner that can be one, is in degrees."""
    if grid.side is not None and grid.side < LEAST_SIDE and abs(grid.corner[0]) <= 360 and abs(grid.corner[1]) <= 90:
        said = f"squares of {grid.side} at {grid.corner[0]} {grid.corner[1]}: this grid is in degrees, and a sheet in metres"
        raise Unreadable(f"{said}: bring it into a grid of metres, by gdalwarp -t_srs EPSG:25832 -tr 5 5 say")


def esri(text, name):
    """An ESRI ASCII grid."""
    lines = text.splitlines()
    heads, first = head_of(lines, name)
    hold_one_side(lines[first : first + len(OBLONG)], name)
    for head in ("ncols", "nrows", "cellsize"):
        if head not in heads:
            raise Unreadable(f"{name}: it has no {head}")
    empty = heads.get("nodata_value", NO_DATA)
    values = [value_of(word, f"{name}, line {at}", empty) for at, line in enumerate(lines[first:], first + 1) for word in line.split()]
    rows, columns = int(heads["nrows"]), int(heads["ncols"])
    if rows < 1 or columns < 1 or len(values) != rows * columns:
        raise Unreadable(f"{name}: {rows} rows of {columns} columns are {rows * columns} numbers, and it has {len(values)}")
    return grid_of([values[at : at + columns] for at in range(0, len(values), columns)], heads["cellsize"], corner_of(heads, name))


def csv(text, name):
    """A grid as a spreadsheet writes it."""
    lines = [line for line in text.splitlines() if line.strip()]
    parted_by = next((mark for mark in ";\t" if mark in text), ",")
    rows = []
    for at, line in enumerate(lines, 1):
        fields = [field.strip() for field in line.split(parted_by)]
        if parted_by != ",":
            fields = [field.replace(",", ".") for field in fields]
        values = [None if field == "" else field if field == UNSEEN else number(field, f"{name}, line {at}") for field in fields]
        rows.append([None if value == NO_DATA else value for value in values])
    hold_even(rows, name)
    return grid_of(rows)


def hold_even(rows, name):
    """Every row has as many squares as the first."""
    if not rows:
        raise Unreadable(f"{name}: it is empty")
    for at, row in enumerate(rows, 1):
        if len(row) != len(rows[0]):
            raise Unreadable(f"{name}, row {at}: it has {len(row)} squares, and the first row {len(rows[0])}")


def grid_in(path, may_be_unseen=False):
    """The grid in a file, of either kind; a `?` is no number where it may not be."""
    name, given = Path(path).name, Path(path).read_bytes()
    if given.startswith(TIFF):
        raise Unreadable(f"{name} is a GeoTIFF: make an ESRI ASCII grid of it, by gdal_translate -of AAIGrid {name} {Path(name).stem}.asc say")
    text = given.decode("utf-8-sig")
    first = re.match(r"\s*(\w*)", text)[1].lower()
    grid = (esri if first in HEADS else csv)(text, name)
    if grid.unseen and not may_be_unseen:
        row, column = min(grid.unseen)
        raise Unreadable(f"{name}, row {row + 1}: {UNSEEN!r} in column {column + 1} is no number")
    return grid


def plain(value):
    """A number with all its digits, and no more."""
    return f"{value:f}"


def head_text(shape, side, corner):
    """The head of an ESRI grid."""
    heads = {"ncols": shape[1], "nrows": shape[0], **dict(zip(CORNERS, map(plain, corner))), "cellsize": side, "NODATA_value": NO_DATA}
    return "".join(f"{name} {value}\n" for name, value in heads.items())


def esri_text(rows, side, corner):
    """An ESRI grid of rows of texts, None being NODATA."""
    lines = [" ".join(str(NO_DATA) if text is None else text for text in row) for row in rows]
    return head_text((len(rows), len(rows[0])), side, corner) + "".join(line + "\n" for line in lines)
