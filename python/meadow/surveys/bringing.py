"""A grid as a map program writes it brought into the survey office's form, which #104 reads, and taken back to where it lay.

Metres are rounded to the micrometre; roughness and rates are whole, and never rounded. Beds count from a datum; depths do not.
"""
from pathlib import Path

from ..rule.ranges import RANGES, fine
from ..rule.refusals import Refused
from ..sheets.lines import Unreadable
from ..words.units import square
from .depths import metres
from .grids import esri_text, plain
from .making import METRE, bed_at, hold_shape, whole
from .office import METRES, OfficeGrid, read_office
from .places import LETTERS, Place, place_in
from .sets import GRIDS, MOST_SQUARES

# a grid of a set: the range of what it holds
RANGE_OF = {"depth": "depth", "roughness": "roughness", "rate": "soak rate"}


def projection_of(grid_file):
    """The lines of the .prj file beside a grid; none where there is no such file."""
    path = Path(grid_file).with_suffix(".prj")
    return tuple(path.read_text(**LETTERS).splitlines()) if path.exists() else ()


def number_at(grid, place, name):
    """What a square of a depth, roughness or rate holds, in the set's unit and range."""
    value, times = grid.at(place), METRE if GRIDS[name] is METRES else 1
    if times == 1 and value != value.to_integral_value():
        raise Unreadable(f"{square(place)}: a {name} is a whole number, and this is {value}")
    number, (least, most) = whole(value, times), RANGES[RANGE_OF[name]]
    if not fine(RANGE_OF[name], number):
        unit = " m" if times == METRE else ""
        raise Unreadable(f"{square(place)}: a {name} of {value}{unit} is not {least} to {most // times:,}{unit}")
    return number


def brought(grid, name, datum):
    """A map program's grid in the office's form."""
    hold_shape(grid, grid.side, MOST_SQUARES)
    rows, columns = grid.shape()
    numbers = []
    for place in ((row, column) for row in range(rows) for column in range(columns)):
        bare = grid.at(place) is None
        numbers.append(None if bare else bed_at(grid, place, datum) if name == "bed" else number_at(grid, place, name))
    return OfficeGrid(rows, columns, int(grid.side), numbers)


def rounded(grid):
    """How many numbers of a map program's grid have more than six decimals that are not 0."""
    values = [value for row in grid.rows for value in row if value is not None]
    return sum(value * METRE != (value * METRE).to_integral_value() for value in values)


def place_said(path, office):
    """Where a set lies, by its side file."""
    if not path.exists():
        raise Unreadable(f"there is no {path}: bring the bed first, or name the set's side file by --place")
    return place_in(path, office, "grid")


def hold_place(grid, place, projection, name):
    """A grid lies where its set does."""
    if grid.corner != place.corner:
        raise Unreadable(f"it lies at {at_corner(grid.corner)}, and {name} says {at_corner(place.corner)}")
    if projection and projection != place.projection:
        raise Unreadable(f"its .prj file is not the one that {name} has of the bed")


def at_corner(corner):
    """A corner in words."""
    return " ".join(plain(number.normalize()) for number in corner)


def office_in(path, name):
    """The grid in a file of the office's form."""
    try:
        return read_office(Path(path).read_bytes().decode("latin-1"), GRIDS[name])
    except Refused as refused:
        raise Unreadable(f"{Path(path).name}, line {refused.line}: this is no {name} in the office's form") from refused


def text_back(office, name, place):
    """A grid of ours with its corner put back, beds as the survey counted them."""
    datum = place.datum if name == "bed" else Place().datum
    texts = [None if number is None else metres(number, datum) if GRIDS[name] is METRES else str(number) for number in office.numbers]
    return esri_text([texts[at : at + office.columns] for at in range(0, len(texts), office.columns)], office.side, place.corner)
