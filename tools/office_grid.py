#!/usr/bin/env python3
"""office_grid.py bed|depth|roughness|rate THEIRS OURS [--place FILE]: brings an ESRI ASCII grid, as GDAL or a GIS writes it, into the form in
which the survey office's sets are read: corner 0, NODATA -9999, at most six decimals, a whole side.
office_grid.py --back bed|depth|roughness|rate OURS THEIRS [--place FILE]: puts the corner back, and writes the .prj file beside the grid.

The bed comes first: it writes the side file, with the survey's corner, the datum and what stands in the .prj file beside THEIRS; the other grids
of its set are held to it. Bed and depth are in metres, roughness in ten-thousandths of n, rates in µm an hour. Nothing that is there already is
written over without --replace.
"""
import argparse
from pathlib import Path

from begin import ended
from meadow.sheets.lines import Unreadable
from meadow.surveys.bringing import at_corner, brought, hold_place, office_in, place_said, projection_of, rounded, text_back
from meadow.surveys.grids import grid_in, number
from meadow.surveys.office import office_text
from meadow.surveys.places import Place, place_file, place_text, projection_text, write_new
from meadow.surveys.sets import GRIDS


def words():
    """The words of the command line."""
    asked = argparse.ArgumentParser(prog="office_grid.py", description="A map program's grid in the survey office's form, and back.")
    asked.add_argument("name", choices=GRIDS, metavar="|".join(GRIDS), help="which grid of the set it is")
    asked.add_argument("given", metavar="THEIRS", help="an ESRI ASCII grid with any corner; with --back one in the office's form")
    asked.add_argument("made", metavar="OURS", help="the grid to make")
    asked.add_argument("--back", action="store_true", help="from the office's form to the survey's corner")
    asked.add_argument("--place", metavar="FILE", help="the set's side file; where it is not said, OURS and .place after it")
    asked.add_argument("--datum", metavar="M", help="of a bed: the height that is 0 in the set, below the lowest")
    asked.add_argument("--replace", action="store_true", help="write over what is there already")
    return asked.parse_args()


def place_of_set(given, path, grid, office):
    """Where the set lies: said by its bed, and for the other grids by the side file."""
    projection = projection_of(given.given)
    if given.name == "bed":
        return Place(grid.corner, number(given.datum or "0", "the datum"), projection)
    if given.datum:
        raise Unreadable("only a bed has a datum")
    place = place_said(path, office)
    hold_place(grid, place, projection, path.name)
    return place


def brought_in(given, path):
    """The files of a grid that is brought into the office's form, and a line about it."""
    grid = grid_in(given.given)
    if grid.corner is None:
        raise Unreadable(f"{given.given} is no ESRI grid: it does not say where it lies")
    office = brought(grid, given.name, number(given.datum or "0", "the datum"))
    place = place_of_set(given, path, grid, office)
    files = {Path(given.made): office_text(office, GRIDS[given.name])} | ({path: place_text(office, place)} if given.name == "bed" else {})
    closed = office.numbers.count(None)
    told = f"{office.rows} by {office.columns} squares of {office.side} m, {closed} closed, from {at_corner(place.corner)}"
    return files, told + (f"; {rounded(grid)} rounded to the micrometre" if rounded(grid) else "")


def taken_back(given, path):
    """The files of a grid that is taken back to its corner, and a line about it."""
    if given.datum:
        raise Unreadable("the datum stands in the side file: give no --datum on the way back")
    office = office_in(given.given, given.name)
    place = place_said(path, office)
    files = {Path(given.made): text_back(office, given.name, place)}
    if place.projection:
        files[Path(given.made).with_suffix(".prj")] = projection_text(place)
    return files, f"{office.rows} by {office.columns} squares of {office.side} m, at {at_corner(place.corner)}"


def main():
    given = words()
    path = Path(given.place) if given.place else place_file(given.given if given.back else given.made)
    files, told = (taken_back if given.back else brought_in)(given, path)
    write_new(files, given.replace)
    print(f"made {' and '.join(map(str, files))}: {told}")
    return 0


if __name__ == "__main__":
    ended(main, "office_grid")
