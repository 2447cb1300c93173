#!/usr/bin/env python3
"""depths.py SHEET [ANSWER] > DEPTHS.asc: the depths that `meadow` answers, or answered, to a sheet, in metres as an ESRI ASCII grid.
depths.py --csv SHEET [ANSWER] > DEPTHS.csv: a line for each square that is not closed, with its middle, ground, depth and level in metres.
depths.py SHEET [ANSWER] --to DEPTHS.asc: writes that file, and beside it the survey's .prj file where it had one; nothing is written over without
--replace.

The corner is that of the side file which tools/make_sheet.py writes beside a sheet; where there is none it is 0 0, and that is said. What
was answered to another sheet is refused.
"""
import argparse
import sys
from pathlib import Path

from begin import ended
from meadow.sheets.pairs import pair_in
from meadow.surveys.depths import csv_of, esri_of
from meadow.surveys.places import Place, older_place_file, place_beside, place_file, projection_text, write_new


def words():
    """The words of the command line."""
    asked = argparse.ArgumentParser(prog="depths.py", description="the depths of a sheet in metres, as a grid or as a CSV")
    asked.add_argument("sheet", metavar="SHEET")
    asked.add_argument("answer", metavar="ANSWER", nargs="?", help="what meadow has printed of the sheet")
    asked.add_argument("--csv", action="store_true", help="a line for each square that is not closed")
    asked.add_argument("--to", metavar="FILE", help="the file to write, with the survey's .prj file beside it")
    asked.add_argument("--replace", action="store_true", help="with --to: write over what is there already")
    return asked.parse_args()


def place_said(sheet_file, sheet):
    """Where a sheet lies; that nobody says it is said."""
    place = place_beside(sheet_file, sheet)
    if place is None:
        older = older_place_file(sheet_file)
        rename = f"; if {older} is this sheet's, give it that name" if older else ""
        print(f"depths: there is no {place_file(sheet_file)}: the corner is taken as 0 0{rename}", file=sys.stderr)
    return place or Place()


def main():
    said = words()
    pair = pair_in(said.sheet, said.answer)
    place = place_said(said.sheet, pair.sheet)
    text = (csv_of if said.csv else esri_of)(pair, place)
    if not said.to:
        sys.stdout.write(text)
        return 0
    files = {Path(said.to): text}
    if place.projection:
        files[Path(said.to).with_suffix(".prj")] = projection_text(place)
    write_new(files, said.replace)
    print(f"made {' and '.join(map(str, files))}")
    return 0


if __name__ == "__main__":
    ended(main, "depths")
