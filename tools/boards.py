#!/usr/bin/env python3
"""boards.py SHEET BOARDS > PANEL.svg: runs `boards` and `meadow` on a sheet and its level boards and draws the display panel: a staff for each
board with its mark, the highest water of the run and the water at its end; python/meadow/maps/staffs.py says what it shows."""
import argparse
import sys
from pathlib import Path

from begin import ended
from meadow.boards.answers import shown_of, told_of
from meadow.maps.staffs import staffs_svg
from meadow.sheets.pairs import bytes_as_text, pair_in


def main():
    words = argparse.ArgumentParser(prog="boards.py", description="draws the display panel of a sheet's level boards, as SVG")
    words.add_argument("sheet", metavar="SHEET")
    words.add_argument("boards", metavar="BOARDS")
    said = words.parse_args()
    files = said.sheet, said.boards
    told = told_of(*files)
    shown = shown_of(*map(bytes_as_text, files), told)
    sys.stdout.write(staffs_svg(shown, pair_in(files[0]), Path(files[1]).stem))
    return 0


if __name__ == "__main__":
    ended(main, "boards")
