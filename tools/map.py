#!/usr/bin/env python3
"""map.py SHEET > MAP.svg: runs `meadow`, `highest`, `hours_wet` and `hatchlog` on a sheet and draws a map of the water at its end, with what was
before it; python/meadow/maps/drawing.py says what it shows.
map.py SHEET ANSWER > MAP.svg: draws an answer that is there already; what was answered to another sheet is refused.
map.py SHEET --log LOG > MAP.svg: runs `hatchlog` on a sheet and a log and draws the water at the log's end, with the log's hatches.
map.py SHEET ANSWER --log LOG > MAP.svg: draws the end of what `hatchlog` has printed already.
map.py --often SHEET ANSWER [--depth DEPTH] > MAP.svg: draws how often each square drowned, by what `drowned` printed of a list that SHEET is
of; the depth that was asked stands on the map where it is said. python/meadow/maps/often.py says what it shows.

Where a side file SHEET.guessed says which ground was guessed, as tools/repair.py and tools/make_sheet.py write it, the map marks that ground.
"""
import argparse
import sys
from pathlib import Path

from begin import ended
from meadow.logs.nights import night_in
from meadow.maps.drawing import svg
from meadow.maps.often import often_svg
from meadow.peaks.tally import tally_of
from meadow.peaks.wholes import whole_in
from meadow.sheets.guesses import guesses_beside
from meadow.sheets.pairs import balanced, bytes_as_text
from meadow.sheets.reading import read


def main():
    words = argparse.ArgumentParser(prog="map.py", description="draws the water that a sheet, or a sheet and a log, leave, as SVG")
    words.add_argument("sheet", metavar="SHEET")
    words.add_argument("answer", metavar="ANSWER", nargs="?", help="what the program has printed already")
    words.add_argument("--log", metavar="LOG", help="a hatch log over the sheet: the water at its end is drawn")
    words.add_argument("--often", action="store_true", help="the answer is what drowned printed of a list: how often each square drowned is drawn")
    words.add_argument("--depth", metavar="DEPTH", type=int, help="with --often: the depth that was asked, in µm")
    said = words.parse_args()
    if said.often and (said.log or not said.answer) or said.depth is not None and not said.often:
        words.error("--often needs SHEET and ANSWER, and no log; --depth goes with it")
    if said.often:
        sheet, tally = read(bytes_as_text(said.sheet))[0], tally_of(bytes_as_text(said.answer))
        guesses = guesses_beside(said.sheet, sheet)
        sys.stdout.write(often_svg(sheet, tally, Path(said.answer).name.split(".")[0], said.depth, guesses))
        return 0
    if said.log:
        pair = balanced(night_in(said.sheet, said.log, said.answer).whole())
        sys.stdout.write(svg(pair, Path(said.log).stem, guesses=guesses_beside(said.sheet, pair.sheet)))
        return 0
    whole = whole_in(said.sheet, said.answer)
    sys.stdout.write(svg(whole.pair, Path(said.sheet).stem, whole, guesses_beside(said.sheet, whole.pair.sheet)))
    return 0


if __name__ == "__main__":
    ended(main, "map")
