#!/usr/bin/env python3
"""make_sheet.py BEDS SHEET --end H:MIN --roughness N ..: makes a sheet from what people have, and beside it a side file that says where it lies.

BEDS is a grid of heights in metres, an ESRI ASCII grid with any corner or a CSV. A square is closed where a plan of letters has x or, without
a plan, where the beds have no number. Roughness is Manning's n, rain in mm an hour, hatches in litres a second, times as h:min or h:min:s,
rows and columns counted from 0, from the north and from the west. A depth, roughness or soak rate is one number or a file with a grid. The
shortest step suits the side of a square; the edge slope is that of the ground before the exits, or asked for where it does not fall to them.
A bed that is ?, or that has no number where a plan does not close it, was not seen. With --repair the program `repair` gives such beds, and
what was guessed is told and listed beside the sheet; without it they stay ? in the sheet, and what gives them is said.
Prints the sheet in a person's units, and what in it is likely a slip. Nothing that is there already, sheet or side file, is written over without
--replace.
"""
import argparse
from pathlib import Path

from begin import ended
from meadow.sheets.guesses import guesses_file, hold_no_list, put_guesses
from meadow.sheets.holes import holes_in, plugged
from meadow.sheets.lines import USUAL_RUN, Unreadable
from meadow.sheets.reading import read
from meadow.surveys.asking import hold_asked, run_number, spread_asked
from meadow.surveys.bringing import projection_of
from meadow.surveys.grids import grid_in, number
from meadow.surveys.making import MILLIMETRE_AN_HOUR, clock, hold_shape, index, litres, marks_of, plan_in, sheet_of, suiting_shortest, whole
from meadow.surveys.mouths import mouth_rules
from meadow.surveys.places import Place, place_file, place_text, write_new
from meadow.words.guessing import guesses_words, unseen_words, whole_by_program
from meadow.words.reasons import why_not
from meadow.words.run_lines import pond_line
from meadow.words.telling import telling

OWN = {"shortest": "by the side", "edge": "as the ground falls to the exits", "tolerance": "10, or half of the edge slope"}
USUAL = ", ".join(f"{name} {OWN.get(name, value)}" for name, value in USUAL_RUN.items())


def words():
    """The words of the command line."""
    asked = argparse.ArgumentParser(prog="make_sheet.py", description="A sheet from a grid of beds in metres; the head of the script says more.")
    asked.add_argument("beds", metavar="BEDS", help="an ESRI ASCII grid or a CSV of heights in m")
    asked.add_argument("sheet", metavar="SHEET", help="the sheet to make; its side file has its name and .place after it")
    asked.add_argument("--end", required=True, metavar="H:MIN", help="how long the run is")
    asked.add_argument("--roughness", required=True, metavar="N|FILE", help="Manning's n, 0.035 for a meadow")
    asked.add_argument("--plan", metavar="FILE", help="letters x, o and e, a line a row; without it a square without a bed is closed")
    asked.add_argument("--exit", nargs=2, action="append", default=[], metavar=("ROW", "COLUMN"), help="an exit on the rim")
    asked.add_argument("--depth", default="0", metavar="M|FILE", help="water at the start, in m")
    asked.add_argument("--soak", default="0", metavar="MM/H|FILE", help="how fast the ground takes water in")
    asked.add_argument("--rain", nargs=3, action="append", default=[], metavar=("FROM", "TO", "MM/H"))
    asked.add_argument("--hatch", nargs=5, action="append", default=[], metavar=("ROW", "COLUMN", "FROM", "TO", "L/S"))
    asked.add_argument("--datum", default="0", metavar="M", help="the height that is 0 in the sheet, below the lowest bed")
    asked.add_argument("--side", metavar="M", help="of a CSV: the side of a square")
    asked.add_argument("--corner", nargs=2, metavar=("X", "Y"), help="of a CSV: its south-west corner, 0 0 where it is not said")
    asked.add_argument("--run", nargs=2, action="append", default=[], metavar=("NAME", "NUMBER"), help=f"of the run line, in its own units: {USUAL}")
    asked.add_argument("--repair", action="store_true", help="let the program repair give the beds that were not seen")
    asked.add_argument("--replace", action="store_true", help="write over a sheet and side files that are there already")
    return asked.parse_args()


def where(given, beds):
    """The side of a square, and where the grid lies: an ESRI grid says both itself."""
    if beds.corner and (given.side or given.corner):
        raise Unreadable("an ESRI grid says its own side and corner: give no --side and no --corner")
    said = tuple(number(text, "the corner") for text in given.corner or ("0", "0"))
    side = number(given.side, "the side") if given.side else beds.side
    return side, Place(beds.corner or said, number(given.datum, "the datum"), projection_of(given.beds) if beds.corner else ())


def rules(given):
    """The fields of the run line that are said."""
    for name, _ in given.run:
        if name not in USUAL_RUN:
            raise Unreadable(f"a run line has no {name!r}: {', '.join(USUAL_RUN)}")
    return {name: run_number(name, text) for name, text in given.run}


def made(given):
    """The sheet, its end, where it lies, what was taken for its exits, and what was guessed of its ground."""
    beds = grid_in(given.beds, may_be_unseen=True)
    side, place = where(given, beds)
    hold_shape(beds, side)
    shape = beds.shape()
    exits = [(index(row, "row"), index(column, "column")) for row, column in given.exit]
    marks = marks_of(beds, plan_in(given.plan, shape) if given.plan else None, exits)
    grids = (spread_asked(word, getattr(given, word), shape) for word in ("roughness", "depth", "soak"))
    said = rules(given)
    sheet = sheet_of(beds, side, marks, place.datum, *grids, {"shortest": suiting_shortest(int(side)), **said})
    sheet.rain = [(clock(start), clock(stop), whole(number(rate, "the rain"), MILLIMETRE_AN_HOUR)) for start, stop, rate in given.rain]
    for row, column, start, stop, flow in given.hatch:
        sheet.inflow.append((index(row, "row"), index(column, "column"), clock(start), clock(stop), litres(flow)))
    end = clock(given.end)
    hold_asked(sheet, end, given)
    sheet, guesses = with_guesses(sheet, end) if given.repair else (sheet, [])
    chosen = {**pond_line(sheet), **said}
    mouths, told = mouth_rules(sheet, chosen)
    sheet.run |= {**chosen, **mouths}
    return sheet, end, place, told, guesses


def with_guesses(sheet, end):
    """The sheet with the beds that `repair` gives, and its guesses."""
    repaired = whole_by_program(sheet.text(end))
    return read(repaired.text)[0], repaired.guesses


def hold_apart(given):
    """The sheet is none of the files that it is made from."""
    for path in (given.beds, given.plan, given.roughness, given.depth, given.soak):
        if path and Path(path).exists() and Path(given.sheet).exists() and Path(path).samefile(given.sheet):
            raise Unreadable(f"{given.sheet} is what the sheet is made from: take another name")


def words_of(given, sheet, end, guesses):
    """What is said of the sheet that was made: all of it where every bed is known, else how the others are given."""
    holes = holes_in(sheet.text(end))
    return unseen_words(holes, given.sheet) if holes else [*telling(sheet, end), *guesses_words(sheet, guesses, guesses_file(given.sheet))]


def main():
    given = words()
    sheet, end, place, told, guesses = made(given)
    text = sheet.text(end)
    reasons = why_not(plugged(text))
    if reasons:
        raise Unreadable("meadow would refuse this sheet:\n" + "\n".join(reasons))
    hold_apart(given)
    hold_no_list(given.sheet, guesses, given.replace)
    write_new({Path(given.sheet): text, place_file(given.sheet): place_text(sheet, place)}, given.replace)
    put_guesses(given.sheet, guesses)
    listed = f", and the list {guesses_file(given.sheet)}" if guesses else ""
    print(f"made {given.sheet} and {place_file(given.sheet)}{listed}")
    print(*told, *words_of(given, sheet, end, guesses), sep="\n")
    return 0


if __name__ == "__main__":
    ended(main, "make_sheet")
