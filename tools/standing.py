#!/usr/bin/env python3
"""standing.py SHEET [ANSWER]: counts and lists the standing squares of what `meadow` answers, or answered, to a sheet.

Prints `standing` and the count, `steep` and how many of them fall by 1 mm or more on some side, then for each, the steepest first,
`square`, row, column, depth, least drop and greatest drop in µm. python/meadow/sheets/standing.py says what a standing square is. A sheet
of edition 2 or 3 has none. What was answered to another sheet is refused.
"""
import argparse

from begin import ended
from meadow.sheets.pairs import pair_in
from meadow.sheets.standing import STEEP, standing_squares


def main():
    words = argparse.ArgumentParser(prog="standing.py", description="counts and lists the squares whose water the rule holds, and not the ground")
    words.add_argument("sheet", metavar="SHEET")
    words.add_argument("answer", metavar="ANSWER", nargs="?", help="what meadow has printed of the sheet")
    said = words.parse_args()
    pair = pair_in(said.sheet, said.answer)
    found = standing_squares(pair.sheet, pair.answer)
    print(f"standing\t{len(found)}")
    print(f"steep\t{sum(square[4] >= STEEP for square in found)}")
    for square in found:
        print("square", *square, sep="\t")
    return 0


if __name__ == "__main__":
    ended(main, "standing")
