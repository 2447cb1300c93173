#!/usr/bin/env python3
"""evening.py SHEET: the evening of trials in Python. At ten minutes a hatch is opened three times for forty steps, disliked and taken back each
time; then the run goes on to the sheet's end. What it prints is what `meadow` prints of the sheet: a trial taken back was never made.

    python3 examples/evening.py samples/walled-evening.sheet
"""
import sys
from pathlib import Path

sys.path.insert(0, str(Path(__file__).resolve().parent.parent / "python"))

import flood
from meadow.sheets.lines import SQUARE

TEN_MINUTES, A_WEEK = 600_000, 604_800_000
OPENING = 40
LITRES = (4000, 1500, 300)
CLOSED = 0


def try_opening(meadow, litres):
    """Forty steps with the hatch at so many litres a second, taken back."""
    before, without = [list(row) for row in meadow.depths], meadow.inflow
    meadow.inflow = [*without, flood.Inflow(4, 1, 0, A_WEEK, litres)]
    meadow.step(OPENING)
    print(f"{litres} l/s: row 4, column 1 stands at {meadow.depths[4][1]} µm after forty steps; taken back", file=sys.stderr)
    meadow.back(OPENING)
    meadow.inflow = without
    if [list(row) for row in meadow.depths] != before:
        sys.exit("evening: a trial has left a mark")


def tell(meadow, steps):
    """The water as `meadow` tells it."""
    for row, (depths, marks) in enumerate(zip(meadow.depths, meadow.marks)):
        for column, (depth, mark) in enumerate(zip(depths, marks)):
            if mark != CLOSED:
                print(SQUARE, row, column, depth, sep="\t")
    for word, number in (("out", meadow.outflow), ("soak", meadow.soaked), ("steps", steps), ("clock", meadow.clock)):
        print(word, number, sep="\t")


def main():
    if len(sys.argv) != 2:
        sys.exit("usage: evening.py SHEET")
    meadow = flood.Meadow.open(sys.argv[1], kept=OPENING)
    steps = meadow.run_to(TEN_MINUTES)
    for litres in LITRES:
        try_opening(meadow, litres)
    steps += meadow.run_to(meadow.end)
    tell(meadow, steps)


if __name__ == "__main__":
    main()
