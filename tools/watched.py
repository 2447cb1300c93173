#!/usr/bin/env python3
"""watched.py SHEET: runs `meadow` on a sheet, with `highest`, `hours_wet` and `hatchlog` beside it, and is what bin/meadow does.

Standard output is what `meadow` prints, byte for byte. On standard error come, before the run, how many steps it can need and how long that may
take; while it goes on, from time to time, how far it has come; then one line of sense, what a reader must mind, and what in the sheet is likely a
slip. Of a sheet that is refused it is the likeliest reason. The sheet is read once. Ends with 1 where it is refused; a signal ends the programs too.
"""
import argparse
import sys
import time

from begin import ended
from meadow.peaks.wholes import END, runs_of, whole_of
from meadow.rule.refusals import Refused, check
from meadow.sheets.pairs import sheet_text
from meadow.sheets.reading import meadow_of, read
from meadow.words.cautions import cautions
from meadow.words.doubts import doubts
from meadow.words.pace import before_words, life_words
from meadow.words.reasons import reasons, refusal
from meadow.words.sense import whole_sense

# seconds until the first sign of life, and the most between two
FIRST_SIGN, MOST_BETWEEN = 5, 60


def say(*lines):
    """Lines on standard error."""
    print(*lines, sep="\n", file=sys.stderr, flush=True)


def say_before(text):
    """How much there is to do, of a sheet that is taken."""
    try:
        sheet, end = read(text)
        check(meadow_of(sheet), end)
    except Refused:
        return
    say(before_words(sheet, end))


def wait_for(runs, text):
    """Waits for one program after the other, with a sign of life ever more seldom; `meadow` is the first, and its answer is written at once."""
    began, wait = time.monotonic(), FIRST_SIGN
    due = began + wait
    for name, run in runs.items():
        while not run.ended_within(max(0, due - time.monotonic())):
            say(life_words(text, runs[END].reached, time.monotonic() - began))
            wait = min(2 * wait, MOST_BETWEEN)
            due = time.monotonic() + wait
        if name == END:
            sys.stdout.buffer.write(run.whole())
            sys.stdout.buffer.flush()
    return {name: run.whole().decode("ascii") for name, run in runs.items()}


def main():
    what = "runs meadow on a sheet; standard output is the program's, and standard error says what it means"
    words = argparse.ArgumentParser(prog="bin/meadow", description=what)
    words.add_argument("sheet", metavar="SHEET")
    text = sheet_text(words.parse_args().sheet)
    say_before(text)
    with runs_of(text) as runs:
        told = wait_for(runs, text)
    refused = refusal(told[END])
    if refused:
        say(f"refused by {refused[0]}: {reasons(text, *refused)[0]}")
        return 1
    whole = whole_of(text, told)
    slips = doubts(whole.pair.sheet, whole.pair.end)
    say(whole_sense(whole), *(f"mind: {caution}" for caution in cautions(whole)), *(f"likely a slip: {doubt}" for doubt in slips))
    return 0


if __name__ == "__main__":
    ended(main, "bin/meadow")
