#!/usr/bin/env python3
"""tell.py SHEET: a sheet in a person's units before it is run: ground, rain, hatches and the steps that it can need; and, each line with
`likely a slip`, what is in range and still hardly meant. Where a side file SHEET.guessed says which ground was guessed, that is told too.
tell.py SHEET ANSWER: also, of what `meadow` answered, how high the water ever stood, what a reader must mind, and the water account, in m³ and
in µm over one square.

The steps are at most so many, and at least so many where the run is not refused (docs/DEMANDS.md, "How many steps"). The account has water
on the meadow, gone by the exits and soaked, together; then the water of the start, rain and hatches by the clock, together. The two are
equal to the micrometre ("The water account"). An answer that is not what `meadow` gives the sheet is refused.
"""
import argparse

from begin import ended
from meadow.peaks.wholes import whole_in
from meadow.rule.refusals import check
from meadow.sheets.account import lines_of
from meadow.sheets.guesses import guesses_beside, guesses_file
from meadow.sheets.pairs import sheet_text
from meadow.sheets.reading import meadow_of, read
from meadow.words.cautions import cautions
from meadow.words.guessing import guesses_words
from meadow.words.sense import whole_sense
from meadow.words.telling import telling


def main():
    what = "a sheet in a person's units, and what in it is likely a slip; with an answer also the water account"
    words = argparse.ArgumentParser(prog="tell.py", description=what)
    words.add_argument("sheet", metavar="SHEET")
    words.add_argument("answer", metavar="ANSWER", nargs="?", help="what meadow has printed of the sheet")
    said = words.parse_args()
    sheet, end = read(sheet_text(said.sheet))
    check(meadow_of(sheet), end)
    guesses = guesses_beside(said.sheet, sheet)
    print(*telling(sheet, end), *guesses_words(sheet, guesses, guesses_file(said.sheet)), sep="\n")
    if said.answer:
        whole = whole_in(said.sheet, said.answer)
        print(whole_sense(whole), *(f"mind: {caution}" for caution in cautions(whole)), *lines_of(whole.pair.account()), sep="\n")
    return 0


if __name__ == "__main__":
    ended(main, "tell")
