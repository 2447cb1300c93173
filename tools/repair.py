#!/usr/bin/env python3
"""repair.py SHEET MENDED: runs `repair` on a sheet with ? for beds that the survey could not see, writes the sheet with the beds given to
MENDED, and what was guessed to the side file MENDED.guessed, which the map reads. Says which squares were guessed, and from which neighbours.

Where SHEET has a side file that says where it lies, MENDED gets the same. A square that cannot be guessed is told, and then nothing is
written; nor is anything written over without --replace. Ends with 1 where there is nothing to mend, or it cannot be done.
"""
import argparse
from pathlib import Path

from begin import ended
from meadow.sheets.guesses import guesses_file, hold_no_list, put_guesses
from meadow.sheets.holes import holes_in, plugged
from meadow.sheets.lines import Unreadable
from meadow.sheets.pairs import bytes_as_text
from meadow.sheets.reading import read
from meadow.surveys.places import LETTERS, place_file, write_new
from meadow.words.guessing import guesses_words, whole_by_program
from meadow.words.reasons import why_not


def mended(sheet_file):
    """What `repair` makes of a sheet in which every `?` can be given a bed."""
    text = bytes_as_text(sheet_file)
    reasons = why_not(plugged(text))
    if reasons:
        raise Unreadable(f"repair refuses {sheet_file}:\n" + "\n".join(reasons))
    if not holes_in(text):
        raise Unreadable(f"every bed of {sheet_file} is known: there is nothing to mend")
    return whole_by_program(text)


def hold_apart(said):
    """The survey's own sheet stays."""
    if Path(said.mended).resolve() == Path(said.sheet).resolve():
        raise Unreadable(f"{said.mended} is the sheet itself: take another name, so that what the survey saw stays")


def files_of(said, repaired):
    """The mended sheet, which lies where the survey's does."""
    files, place = {Path(said.mended): repaired.text}, place_file(said.sheet)
    return {**files, place_file(said.mended): place.read_text(**LETTERS)} if place.exists() else files


def main():
    words = argparse.ArgumentParser(prog="repair.py", description="gives the beds that the survey could not see, and says from which neighbours")
    words.add_argument("sheet", metavar="SHEET", help="a sheet with ? for some beds")
    words.add_argument("mended", metavar="MENDED", help="the sheet to make; its side file has .guessed after the whole name")
    words.add_argument("--replace", action="store_true", help="write over a sheet and side files that are there already")
    said = words.parse_args()
    repaired = mended(said.sheet)
    hold_apart(said)
    hold_no_list(said.mended, repaired.guesses, said.replace)
    write_new(files_of(said, repaired), said.replace)
    put_guesses(said.mended, repaired.guesses)
    print(f"made {said.mended} and {guesses_file(said.mended)}")
    print(*guesses_words(read(repaired.text)[0], repaired.guesses, guesses_file(said.mended)), sep="\n")
    return 0


if __name__ == "__main__":
    ended(main, "repair")
