#!/usr/bin/env python3
"""why.py SHEET: runs `meadow` on a sheet and, where it refuses, says in words what is wrong, where, and what to write there.
why.py SHEET --log LOG: runs `hatchlog` on a sheet and a log likewise, and says which of the two files it is about.
why.py SHEET --boards BOARDS: runs `boards` on a sheet and its boards, and says the same.
why.py --set FOLDER NAME, or its five files: runs `from_survey` on a set of the survey office, and says which file and line it is about.
why.py --drowned DEPTH SHEET..: runs `drowned` on a list of sheets, and says why the list is refused, or which of its sheets are and why.

The number and the line are the program's own. Ends with status 1 where it refuses; of what is taken it says what came of it.
"""
import argparse

from begin import ended
from meadow.boards import answers as boards
from meadow.logs.nights import Night, blocks_of, told_of
from meadow.peaks import winters
from meadow.peaks.lists import listed
from meadow.peaks.tally import tally_of
from meadow.programs import printed, printed_of_named
from meadow.sheets.lines import Answer
from meadow.sheets.pairs import pair_of, sheet_text
from meadow.sheets.reading import read
from meadow.surveys.set_reasons import set_reasons
from meadow.surveys.sets import MOST_SQUARES, Set, set_paths
from meadow.words import board_reasons, log_reasons
from meadow.words.drownings import tally_sense
from meadow.words.levels import boards_sense
from meadow.words.list_reasons import list_reasons, sheets_reasons
from meadow.words.opening import texts_of
from meadow.words.reasons import reasons, refusal
from meadow.words.sense import night_sense, sense


def say(refused, of, why):
    """A refusal in words."""
    number, line = refused
    print(f"refused by {number}" + (f", line {line}" if line else "") + of)
    print(*why, sep="\n")
    return 1


def of_sheet(sheet_file):
    """What `meadow` makes of a sheet."""
    text = sheet_text(sheet_file)
    answer = printed("meadow", text.encode("latin-1")).decode("ascii")
    refused = refusal(answer)
    if refused:
        return say(refused, "", reasons(text, *refused))
    print(f"taken: {sense(pair_of(*read(text), Answer(answer)))}")
    return 0


def of_log(*files):
    """What `hatchlog` makes of a sheet and a log."""
    told, texts = told_of(*files), texts_of(files)
    refused = blocks_of(told)[1]
    if refused:
        return say(refused, *log_reasons.both_reasons(files, texts, told, refused))
    print(f"taken: {night_sense(Night(read(texts[0])[0], texts[1], told))}")
    return 0


def of_boards(*files):
    """What `boards` makes of a sheet and its boards."""
    told, texts = boards.told_of(*files), texts_of(files)
    refused = refusal(told)
    if refused:
        return say(refused, *board_reasons.both_reasons(files, texts, refused))
    print(f"taken: {boards_sense(boards.shown_of(*texts, told))}")
    return 0


def of_set(*words):
    """What `from_survey` makes of a set."""
    files = set_paths(*words)
    told = printed_of_named("from_survey", *files.values())
    refused = refusal(told)
    if refused:
        return say(refused, *set_reasons(files, Set(*texts_of(files.values())), refused))
    sheet, _ = read(told, MOST_SQUARES)
    print(f"taken: a sheet of {sheet.rows} by {sheet.columns} squares of {sheet.side} m")
    return 0


def of_list(wet_depth, names):
    """What `drowned` makes of a list of sheets."""
    told = winters.told_of(listed(wet_depth, *(name.encode("utf-8", "surrogateescape") for name in names)))
    refused = refusal(told)
    if refused:
        return say(refused, "", [list_reasons(wet_depth, names, refused)])
    tally = tally_of(told)
    print(*sheets_reasons(names, tally), tally_sense(tally, int(wet_depth)), sep="\n")
    return 1 if tally.refused else 0


def main():
    words = argparse.ArgumentParser(prog="why.py", description="says in words why a sheet, alone or with a log or boards, a set or a list is refused")
    words.add_argument("sheets", metavar="SHEET", nargs="+", help="a sheet; with --set a folder and a name, or five files")
    kinds = words.add_mutually_exclusive_group()
    kinds.add_argument("--log", metavar="LOG", help="a hatch log over the sheet")
    kinds.add_argument("--boards", metavar="BOARDS", help="level boards over the sheet")
    kinds.add_argument("--set", action="store_true", help="a set of the survey office: its folder and its name, or note, bed, depth, roughness and rate")
    kinds.add_argument("--drowned", metavar="DEPTH", help="the sheets are a list, and squares so deep, in µm, are counted as drowned")
    said = words.parse_args()
    if said.drowned is not None:
        return of_list(said.drowned, said.sheets)
    if said.set and len(said.sheets) not in (2, 5):
        words.error("a set is a folder and a name, or five files: --set FOLDER NAME")
    if said.set:
        return of_set(*said.sheets)
    if len(said.sheets) > 1:
        words.error("only a list has several sheets: --drowned DEPTH SHEET..")
    if said.log:
        return of_log(*said.sheets, said.log)
    return of_boards(*said.sheets, said.boards) if said.boards else of_sheet(*said.sheets)


if __name__ == "__main__":
    ended(main, "why")
