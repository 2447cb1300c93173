#!/usr/bin/env python3
"""sense.py SHEET ANSWER LOG: one line of sense about what `hatchlog` printed of a sheet and a log: how much water is where, the deepest place, the
clock and the steps; or, of a refusal, the likeliest reason. bin/hatchlog ends with it.
sense.py --highest SHEET ANSWER: how deep the water of a sheet ever was, and when, by what `highest` printed. bin/highest ends with it.
sense.py --hours SHEET ANSWER: how many squares of a sheet were wet, and for how long, by what `hours_wet` printed. bin/hours_wet ends with it.
sense.py --repair SHEET ANSWER: how many beds were given, and which cannot be, by what `repair` printed. bin/repair ends with it.
sense.py --drowned ANSWER DEPTH SHEET..: which square drowned most often, by what `drowned` printed of a list. bin/drowned ends with it.
sense.py --boards ANSWER SHEET BOARDS: which marks were reached, by what `boards` printed of a sheet and its boards. bin/boards ends with it.
sense.py --to-survey ANSWER SHEET NOTE BED DEPTH ROUGHNESS RATE: the set that `to_survey` made of a sheet. bin/to_survey ends with it.
sense.py --from-survey ANSWER NOTE BED DEPTH ROUGHNESS RATE: the sheet that `from_survey` made of a set. bin/from_survey ends with it."""
import sys

from begin import ended
from meadow.boards.answers import shown_of
from meadow.logs.nights import Night, blocks_of
from meadow.peaks.heights import heights_of
from meadow.peaks.hours import hours_of
from meadow.peaks.tally import tally_of
from meadow.sheets.guesses import repaired_of
from meadow.sheets.holes import plugged
from meadow.sheets.pairs import balanced, bytes_as_text
from meadow.sheets.reading import read
from meadow.surveys.set_reasons import moving_reasons, set_reasons
from meadow.surveys.sets import MOST_SQUARES, Set, set_paths
from meadow.words import board_reasons, log_reasons
from meadow.words.drownings import heights_sense, tally_sense
from meadow.words.guessing import repair_sense
from meadow.words.levels import boards_sense
from meadow.words.list_reasons import list_reasons
from meadow.words.opening import texts_of
from meadow.words.reasons import reasons, refusal
from meadow.words.sense import hours_sense, night_sense


def say_refused(refused, of, why):
    """A refusal with its likeliest reason."""
    print(f"refused by {refused[0]}{of}: {why[0]}")
    return 1


def of_heights(text, told):
    """About what `highest` printed."""
    refused = refusal(told)
    if refused:
        return say_refused(refused, "", reasons(text, *refused))
    print(heights_sense(heights_of(text, told)))
    return 0


def of_hours(text, told):
    """About what `hours_wet` printed."""
    refused = refusal(told)
    if refused:
        return say_refused(refused, "", reasons(text, *refused))
    print(hours_sense(hours_of(text, told)))
    return 0


def of_repair(text, told):
    """About what `repair` printed: it refuses what the reader of sheets does with the beds filled in."""
    refused = refusal(told)
    if refused:
        return say_refused(refused, "", reasons(plugged(text), *refused))
    print(repair_sense(text, repaired_of(text, told)))
    return 0


def of_log(files, told):
    """About what `hatchlog` printed."""
    texts = texts_of(files)
    refused = blocks_of(told)[1]
    if refused:
        return say_refused(refused, *log_reasons.both_reasons(files, texts, told, refused))
    night = Night(read(texts[0])[0], texts[1], told)
    print(night_sense(balanced(night) if night.answer else night))
    return 0


def of_boards(told, *files):
    """About what `boards` printed."""
    texts = texts_of(files)
    refused = refusal(told)
    if refused:
        return say_refused(refused, *board_reasons.both_reasons(files, texts, refused))
    print(boards_sense(shown_of(*texts, told)))
    return 0


def of_list(told, wet_depth, *names):
    """About what `drowned` printed."""
    refused = refusal(told)
    if refused:
        return say_refused(refused, "", [list_reasons(wet_depth, names, refused)])
    tally = tally_of(told)
    print(tally_sense(tally, int(wet_depth)) + ("; tools/why.py --drowned says why" if tally.refused else ""))
    return 0


def plan_line(sheet_text):
    """The shape of a sheet that was moved."""
    sheet, _ = read(sheet_text, MOST_SQUARES)
    return f"{sheet.rows} by {sheet.columns} squares of {sheet.side} m, {len(sheet.squares) - len(sheet.ground())} closed"


def of_moving_out(told, sheet_file, *files):
    """About what `to_survey` printed."""
    refused, text = refusal(told), texts_of([sheet_file])[0]
    if refused:
        return say_refused(refused, *moving_reasons(sheet_file, text, set_paths(*files), refused))
    print(f"made {files[0]} and its four grids: {plan_line(text)}")
    return 0


def of_moving_back(told, *files):
    """About what `from_survey` printed."""
    refused = refusal(told)
    if refused:
        return say_refused(refused, *set_reasons(set_paths(*files), Set(*texts_of(files)), refused))
    print(f"a sheet of {files[0]} and its four grids: {plan_line(told)}")
    return 0


def main():
    kind, *files = sys.argv[1:] or [""]
    if kind == "--drowned" and len(files) > 2:
        return of_list(bytes_as_text(files[0]), *files[1:])
    if kind == "--boards" and len(files) == 3:
        return of_boards(bytes_as_text(files[0]), *files[1:])
    if kind == "--to-survey" and len(files) == 7:
        return of_moving_out(bytes_as_text(files[0]), *files[1:])
    if kind == "--from-survey" and len(files) == 6:
        return of_moving_back(bytes_as_text(files[0]), *files[1:])
    if kind == "--highest" and len(files) == 2:
        return of_heights(*map(bytes_as_text, files))
    if kind == "--hours" and len(files) == 2:
        return of_hours(*map(bytes_as_text, files))
    if kind == "--repair" and len(files) == 2:
        return of_repair(*map(bytes_as_text, files))
    if len(files) == 2:
        return of_log((kind, files[1]), bytes_as_text(files[0]))
    print(
        "usage: sense.py SHEET ANSWER LOG, sense.py --highest SHEET ANSWER, sense.py --hours SHEET ANSWER, sense.py --repair SHEET ANSWER, "
        "sense.py --drowned ANSWER DEPTH SHEET.., sense.py --boards ANSWER SHEET BOARDS, "
        "sense.py --to-survey ANSWER SHEET NOTE BED DEPTH ROUGHNESS RATE or "
        "sense.py --from-survey ANSWER NOTE BED DEPTH ROUGHNESS RATE",
        file=sys.stderr,
    )
    return 2


if __name__ == "__main__":
    ended(main, "sense")
