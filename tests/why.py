"""tools/why.py over the tables of damaged sheets and damaged logs, over lists of sheets, and over slips of its own: the number and the line are
the program's, and the words name the right file, the right place and what to write there."""
import os
import random
import subprocess
import sys
import tempfile
from pathlib import Path

import drowned
import hatchlog
from damaged import A_HATCH, A_SHOWER, BASES, CASES, after, answer_of, before, field, on_line, sheet_of, spaces, word
from meadow.counted import Checks
from meadow.logs import answers
from meadow.logs.entries import written
from meadow.logs.nights import blocks_of
from meadow.programs import TOP
from meadow.sheets.lines import MINUTE, Sheet
from meadow.sheets.reading import answered
from meadow.words.log_reasons import both_reasons
from meadow.words.reasons import IN_THE_RUN, NOT_FOUND, reasons, refusal
from two_files import Files

TOOL = TOP / "tools" / "why.py"
OLD_SQUARE = ["line 4: it has 6 fields after its word and should have 7: say the rate", "soak rate at this line's end"]
BAD_RAIN = ["line 5: rain: it ends at 1 ms, before it begins at 2 ms"]
# of each refused sheet of the table, what the words say
PLACES = {
    "empty": ["line 1: the sheet ends before it", "line 1 may be grid→rows→columns→side"],
    "blank-first-line": ["line 1: it is blank: delete it"],
    "blank-last-line": ["line 5: it is blank: delete it"],
    "carriage-return": ["line 3: it has a carriage return", "line 3 is cell→0→0→o→0→100→1000␍→0"],
    "missing-last-newline": ["line 4: the last line has no newline at its end: press Enter"],
    "grid-field-missing": ["line 1: it has 2 fields after its word and should have 3: say the side"],
    "grid-field-too-many": ["line 1: it has 4 fields after its word and should have 3: take away 1"],
    "grid-spaces": ["line 1: it has a space for a tab"],
    "grid-word-upper-case": ["line 1: the word Grid is not in small letters: write grid"],
    "run-missing": ["line 2: the sheet ends before it, after 1 lines", "line 2 may be run→tolerance"],
    "run-without-edition": ["line 2: it has 6 fields", "say the edition", "an edge slope and an edition at this line's end"],
    "run-without-edge": ["line 2: it has 5 fields", "say the edge, the edition", "an edge slope and an edition at this line's end"],
    "run-field-missing": ["line 2: it has 4 fields", "say the end, the edge, the edition"],
    "run-field-too-many": ["line 2: it has 8 fields after its word and should have 7: take away 1"],
    "run-needless-zero": ["line 2: the tolerance: 0100 has a needless zero before it: write 100"],
    "run-sign": ["line 2: the tolerance: -1 has a sign"],
    "run-edge-empty": ["line 2: the edge: it is empty"],
    "run-edition-empty": ["line 2: the edition: it is empty"],
    "run-edition-needless-zero": ["line 2: the edition: 01 has a needless zero before it: write 1"],
    "cells-missing": ["line 3: the sheet ends before it", "row 0, column 0 is missing"],
    "cell-missing": ["line 4: the sheet ends before it", "row 0, column 1 is missing", "1 rows and 1 columns, and line 1 says 1 and 2"],
    "cell-too-many": ["line 5: all 2 squares of line 1 are there already, and row 1, column 0 is one more"],
    "cell-out-of-order": ["line 3: row 0, column 0 is out of its order, and row 0, column 1 stands in its place"],
    "cell-off-the-grid": ["line 4: row 0, column 1 is missing, and row 0, column 2 stands in its place"],
    "cell-mark-unknown": ["line 4: the mark q is none: write x"],
    "cell-mark-upper-case": ["line 4: the mark O is in upper case: write o"],
    "cell-closed-with-fields": ["line 4: it has 7 fields", "a closed square's line ends after its x: take away 0→100→0→0"],
    "cell-closed-with-rate": ["line 4: it has 4 fields", "a closed square's line ends after its x: take away 0"],
    "cell-open-without-rate": OLD_SQUARE,
    "cell-exit-without-rate": ["line 3: it has 6 fields", "say the rate"],
    "cell-open-without-depth": ["line 4: it has 5 fields", "say the depth, the rate"],
    "cell-field-too-many": ["line 4: it has 8 fields after its word and should have 7: take away 1"],
    "cell-rate-empty": ["line 4: the rate: it is empty"],
    "cell-rate-needless-zero": ["line 4: the rate: 07 has a needless zero before it: write 7"],
    "cell-rate-too-large": ["line 4: the rate: 4294967296 is above 4,294,967,295"],
    "cell-double-tab": ["line 4: it has a tab too many, two in a row"],
    "cell-question-mark": ["line 4: the bed: ? stands for what the survey did not see"],
    "cell-number-too-large": ["line 4: the bed: 4294967296 is above 4,294,967,295"],
    "rain-field-missing": ["line 5: it has 2 fields after its word and should have 3: say the rate"],
    "rain-after-inflow": ["line 6: it is rain after inflow"],
    "inflow-field-too-many": ["line 5: it has 6 fields after its word and should have 5: take away 1"],
    "inflow-without-newline": ["line 5: the last line has no newline"],
    "no-rows": ["line 1: the number of rows is 0: write 1 to 64"],
    "columns-65": ["line 1: the number of columns is 65: write 1 to 64"],
    "side-0": ["line 1: the side of a square is 0: write 1 to 100"],
    "side-101": ["line 1: the side of a square is 101: write 1 to 100"],
    "squares-over-1024": ["line 1: 33 by 32 are 1,056 squares: at most 1,024 are taken; with twice the side they would be 17 by 16"],
    "exit-off-the-rim": ["line 7: the exit at row 1, column 1 is not on the rim"],
    "bed-too-high": ["line 4: row 0, column 1: the bed is 1,000,000,001"],
    "roughness-0": ["line 4: row 0, column 1: the roughness is 0: write 1 to 10,000"],
    "cell-number-largest": ["line 4: row 0, column 1: the bed is 4,294,967,295"],
    "rate-too-fast": ["line 4: row 0, column 1: the soak rate is 1,000,001: write 0 to 1,000,000"],
    "rate-number-largest": ["line 4: row 0, column 1: the soak rate is 4,294,967,295"],
    "depth-too-deep": ["line 4: row 0, column 1: the depth is 100,000,001: write 0 to 100,000,000"],
    "rain-65-lines": ["line 69: there are 65 rain lines: at most 64"],
    "rain-from-after-to": BAD_RAIN,
    "rain-too-heavy": ["line 5: rain: the rain's rate is 1,000,001: write 0 to 1,000,000"],
    "inflow-65-lines": ["line 69: there are 65 inflow lines: at most 64"],
    "inflow-off-the-grid": ["line 5: the hatch at row 0, column 2 is off the grid: rows go from 0 to 0, columns from 0 to 1"],
    "inflow-on-closed": ["line 5: the hatch at row 0, column 1 stands on a closed square"],
    "tolerance-too-large": ["line 2: the slope tolerance is 10,001: write 0 to 10,000"],
    "shortest-0": ["line 2: the shortest step is 0: write 1 to 60,000"],
    "longest-under-shortest": ["line 2: the longest step, 999 ms, is under the shortest, 1,000 ms"],
    "update-0": ["line 2: the update time is 0: write 1 to 3,600,000"],
    "edge-too-large": ["line 2: the edge slope is 10,001: write 0 to 10,000"],
    "edge-number-largest": ["line 2: the edge slope is 4,294,967,295"],
    "edition-0": ["line 2: the edition is 0: write 1 to 3"],
    "edition-4": ["line 2: the edition is 4: write 1 to 3"],
    "edition-number-largest": ["line 2: the edition is 4,294,967,295"],
    "end-no-multiple": ["line 2: the end, 1,500 ms, is no multiple of the update time, 1,000 ms: write 1000 (1 s) or 2000 (2 s)"],
    "end-too-late": ["line 2: the end is 604,801,000: write 0 to 604,800,000"],
    "run-refused-too-deep": ["more than 100 m deep between 0 min and 1 s", "the deepest is row 0, column 0, with 100.00 m"],
    "two-text-before-shape": ["line 1: it has 2 fields"],
    "two-shape-before-text": ["line 1: the number of rows is 0"],
    "two-first-bad-line": ["line 2: it has 1 fields"],
    "two-text-before-bed": OLD_SQUARE,
    "two-bed-before-depth": ["line 4: row 0, column 1: the bed is 1,000,000,001"],
    "two-text-before-rate": OLD_SQUARE,
    "two-rate-before-depth": ["line 4: row 0, column 1: the soak rate is 1,000,001"],
    "two-bed-before-65-lines": ["line 4: row 0, column 1: the roughness is 0"],
    "two-depth-before-rain": ["line 3: row 0, column 0: the depth is 100,000,001"],
    "two-rain-before-rules": BAD_RAIN,
    "two-rain-before-edition": BAD_RAIN,
    "bytes-65536": ["line 1: its word is 0000", "line 1: the last line has no newline"],
    "bytes-65537": ["it has more than 65,536 bytes, the most that are read"],
}
DOCUMENT = BASES["document 01"]


def grown_too_deep(end=60 * MINUTE):
    """A square of 1 m² without an exit, and a hatch of 167 l/s from two minutes on, 10.02 m each minute: 90.18 m at eleven minutes."""
    sheet = Sheet(1, 1, 1, shortest=MINUTE, longest=MINUTE)
    sheet.put((0, 0), 0, 300)
    sheet.inflow = [(0, 0, 2 * MINUTE, 60 * MINUTE, 167)]
    return sheet.text(end)


# slips that the table has not: what it is, the text, and what the words say
SLIPS = [
    ("a byte order mark", "\xef\xbb\xbf" + DOCUMENT, ["line 1: it begins with a byte order mark"]),
    ("UTF-16", DOCUMENT.encode("utf_16"), ["line 1: the file is saved as UTF-16"]),
    ("carriage returns in every line", DOCUMENT.replace("\n", "\r\n"), ["line 1: it has a carriage return", "so in 3 other lines"]),
    ("spaces in a square's line", spaces(4)(DOCUMENT), ["line 4: it has a space for a tab"]),
    ("a space that does not break", DOCUMENT.replace("o\t", "o\xa0", 1), ["line 3: it has a space that does not break"]),
    ("a tab at the end", on_line(3, lambda fields: [*fields, ""])(DOCUMENT), ["line 3: it has a tab too many"]),
    ("a space at the end", on_line(3, lambda fields: [*fields[:-1], "0 "])(DOCUMENT), ["line 3: it has a space", "after its last"]),
    ("a bed in metres", field(3, "bed", "1.57")(DOCUMENT), ["line 3: the bed: 1.57 is a decimal: write 1570000"]),
    ("a bed in metres with a comma", field(3, "bed", "1,57")(DOCUMENT), ["line 3: the bed: 1,57 is a decimal: write 1570000"]),
    ("n as roughness", field(3, "roughness", "0.035")(DOCUMENT), ["line 3: the roughness: 0.035 is a decimal: write 350"]),
    ("a decimal of a time", field(2, "end", "0.5")(DOCUMENT), ["line 2: the end: 0.5 is a decimal: write the end as a whole number"]),
    ("a sign before a good number", field(3, "depth", "+5")(DOCUMENT), ["line 3: the depth: +5 has a sign: write it without"]),
    ("commas between digits", field(3, "bed", "1,000,000")(DOCUMENT), ["line 3: the bed: 1,000,000 has commas", "write 1000000"]),
    ("the short form", field(3, "bed", "1E+06")(DOCUMENT), ["line 3: the bed: 1E+06 is in the short form"]),
    ("letters for a number", field(3, "bed", "low")(DOCUMENT), ["line 3: the bed: low is no number"]),
    ("quotation marks", field(3, "bed", '"0"')(DOCUMENT), ["line 3: it has quotation marks"]),
    ("a word misspelt", word(3, "cel")(DOCUMENT), ["line 3: its word is cel: did you mean cell?"]),
    ("a word in its neighbour's place", word(2, "rain")(DOCUMENT), ["line 2: a rain line does not stand here: run does"]),
    ("rows and columns swapped", field(1, "columns", 1)(field(1, "rows", 2)(DOCUMENT)), ["swapped in line 1", "write grid→1→2→1"]),
    (
        "rows and columns swapped in a larger sheet",
        Sheet(3, 5, 10).text(MINUTE).replace("grid\t3\t5", "grid\t5\t3"),
        ["line 6: rows and columns are swapped in line 1: the squares are those of 3 rows and 5 columns, so write grid→3→5→10"],
    ),
    (
        "a square missing before the rain",
        after(A_SHOWER)(DOCUMENT.replace("1\t2\t1", "1\t3\t1")),
        ["line 5: the squares are those of 1 rows and 2 columns, and line 1 says 1 and 3"],
    ),
    (
        "a square missing in the middle",
        "".join(line for at, line in enumerate(Sheet(3, 3, 10).text(MINUTE).splitlines(True)) if at != 6),
        ["line 7: row 1, column 1 is missing, and row 1, column 2 stands in its place"],
    ),
    ("a hatch with row and column swapped", after(A_HATCH.replace("0\t0", "1\t0", 1))(DOCUMENT), ["row and column may be swapped"]),
    ("an end between two minutes", Sheet(1, 1, 10).text(90_000), ["line 2: the end, 90,000 ms", "write 60000 (1 min) or 120000 (2 min)"]),
    (
        "a square that grows too deep",
        grown_too_deep(),
        ["more than 100 m deep between 11 min and 12 min", "at 11 min the deepest is row 0, column 0, with 90.18 m"],
    ),
]


def with_hatch(litres):
    """The document's sheet with a hatch of so many litres."""
    return field(5, "litres", litres)(after(A_HATCH)(DOCUMENT))


# slips whose first sentence must be the right one, in the same form: it begins with the first of the words
FIRST = [
    ("a remark", before("# our meadow")(DOCUMENT), ["line 1: a sheet has no room for remarks: delete it"]),
    ("a remark at a line's end", field(3, "rate", "0 # the bank")(DOCUMENT), ["line 3: it has a remark at its end", "take away #·the·bank"]),
    ("a capital X", on_line(4, lambda fields: [*fields[:3], "X"])(DOCUMENT), ["line 4: the mark X is in upper case: write x"]),
    ("a hatch below 0", with_hatch("-50"), ["line 5: the litres: -50 has a sign, and no number is below 0: a hatch lets water in; an exit lets it out"]),
    ("litres with their unit", with_hatch("50 l/s"), ["line 5: the litres: 50 l/s has a unit: write the number alone, in litres a second"]),
    ("litres with their unit close by", with_hatch("50l/s"), ["line 5: the litres: 50l/s has a unit"]),
    (
        "an end in seconds",
        Sheet(1, 1, 10).text(600),
        ["line 2: the end, 600 ms, is less than the update time, 60,000 ms, and likely in seconds: write 600000 (10 min)"],
    ),
    ("an end in minutes", Sheet(1, 1, 10).text(10), ["line 2: the end, 10 ms, is less", "likely in minutes: write 600000 (10 min)"]),
]


def told(text, room):
    """What the tool says of a sheet's text, or of its bytes."""
    path = Path(room) / "sheet"
    path.write_bytes(text.encode("latin-1") if isinstance(text, str) else text)
    return subprocess.run([sys.executable, TOOL, path], capture_output=True, text=True)


def hold_table(checks, room):
    """Every refused sheet of the table is there, and named by its place; those that are taken are said to be."""
    refused = {name for name, *_, answer in CASES if not isinstance(answer, str)}
    for name in sorted(refused ^ PLACES.keys()):
        checks.hold(False, f"{name} is a refused sheet of tests/damaged.py or has words here, and not both")
    for name, base, words, edits, answer in CASES:
        said = told(sheet_of(base, edits), room)
        if isinstance(answer, str):
            checks.hold(said.returncode == 0 and said.stdout.startswith("taken: "), f"{name}, {words}: {said.stdout!r}{said.stderr!r}")
            continue
        head = f"refused by {answer[0]}" + (f", line {answer[1]}" if answer[1] else "")
        right = said.returncode == 1 and said.stdout.splitlines()[0] == head
        checks.hold(right, f"{name}, {words}: {answer_of(answer)!r} is told as {said.stdout!r}{said.stderr!r}")
        for place in PLACES.get(name, []):
            checks.hold(place in said.stdout, f"{name}, {words}: not told: {place}: {said.stdout}")
        checks.hold("no place was found" not in said.stdout, f"{name}, {words}: no place was found")


def hold_slips(checks, room):
    """Slips that the table has not; where it matters, the first sentence is the right one."""
    for name, text, wanted in SLIPS + FIRST:
        said = told(text, room)
        if (name, text, wanted) in FIRST:
            checks.hold(said.stdout.splitlines()[1].startswith(wanted[0]), f"{name}: the first sentence is another: {said.stdout}")
        checks.hold(said.returncode == 1 and said.stderr == "", f"{name}: status {said.returncode}, {said.stderr!r}")
        for words in wanted:
            checks.hold(words in said.stdout, f"{name}: not told: {words}: {said.stdout}")


def hold_in_the_run(checks):
    """Wherever the run was to end, it is refused in the same minute."""
    for minutes in range(12, 25):
        said = reasons(grown_too_deep(minutes * MINUTE), 8, 0)
        right = "between 11 min and 12 min" in said[0] and said[1].startswith("at 11 min the deepest is row 0, column 0")
        checks.hold(right, f"a square that grows too deep in a run to {minutes} min: {said}")


# what random damage puts in
BITS = ["\t", " ", "\r", "\n", "0", "9", "-", "+", ".", ",", "x", "O", "#", "\0", "\xef\xbb\xbf", "\xa0", "rain", "?", '"', "99999999999", ""]


def random_sheet(chance):
    """A small sheet with walls, exits, rain and hatches."""
    sheet = Sheet(chance.randint(1, 3), chance.randint(1, 4), 10)
    for row, column in sheet.squares:
        if chance.random() < 0.8:
            sheet.put((row, column), chance.randint(0, 2_000_000), 300, mark="e" if row == 0 else "o")
    sheet.rain = [(0, MINUTE, 20_000)] * chance.randint(0, 2)
    sheet.inflow = [(*place, 0, MINUTE, 30) for place in sheet.ground()[: chance.randint(0, 2)]]
    return sheet.text(MINUTE)


def hold_random(checks):
    """Sheets damaged at random places: a place is found for every refusal, and it is the refused line's."""
    chance = random.Random(25)
    for _ in range(400):
        text = random_sheet(chance)
        for _ in range(chance.randint(1, 3)):
            at = chance.randrange(len(text) + 1)
            text = text[:at] + chance.choice(BITS) + text[at + chance.choice((0, 0, 1, 5)) :]
        refused = refusal(answered(text.encode("latin-1")))
        if refused and refused[0] not in IN_THE_RUN:
            said = reasons(text, *refused)
            named = refused[1] == 0 or all(line.startswith(f"line {refused[1]}") for line in said)
            checks.hold(named and not any(NOT_FOUND in line for line in said), f"{text!r}, refused by {refused}: {said}")


# ---- logs

SHEET, LOG = "a.sheet", "a.log"
NONE_KEPT = ["and 0 are kept", "no step can be taken back here"]
NAMED_ALREADY = ["hatch 1 is named in line 1 already: give this one another number"]
TOO_LATE_NAMED = ["line 3: hatches are named before the first clock and the first back: move it to the log's beginning"]
IN_A_WALL = ["the hatch at row 0, column 1 stands on a closed square: move the hatch"]
# of each refused log of the table, which file it is about and what the words say
LOG_PLACES = {
    "back-one-too-many": (LOG, ["line 3: it would take 3 steps back, and 2 are kept; 2 stand", "write back→2 or less"]),
    "back-nothing-kept": (LOG, ["line 2: it would take 1 step back", *NONE_KEPT]),
    "back-largest": (LOG, ["line 3: it would take 4,294,967,295 steps back, and 1 are kept", "write back→1 or less"]),
    "back-taken-twice": (LOG, ["line 4: ", "0 stand", *NONE_KEPT]),
    "back-ends-the-opening": (LOG, TOO_LATE_NAMED),
    "back-clock-below": (LOG, ["line 4: the clock, 0 min, is below the run's, 0.8 s, also after the back of line 3: write 1000 (1 s) or later"]),
    "kept-65": (LOG, ["line 3: it would take 65 steps back, and 64 are kept; 70 stand, and with 1 square at most 64 are kept: write back→64"]),
    "kept-none-left": (LOG, ["line 4: ", "6 stand", *NONE_KEPT]),
    "kept-again": (LOG, ["line 6: ", "6 stand", *NONE_KEPT]),
    "kept-24": (LOG, ["line 3: it would take 24 steps back, and 23 are kept; 30 stand, and with 100 squares at most 23 are kept"]),
    "kept-3": (LOG, ["line 3: it would take 3 steps back, and 2 are kept; 3 stand, and with 1,024 squares at most 2 are kept: write back→2"]),
    "hatch-0": (LOG, ["line 1: the hatch's number is 0: number hatches 1 to 9", "line 1 may be hatch→number→row→column"]),
    "hatch-10": (LOG, ["line 1: the hatch's number is 10: number hatches 1 to 9"]),
    "hatch-largest": (LOG, ["line 1: the hatch's number is 4,294,967,295"]),
    "hatch-twice": (LOG, ["line 2: ", *NAMED_ALREADY]),
    "hatch-tenth": (LOG, ["line 10: ", *NAMED_ALREADY]),
    "hatch-late": (LOG, TOO_LATE_NAMED),
    "hatch-closed": (LOG, ["line 1: ", *IN_A_WALL]),
    "hatch-row-missing": (LOG, ["line 1: the hatch at row 1, column 0 is off the grid", "row and column may be swapped"]),
    "hatch-column-missing": (LOG, ["line 1: the hatch at row 0, column 3 is off the grid: rows go from 0 to 0, columns from 0 to 2"]),
    "hatch-place-largest": (LOG, ["line 1: the hatch at row 4294967295, column 4294967295 is off the grid"]),
    "hatch-second-closed": (LOG, ["line 2: ", *IN_A_WALL]),
    "rows-65": (LOG, ["line 1: the sheet has 64 inflow lines of its own, and with this hatch there are 65: at most 64"]),
    "rows-65-second": (LOG, ["line 2: the sheet has 63 inflow lines of its own, and with this hatch there are 65: at most 64"]),
    "hatch-12-before-4": (LOG, ["line 2: ", *NAMED_ALREADY]),
    "hatch-10-on-closed": (LOG, ["line 1: the hatch's number is 10"]),
    "hatch-late-on-closed": (LOG, TOO_LATE_NAMED),
    "hatch-twice-65-rows": (LOG, ["line 2: ", *NAMED_ALREADY]),
    "rate-not-named": (LOG, ["line 2: hatch 2 is not named, and named are 1: say hatch→2→row→column at the log's beginning"]),
    "rate-no-hatch": (LOG, ["line 1: hatch 1 is not named, and none is named: say hatch→1→row→column"]),
    "rate-hatch-0": (LOG, ["line 2: the hatch's number is 0: hatches have the numbers 1 to 9"]),
    "rate-hatch-10": (LOG, ["line 10: the hatch's number is 10: hatches have the numbers 1 to 9"]),
    "clock-no-multiple": (LOG, ["line 2: the clock, 1,500 ms, is no multiple of the update time, 1,000 ms: write 1000 (1 s) or 2000 (2 s)"]),
    "clock-too-late": (LOG, ["line 2: the clock, 604,801,000 ms, is after a week: write at most 604800000"]),
    "clock-largest": (LOG, ["line 2: the clock, 4,294,967,295 ms, is after a week"]),
    "clock-below": (LOG, ["line 3: the clock, 1 s, is below the run's, 2 s: write 2000 (2 s) or later"]),
    "litres-100001": (LOG, ["line 2: hatch 1: the inflow is 100,001: write 0 to 100,000"]),
    "litres-largest": (LOG, ["line 3: hatch 1: the inflow is 4,294,967,295"]),
    "litres-and-not-named": (LOG, ["line 2: hatch 2 is not named"]),
    "litres-and-no-multiple": (LOG, ["line 2: the clock, 1,500 ms, is no multiple"]),
    "litres-and-too-late": (LOG, ["line 2: the clock, 604,801,000 ms, is after a week"]),
    "litres-and-below": (LOG, ["line 3: the clock, 0 min, is below the run's, 1 s: write 1000 (1 s) or later"]),
    "litres-before-8": (LOG, ["line 3: hatch 1: the inflow is 100,001"]),
    "too-deep": (LOG, ["line 3: a square would be more than 100 m deep between 1 s and 2 s", "at 1 s the deepest is row 0, column 0, with 100.00 m"]),
    "too-deep-later": (LOG, ["line 4: a square would be more than 100 m deep between 4 s and 5 s", "at 4 s the deepest is row 0, column 0"]),
    "sheet-empty": (SHEET, ["line 1: the sheet ends before it"]),
    "sheet-cut-line": (SHEET, OLD_SQUARE),
    "sheet-1": (SHEET, ["line 1: the number of rows is 0: write 1 to 64"]),
    "sheet-2": (SHEET, ["line 3: row 0, column 0: the roughness is 0"]),
    "sheet-3": (SHEET, ["line 3: row 0, column 0: the depth is 100,000,001"]),
    "sheet-4": (SHEET, ["line 4: rain: the rain's rate is 1,000,001"]),
    "sheet-4-wall": (SHEET, ["line 6: the hatch at row 0, column 1 stands on a closed square"]),
    "sheet-5": (SHEET, ["line 2: the end, 1,500 ms, is no multiple"]),
    "sheet-bytes-65536": (SHEET, ["line 1: the last line has no newline"]),
    "sheet-bytes-65537": ("", ["the sheet ", "a.sheet has 65,537 bytes, and at most 65,536 are read"]),
    "log-bytes-65537": ("", ["the log ", "a.log has 65,537 bytes, and at most 65,536 are read"]),
    "log-too-long-first": ("", ["the log ", "a.log has 65,537 bytes"]),
}
# of lines that cannot be read, what the words say
LINE_SLIPS = {
    "line: blank": "line 3: it is blank: delete it",
    "line: a space for a tab": "line 3: it has a space for a tab",
    "line: a tab more in the middle": "line 3: it has a tab too many",
    "line: a field missing": "line 3: it has 2 fields and should have 3: clock→number→litres",
    "line: a carriage return": "line 3: it has a carriage return, as Windows ends lines: sed -i 's/\\r$//' LOG",
    "line: a needless zero": "line 3: the litres: 05 has a needless zero before it: write 5",
    "line: a sign": "line 3: the litres: -5 has a sign, and no number is below 0",
    "line: a plus": "line 3: the clock: +1000 has a sign: write it without",
    "line: a decimal": "line 3: the litres: 0.5 is a decimal: write a whole number of litres a second",
    "line: commas": "line 3: the clock: 1,000 has commas between its digits: write 1000",
    "line: litres of 2^32": "line 3: the litres: 4294967296 is above 4,294,967,295",
    "line: a clock of minutes and seconds": "line 3: the clock: 0:01 is in hours and minutes: write 60000, which is in ms",
    "line: a word that there is not": "line 3: its word is shut: a line begins with hatch, with back or with a clock in ms",
    "line: a remark": "line 3: a log has no room for remarks: delete it",
    "line: back without its count": "line 3: it has 1 fields and should have 2: back→count",
    "line: back in upper case": "line 3: the word Back is not in small letters: write back",
    "line: back misspelt": "line 3: its word is bck: did you mean back?",
    "line: a byte order mark": "line 3: it begins with a byte order mark",
    "hatch: with a name": "line 1: the hatch's number: north is no number",
    "hatch: without its column": "line 1: it has 3 fields and should have 4: hatch→number→row→column",
    "the last line without its newline": "line 3: the last line has no newline at its end: press Enter",
    "newlines as another system has them": "line 1: it has a carriage return",
    "UTF-16": "line 1: the file is saved as UTF-16",
}


def told_of_log(files):
    """What the tool says of a sheet and a log."""
    return subprocess.run([sys.executable, TOOL, files.sheet, "--log", files.other], capture_output=True, text=True)


def hold_logs(checks, files):
    """Every refused log of the table is named by its file and its place; of the others that are taken, the last comes to its sense."""
    refused = {name: answer[-1] for name, *_, answer in hatchlog.CASES if answer and not isinstance(answer[-1], str)}
    for name in sorted(refused.keys() ^ LOG_PLACES.keys()):
        checks.hold(False, f"{name} is a refused log of tests/hatchlog.py or has words here, and not both")
    for name, sheet, words, lines, _ in hatchlog.CASES:
        if name not in refused:
            continue
        files.put(hatchlog.SHEETS[sheet], written(*lines))
        said, (number, line) = told_of_log(files), refused[name]
        of, places = LOG_PLACES.get(name, ("", []))
        kind = {SHEET: f", of the sheet {files.sheet}", LOG: f", of the log {files.other}"}.get(of, "")
        head = f"refused by {number}" + (f", line {line}" if line else "") + kind
        right = said.returncode == 1 and said.stderr == "" and said.stdout.splitlines()[0] == head
        checks.hold(right, f"{name}, {words}: told as {said.stdout!r}{said.stderr!r}, not {head!r}")
        for place in places:
            checks.hold(place in said.stdout, f"{name}, {words}: not told: {place}: {said.stdout}")


def log_words(files):
    """What is said of a refusal, where it is not in the run, by document 02 in Python; None where the log is taken."""
    texts = [path.read_bytes() for path in (files.sheet, files.other)]
    told = answers.answered(*texts)
    refused = blocks_of(told)[1]
    if not refused or refused[0] in IN_THE_RUN:
        return None
    return refused, both_reasons((files.sheet, files.other), [text.decode("latin-1") for text in texts], told, refused)[1]


def hold_lines(checks, files):
    """Lines that cannot be read, each with its slip."""
    for words, log, _ in hatchlog.unreadable():
        files.put(hatchlog.SHEETS["puddle"], log)
        (_, line), said = log_words(files)
        checks.hold(said[0].startswith(f"line {line}: ") and NOT_FOUND not in " ".join(said), f"{words}: {said}")
        if words in LINE_SLIPS:
            checks.hold(any(LINE_SLIPS[words] in told for told in said), f"{words}: not told: {LINE_SLIPS[words]}: {said}")
    names = {words for words, *_ in hatchlog.unreadable()}
    checks.hold(LINE_SLIPS.keys() <= names, f"no such line: {LINE_SLIPS.keys() - names}")


def hold_random_logs(checks, files):
    """Random logs: a place is found for every refusal, and it is the refused line's."""
    chance = random.Random(26)
    for _ in range(300):
        sheet, text = hatchlog.random_sheet(chance)
        files.put(text, hatchlog.slipped(chance, hatchlog.random_log(chance, sheet)))
        found = log_words(files)
        if found:
            (number, line), said = found
            named = all(told.startswith(f"line {line}" if line else "line ") for told in said)
            checks.hold(named and NOT_FOUND not in " ".join(said), f"{files.other.read_bytes()!r}, refused by {number}: {said}")


def hold_files(checks, files):
    """A file that is not there is named, and a log that is taken comes to its sense."""
    files.put(hatchlog.SHEETS["puddle"], written("hatch 1 0 0", "0 1 2", "2000 1 0", "back 1"))
    said = told_of_log(files)
    sense = "taken: 0.003 m³ on the meadow, 0 m³ gone by exits, deepest 3.0 mm at row 0, column 0, after 1 s; 1 step stands, 1 taken back\n"
    checks.hold((said.returncode, said.stdout) == (0, sense), f"a log that is taken: {said.stdout!r}{said.stderr!r}")
    files.put(hatchlog.SHEETS["puddle"], written("hatch 1 0 0"))
    said = told_of_log(files)
    nothing = said.returncode == 0 and "nothing is printed of this log" in said.stdout
    checks.hold(nothing, f"a log that prints nothing: {said.stdout!r}{said.stderr!r}")
    for gone, kind in ((files.other, "log"), (files.sheet, "sheet")):
        gone.unlink()
        said = told_of_log(files)
        head, *words = said.stdout.splitlines()
        right = said.returncode == 1 and head == "refused by 12" and f"the {kind} {gone} cannot be opened: No such" in words[0]
        checks.hold(right, f"no {kind}: {said.stdout!r}{said.stderr!r}")


# lists of the sheets of tests/drowned.py: a depth, names, and the lines that are said
ONE_TOO_MANY = "line 1: 25 by 41 are 1,025 squares: at most 1,024 are taken; with twice the side they would be 13 by 21"
LISTS = [
    ("10cm", ["low"], ["refused by 12, line 1", "the depth: 10cm has a unit: write 100000, which is in µm"]),
    ("2.5 mm", ["low"], ["refused by 12, line 1", "the depth: 2.5 mm has a unit: write 2500, which is in µm"]),
    ("0.1", ["low"], ["refused by 12, line 1", "the depth: 0.1 is a decimal: write 100000, which is 0.1 times 1,000,000"]),
    ("007", ["low"], ["refused by 12, line 1", "the depth: 007 has a needless zero before it: write 7"]),
    ("low", ["high"], ["refused by 12, line 1", "the depth: low is no number"]),
    ("4294967296", ["low"], ["refused by 12, line 1", "the depth: 4294967296 is above 4,294,967,295, the largest number that is read"]),
    ("100000001", ["low"], ["refused by 5", "the depth is 100,000,001 µm: write 0 to 100,000,000"]),
    ("5", ["low"] * 201, ["refused by 16", "the list has 201 sheets, and at most 200 are taken: make two lists of it"]),
    ("5", [drowned.padded("low", 4_095)] * 17, ["refused by 12", "the list has 69,634 bytes, and at most 65,536 are read: give fewer sheets, or shorter names"]),
    ("1101", ["low", "high"], ["2 sheets run, none refused; 1.1 mm deep or deeper: most often at row 3, column 8, in 2 of 2 sheets"]),
    ("1100", ["low"], ["1 sheet run, none refused; 1.1 mm deep or deeper: most often at row 2, column 5, in 1 of 1 sheet, and 1 other as often"]),
    ("1", ["dry"], ["1 sheet run, none refused; under 0.1 mm deep or deeper: no square in any sheet"]),
    (
        "20000",
        ["none", "low", ".", "cut line", "turned", "third pool", "with exit", "1025 squares", "overflowing"],
        [
            "sheet 1, none: refused by 12: it cannot be opened: No such file or directory",
            "sheet 3, .: refused by 12: it cannot be opened: Is a directory",
            "sheet 4, cut line: refused by 12: line 2: it has 6 fields after its word and should have 7: say the edition",
            "sheet 5, turned: refused by 14: it has 9 by 4 squares, and low has 4 by 9",
            "sheet 6, third pool: refused by 14: row 0, column 1 is open, and closed in low",
            "sheet 7, with exit: refused by 14: row 3, column 8 is an exit, and open in low",
            f"sheet 8, 1025 squares: refused by 1: {ONE_TOO_MANY}",
            "sheet 9, overflowing: refused by 8: a square would be more than 100 m deep between 0 min and 1 s: let less in, or give it an exit",
            "1 sheet run, 8 refused; 2.0 cm deep or deeper: most often at row 3, column 8, in 1 of 1 sheet",
        ],
    ),
    (
        "0",
        ["longer"],
        [
            "sheet 1, longer: refused by 12: it has more than 65,536 bytes, the most that are read: fewer squares, or fewer rain and inflow lines",
            "0 sheets run, 1 refused",
        ],
    ),
    (
        "1",
        [os.fsdecode(drowned.NO_TEXT), "dry"],
        [
            r"sheet 1, \xff\xfe: refused by 12: it cannot be opened: its name is not UTF-8",
            "1 sheet run, 1 refused; under 0.1 mm deep or deeper: no square in any sheet",
        ],
    ),
    ("0", ["lo\nw"], ["a name has a newline in it, and is taken for two: give the file another name", "0 sheets run, 2 refused"]),
]


def hold_lists(checks, room):
    """What is said of a list, line by line; it ends with 1 where the list or a sheet of it is refused."""
    os.chdir(room)
    drowned.put_sheets()
    for depth, names, wanted in LISTS:
        said = subprocess.run([sys.executable, TOOL, "--drowned", depth, *names], capture_output=True, text=True)
        status = 0 if "none refused" in wanted[-1] else 1
        right = (said.returncode, said.stdout.splitlines(), said.stderr) == (status, wanted, "")
        checks.hold(right, f"{depth} and {[name[-20:] for name in names[:9]]}: {said.returncode}, {said.stdout!r}{said.stderr!r}")
    for words in (("low", "high"), ("--drowned", "5"), ("--drowned", "5", "low", "--log", "low")):
        said = subprocess.run([sys.executable, TOOL, *words], capture_output=True, text=True)
        checks.hold(said.returncode == 2 and "usage: why.py" in said.stderr, f"why.py takes {words}")
    os.chdir(TOP)


def main():
    checks = Checks("why")
    with tempfile.TemporaryDirectory() as room:
        hold_lists(checks, room)
    with tempfile.TemporaryDirectory() as room:
        hold_table(checks, room)
        hold_slips(checks, room)
        files = Files(room, "hatchlog", "log", answers.answered, answers.named)
        hold_logs(checks, files)
        hold_lines(checks, files)
        hold_random_logs(checks, files)
        hold_files(checks, files)
    hold_in_the_run(checks)
    hold_random(checks)
    checks.end()


if __name__ == "__main__":
    main()
