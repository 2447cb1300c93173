"""Hatch logs, worked and damaged: a sheet, a log, what is tried in words, and the answer, worked by hand; names that cannot be opened; and
random logs with `back`. The built `hatchlog` and document 02 in Python give the same. What the gate holds the program to is worked anew too.

`bin/test hatchlog --seed N` makes other random logs; `bin/test hatchlog --write` writes the program's stored output, and `--write FOLDER` each
log with its sheet and its answer there, random ones too, for other tests to read.
"""
import random
import tempfile

from damaged import A_HATCH, A_SHOWER, A_WEEK, BASES, after, field, flat_grid, last_gone
from meadow.counted import Checks
from meadow.logs.answers import answered, named
from meadow.logs.entries import written
from meadow.programs import TOP
from meadow.sheets.lines import SECOND, Sheet, answer_text, refused_text
from meadow.sheets.reading import MOST_BYTES
from printouts import hold_stored, seed_said, shortened
from two_files import Files, hold_names, hold_rights

# ---- sheets


def one_square(side=1, depth=1_000, **run):
    """A square from which nothing leaves, so that its depth is its start and what hatches gave: litres·ms / D²."""
    sheet = Sheet(1, 1, side, **{"tolerance": 100, "shortest": SECOND, "longest": SECOND, "update": SECOND, **run})
    sheet.put((0, 0), 0, 100, depth)
    return sheet


def walled_pair():
    """A row of three squares of which the middle is closed."""
    sheet = flat_grid(1, 3)
    for column in (0, 2):
        sheet.put((0, column), 0, 100)
    return sheet.text(SECOND)


def dry_grid(size):
    """So many squares by as many, level and dry."""
    sheet = flat_grid(size, size)
    for place in sheet.squares:
        sheet.put(place, 0, 100)
    return sheet.text(0)


def with_rows(rows):
    """The puddle with so many inflow rows of its own, which give nothing after its first second."""
    return after(field(1, "litres", 0)(A_HATCH + "\n").removesuffix("\n"), rows)(BASES["puddle"])


SHEETS = {
    # one square of 1 m² with 1 mm of water, steps of one second: 1 l/s gives 1,000 µm a second
    "puddle": BASES["puddle"],
    "full": BASES["full square"],
    # document 01's two squares, whose first two steps it works by hand
    "document 01": BASES["document 01"],
    "exit": BASES["exit"],
    "walled": walled_pair(),
    # 7 m: 1 l/s gives 20 µm by 1 s, 40 by 2 s, 61 by 3 s, 81 by 4 s
    "seven metres": one_square(7).text(SECOND),
    # steps of 400, 400 and 200 ms
    "short steps": one_square(shortest=400, longest=400).text(SECOND),
    "largest": dry_grid(32),
    "hundred": dry_grid(10),
    "63 rows": with_rows(63),
    "64 rows": with_rows(64),
    "64 showers": after(A_SHOWER, 64)(BASES["puddle"]),
    "ends at once": field(2, "end", 0)(BASES["puddle"]),
    "ends late": field(2, "end", A_WEEK)(BASES["puddle"]),
    "own hatch": after(field(1, "to", A_WEEK)(A_HATCH + "\n").removesuffix("\n"))(BASES["puddle"]),
    # sheets that `meadow` refuses
    "no sheet": "",
    "cut line": last_gone(4)(BASES["document 01"]),
    "no rows": field(1, "rows", 0)(BASES["puddle"]),
    "rough 0": field(3, "roughness", 0)(BASES["puddle"]),
    "too deep": field(3, "depth", 100_000_001)(BASES["puddle"]),
    "bad rain": field(4, "rate", 1_000_001)(after(A_SHOWER)(BASES["puddle"])),
    "hatch in a wall": field(6, "column", 1)(after(A_HATCH)(walled_pair())),
    "bad end": field(2, "end", 1_500)(BASES["puddle"]),
    "long sheet": "0" * MOST_BYTES,
    "longer sheet": "0" * (MOST_BYTES + 1),
}

# ---- what is printed


def at(clock, *depths, steps=None, outflow=0, soaked=0):
    """What is printed of a row of squares at a clock; steps of one second are as many as its seconds."""
    made = clock // SECOND if steps is None else steps
    return answer_text(
        {(0, column): depth for column, depth in enumerate(depths) if depth is not None},
        {"outflow": outflow, "soaked": soaked, "steps": made, "clock": clock},
    )


def dry(steps, size=32):
    """What is printed of a dry sheet after so many seconds."""
    depths = {(row, column): 0 for row in range(size) for column in range(size)}
    return answer_text(depths, {"outflow": 0, "soaked": 0, "steps": steps, "clock": steps * SECOND})


NAMED = "hatch 1 0 0"
# the longest log that is taken: 12 bytes, 3 times 6 and 9,358 times 7 are 65,536
LONGEST = [NAMED, *["0 1 0"] * 3, *["back 0"] * 9_358]
NINE = [f"hatch {number} 0 0" for number in range(1, 10)]

# ---- the table: a name, a sheet, what is tried, the log's lines with spaces for tabs, and what is printed: blocks, and (number, line) of a refusal
CASES = [
    # lines in turn
    ("empty", "puddle", "a log without a line prints nothing", [], []),
    ("hatches-alone", "puddle", "hatches named and no more print nothing", [NAMED, "hatch 9 0 0"], []),
    ("at-the-start", "puddle", "a line at clock 0: no step, and the water of the start", [NAMED, "0 1 5"], [at(0, 1_000)]),
    # "A hatch runs at its last written rate, 0 before its first line": 0, then 5,000, then 5,000 + 7,000 µm more
    (
        "rates",
        "puddle",
        "each line's run is made at the rates before it",
        [NAMED, "1000 1 5", "2000 1 7", "3000 1 0", "4000 1 0"],
        [at(1_000, 1_000), at(2_000, 6_000), at(3_000, 13_000), at(4_000, 13_000)],
    ),
    ("several-steps", "puddle", "a line three seconds on", [NAMED, "0 1 2", "3000 1 0"], [at(0, 1_000), at(3_000, 7_000)]),
    (
        "same-clock",
        "puddle",
        "a second line at one clock: the later rate holds",
        [NAMED, "0 1 2", "0 1 3", "1000 1 0"],
        [at(0, 1_000)] * 2 + [at(1_000, 4_000)],
    ),
    (
        "document-01",
        "document 01",
        "no hatch drawn: the two steps that document 01 works",
        [NAMED, "1000 1 0", "2000 1 0"],
        [at(1_000, 969, 31), at(2_000, 941, 59)],
    ),
    # what a hatch gives does not flow in the step that gives it: 969 + 5,000 stand in the west after it
    (
        "document-01-drawn",
        "document 01",
        "a hatch drawn for its second step",
        [NAMED, "1000 1 5", "2000 1 0"],
        [at(1_000, 969, 31), at(2_000, 5_941, 59)],
    ),
    ("exit", "exit", "outflow is told as meadow does", [NAMED, "1000 1 0"], [at(1_000, 2_000, outflow=8_000)]),
    (
        "closed-square",
        "walled",
        "a closed square has no line; hatch 2 gives 3,000",
        [NAMED, "hatch 2 0 2", "0 2 3", "1000 1 0"],
        [at(0, 0, None, 0), at(1_000, 0, None, 3_000)],
    ),
    (
        "two-on-one-square",
        "puddle",
        "two hatches on one square add",
        [NAMED, "hatch 2 0 0", "0 1 2", "0 2 3", "1000 1 0"],
        [at(0, 1_000)] * 2 + [at(1_000, 6_000)],
    ),
    # three times 1,000 / 49 = 20.4 are 61 in one division, and 60 in three
    (
        "one-division",
        "seven metres",
        "three hatches on one square: rows are summed before the one division",
        ["hatch 1 0 0", "hatch 5 0 0", "hatch 9 0 0", "0 1 1", "0 5 1", "0 9 1", "1000 1 0"],
        [at(0, 1_000)] * 3 + [at(1_000, 1_061)],
    ),
    # from 1 s on the row gives 40 - 20, 61 - 40; a row that began at 1 s would give 20 and 20
    (
        "row-from-0",
        "seven metres",
        "the row runs from 0, so that its rounding is by the clock",
        [NAMED, "1000 1 1", "2000 1 1", "3000 1 0"],
        [at(1_000, 1_000), at(2_000, 1_020), at(3_000, 1_041)],
    ),
    # 2 l/s come to 40 by 1 s and 81 by 2 s
    (
        "rate-changed",
        "seven metres",
        "1 l/s, then 2: 20, and then 81 - 40",
        [NAMED, "0 1 1", "1000 1 2", "2000 1 0"],
        [at(0, 1_000), at(1_000, 1_020), at(2_000, 1_061)],
    ),
    (
        "own-hatch",
        "own hatch",
        "the sheet's own inflow of 1 l/s goes on beside a hatch of 2",
        [NAMED, "1000 1 2", "2000 1 0"],
        [at(1_000, 2_000), at(2_000, 5_000)],
    ),
    ("end-at-once", "ends at once", "the sheet's end, 0, is not used", [NAMED, "2000 1 0"], [at(2_000, 1_000)]),
    ("end-late", "ends late", "nor is one after a week", [NAMED, "2000 1 0"], [at(2_000, 1_000)]),
    ("litres-most", "puddle", "100,000 l/s: 100 m in a second, one step later", [NAMED, "0 1 100000"], [at(0, 1_000)]),
    (
        "nine-hatches",
        "puddle",
        "all nine, 1 to 9 l/s: 45,000 µm",
        [*NINE, *(f"0 {n} {n}" for n in range(1, 10)), "1000 1 0"],
        [at(0, 1_000)] * 9 + [at(1_000, 46_000)],
    ),
    ("any-order", "puddle", "hatches named from 9 down", [*NINE[::-1], "1000 4 0"], [at(1_000, 1_000)]),
    # back
    ("back-0-first", "puddle", "back 0 before any step", [NAMED, "back 0"], [at(0, 1_000)]),
    ("back-alone", "puddle", "back 0 as the only line", ["back 0"], [at(0, 1_000)]),
    (
        "back-0",
        "puddle",
        "back 0 changes nothing, no rate either",
        [NAMED, "0 1 2", "1000 1 5", "back 0", "2000 1 0"],
        [at(0, 1_000), at(1_000, 3_000), at(1_000, 3_000), at(2_000, 8_000)],
    ),
    # steps 1 to 4 are made at 0, 1, 2 and 4 l/s; the rate 8 was never run. Back to the third step's beginning: 2 l/s
    (
        "back-rates",
        "puddle",
        "rates as they stood when the earliest of the steps taken back began",
        [NAMED, "1000 1 1", "2000 1 2", "3000 1 4", "4000 1 8", "back 2", "3000 1 0"],
        [at(1_000, 1_000), at(2_000, 2_000), at(3_000, 4_000), at(4_000, 8_000), at(2_000, 2_000), at(3_000, 4_000)],
    ),
    (
        "back-one",
        "puddle",
        "the newest step alone: its own rate, not the one before nor the one after",
        [NAMED, "0 1 3", "1000 1 7", "2000 1 9", "back 1", "2000 1 0"],
        [at(0, 1_000), at(1_000, 4_000), at(2_000, 11_000), at(1_000, 4_000), at(2_000, 11_000)],
    ),
    (
        "back-all",
        "puddle",
        "every step: the start, and no rate",
        [NAMED, "1000 1 5", "2000 1 0", "back 2", "1000 1 0"],
        [at(1_000, 1_000), at(2_000, 6_000), at(0, 1_000), at(1_000, 1_000)],
    ),
    (
        "back-twice",
        "puddle",
        "back and back again, each to its own step's rates",
        [NAMED, "1000 1 1", "2000 1 2", "3000 1 4", "back 1", "back 1", "2000 1 0"],
        [at(1_000, 1_000), at(2_000, 2_000), at(3_000, 4_000), at(2_000, 2_000), at(1_000, 1_000), at(2_000, 2_000)],
    ),
    (
        "back-other-hatch",
        "puddle",
        "the rates of all hatches go back, not only the last line's",
        [NAMED, "hatch 2 0 0", "0 1 1", "1000 2 10", "2000 1 100", "back 2", "1000 1 0"],
        [at(0, 1_000), at(1_000, 2_000), at(2_000, 13_000), at(0, 1_000), at(1_000, 2_000)],
    ),
    (
        "back-after-trial",
        "puddle",
        "a step over the same time after a trial is made at its own rates, and they are what a later back finds",
        [NAMED, "0 1 1", "1000 1 50", "2000 1 0", "back 1", "1000 1 2", "2000 1 3", "back 1", "2000 1 0"],
        [at(0, 1_000), at(1_000, 2_000), at(2_000, 52_000), at(1_000, 2_000), at(1_000, 2_000), at(2_000, 4_000), at(1_000, 2_000), at(2_000, 4_000)],
    ),
    ("back-one-too-many", "puddle", "one above kept is 10, none taken back", [NAMED, "2000 1 0", "back 3"], [at(2_000, 1_000), (10, 0)]),
    ("back-just-kept", "puddle", "as many as are kept", [NAMED, "2000 1 0", "back 2"], [at(2_000, 1_000), at(0, 1_000)]),
    ("back-nothing-kept", "puddle", "back 1 before any step", [NAMED, "back 1"], [(10, 0)]),
    ("back-largest", "puddle", "back 2^32 - 1, read and then judged", [NAMED, "1000 1 0", "back 4294967295"], [at(1_000, 1_000), (10, 0)]),
    (
        "back-taken-twice",
        "puddle",
        "what was taken back is not kept any more",
        [NAMED, "2000 1 0", "back 2", "back 1"],
        [at(2_000, 1_000), at(0, 1_000), (10, 0)],
    ),
    ("back-ends-the-opening", "puddle", "a hatch named after a back", [NAMED, "back 0", "hatch 2 0 0"], [at(0, 1_000), (12, 3)]),
    # clocks after a back: steps of 400, 400, 200; 800 is no multiple of 1,000
    (
        "back-between",
        "short steps",
        "back into the middle of an update time",
        [NAMED, "1000 1 0", "back 1"],
        [at(1_000, 1_000, steps=3), at(800, 1_000, steps=2)],
    ),
    # the step from 800 holds 400 and lasts the 200 that are left
    (
        "back-and-on",
        "short steps",
        "and on from there, at 5 l/s from 1 s on",
        [NAMED, "1000 1 9", "back 1", "1000 1 5", "2000 1 0"],
        [at(1_000, 1_000, steps=3), at(800, 1_000, steps=2), at(1_000, 1_000, steps=3), at(2_000, 6_000, steps=6)],
    ),
    (
        "back-clock-below",
        "short steps",
        "a clock below the run's after a back",
        [NAMED, "1000 1 0", "back 1", "0 1 0"],
        [at(1_000, 1_000, steps=3), at(800, 1_000, steps=2), (12, 4)],
    ),
    (
        "back-clock-the-same",
        "puddle",
        "the run's own clock after a back",
        [NAMED, "2000 1 0", "back 1", "1000 1 0"],
        [at(2_000, 1_000), at(1_000, 1_000), at(1_000, 1_000)],
    ),
    (
        "back-clock-before",
        "puddle",
        "a clock that a back has made good again",
        [NAMED, "3000 1 0", "back 2", "2000 1 0"],
        [at(3_000, 1_000), at(1_000, 1_000), at(2_000, 1_000)],
    ),
    # K: 16,384 numbers hold 1,820 records of one square, and 64 are the most; they hold 2 of 1,024 squares
    ("kept-64", "puddle", "70 steps, 64 of them back", [NAMED, "70000 1 0", "back 64"], [at(70_000, 1_000), at(6_000, 1_000)]),
    ("kept-65", "puddle", "65 of them", [NAMED, "70000 1 0", "back 65"], [at(70_000, 1_000), (10, 0)]),
    (
        "kept-none-left",
        "puddle",
        "64, and one more",
        [NAMED, "70000 1 0", "back 64", "back 1"],
        [at(70_000, 1_000), at(6_000, 1_000), (10, 0)],
    ),
    (
        "kept-again",
        "puddle",
        "64 back, ten steps on, ten back, and none is left",
        [NAMED, "70000 1 0", "back 64", "16000 1 0", "back 10", "back 1"],
        [at(70_000, 1_000), at(6_000, 1_000), at(16_000, 1_000), at(6_000, 1_000), (10, 0)],
    ),
    # the ring has gone round: 69 steps at 1 l/s, one at 2; 64 back come to the sixth step's beginning
    (
        "kept-round-rates",
        "puddle",
        "rates of a ring that has gone round",
        [NAMED, "0 1 1", "69000 1 2", "70000 1 4", "back 1", "70000 1 0", "back 64", "7000 1 0"],
        [at(0, 1_000), at(69_000, 70_000), at(70_000, 72_000), at(69_000, 70_000), at(70_000, 72_000), at(6_000, 7_000), at(7_000, 8_000)],
    ),
    # 16,384 / 702 = 23
    ("kept-23", "hundred", "100 squares, 30 steps, 23 of them back", [NAMED, "30000 1 0", "back 23"], [dry(30, 10), dry(7, 10)]),
    ("kept-24", "hundred", "24 of them", [NAMED, "30000 1 0", "back 24"], [dry(30, 10), (10, 0)]),
    ("kept-2", "largest", "1,024 squares, three steps, two of them back", [NAMED, "3000 1 0", "back 2"], [dry(3), dry(1)]),
    ("kept-3", "largest", "three of them", [NAMED, "3000 1 0", "back 3"], [dry(3), (10, 0)]),
    # hatch lines: 12 first, then 4
    ("hatch-0", "puddle", "hatch 0", ["hatch 0 0 0"], [(12, 1)]),
    ("hatch-10", "puddle", "hatch 10", ["hatch 10 0 0"], [(12, 1)]),
    ("hatch-largest", "puddle", "hatch 2^32 - 1", ["hatch 4294967295 0 0"], [(12, 1)]),
    ("hatch-twice", "puddle", "one named twice", [NAMED, "hatch 1 0 0"], [(12, 2)]),
    ("hatch-tenth", "puddle", "a tenth hatch line", [*NINE, NAMED], [(12, 10)]),
    ("hatch-late", "puddle", "a hatch named after a rate", [NAMED, "0 1 0", "hatch 2 0 0"], [at(0, 1_000), (12, 3)]),
    ("hatch-closed", "walled", "on a closed square", ["hatch 1 0 1"], [(4, 0)]),
    ("hatch-row-missing", "walled", "on a row that there is not", ["hatch 1 1 0"], [(4, 0)]),
    ("hatch-column-missing", "walled", "on a column that there is not", ["hatch 1 0 3"], [(4, 0)]),
    ("hatch-place-largest", "puddle", "row and column 2^32 - 1, read and then judged", ["hatch 1 4294967295 4294967295"], [(4, 0)]),
    ("hatch-second-closed", "walled", "a good hatch, and one on a closed square", [NAMED, "hatch 2 0 1", "0 1 0"], [(4, 0)]),
    ("rows-64", "63 rows", "63 rows and a hatch", [NAMED, "1000 1 0"], [at(1_000, 1_000)]),
    ("rows-65", "64 rows", "64 rows and a hatch", [NAMED, "1000 1 0"], [(4, 0)]),
    ("rows-65-second", "63 rows", "63 rows and two hatches", [NAMED, "hatch 2 0 0"], [(4, 0)]),
    ("rows-64-no-hatch", "64 rows", "64 rows and no hatch", ["back 0"], [at(0, 1_000)]),
    ("rows-of-rain", "64 showers", "rain is not counted", [NAMED, "0 1 0"], [at(0, 1_000)]),
    ("hatch-12-before-4", "walled", "named twice, the second time on a closed square", [NAMED, "hatch 1 0 1"], [(12, 2)]),
    ("hatch-10-on-closed", "walled", "hatch 10 on a closed square", ["hatch 10 0 1"], [(12, 1)]),
    (
        "hatch-late-on-closed",
        "walled",
        "a hatch named too late, on a closed square",
        [NAMED, "0 1 0", "hatch 2 0 1"],
        [at(0, 0, None, 0), (12, 3)],
    ),
    ("hatch-twice-65-rows", "63 rows", "named twice where a hatch more would be too many", [NAMED, "hatch 1 0 0"], [(12, 2)]),
    # rates: 12 first, then 4, before any step
    ("rate-not-named", "puddle", "a hatch that was not named", [NAMED, "1000 2 1"], [(12, 2)]),
    ("rate-no-hatch", "puddle", "no hatch named at all", ["0 1 1"], [(12, 1)]),
    ("rate-hatch-0", "puddle", "hatch 0 of a rate", [NAMED, "0 0 1"], [(12, 2)]),
    ("rate-hatch-10", "puddle", "hatch 10 of a rate", [*NINE, "0 10 1"], [(12, 10)]),
    ("clock-no-multiple", "puddle", "a clock that is no multiple of U", [NAMED, "1500 1 1"], [(12, 2)]),
    ("clock-too-late", "puddle", "a clock after a week", [NAMED, "604801000 1 1"], [(12, 2)]),
    ("clock-largest", "puddle", "2^32 - 1 is no clock", [NAMED, "4294967295 1 1"], [(12, 2)]),
    ("clock-below", "puddle", "a clock below the run's", [NAMED, "2000 1 1", "1000 1 1"], [at(2_000, 1_000), (12, 3)]),
    ("litres-100001", "puddle", "litres out of range: no step is made", [NAMED, "1000 1 100001"], [(4, 0)]),
    (
        "litres-largest",
        "puddle",
        "2^32 - 1 litres, read and then judged",
        [NAMED, "1000 1 0", "1000 1 4294967295"],
        [at(1_000, 1_000), (4, 0)],
    ),
    ("litres-and-not-named", "puddle", "litres out of range, of a hatch that was not named", [NAMED, "0 2 100001"], [(12, 2)]),
    ("litres-and-no-multiple", "puddle", "litres out of range, at a clock that is no multiple of U", [NAMED, "1500 1 100001"], [(12, 2)]),
    ("litres-and-too-late", "puddle", "litres out of range, after a week", [NAMED, "604801000 1 100001"], [(12, 2)]),
    (
        "litres-and-below",
        "puddle",
        "litres out of range, at a clock below the run's",
        [NAMED, "1000 1 0", "0 1 100001"],
        [at(1_000, 1_000), (12, 3)],
    ),
    (
        "litres-before-8",
        "full",
        "litres out of range, where the steps would be refused",
        [NAMED, "0 1 1", "1000 1 100001"],
        [at(0, 100_000_000), (4, 0)],
    ),
    # the steps' own refusals: what was printed stands
    ("too-deep", "full", "a full square, and a hatch", [NAMED, "1000 1 1", "2000 1 0"], [at(1_000, 100_000_000), (8, 0)]),
    # 1,000 + 4·24,999,000 = 99,997,000, and the fifth second would be too much; the line after is never come to
    (
        "too-deep-later",
        "puddle",
        "four steps are made and the fifth is refused",
        [NAMED, "0 1 24999", "4000 1 24999", "9000 1 0", "nothing"],
        [at(0, 1_000), at(4_000, 99_997_000), (8, 0)],
    ),
    # the sheet's own refusals come before any line
    ("sheet-empty", "no sheet", "no sheet", ["nothing"], [(12, 1)]),
    ("sheet-cut-line", "cut line", "a sheet's line cut short: its line, not the log's", ["nothing"], [(12, 4)]),
    ("sheet-1", "no rows", "refused by 1", [NAMED], [(1, 0)]),
    ("sheet-2", "rough 0", "refused by 2", [NAMED], [(2, 0)]),
    ("sheet-3", "too deep", "refused by 3", [NAMED], [(3, 0)]),
    ("sheet-4", "bad rain", "refused by 4", [NAMED], [(4, 0)]),
    ("sheet-4-wall", "hatch in a wall", "the sheet's own hatch on a closed square", [], [(4, 0)]),
    ("sheet-5", "bad end", "its end is not used, but read as by meadow", [NAMED], [(5, 0)]),
    # 65,536 and 65,537 bytes
    ("sheet-bytes-65536", "long sheet", "as many bytes as are read, and no line", [], [(12, 1)]),
    ("sheet-bytes-65537", "longer sheet", "one byte more", [], [(12, 0)]),
    ("log-bytes-65536", "puddle", "the longest log that is taken", LONGEST, [at(0, 1_000)] * 9_361),
    ("log-bytes-65537", "puddle", "a blank line more: not one of its lines is taken", [*LONGEST, ""], [(12, 0)]),
    ("log-too-long-first", "bad end", "a log that is too long, and a sheet that is refused", [*LONGEST, ""], [(12, 0)]),
]

# ---- lines that cannot be read, after a hatch and a line at clock 0: 12 with line 3
UNREADABLE = {
    "blank": "",
    "a space for a tab": "1000 1\t5",
    "spaces for tabs": "1000 1 5",
    "a tab more at the end": "1000\t1\t5\t",
    "a tab more in the middle": "1000\t\t1\t5",
    "a tab before the first field": "\t1000\t1\t5",
    "a field missing": "1000\t1",
    "a clock alone": "1000",
    "a field too many": "1000\t1\t5\t5",
    "a carriage return": "1000\t1\t5\r",
    "a needless zero": "1000\t1\t05",
    "a needless zero before the clock": "01000\t1\t5",
    "a sign": "1000\t1\t-5",
    "a plus": "+1000\t1\t5",
    "a decimal": "1000\t1\t0.5",
    "commas": "1,000\t1\t5",
    "a clock of 2^32": "4294967296\t1\t5",
    "litres of 2^32": "1000\t1\t4294967296",
    "a clock of minutes and seconds": "0:01\t1\t5",
    "an empty field": "1000\t1\t",
    "a word that there is not": "shut\t1",
    "a remark": "# the second hatch",
    "back without its count": "back",
    "back and a tab": "back\t",
    "back with two counts": "back\t1\t1",
    "back with a sign": "back\t-1",
    "back with a needless zero": "back\t00",
    "back in upper case": "Back\t0",
    "back with a space": "back 0",
    "back of 2^32": "back\t4294967296",
    "back misspelt": "bck\t0",
    "a word before the clock": "rate\t1000\t1\t5",
    "a byte that is no letter": "1000\t1\t5\xa0",
    "a byte order mark": "\xef\xbb\xbf1000\t1\t5",
    "a nought byte": "1000\t1\t5\0",
}
# hatch lines that cannot be read, as a log's first: 12 with line 1
UNREADABLE_HATCHES = {
    "without its column": "hatch\t1\t0",
    "with a field too many": "hatch\t1\t0\t0\t0",
    "in upper case": "HATCH\t1\t0\t0",
    "with spaces": "hatch 1 0 0",
    "with a needless zero": "hatch\t01\t0\t0",
    "with a name": "hatch\tnorth\t0\t0",
    "with a column of 2^32": "hatch\t1\t0\t4294967296",
    "alone": "hatch",
}
GOOD = written(NAMED, "0 1 5")


def unreadable():
    """Each line that cannot be read as a case of the table, with the bytes of its log."""
    for words, line in UNREADABLE.items():
        yield f"line: {words}", GOOD + line + "\n" + written("1000 1 5"), [at(0, 1_000), (12, 3)]
    for words, line in UNREADABLE_HATCHES.items():
        yield f"hatch: {words}", line + "\n" + GOOD, [(12, 1)]
    yield "the last line without its newline", GOOD + "1000\t1\t5", [at(0, 1_000), (12, 3)]
    yield "a hatch alone without its newline", written(NAMED)[:-1], [(12, 1)]
    yield "a byte and no newline", "0", [(12, 1)]
    yield "newlines as another system has them", GOOD.replace("\n", "\r\n"), [(12, 1)]
    yield "UTF-16", GOOD.encode("utf_16").decode("latin-1"), [(12, 1)]


def answer_of(parts):
    """The text of blocks and a refusal."""
    return "".join(part if isinstance(part, str) else refused_text(*part) for part in parts)


def hold_table(checks, files):
    """The worked and the damaged logs."""
    checks.hold(len({name for name, *_ in CASES}) == len(CASES), "two cases have one name")
    checks.hold(len(written(*LONGEST)) == MOST_BYTES, f"the longest log has {len(written(*LONGEST))} bytes")
    for name, sheet, words, lines, answer in CASES:
        files.put(SHEETS[sheet], written(*lines))
        files.hold(checks, f"{name}, {words}", answer_of(answer))
    for words, log, answer in unreadable():
        files.put(SHEETS["puddle"], log)
        files.hold(checks, words, answer_of(answer))


# ---- random logs

SEED, RANDOM_LOGS = 107, 200


def random_sheet(chance):
    """A small sheet with walls, exits, rain, inflow and soaking; the end is not used."""
    update = chance.choice((1_000, 1_500, 2_000, 5_000))
    shortest = chance.choice((100, 300, 700))
    sheet = Sheet(
        chance.randint(1, 3),
        chance.randint(1, 4),
        chance.choice((1, 2, 3, 7, 10)),
        shortest=shortest,
        longest=shortest + chance.choice((0, 300, 2_000)),
        update=update,
        edge=chance.choice((0, 50, 10_000)),
        edition=chance.randint(1, 3),
    )
    for row, column in sheet.squares:
        if chance.random() < 0.85:
            mark = "e" if row == 0 and chance.random() < 0.3 else "o"
            depth = chance.choice((0, 0, chance.randint(1, 2_000), chance.randint(1, 1_000_000)))
            rate = chance.choice((0, 0, 50_000, 1_000_000))
            sheet.put((row, column), chance.randint(0, 800_000), chance.choice((100, 350)), depth, mark, rate=rate)
    sheet.rain = [(0, chance.randint(0, 20_000), chance.randint(0, 1_000_000)) for _ in range(chance.randint(0, 2))]
    places = sheet.ground()
    sheet.inflow = [(*chance.choice(places), 0, chance.randint(0, 20_000), chance.randint(0, 300)) for _ in range(chance.randint(0, 2)) if places]
    return sheet, sheet.text(update * chance.randint(0, 3))


def random_log(chance, sheet):
    """A log that is mostly good: hatches, and then rates and backs; the clock is followed roughly, since a back's own is not known here."""
    places, update = sheet.ground() or [(0, 0)], sheet.run["update"]
    numbers = chance.sample(range(1, 10), chance.randint(1, 4))
    lines = ["hatch {} {} {}".format(number, *chance.choice(places)) for number in numbers]
    clock = 0
    for _ in range(chance.randint(2, 14)):
        if chance.random() < 0.4:
            lines.append(f"back {chance.choice((0, 1, 1, 1, 1, 2, 2, 2, 3, 4, 6, 11) if clock else (0, 0, 0, 1))}")
            clock -= clock and chance.choice((0, 0, 0, 0, update))
        else:
            clock += update * chance.choice((0, 1, 1, 1, 2, 3, 6))
            lines.append(f"{clock} {chance.choice(numbers)} {chance.choice((0, 0, 1, 5, 40, 300, 1_000, 1_000, 20_000))}")
    return written(*lines)


def slipped(chance, log):
    """A log with a slip at a random place."""
    at_place = chance.randrange(len(log) + 1)
    bit = chance.choice(("\t", " ", "\n", "0", "1", "9", "5", "back\t2\n", "hatch\t3\t0\t0\n", ""))
    return log[:at_place] + bit + log[at_place + chance.choice((0, 0, 1)) :]


def hold_random(checks, files, seed, many):
    """Program against Python; among the logs are enough that come to their end, and that take steps back."""
    chance = random.Random(seed)
    whole = refusals = backs = 0
    for turn in range(many):
        sheet, text = random_sheet(chance)
        log = random_log(chance, sheet)
        files.put(text, slipped(chance, log) if chance.random() < 0.25 else log)
        program, worked = files.told(), files.worked()
        if not checks.hold(program == worked, f"random log {turn} of seed {seed}: {text!r} and {files.other.read_bytes()!r}"):
            print(f"hatchlog: it prints {shortened(program)}, and by document 02 it is {shortened(worked)}")
        clocks = [int(line.split("\t")[1]) for line in worked.splitlines() if line.startswith("clock")]
        whole += "refused" not in worked
        refusals += "refused" in worked
        backs += any(later < sooner for sooner, later in zip(clocks, clocks[1:]))
    print(f"hatchlog: of {many} random logs {whole} come to their end, {refusals} are refused, {backs} take steps back")
    checks.hold(min(whole, refusals, backs) >= many // 5, "the random logs are too much of one kind")


# ---- what the gate holds the program to


def stored_text():
    """What the program prints in the gate, of the files beside it, worked in Python."""
    crate = TOP / "crates" / "hatchlog"
    names = (crate / "stdin").read_text(encoding="ascii").splitlines()
    return answered(*((crate / "data" / name).read_bytes() for name in names))


def cases():
    """A name, a sheet's text, a log's and the answer: of the table, of lines that cannot be read, and of random logs by document 02 in Python."""
    for name, sheet, _, lines, answer in CASES:
        yield name, SHEETS[sheet], written(*lines), answer_of(answer)
    for at_place, (_, log, answer) in enumerate(unreadable()):
        yield f"unreadable-{at_place}", SHEETS["puddle"], log, answer_of(answer)
    chance = random.Random(SEED + 1)
    for turn in range(4 * RANDOM_LOGS):
        sheet, text = random_sheet(chance)
        log = random_log(chance, sheet)
        log = slipped(chance, log) if chance.random() < 0.25 else log
        yield f"random-{turn}", text, log, answered(text.encode("latin-1"), log.encode("latin-1"))


def write_cases(folder):
    """Every case as three files."""
    for name, *texts in cases():
        for kind, text in zip(("sheet", "log", "log.out"), texts):
            (folder / f"{name}.{kind}").write_bytes(text.encode("latin-1"))


def main():
    seed = seed_said("hatchlog", SEED, stored_text, write_cases)
    if seed is None:
        return
    checks = Checks("hatchlog")
    with tempfile.TemporaryDirectory() as folder:
        files = Files(folder, "hatchlog", "log", answered, named)
        hold_table(checks, files)
        for hold, *more in ((hold_names, SHEETS["cut line"]), (hold_rights,)):
            files.put(SHEETS["puddle"], written(NAMED, "1000 1 0"))
            hold(checks, files, at(1_000, 1_000), *more)
        hold_random(checks, files, seed, RANDOM_LOGS)
    hold_stored(checks, "hatchlog", stored_text())
    checks.end()


if __name__ == "__main__":
    main()
