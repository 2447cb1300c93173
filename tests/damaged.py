"""Damaged sheets, and some that are whole: a base sheet, an edit in words and as an edit, and the answer. The built `meadow` and document
01 in Python give it.

`bin/test damaged --write FOLDER` writes each sheet and its answer there, for other tests to read.
"""
import sys
from pathlib import Path

from meadow.counted import Checks
from meadow.programs import TOP, printed
from meadow.sheets.lines import INFLOW, RAIN, SECOND, SQUARE, Sheet, answer_text, line_of, place_of, refused_text
from meadow.sheets.reading import MOST_BYTES, answered

# ---- base sheets


def flat_grid(rows, columns):
    """One-metre squares of one bed, still closed, for a step of one second."""
    return Sheet(rows, columns, 1, tolerance=100, shortest=SECOND, longest=SECOND, update=SECOND)


def square_grid(size, depth, mark="o"):
    """A level grid."""
    sheet = flat_grid(size, size)
    for place in sheet.squares:
        sheet.put(place, 0, 100, depth, mark)
    return sheet.text(SECOND)


def row_of(*depths):
    """A row of squares with water."""
    sheet = flat_grid(1, len(depths))
    for column, depth in enumerate(depths):
        sheet.put((0, column), 0, 100, depth)
    return sheet.text(SECOND)


BASES = {
    # lines: 1 grid, 2 run, 3 the west square with 1 mm of water, 4 the east square
    "document 01": (TOP / "samples" / "document-01.sheet").read_text(encoding="ascii"),
    "full square": square_grid(1, 100_000_000),
    # line 3 has 1 mm of water that cannot go anywhere
    "puddle": square_grid(1, 1_000),
    "three by three": square_grid(3, 0),
    # the exit that document 01 works by hand: line 3 has 1 cm of water, and every side lies off the grid
    "exit": square_grid(1, 10_000, "e"),
    # the middle square is 1 µm above the west one and 30 cm above the east one
    "standing": row_of(999_999, 1_000_000, 700_000),
    "nothing": "",
}
A_HATCH = line_of(INFLOW, {"row": 0, "column": 0, "from": 0, "to": SECOND, "litres": 1})
A_SHOWER = line_of(RAIN, {"from": 0, "to": SECOND, "rate": 1})
# 277 µm in the second of these seconds
A_CLOUDBURST = line_of(RAIN, {"from": SECOND, "to": 2 * SECOND, "rate": 1_000_000})
A_WEEK = 604_800_000
SOUTH_OF_THE_GRID = line_of(SQUARE, {"row": 1, "column": 0, "bed": 0, "roughness": 100})

# ---- edits: each makes a text of a text; a line is said by its number from 1, a field by its name


def on_line(number, change):
    """An edit of one line's fields, the first being its word."""

    def edit(text):
        lines = text.splitlines()
        lines[number - 1] = "\t".join(change(lines[number - 1].split("\t")))
        return "".join(line + "\n" for line in lines)

    return edit


def field(number, name, value):
    """Another value of a field."""

    def change(fields):
        at = place_of(fields[0], name)
        return [*fields[:at], str(value), *fields[at + 1 :]]

    return on_line(number, change)


def word(number, value):
    """Another word at the line's beginning."""
    return on_line(number, lambda fields: [value, *fields[1:]])


def last_gone(number):
    """The line's last field gone."""
    return on_line(number, lambda fields: fields[:-1])


def one_more(number, value="1"):
    """A field more at the line's end."""
    return on_line(number, lambda fields: [*fields, value])


def only(number, fields):
    """So many fields of the line and no more."""
    return on_line(number, lambda all_fields: all_fields[: fields + 1])


def closed(number):
    """A square closed, its line ended after the mark."""
    return on_line(number, lambda fields: [*fields[: place_of(fields[0], "mark")], "x"])


def spaces(number):
    """Spaces for the line's tabs."""
    return on_line(number, lambda fields: [" ".join(fields)])


def cut(number):
    """The line and all after it gone."""
    return lambda text: "".join(text.splitlines(True)[: number - 1])


def swapped(first, second):
    """Two lines in each other's places."""

    def edit(text):
        lines = text.splitlines(True)
        lines[first - 1], lines[second - 1] = lines[second - 1], lines[first - 1]
        return "".join(lines)

    return edit


def before(line):
    """A line before the first."""
    return lambda text: line + "\n" + text


def after(line, times=1):
    """A line after the last, once or more often."""
    return lambda text: text + (line + "\n") * times


def unended(text):
    """The last newline gone."""
    return text[:-1]


def long_text(size):
    """A text of so many noughts."""
    return lambda _text: "0" * size


def left(depths, outflow, steps=1, soaked=0, clock=SECOND):
    """The answer of a run, of one second where nothing else is said, that leaves the first row so deep."""
    totals = {"outflow": outflow, "soaked": soaked, "steps": steps, "clock": clock}
    return answer_text({(0, column): depth for column, depth in enumerate(depths)}, totals)


# ---- the table: name, base sheet, the edit in words, the edit, the answer (a refusal's number and line, or the text)

CASES = [
    ("all-closed", "document 01", "both squares closed", [closed(3), closed(4)], left([], 0)),
    # the edge slope, each worked by hand: on D = 1 the drop off the grid is the smaller of the depth and 100·e
    ("edge-10000", "exit", "the steepest slope, document 01's own case", [], left([2_000], 8_000)),
    ("edge-0", "exit", "a slope of 0, and nothing leaves", [field(2, "edge", 0)], left([10_000], 0)),
    # Vmin = VM = 5,000 and T = 25,000: the total 5,000 gives 1,000 to each side
    ("edge-under-depth", "exit", "a slope whose drop is half the depth", [field(2, "edge", 50)], left([6_000], 4_000)),
    # Vmin = VM = 9,900 and T = 49,500: 1,980 to each side
    ("edge-just-under-depth", "exit", "a slope whose drop is just under the depth", [field(2, "edge", 99)], left([2_080], 7_920)),
    ("edge-at-depth", "exit", "a slope whose drop is the depth", [field(2, "edge", 100)], left([2_000], 8_000)),
    ("edge-over-depth", "exit", "a slope whose drop is above the depth", [field(2, "edge", 101)], left([2_000], 8_000)),
    # the drop is 1,000,000 and not 2,000,000: 200,000 to each side
    ("edge-deeper-than-side", "exit", "an exit twice as deep as it is wide", [field(3, "depth", 2_000_000)], left([1_200_000], 800_000)),
    # drops of 5,000 off the grid and 10,000 to the east, T = 30,000: the total 5,000 gives 833 to each rim side and 1,666 to the east
    (
        "edge-beside-lower-square",
        "document 01",
        "the west square an exit with 1 cm of water, and a slope whose drop is half of it",
        [field(2, "edge", 50), field(3, "mark", "e"), field(3, "depth", 10_000)],
        left([5_835, 1_666], 2_499),
    ),
    # at q = e the exit has no candidate: one step of the longest; above it, with s = 1,004, a candidate of 0: two of the shortest
    (
        "edge-at-tolerance",
        "exit",
        "water of 1 m, and a slope that is the tolerance",
        [field(2, "shortest", 500), field(2, "edge", 100), field(3, "depth", 1_000_000)],
        left([992_000], 8_000),
    ),
    (
        "edge-over-tolerance",
        "exit",
        "water of 1 m, and a slope above the tolerance",
        [field(2, "shortest", 500), field(2, "edge", 101), field(3, "depth", 1_000_000)],
        left([977_376], 22_624, steps=2),
    ),
    # the editions, each worked by hand. One drop alone: editions 1 and 3 send half of m·T / VM = 62, edition 2 sends m = 31
    ("edition-2-one-drop", "document 01", "edition 2 where there is one drop", [field(2, "edition", 2)], left([969, 31], 0)),
    ("edition-3-one-drop", "document 01", "edition 3 where there is one drop", [field(2, "edition", 3)], left([969, 31], 0)),
    # m = 3,132 through each side, 12,528 in all: each becomes 3,132·10,000 / 12,528 = 2,500
    ("edition-2-exit", "exit", "edition 2 lets out more than there is, cut down to the depth", [field(2, "edition", 2)], left([0], 10_000)),
    # c = 250,567 is above 250,000: m = 1,603, and 1,603·6,400 / 6,412 = 1,600
    (
        "edition-2-just-scaled",
        "exit",
        "edition 2 just above the depth",
        [field(2, "edition", 2), field(3, "depth", 6_400)],
        left([0], 6_400),
    ),
    # c = 249,999 is below 250,000: m = 1,592, and the four come to 6,368
    (
        "edition-2-just-not-scaled",
        "exit",
        "edition 2 just below the depth",
        [field(2, "edition", 2), field(3, "depth", 6_371)],
        left([3], 6_368),
    ),
    # d = 2 and e = 10,000: h = 1, s = 14, v = 14 and m = 0
    ("edition-2-thin", "exit", "edition 2 with water too thin to move", [field(2, "edition", 2), field(3, "depth", 2)], left([2], 0)),
    # m·T / VM = 15,660 as with every edge slope, so the total is d and not Vmin + P = 5,000: 2,000 to each side
    (
        "edition-3-without-limit",
        "exit",
        "edition 3 where the least drop would limit",
        [field(2, "edition", 3), field(2, "edge", 50)],
        left([2_000], 8_000),
    ),
    # Vmin = 1 and T = 300,002: the total 1 gives the steep side 300,000 / 300,002 = 0
    ("edition-1-standing", "standing", "edition 1, and the middle square stands", [], left([999_999, 1_000_000, 700_000], 0)),
    # c = 3,132,091, so that m passes d: the total 1,000,000 gives 999,993 to the east and 3 to the west
    ("edition-3-standing", "standing", "edition 3 frees it", [field(2, "edition", 3)], left([1_000_002, 4, 1_699_993], 0)),
    # d to the east, and with s = 10 and v = 100,000 a tenth of it to the west: of 1,100,000, 909,090 and 90,909
    ("edition-2-standing", "standing", "edition 2 frees it", [field(2, "edition", 2)], left([1_090_908, 1, 1_609_090], 0)),
    # soaking, each worked by hand: by clock t a rate has rate·t / 3,600,000 due. In one second 3,600 µm an hour come to 1 µm
    ("soak-1", "puddle", "a rate that comes to 1 µm", [field(3, "rate", 3_600)], left([999], 0, soaked=1)),
    ("soak-just-under-1", "puddle", "a rate just below it", [field(3, "rate", 3_599)], left([1_000], 0)),
    ("soak-just-under-2", "puddle", "a rate just below 2 µm", [field(3, "rate", 7_199)], left([999], 0, soaked=1)),
    ("soak-2", "puddle", "a rate that comes to 2 µm", [field(3, "rate", 7_200)], left([998], 0, soaked=2)),
    # 1,000,000,000 / 3,600,000 = 277
    ("soak-fastest", "puddle", "the greatest rate", [field(3, "rate", 1_000_000)], left([723], 0, soaked=277)),
    (
        "soak-all-there-is",
        "puddle",
        "the greatest rate, and as much water as is due",
        [field(3, "rate", 1_000_000), field(3, "depth", 277)],
        left([0], 0, soaked=277),
    ),
    ("soak-more-due", "puddle", "1 µm less than is due", [field(3, "rate", 1_000_000), field(3, "depth", 276)], left([0], 0, soaked=276)),
    ("soak-dry", "puddle", "a dry square", [field(3, "rate", 1_000_000), field(3, "depth", 0)], left([0], 0)),
    # 2,700 an hour is 3/4 µm a second: 0, 1, 2 and 3 are due by the four clocks, and 0 by each second taken by itself
    (
        "soak-by-the-clock",
        "puddle",
        "four steps, rounded by the clock",
        [field(3, "rate", 2_700), field(2, "end", 4 * SECOND)],
        left([997], 0, steps=4, soaked=3, clock=4 * SECOND),
    ),
    # due are 100 a second; the 277 of the second second arrive after its soaking, and the 200 that a dry square did not give are lost
    (
        "soak-before-rain",
        "puddle",
        "a dry square, and rain that falls in the second step",
        [field(3, "depth", 0), field(3, "rate", 360_000), field(2, "end", 2 * SECOND), after(A_CLOUDBURST)],
        left([277], 0, steps=2, clock=2 * SECOND),
    ),
    (
        "soak-nothing-owed",
        "puddle",
        "the same, and the third step",
        [field(3, "depth", 0), field(3, "rate", 360_000), field(2, "end", 3 * SECOND), after(A_CLOUDBURST)],
        left([177], 0, steps=3, soaked=100, clock=3 * SECOND),
    ),
    # west 1,000 − 31 − 1 + 1, east 0 − 0 − 0 + 31 + 1: what arrives in the east does not soak yet
    (
        "soak-sides-and-rain",
        "document 01",
        "a side, soaking and rain at once; the east dry, with the greatest rate",
        [field(3, "rate", 3_600), field(4, "rate", 1_000_000), after(A_SHOWER), field(5, "rate", 3_600)],
        left([969, 32], 0, soaked=1),
    ),
    ("soak-exit", "exit", "an exit that soaks, after its sides have taken 8,000", [field(3, "rate", 1_000_000)], left([1_723], 8_000, soaked=277)),
    # the four come to 6,368 of 6,371, as without soaking
    (
        "soak-after-the-sides",
        "exit",
        "less water left by the sides than is due",
        [field(2, "edition", 2), field(3, "depth", 6_371), field(3, "rate", 1_000_000)],
        left([0], 6_368, soaked=3),
    ),
    (
        "soak-nothing-left",
        "exit",
        "no water left by the sides",
        [field(2, "edition", 2), field(3, "rate", 1_000_000)],
        left([0], 10_000),
    ),
    # the text: 12 with its line
    ("empty", "nothing", "nothing at all", [], (12, 1)),
    ("blank-first-line", "document 01", "a blank line before the first", [before("")], (12, 1)),
    ("blank-last-line", "document 01", "a blank line after the last", [after("")], (12, 5)),
    ("carriage-return", "document 01", "a carriage return before a newline", [field(3, "depth", "1000\r")], (12, 3)),
    ("missing-last-newline", "document 01", "the last newline gone", [unended], (12, 4)),
    ("grid-field-missing", "document 01", "the grid line without D", [last_gone(1)], (12, 1)),
    ("grid-field-too-many", "document 01", "a field more on the grid line", [one_more(1)], (12, 1)),
    ("grid-spaces", "document 01", "spaces for tabs", [spaces(1)], (12, 1)),
    ("grid-word-upper-case", "document 01", "the first word in upper case", [word(1, "Grid")], (12, 1)),
    ("run-missing", "document 01", "the grid line alone", [cut(2)], (12, 2)),
    ("run-without-edition", "document 01", "the run line without its edition, as it once was", [last_gone(2)], (12, 2)),
    ("run-without-edge", "document 01", "without its edge slope too, as it was before that", [last_gone(2), last_gone(2)], (12, 2)),
    ("run-field-missing", "document 01", "the run line without its three last fields", [only(2, 4)], (12, 2)),
    ("run-field-too-many", "document 01", "an eighth field on the run line", [one_more(2)], (12, 2)),
    ("run-needless-zero", "document 01", "a needless zero", [field(2, "tolerance", "0100")], (12, 2)),
    ("run-sign", "document 01", "a sign", [field(2, "tolerance", "-1")], (12, 2)),
    ("run-edge-empty", "document 01", "two tabs before the edition, and no edge slope", [field(2, "edge", "")], (12, 2)),
    ("run-edition-empty", "document 01", "a tab at the run line's end, and no edition", [field(2, "edition", "")], (12, 2)),
    ("run-edition-needless-zero", "document 01", "edition 01", [field(2, "edition", "01")], (12, 2)),
    ("cells-missing", "document 01", "no square", [cut(3)], (12, 3)),
    ("cell-missing", "document 01", "one square too few", [cut(4)], (12, 4)),
    ("cell-too-many", "document 01", "one square too many", [after(SOUTH_OF_THE_GRID)], (12, 5)),
    ("cell-out-of-order", "document 01", "the squares in each other's places", [swapped(3, 4)], (12, 3)),
    ("cell-off-the-grid", "document 01", "a square east of the last column", [field(4, "column", 2)], (12, 4)),
    ("cell-mark-unknown", "document 01", "a mark that there is not", [field(4, "mark", "q")], (12, 4)),
    ("cell-mark-upper-case", "document 01", "a mark in upper case", [field(4, "mark", "O")], (12, 4)),
    ("cell-closed-with-fields", "document 01", "a closed square with a bed", [field(4, "mark", "x")], (12, 4)),
    ("cell-closed-with-rate", "document 01", "a closed square with a rate alone", [closed(4), one_more(4, "0")], (12, 4)),
    ("cell-open-without-rate", "document 01", "an open square without its rate, as it once was", [last_gone(4)], (12, 4)),
    ("cell-exit-without-rate", "exit", "an exit without its rate", [last_gone(3)], (12, 3)),
    ("cell-open-without-depth", "document 01", "without its depth too", [last_gone(4), last_gone(4)], (12, 4)),
    ("cell-field-too-many", "document 01", "a field after the rate", [one_more(4)], (12, 4)),
    ("cell-rate-empty", "document 01", "a tab at a square's end, and no rate", [field(4, "rate", "")], (12, 4)),
    ("cell-rate-needless-zero", "document 01", "a rate of 07", [field(4, "rate", "07")], (12, 4)),
    ("cell-rate-too-large", "document 01", "a rate of 2^32", [field(4, "rate", 4_294_967_296)], (12, 4)),
    ("cell-double-tab", "document 01", "two tabs before a bed", [field(4, "bed", "\t0")], (12, 4)),
    ("cell-question-mark", "document 01", "a bed that the survey could not see", [field(4, "bed", "?")], (12, 4)),
    ("cell-number-too-large", "document 01", "a bed of 2^32", [field(4, "bed", 4_294_967_296)], (12, 4)),
    ("rain-field-missing", "document 01", "rain without its rate", [after(A_SHOWER), last_gone(5)], (12, 5)),
    ("rain-after-inflow", "document 01", "rain after inflow", [after(A_HATCH), after(A_SHOWER)], (12, 6)),
    ("inflow-field-too-many", "document 01", "a field more on an inflow line", [after(A_HATCH), one_more(5)], (12, 5)),
    ("inflow-without-newline", "document 01", "an inflow line without its newline", [after(A_HATCH), unended], (12, 5)),
    # shape and D: 1
    ("no-rows", "document 01", "no row", [field(1, "rows", 0), cut(3)], (1, 0)),
    ("columns-65", "document 01", "65 columns", [field(1, "columns", 65), cut(3)], (1, 0)),
    ("side-0", "document 01", "D of 0", [field(1, "side", 0)], (1, 0)),
    ("side-101", "document 01", "D of 101", [field(1, "side", 101)], (1, 0)),
    ("squares-over-1024", "document 01", "33 by 32 squares", [field(1, "rows", 33), field(1, "columns", 32), cut(3)], (1, 0)),
    # marks and ground: 2
    ("exit-off-the-rim", "three by three", "the middle square an exit", [field(7, "mark", "e")], (2, 0)),
    ("bed-too-high", "document 01", "a bed above 1,000 m", [field(4, "bed", 1_000_000_001)], (2, 0)),
    ("roughness-0", "document 01", "a roughness of 0", [field(4, "roughness", 0)], (2, 0)),
    ("cell-number-largest", "document 01", "a bed of 2^32 - 1, read and then judged", [field(4, "bed", 4_294_967_295)], (2, 0)),
    ("rate-too-fast", "document 01", "a soak rate above 1 m an hour", [field(4, "rate", 1_000_001)], (2, 0)),
    ("rate-number-largest", "document 01", "a soak rate of 2^32 - 1, read and then judged", [field(4, "rate", 4_294_967_295)], (2, 0)),
    # water: 3
    ("depth-too-deep", "document 01", "a depth above 100 m", [field(4, "depth", 100_000_001)], (3, 0)),
    # tables: 4
    ("rain-65-lines", "document 01", "65 rows of rain", [after(A_SHOWER, 65)], (4, 0)),
    ("rain-from-after-to", "document 01", "rain that ends before it begins", [after(A_SHOWER), field(5, "from", 2), field(5, "to", 1)], (4, 0)),
    ("rain-too-heavy", "document 01", "rain above 1 m an hour", [after(A_SHOWER), field(5, "rate", 1_000_001)], (4, 0)),
    ("inflow-65-lines", "document 01", "65 rows of inflow", [after(A_HATCH, 65)], (4, 0)),
    ("inflow-off-the-grid", "document 01", "inflow east of the last column", [after(A_HATCH), field(5, "column", 2)], (4, 0)),
    ("inflow-on-closed", "document 01", "inflow on a closed square", [closed(4), after(A_HATCH), field(5, "column", 1)], (4, 0)),
    # rules and end: 5
    ("tolerance-too-large", "document 01", "a tolerance of 10,001", [field(2, "tolerance", 10_001)], (5, 0)),
    ("shortest-0", "document 01", "a shortest step of 0", [field(2, "shortest", 0)], (5, 0)),
    ("longest-under-shortest", "document 01", "a longest step under the shortest", [field(2, "longest", 999)], (5, 0)),
    ("update-0", "document 01", "an update time of 0", [field(2, "update", 0)], (5, 0)),
    ("edge-too-large", "document 01", "an edge slope of 10,001", [field(2, "edge", 10_001)], (5, 0)),
    ("edge-number-largest", "document 01", "an edge slope of 2^32 - 1, read and then judged", [field(2, "edge", 4_294_967_295)], (5, 0)),
    ("edition-0", "document 01", "edition 0", [field(2, "edition", 0)], (5, 0)),
    ("edition-4", "document 01", "edition 4", [field(2, "edition", 4)], (5, 0)),
    ("edition-number-largest", "document 01", "an edition of 2^32 - 1, read and then judged", [field(2, "edition", 4_294_967_295)], (5, 0)),
    ("end-no-multiple", "document 01", "an end that is no multiple of the update time", [field(2, "end", 1_500)], (5, 0)),
    ("end-too-late", "document 01", "an end after a week", [field(2, "end", 604_801_000)], (5, 0)),
    # the run itself
    (
        "run-refused-too-deep",
        "full square",
        "a square as deep as may be, under rain and a hatch",
        [after(A_SHOWER), field(4, "to", A_WEEK), field(4, "rate", 1_000_000), after(A_HATCH), field(5, "to", A_WEEK), field(5, "litres", 100_000)],
        (8, 0),
    ),
    # two faults: the first of the order is given
    ("two-text-before-shape", "document 01", "no row, and no D", [field(1, "rows", 0), last_gone(1), cut(3)], (12, 1)),
    ("two-shape-before-text", "document 01", "no row, and a second line that is none", [field(1, "rows", 0), cut(2), after("nothing")], (1, 0)),
    ("two-first-bad-line", "document 01", "two lines cut short", [field(2, "tolerance", 1), only(2, 1), only(4, 0)], (12, 2)),
    (
        "two-text-before-bed",
        "document 01",
        "a bed too high, and a later line cut short",
        [field(3, "bed", 1_000_000_001), field(3, "depth", 0), last_gone(4)],
        (12, 4),
    ),
    (
        "two-bed-before-depth",
        "document 01",
        "a depth too deep, and a later bed too high",
        [field(3, "depth", 100_000_001), field(4, "bed", 1_000_000_001)],
        (2, 0),
    ),
    (
        "two-text-before-rate",
        "document 01",
        "a soak rate too fast, and a later line cut short",
        [field(3, "rate", 1_000_001), last_gone(4)],
        (12, 4),
    ),
    (
        "two-rate-before-depth",
        "document 01",
        "a depth too deep, and a later soak rate too fast",
        [field(3, "depth", 100_000_001), field(4, "rate", 1_000_001)],
        (2, 0),
    ),
    ("two-bed-before-65-lines", "document 01", "a roughness of 0, and 65 rows of rain", [field(4, "roughness", 0), after(A_SHOWER, 65)], (2, 0)),
    (
        "two-depth-before-rain",
        "document 01",
        "a depth too deep, and rain that ends before it begins",
        [field(3, "depth", 100_000_001), after(A_SHOWER), field(5, "from", 2), field(5, "to", 1)],
        (3, 0),
    ),
    (
        "two-rain-before-rules",
        "document 01",
        "a tolerance of 10,001, and rain that ends before it begins",
        [field(2, "tolerance", 10_001), after(A_SHOWER), field(5, "from", 2), field(5, "to", 1)],
        (4, 0),
    ),
    (
        "two-rain-before-edition",
        "document 01",
        "edition 4, and rain that ends before it begins",
        [field(2, "edition", 4), after(A_SHOWER), field(5, "from", 2), field(5, "to", 1)],
        (4, 0),
    ),
    # the program's own limit
    ("bytes-65536", "nothing", "as many bytes as are read, and no line", [long_text(MOST_BYTES)], (12, 1)),
    ("bytes-65537", "nothing", "one byte more", [long_text(MOST_BYTES + 1)], (12, 0)),
]


def sheet_of(base, edits):
    """A base sheet with its edits made."""
    text = BASES[base]
    for edit in edits:
        text = edit(text)
    return text


def answer_of(answer):
    """The answer's text."""
    return answer if isinstance(answer, str) else refused_text(*answer)


def main():
    if sys.argv[1:2] == ["--write"]:
        folder = Path(sys.argv[2])
        for name, base, _, edits, answer in CASES:
            (folder / f"{name}.sheet").write_bytes(sheet_of(base, edits).encode("ascii"))
            (folder / f"{name}.out").write_bytes(answer_of(answer).encode("ascii"))
        return
    checks = Checks("damaged")
    checks.hold(len({name for name, *_ in CASES}) == len(CASES), "two cases have one name")
    for name, base, words, edits, answer in CASES:
        sheet = sheet_of(base, edits).encode("ascii")
        told = printed("meadow", sheet).decode("ascii")
        checks.hold(told == answer_of(answer), f"{name}, {words}: meadow prints {told!r}, not {answer_of(answer)!r}")
        checks.hold(answered(sheet) == answer_of(answer), f"{name}, {words}: by document 01 it is {answered(sheet)!r}")
    checks.end()


if __name__ == "__main__":
    main()
