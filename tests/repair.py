"""The program `repair`: beds that the survey could not see, filled in rounds, each worked by hand; `?` in every field of every line, where only
a bed may have it; refusals as by the reader of sheets; the limits; the samples and the damaged sheets; and random sheets, whose answers are also
held to what #111 says of each square. The built program and document 02 in Python give the same. What the gate holds the program to is worked
anew too.

`bin/test repair --seed N` makes other random sheets; `bin/test repair --write` writes the program's stored output, and `--write FOLDER` each
sheet with its answer there, random ones too, for other tests to read.
"""
import random
from collections import Counter

import damaged
from damaged import A_HATCH, A_SHOWER, after, before, closed, cut, field, last_gone, on_line, one_more, spaces, swapped, unended, word
from meadow.counted import Checks
from meadow.programs import TOP, printed
from meadow.rule.ranges import MOST_ROWS_OF_A_TABLE, RANGES
from meadow.sheets.holes import NOT_GIVEN, UNSEEN, repaired
from meadow.sheets.lines import RAIN, SHEET_LINES, Sheet, line_of, refused_text
from meadow.sheets.reading import MOST_BYTES
from printouts import hold_both, hold_stored, seed_said, shortened

MOST_BED = RANGES["bed"][1]

# ---- a meadow as a picture of its beds: rows of words, x closed, a bed or ?, and e after it at an exit


def pictured(picture):
    """The sheet of a picture. Each square has a roughness, a depth and a rate of its own."""
    rows = [row.split() for row in picture.split(" / ")]
    sheet = Sheet(len(rows), len(rows[0]), 2)
    for at, (row, column) in enumerate(sorted(sheet.squares)):
        said = rows[row][column]
        if said != "x":
            sheet.put((row, column), said.rstrip("e"), 100 + at, 10 * at, "e" if said.endswith("e") else "o", rate=at)
    return sheet


def listed(*lines):
    """A list's lines, fields parted by spaces here."""
    return "".join(line.replace(" ", "\t") + "\n" for line in lines)


# a name, what is tried, the picture, the picture of what is written, and the list
PICTURES = [
    ("none", "every bed is known", "4 3 / 2 x", "4 3 / 2 x", []),
    ("from-the-north", "the lowest lies north", "9 2 9 / 5 ? 4 / 9 3 9", "9 2 9 / 5 2 4 / 9 3 9", ["1 1 2 1"]),
    ("from-the-east", "the lowest lies east", "9 5 9 / 4 ? 2 / 9 3 9", "9 5 9 / 4 2 2 / 9 3 9", ["1 1 2 1"]),
    ("from-the-south", "the lowest lies south", "9 5 9 / 4 ? 3 / 9 2 9", "9 5 9 / 4 2 3 / 9 2 9", ["1 1 2 1"]),
    ("from-the-west", "the lowest lies west", "9 5 9 / 2 ? 3 / 9 4 9", "9 5 9 / 2 2 3 / 9 4 9", ["1 1 2 1"]),
    ("not-aslant", "a lower one lies aslant", "1 8 1 / 7 ? 6 / 1 5 1", "1 8 1 / 7 5 6 / 1 5 1", ["1 1 5 1"]),
    ("tie", "all four alike", "9 4 9 / 4 ? 4 / 9 4 9", "9 4 9 / 4 4 4 / 9 4 9", ["1 1 4 1"]),
    ("tie-of-two", "two of them lowest alike", "9 4 9 / 7 ? 4 / 9 8 9", "9 4 9 / 7 4 4 / 9 8 9", ["1 1 4 1"]),
    ("beside-one-another", "two side by side: neither sees what the round gives the other", "1 ? ? 5", "1 1 5 5", ["0 1 1 1", "0 2 5 1"]),
    ("and-turned", "the same the other way round", "5 ? ? 1", "5 5 1 1", ["0 1 5 1", "0 2 1 1"]),
    ("below-one-another", "two below one another", "1 / ? / ? / 5", "1 / 1 / 5 / 5", ["1 0 1 1", "2 0 5 1"]),
    ("and-upside-down", "the same upside down", "5 / ? / ? / 1", "5 / 5 / 1 / 1", ["1 0 5 1", "2 0 1 1"]),
    ("three-in-a-row", "the middle one a round later, from both", "3 ? ? ? 1", "3 3 1 1 1", ["0 1 3 1", "0 2 1 2", "0 3 1 1"]),
    ("four-in-a-row", "two rounds from each end", "3 ? ? ? ? 1", "3 3 3 1 1 1", ["0 1 3 1", "0 2 3 2", "0 3 1 2", "0 4 1 1"]),
    ("one-end", "from one end alone", "? ? ? 6", "6 6 6 6", ["0 0 6 3", "0 1 6 2", "0 2 6 1"]),
    ("other-end", "from the other", "6 ? ? ?", "6 6 6 6", ["0 1 6 1", "0 2 6 2", "0 3 6 3"]),
    # 0 1 takes 8 in the first round; when 1 1 has taken 2 in the second it is known, and stays
    ("given-stays", "a bed given is not given again", "8 ? / x ? / x ? / x 2", "8 8 / x 2 / x 2 / x 2", ["0 1 8 1", "1 1 2 2", "2 1 2 1"]),
    ("known-stays", "a bed that is known stays, however low its neighbours", "9 1 / 1 ?", "9 1 / 1 1", ["1 1 1 1"]),
    (
        "all-round-one",
        "all but the middle",
        "? ? ? / ? 7 ? / ? ? ?",
        "7 7 7 / 7 7 7 / 7 7 7",
        ["0 0 7 2", "0 1 7 1", "0 2 7 2", "1 0 7 1", "1 2 7 1", "2 0 7 2", "2 1 7 1", "2 2 7 2"],
    ),
    ("rows-and-columns", "three rows of two", "? 5 / ? ? / 3 ?", "5 5 / 3 5 / 3 3", ["0 0 5 1", "1 0 3 1", "1 1 5 1", "2 1 3 1"]),
    ("no-way-round-west", "the row above does not end beside it", "5 1 / ? x", "5 1 / 5 x", ["1 0 5 1"]),
    ("no-way-round-east", "nor does the row below begin there", "5 ? / 1 x", "5 5 / 1 x", ["0 1 5 1"]),
    ("no-way-over-the-rim", "nor the last row above the first", "? / 8 / 1", "8 / 8 / 1", ["0 0 8 1"]),
    ("nor-back", "nor the first below the last", "1 / 8 / ?", "1 / 8 / 8", ["2 0 8 1"]),
    ("beside-a-wall", "a wall gives nothing", "3 ? x / x x x / 2 2 2", "3 3 x / x x x / 2 2 2", ["0 1 3 1"]),
    ("wall-between", "a wall between", "3 x ?", "3 x ?", ["0 2 - -"]),
    ("round-a-wall", "round a wall, and not through it", "1 x ? / 9 9 9", "1 x 9 / 9 9 9", ["0 2 9 1"]),
    (
        "long-way-round",
        "round a wall in six rounds",
        "2 x ? / ? x ? / ? ? ?",
        "2 x 2 / 2 x 2 / 2 2 2",
        ["0 2 2 6", "1 0 2 1", "1 2 2 5", "2 0 2 2", "2 1 2 3", "2 2 2 4"],
    ),
    ("walled-in", "one walled in, and one that is not", "x x x 4 / x ? x ? / x x x x", "x x x 4 / x ? x 4 / x x x x", ["1 1 - -", "1 3 4 1"]),
    ("two-walled-in", "two walled in together", "? ? x 4", "? ? x 4", ["0 0 - -", "0 1 - -"]),
    ("walled-in-aslant", "only aslant is there a way", "? x / x 4", "? x / x 4", ["0 0 - -"]),
    ("all-unseen", "no bed is known", "? ? / ? ?", "? ? / ? ?", ["0 0 - -", "0 1 - -", "1 0 - -", "1 1 - -"]),
    ("all-unseen-or-walls", "nor is one here", "? x / x ?", "? x / x ?", ["0 0 - -", "1 1 - -"]),
    ("alone", "one square, and it was not seen", "?", "?", ["0 0 - -"]),
    ("exit-unseen", "an exit that was not seen", "7 ?e / 6 x", "7 7e / 6 x", ["0 1 7 1"]),
    ("exit-gives", "an exit gives its bed", "3e ? 5", "3e 3 5", ["0 1 3 1"]),
    ("through-an-exit", "a way through an exit", "5 ?e ?", "5 5e 5", ["0 1 5 1", "0 2 5 2"]),
    ("bed-0", "a bed of 0 is a bed", "0 ? 9", "0 0 9", ["0 1 0 1"]),
    (
        "nothing-from-unseen",
        "what was not seen counts for nothing, and not for 0",
        "7 ? ? 9 ? 7",
        "7 7 9 9 7 7",
        ["0 1 7 1", "0 2 9 1", "0 4 7 1"],
    ),
    ("highest", "the highest bed is a bed", f"{MOST_BED} ? x", f"{MOST_BED} {MOST_BED} x", [f"0 1 {MOST_BED} 1"]),
    (
        "highest-of-two",
        "and gives way to a lower one",
        f"{MOST_BED} ? {MOST_BED - 1}",
        f"{MOST_BED} {MOST_BED - 1} {MOST_BED - 1}",
        [f"0 1 {MOST_BED - 1} 1"],
    ),
    (
        "many-digits",
        "beds of other lengths",
        "1000000 ? 99 / ? x ? / 123456789 ? 5",
        "1000000 99 99 / 1000000 x 5 / 123456789 5 5",
        ["0 1 99 1", "1 0 1000000 1", "1 2 5 1", "2 1 5 1"],
    ),
]

# ---- edits of a sheet with holes; lines: 1 grid, 2 run, 3 to 8 the squares of two rows of three, 9 rain, 10 a hatch

HOLED_PICTURE, MENDED_PICTURE = "12 ? x / ? 10 4e", "12 10 x / 10 10 4e"
HOLED_LIST = ["0 1 10 1", "1 0 10 1"]


def with_tables(picture):
    """The text of a picture, with rain and with a hatch on a square whose bed may be unseen."""
    sheet = pictured(picture)
    sheet.rain.append((0, 600_000, 20_000))
    sheet.inflow.append((0, 1, 0, 300_000, 50))
    return sheet.text(600_000)


HOLED = with_tables(HOLED_PICTURE)
MENDED = with_tables(MENDED_PICTURE) + listed(*HOLED_LIST)


def end_with(text):
    """A text at the sheet's end, with or without a newline."""
    return lambda sheet: sheet + text


# what is tried, the edits, and the number and line of the refusal
REFUSED = [
    ("two ? for a bed", [field(4, "bed", "??")], (12, 4)),
    ("a space after ?", [field(4, "bed", "? ")], (12, 4)),
    ("a space before ?", [field(4, "bed", " ?")], (12, 4)),
    ("? and a number", [field(4, "bed", "?0")], (12, 4)),
    ("a number and ?", [field(4, "bed", "0?")], (12, 4)),
    ("? in quotation marks", [field(4, "bed", '"?"')], (12, 4)),
    ("a carriage return after ?", [field(4, "bed", "?\r")], (12, 4)),
    ("no bed at all", [field(4, "bed", "")], (12, 4)),
    ("- for a bed", [field(4, "bed", "-")], (12, 4)),
    ("a bed on an x line", [closed(4), one_more(4, "?")], (12, 4)),
    ("a whole line after x", [field(4, "mark", "x")], (12, 4)),
    ("the ? of a closed square for its mark", [closed(5), field(5, "mark", "?")], (12, 5)),
    ("a mark in upper case before ?", [field(4, "mark", "O")], (12, 4)),
    ("a mark that there is not before ?", [field(4, "mark", "q")], (12, 4)),
    ("a row of another square before ?", [field(4, "row", 1)], (12, 4)),
    ("a column of another square before ?", [field(4, "column", 0)], (12, 4)),
    ("a needless zero before ?", [field(4, "column", "01")], (12, 4)),
    ("two squares in each other's places, one with ?", [swapped(3, 4)], (12, 3)),
    ("two squares with ? in each other's places", [swapped(4, 6)], (12, 4)),
    ("a line ended after ?", [on_line(4, lambda fields: fields[:5])], (12, 4)),
    ("a tab after ? and nothing more", [on_line(4, lambda fields: [*fields[:5], ""])], (12, 4)),
    ("no roughness after ?", [on_line(4, lambda fields: [*fields[:5], *fields[6:]])], (12, 4)),
    ("the rate gone after ?", [last_gone(4)], (12, 4)),
    ("a field more after ?", [one_more(4)], (12, 4)),
    ("spaces for tabs round ?", [spaces(4)], (12, 4)),
    ("another word before ?", [word(4, "Cell")], (12, 4)),
    ("the squares cut before ?", [cut(4)], (12, 4)),
    ("the last square cut", [cut(8)], (12, 8)),
    ("a line before the first, so that every square is a line lower", [before("")], (12, 1)),
    ("a blank line before the squares", [on_line(2, lambda fields: ["\t".join(fields) + "\n"])], (12, 3)),
    ("no run line", [lambda text: text.replace(text.splitlines(True)[1], "")], (12, 2)),
    ("rows cut from line 1", [last_gone(1)], (12, 1)),
    ("fewer rows said", [field(1, "rows", 1)], (12, 6)),
    ("more rows said", [field(1, "rows", 3)], (12, 9)),
    ("two columns said", [field(1, "columns", 2)], (12, 5)),
    ("? after the sheet", [end_with("?\n")], (12, 11)),
    ("? after the sheet, not ended", [end_with("?")], (12, 11)),
    ("a list after the sheet", [end_with(listed(*HOLED_LIST))], (12, 11)),
    ("the last newline gone", [unended], (12, 10)),
    ("no newline after the last square, which has ?", [cut(9), field(8, "bed", "?"), unended], (12, 8)),
    ("a rain line that is bad, after holes", [last_gone(9)], (12, 9)),
    ("two bad lines, the first with ?", [last_gone(4), last_gone(9)], (12, 4)),
    ("two bad lines, the second with ?", [field(3, "bed", "x"), last_gone(4)], (12, 3)),
    ("no rows", [field(1, "rows", 0)], (1, 0)),
    ("no columns", [field(1, "columns", 0)], (1, 0)),
    ("65 columns", [field(1, "columns", 65)], (1, 0)),
    ("65 rows", [field(1, "rows", 65)], (1, 0)),
    ("a side of 0", [field(1, "side", 0)], (1, 0)),
    ("a side of 101 m", [field(1, "side", 101)], (1, 0)),
    ("a side of 101 m, and a bad line with ?", [field(1, "side", 101), last_gone(4)], (1, 0)),
    ("very many rows and columns", [field(1, "rows", 4_294_967_295), field(1, "columns", 4_294_967_295)], (1, 0)),
    ("a bed too high beside ?", [field(3, "bed", MOST_BED + 1)], (2, 0)),
    ("a roughness of 0 after ?", [field(4, "roughness", 0)], (2, 0)),
    ("a rate too fast after ?", [field(4, "rate", 1_000_001)], (2, 0)),
    ("a depth too deep after ?", [field(4, "depth", 100_000_001)], (3, 0)),
    ("a depth too deep after ?, and a bed too high", [field(4, "depth", 100_000_001), field(8, "bed", MOST_BED + 1)], (2, 0)),
    ("rain that ends before it begins", [field(9, "from", 600_001)], (4, 0)),
    ("a hatch on the closed square", [field(10, "column", 2)], (4, 0)),
    ("65 rows of rain", [cut(9), after(A_SHOWER, 65)], (4, 0)),
    ("65 hatches", [cut(10), after(A_HATCH, 65)], (4, 0)),
    ("edition 4", [field(2, "edition", 4)], (5, 0)),
    ("an end that is no multiple", [field(2, "end", 600_001)], (5, 0)),
    ("a depth too deep after ?, and edition 4", [field(4, "depth", 100_000_001), field(2, "edition", 4)], (3, 0)),
]
# an exit that was not seen, off the rim
OFF_THE_RIM = ("exit-off-the-rim", "an exit with ?, off the rim", pictured("1 1 1 / 1 ?e 1 / 1 1 1").text(0), refused_text(2, 0))


def edited(*edits):
    """The sheet with holes, with its edits made."""
    text = HOLED
    for edit in edits:
        text = edit(text)
    return text


# a `?` for each bed in turn, by its line: the picture of what is written, and the list
ONE_MORE = {
    3: ("10 10 x / 10 10 4e", ["0 0 10 2", *HOLED_LIST]),
    4: (MENDED_PICTURE, HOLED_LIST),
    6: (MENDED_PICTURE, HOLED_LIST),
    7: ("12 12 x / 12 4 4e", ["0 1 12 1", "1 0 12 1", "1 1 4 1"]),
    8: ("12 10 x / 10 10 10e", [*HOLED_LIST, "1 2 10 1"]),
}


def in_every_field():
    """`?` for each word and field of each line: what is tried, the sheet, and what is printed: 12 with the line, but for beds."""
    for number, line in enumerate(HOLED.splitlines(), 1):
        kind, *fields = line.split("\t")
        yield f"? for the word of line {number}", edited(word(number, UNSEEN)), refused_text(12, number)
        for known, _ in zip(SHEET_LINES[kind], fields):
            refused = known.name != "bed"
            told = refused_text(12, number) if refused else with_tables(ONE_MORE[number][0]) + listed(*ONE_MORE[number][1])
            yield f"? for the {known.name} of line {number}", edited(field(number, known.name, UNSEEN)), told


# ---- limits


def wide(rows, columns, known, tables=False):
    """A grid of squares that were not seen, but for some: beds by place. Everything else is as large as may be where it has tables."""
    most = {name: RANGES[name][1] for name in ("roughness", "depth", "soak rate")}
    sheet = Sheet(rows, columns, 1)
    for place in sheet.squares:
        sheet.put(place, known.get(place, UNSEEN), most["roughness"], most["depth"], rate=most["soak rate"])
    last = RANGES["to"][1]
    sheet.rain = [(last, last, RANGES["rate"][1])] * (tables * MOST_ROWS_OF_A_TABLE)
    sheet.inflow = [(rows - 1, columns - 1, last, last, RANGES["litres"][1])] * (tables * MOST_ROWS_OF_A_TABLE)
    return sheet


def filled_from(sheet, corner, bed):
    """What is printed of such a grid with one bed, at a corner: each square's round is its way from there."""
    beds = {place: bed for place in sheet.squares}
    for place in beds:
        sheet.squares[place]["bed"] = bed
    ways = {(row, column): abs(row - corner[0]) + abs(column - corner[1]) for row, column in sorted(beds)}
    return sheet.text(0) + listed(*(f"{row} {column} {bed} {way}" for (row, column), way in ways.items() if way))


def meander(rows, columns):
    """A way that turns back and forth over a grid: every second row is a wall but for one end. The places of the way in their order."""
    way = []
    for row in range(0, rows, 2):
        way += [(row, column) for column in (range(columns) if row % 4 == 0 else reversed(range(columns)))]
        if row + 1 < rows:
            way.append((row + 1, way[-1][1]))
    return way


def along(rows, columns):
    """The sheet of a meander of which only the first square is known, and what is printed of it."""
    way = meander(rows, columns)
    texts = []
    for beds in ([5] + [UNSEEN] * (len(way) - 1), [5] * len(way)):
        sheet = Sheet(rows, columns, 1)
        for place, bed in zip(way, beds):
            sheet.put(place, bed, 100)
        texts.append(sheet.text(0))
    rounds = {place: at for at, place in enumerate(way) if at}
    return texts[0], texts[1] + listed(*(f"{row} {column} 5 {rounds[row, column]}" for row, column in sorted(rounds)))


def padded(text, size):
    """The text with more rain than may be, as long as is said: the last row has the digits that are missing."""
    line = A_SHOWER + "\n"
    many, rest = divmod(size - len(text), len(line))
    more = min(rest, 9)
    return text + line * (many - 1) + line_of(RAIN, {"from": 0, "to": 10 ** (3 + rest - more), "rate": 10**more}) + "\n"


def limits():
    """Sheets at the limits: a name, what is tried, the sheet, and what is printed."""
    for name, rows, columns, corner in (("32-by-32", 32, 32, (31, 31)), ("16-by-64", 16, 64, (0, 0)), ("64-by-16", 64, 16, (0, 15))):
        text = wide(rows, columns, {corner: MOST_BED}).text(0)
        yield name, "1,024 squares, of which one is known", text, filled_from(wide(rows, columns, {}), corner, MOST_BED)
    text = wide(32, 32, {(0, 0): MOST_BED}, True).text(0)
    yield "longest", "as much as a sheet can have, and all of it listed", text, filled_from(wide(32, 32, {}, True), (0, 0), MOST_BED)
    text = wide(32, 32, {}).text(0)
    yield "none-known", "1,024 squares, and none known", text, text + listed(*(f"{at // 32} {at % 32} - -" for at in range(1_024)))
    yield "meander", "a way of 527 squares round and round", *along(32, 32)
    yield "1025-squares", "one square too many", wide(25, 41, {(0, 0): 1}).text(0), refused_text(1, 0)
    yield "1088-squares", "rows and columns in range, and too many squares", wide(64, 17, {(0, 0): 1}).text(0), refused_text(1, 0)
    yield "1025-squares-cut", "one square too many, and a line that is none", wide(25, 41, {}).text(0)[:-5] + UNSEEN, refused_text(1, 0)
    yield "65536-bytes", "as many bytes as are read: too much rain", padded(HOLED.split("inflow")[0], MOST_BYTES), refused_text(4, 0)
    yield "65537-bytes", "one byte more", padded(HOLED.split("inflow")[0], MOST_BYTES + 1), refused_text(12, 0)
    yield "65536-unseen", "as many ? as are read, and no line", UNSEEN * MOST_BYTES, refused_text(12, 1)
    yield "65537-unseen", "one more", UNSEEN * (MOST_BYTES + 1), refused_text(12, 0)
    yield "65537-whole", "a sheet with holes before far too much", HOLED + "\n" * MOST_BYTES, refused_text(12, 0)
    yield "nothing", "nothing at all", "", refused_text(12, 1)


# ---- all that was worked by hand


def worked():
    """Every case: a name, what is tried, the sheet, and what is printed."""
    for name, words, picture, after_it, lines in PICTURES:
        yield name, words, pictured(picture).text(0), pictured(after_it).text(0) + listed(*lines)
    yield "holed", "a sheet with tables", HOLED, MENDED
    for at, (words, text, told) in enumerate(in_every_field()):
        yield f"field-{at}", words, text, told
    for at, (words, edits, answer) in enumerate(REFUSED):
        yield f"refused-{at}", words, edited(*edits), refused_text(*answer)
    yield OFF_THE_RIM
    yield from limits()


# ---- what is held


def told_of(sheet):
    """What the built program prints of a sheet."""
    return printed("repair", sheet.encode("latin-1")).decode("latin-1")


def by_document(sheet):
    """What document 02 gives of it in Python."""
    return repaired(sheet.encode("latin-1"))


def hold_worked(checks):
    """The program and the Python give each answer."""
    names = Counter(name for name, *_ in worked())
    checks.hold(max(names.values()) == 1, f"two cases have the name {names.most_common(1)}")
    for name, said, sheet, answer in worked():
        hold_both(checks, f"{name}, {said}", told_of(sheet), by_document(sheet), answer)


def whole_or_refused():
    """Sheets without `?`, samples and damaged ones: a name, the sheet, and what is printed: the sheet itself, or what `meadow` refuses before its
    run."""
    for path in sorted((TOP / "samples").rglob("*.sheet")):
        text = path.read_bytes().decode("latin-1")
        yield path.name, text, text
    for name, base, _, edits, answer in damaged.CASES:
        text = damaged.sheet_of(base, edits)
        in_its_run = isinstance(answer, str) or answer[0] in (8, 9, 15)
        if UNSEEN not in text:
            yield f"damaged-{name}", text, text if in_its_run else refused_text(*answer)


def hold_whole(checks):
    """A sheet without `?` comes back byte for byte; what is no sheet is refused as by `meadow`."""
    for name, sheet, answer in whole_or_refused():
        hold_both(checks, name, told_of(sheet), by_document(sheet), answer)


def hold_again(checks):
    """What was written is a sheet, and comes back as it is; with its list after it, it is none; and what keeps its `?` is listed again."""
    for name, _, picture, after_it, lines in PICTURES:
        sheet = pictured(after_it).text(0)
        kept = [line for line in lines if line.endswith(f" {NOT_GIVEN} {NOT_GIVEN}")]
        hold_both(checks, f"{name} again", told_of(sheet), by_document(sheet), sheet + listed(*kept))
        if lines:
            once = by_document(pictured(picture).text(0))
            refused = refused_text(12, len(sheet.splitlines()) + 1)
            hold_both(checks, f"{name} with its list", told_of(once), by_document(once), refused)


# ---- random sheets

SEED, SMALL_SHEETS, LARGE_SHEETS, SLIPS = 111, 120, 4, 120
SHAPES = ((32, 32), (64, 16), (16, 64), (25, 40))
BYTES = "\n\t ?-09oex\r"


def random_sheet(chance, rows, columns):
    """A sheet with walls and beds that were not seen: few beds that differ, so that there are ties, or many."""
    sheet = Sheet(rows, columns, chance.randint(1, 100))
    walls, unseen, beds = chance.choice((0, 0.2, 0.5)), chance.choice((0.1, 0.5, 0.9)), chance.choice((3, MOST_BED))
    for row, column in sheet.squares:
        if chance.random() >= walls:
            rim = row in (0, rows - 1) or column in (0, columns - 1)
            bed = UNSEEN if chance.random() < unseen else chance.randint(0, beds)
            mark = "e" if rim and chance.random() < 0.2 else "o"
            sheet.put((row, column), bed, chance.randint(1, 10_000), chance.randint(0, 1_000), mark, rate=chance.randint(0, 9))
    sheet.rain = [(0, chance.randint(0, 10_000), 5)] * chance.randint(0, 2)
    return sheet


def slipped(chance, text):
    """One byte put in, gone, or another."""
    at = chance.randrange(len(text))
    put, past = chance.choice(((chance.choice(BYTES), 0), (chance.choice(BYTES), 1), ("", 1)))
    return text[:at] + put + text[at + past :]


def random_sheets(seed):
    """Random sheets, small and large: a name, and the sheet."""
    chance = random.Random(seed)
    for turn in range(SMALL_SHEETS):
        yield f"random-{turn}", random_sheet(chance, chance.randint(1, 7), chance.randint(1, 7))
    for turn in range(LARGE_SHEETS):
        yield f"random-large-{turn}", random_sheet(chance, *SHAPES[turn % len(SHAPES)])


def random_slips(seed):
    """Random sheets with a slip: a name, and the text."""
    chance = random.Random(seed + 1)
    for turn in range(SLIPS):
        yield f"slip-{turn}", slipped(chance, random_sheet(chance, chance.randint(1, 3), chance.randint(1, 3)).text(0))


def near(place):
    """The four squares beside one."""
    row, column = place
    return {(row - 1, column), (row + 1, column), (row, column - 1), (row, column + 1)}


def right_at(place, known, given):
    """Whether a square with `?` is as #111 has it: in the round after the first of its neighbours, and the lowest of those of earlier rounds; or
    it has no neighbour with a bed. `known` has round and bed of every square with one, `given` those of them that had `?`."""
    about = [known[other] for other in near(place) if other in known]
    if place not in given:
        return not about
    many, bed = given[place]
    return bool(about) and many == 1 + min(about)[0] and bed == min(low for earlier, low in about if earlier < many)


def right_of(sheet, told):
    """Whether what is printed of a sheet is right at each square with `?`, and changed and listed nothing else."""
    first = len(sheet.text(0).splitlines())
    rest = [line.split("\t") for line in told.splitlines()[first:]]
    holes = [place for place in sheet.ground() if sheet.bed(place) == UNSEEN]
    given = {(int(row), int(column)): (int(many), int(bed)) for row, column, bed, many in rest if bed != NOT_GIVEN}
    known = given | {place: (0, sheet.bed(place)) for place in sheet.ground() if place not in holes}
    for place, (_, bed) in given.items():
        sheet.squares[place]["bed"] = bed
    whole = told == sheet.text(0) + "".join("\t".join(line) + "\n" for line in rest)
    return whole and [(int(row), int(column)) for row, column, *_ in rest] == holes and all(right_at(place, known, given) for place in holes)


def hold_random(checks, seed):
    """Program against Python, and both against what #111 says of each square; there are enough sheets of every kind."""
    kinds = Counter()
    for name, sheet in random_sheets(seed):
        text = sheet.text(0)
        given, answer = told_of(text), by_document(text)
        checks.hold(given == answer, f"{name} of seed {seed}: {shortened(text)}: it prints {shortened(given)}, not {shortened(answer)}")
        checks.hold(right_of(sheet, answer), f"{name} of seed {seed}: {shortened(text)}: by document 02 it is not {shortened(answer)}")
        last = [line.split("\t")[-1] for line in answer.splitlines()[len(text.splitlines()) :]]
        kinds.update({"unreached": NOT_GIVEN in last, "whole": not last, "later rounds": bool(set(last) - {"1", NOT_GIVEN})})
    for name, text in random_slips(seed):
        given, answer = told_of(text), by_document(text)
        checks.hold(given == answer, f"{name} of seed {seed}: {text!r}: it prints {shortened(given)}, not {shortened(answer)}")
        kinds["slip refused" if answer.startswith("refused") else "slip taken"] += 1
    print(f"repair: of {SMALL_SHEETS + LARGE_SHEETS} random sheets and {SLIPS} slips {dict(kinds)}")
    checks.hold(min(kinds[kind] for kind in ("unreached", "later rounds", "slip refused", "slip taken")) >= 5, "too few sheets of some kind")


# ---- what the gate holds the program to


def stored_text():
    """What the program prints in the gate, worked in Python."""
    return repaired((TOP / "crates" / "repair" / "stdin").read_bytes())


def write_cases(folder):
    """Every case as a sheet and what is printed of it."""
    cases = [(name, sheet, answer) for name, _, sheet, answer in worked()]
    cases += whole_or_refused()
    for turn in range(1, 5):
        texts = [*((name, sheet.text(0)) for name, sheet in random_sheets(SEED + 2 * turn)), *random_slips(SEED + 2 * turn)]
        cases += [(f"{turn}-{name}", text, by_document(text)) for name, text in texts]
    for name, sheet, answer in cases:
        (folder / f"{name.removesuffix('.sheet')}.sheet").write_bytes(sheet.encode("latin-1"))
        (folder / f"{name.removesuffix('.sheet')}.repaired").write_bytes(answer.encode("latin-1"))


def main():
    seed = seed_said("repair", SEED, stored_text, write_cases)
    if seed is None:
        return
    checks = Checks("repair")
    hold_worked(checks)
    hold_whole(checks)
    hold_again(checks)
    hold_random(checks, seed)
    hold_stored(checks, "repair", stored_text())
    checks.end()


if __name__ == "__main__":
    main()
