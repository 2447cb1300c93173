"""Document 02, #104, in Python: sheets moved to the survey office's sets and back, byte for byte: those worked by hand, the samples, random ones
up to 64 by 64 and at the ends of every range; sets from elsewhere; and damaged sets and sheets, each with its number and line.

`bin/test sets --seed N` makes other random sheets; `bin/test sets --write FOLDER` writes every set and every sheet with what it is moved to
there, for other tests to read.
"""
import random
import re
import sys
from collections import Counter
from pathlib import Path

import damaged
import damaged_sets
from damaged_sets import BASE, HEAD, MOST_FILE, SHEET
from meadow.counted import Checks
from meadow.programs import TOP
from meadow.rule.ranges import LAST_CLOCK, MOST_ROWS_OF_A_TABLE, RANGES
from meadow.rule.refusals import Refused
from meadow.sheets.lines import USUAL_RUN, Sheet, refused_text
from meadow.surveys.depths import metres
from meadow.surveys.office import METRES, WHOLE, OfficeGrid, number_of, office_text, read_office
from meadow.surveys.sets import Set, moved_back, moved_out
from printouts import shortened

# ---- worked by hand: numbers and grids, as crates/raster/specs/Worked.antt has them

WRITTEN = [(1_500_000, "1.500000"), (31, "0.000031"), (0, "0.000000"), (1_000_000_000, "1000.000000"), (99_999_999, "99.999999")]
READ = [
    (METRES, "0.000031", 31),
    (METRES, "1.5", 1_500_000),
    (METRES, "12", 12_000_000),
    (METRES, "1.0000000", None),
    (METRES, "1.", None),
    (METRES, ".5", None),
    (METRES, "-1", None),
    (METRES, "01.5", None),
    (METRES, "4294.967295", 4_294_967_295),
    (METRES, "4294.967296", None),
    (WHOLE, "100", 100),
    (WHOLE, "100.0", None),
    (WHOLE, "4294967295", 4_294_967_295),
    (WHOLE, "4294967296", None),
]
SIX_SQUARES = OfficeGrid(2, 3, 5, [1_000_001, None, 20, 300_000, 4_000_000, 999_999_999])
SIX_IN_METRES = HEAD + "1.000001 -9999 0.000020\n0.300000 4.000000 999.999999\n"
SIX_IN_WHOLE = HEAD + "1000001 -9999 20\n300000 4000000 999999999\n"
THEIRS = "ncols  2\nnrows 1\nxllcorner 0.0\nyllcorner 0\ncellsize   10\nNODATA_value -9999\n1.5    -9999\n"
TWO_SQUARES = "ncols 2\nnrows 1\nxllcorner 0\nyllcorner 0\ncellsize 10\nNODATA_value -9999\n"
# a text that is no grid of metres, and the line of its 12
NO_GRIDS = [
    ("ncols 2\nnrows 1\nxllcorner 0\nyllcorner 0.000001\ncellsize 10\nNODATA_value -9999\n1 1\n", 4),
    ("ncols 2\nnrows 1\nxllcorner 0\nyllcorner 0\ncellsize 10.0\n", 5),
    ("ncols 1\nnrows 1\nxllcorner 0\nyllcorner 0\ncellsize 1\nNODATA_value -1\n1\n", 6),
    (TWO_SQUARES + "1 1.0000000\n", 7),
    (TWO_SQUARES + "1\n", 7),
    (TWO_SQUARES + "1 1 1\n", 7),
    (TWO_SQUARES + " 1 1\n", 7),
    (TWO_SQUARES + "1 1 \n", 7),
    (TWO_SQUARES, 7),
    (TWO_SQUARES + "1 1\n1 1\n", 8),
    (TWO_SQUARES + "1 1", 7),
    (TWO_SQUARES + "1\t1\n", 7),
]

# ---- worked by hand: sets, as the definitions of sets have them; tabs are shown as spaces

PARTS_SHEET = """grid 3 1 5
run 10 300 700 1000 2000 8 2
cell 0 0 o 60 100 50 36
cell 1 0 x
cell 2 0 e 61 101 1000051 37
rain 51 150 90
inflow 2 0 7 101 8
""".replace(" ", "\t")
PARTS_HEAD = "ncols 1\nnrows 3\nxllcorner 0\nyllcorner 0\ncellsize 5\nNODATA_value -9999\n"
PARTS = Set(
    """grid 3 1 5
run 10 300 700 1000 2000 8 2
cell 0 0 o
cell 1 0 x
cell 2 0 e
rain 51 150 90
inflow 2 0 7 101 8
""".replace(" ", "\t"),
    PARTS_HEAD + "0.000060\n-9999\n0.000061\n",
    PARTS_HEAD + "0.000050\n-9999\n1.000051\n",
    PARTS_HEAD + "100\n-9999\n101\n",
    PARTS_HEAD + "36\n-9999\n37\n",
)
DOCUMENT_SHEET = """grid 1 2 1
run 100 1000 1000 1000 1000 10000 1
cell 0 0 o 0 100 1000 0
cell 0 1 o 0 100 0 0
""".replace(" ", "\t")
DOCUMENT_NOTE = """grid 1 2 1
run 100 1000 1000 1000 1000 10000 1
cell 0 0 o
cell 0 1 o
""".replace(" ", "\t")


def document_set(bed, depth, roughness):
    """The set of document 01's sheet, but for the rows of bed, depth and roughness."""
    head = "ncols 2\nnrows 1\nxllcorner 0\nyllcorner 0\ncellsize 1\nNODATA_value -9999\n"
    return Set(DOCUMENT_NOTE, *(head + row for row in (bed, depth, roughness, "0 0\n")))


DOCUMENT_SET = document_set("0.000000 0.000000\n", "0.001000 0.000000\n", "100 100\n")
# a sheet and the set that we write of it
MOVED = [(PARTS_SHEET, PARTS), (DOCUMENT_SHEET, DOCUMENT_SET), (SHEET, BASE)]
# a set, and what comes back
BACK = [
    (document_set("0    0.0\n", "0.001  0\n", "100 100\n"), DOCUMENT_SHEET),
    (document_set("0 0.0000000\n", "0\n", "100 100\n"), (12, 7)),
    (document_set("0 0\n", "0 0\n0 0\n", "100\n"), (12, 8)),
    (document_set("0 -9999\n", "0 0\n", "100 1.0\n"), (12, 7)),
    (document_set("0 -9999\n", "0 0\n", "100 100\n"), (14, 0)),
    (document_set("0 1000.000001\n", "101 0\n", "100 100\n"), (2, 0)),
    (document_set("0 0\n", "0 0\n", "0 100\n"), (2, 0)),
    (document_set("0 0\n", "100.000001 0\n", "100 100\n"), (3, 0)),
]

# ---- random sheets

SEED, SMALL_SHEETS, LARGE_SHEETS, SLIPS = 104, 200, 12, 600


def anything(chance, name):
    """The least or the most of a thing, or anything between them."""
    low, high = RANGES[name]
    return chance.choice((low, low + 1, high - 1, high, chance.randint(low, high), chance.randint(low, min(high, 1_000))))


def random_run(chance):
    """The fields of a run line, and its end."""
    run = {name: anything(chance, name) for name in USUAL_RUN}
    run["shortest"], run["longest"] = sorted((run["shortest"], run["longest"]))
    times = LAST_CLOCK // run["update"]
    return run, run["update"] * chance.choice((0, 1, times, chance.randint(0, times)))


def random_times(chance):
    """From and to of a row of a table."""
    return tuple(sorted((anything(chance, "from"), anything(chance, "to"))))


def random_sheet(chance, rows, columns):
    """A sheet of so many squares that reads well."""
    run, end = random_run(chance)
    sheet = Sheet(rows, columns, anything(chance, "side"), **run)
    walls = chance.choice((0, 0.1, 0.5, 1))
    for row, column in sheet.squares:
        if chance.random() >= walls:
            rim = row in (0, rows - 1) or column in (0, columns - 1)
            mark = "e" if rim and chance.random() < 0.3 else "o"
            held = [anything(chance, name) for name in ("bed", "roughness", "depth")]
            sheet.put((row, column), *held, mark, rate=anything(chance, "soak rate"))
    many = chance.choice((0, 1, 2, MOST_ROWS_OF_A_TABLE))
    sheet.rain = [(*random_times(chance), anything(chance, "rate")) for _ in range(many)]
    ground = sheet.ground()
    many = chance.choice((0, 1, 2, MOST_ROWS_OF_A_TABLE)) if ground else 0
    sheet.inflow = [(*chance.choice(ground), *random_times(chance), anything(chance, "litres")) for _ in range(many)]
    return sheet.text(end)


def at_the_ends():
    """Sheets of every extreme shape, with the least of everything and with the most of it."""
    for rows, columns in ((1, 1), (1, 64), (64, 1), (64, 64)):
        for at, name in enumerate(("least", "most")):
            run = {field: RANGES[field][at] for field in USUAL_RUN}
            sheet = Sheet(rows, columns, RANGES["side"][at], **run)
            for place in sheet.squares:
                sheet.put(place, *(RANGES[field][at] for field in ("bed", "roughness", "depth")), rate=RANGES["soak rate"][at])
            sheet.rain = [tuple(RANGES[field][at] for field in ("from", "to", "rate"))] * (at * MOST_ROWS_OF_A_TABLE)
            sheet.inflow = [(rows - 1, columns - 1, *(RANGES[field][at] for field in ("from", "to", "litres")))] * (at * MOST_ROWS_OF_A_TABLE)
            yield f"{name}-{rows}-{columns}", sheet.text(RANGES["end"][at])


def good_sheets(seed):
    """Every sheet that is moved and comes back: a name and its text."""
    chance = random.Random(seed)
    for path in sorted((TOP / "samples").rglob("*.sheet")):
        yield path.stem, path.read_text(encoding="ascii")
    yield from at_the_ends()
    for turn in range(SMALL_SHEETS):
        yield f"small-{turn}", random_sheet(chance, chance.randint(1, 5), chance.randint(1, 5))
    for turn in range(LARGE_SHEETS):
        yield f"large-{turn}", random_sheet(chance, chance.choice((33, 63, 64)), chance.choice((33, 63, 64)))


# ---- sets from elsewhere, and slips


def fewer_decimals(chance, text):
    """A number with some of the noughts at its end gone, and its point where no decimal is left."""
    while "." in text and text[-1] in "0." and chance.random() < 0.8:
        text = text[:-1]
    return text + "0" if text.endswith(".") else text


def elsewhere(chance, texts):
    """A set of ours as another office may write it."""

    def rewritten(text):
        lines = [[fewer_decimals(chance, word) for word in row.split(" ")] for row in text.splitlines()]
        corners = [chance.choice(("0", "0.0", "0.000", "0.000000")) for _ in range(2)]
        lines[2][1], lines[3][1] = corners
        return "".join((" " * chance.choice((1, 1, 2, 7))).join(words) + "\n" for words in lines)

    return Set(texts.note, *map(rewritten, texts[1:]))


BYTES = "\n\t \r.0159-xoe\0\xff"
WORDS = ("-9999", "0", "1", "2", "5", "101", "4294", "4294967295", "x", "o")


def byte_slipped(chance, text):
    """One byte put in, gone, or another."""
    at = chance.randrange(len(text))
    put, past = chance.choice(((chance.choice(BYTES), 0), (chance.choice(BYTES), 1), ("", 1)))
    return text[:at] + put + text[at + past :]


def word_slipped(chance, text):
    """Another word or number."""
    at = chance.choice([found.span() for found in re.finditer(r"[^\s]+", text)])
    return text[: at[0]] + chance.choice(WORDS) + text[at[1] :]


def line_slipped(chance, text):
    """A line gone, or another one of the same text in its place."""
    lines = text.splitlines(True)
    at = chance.randrange(len(lines))
    lines[at : at + 1] = chance.choice(([], [chance.choice(lines)]))
    return "".join(lines)


def slipped(chance, texts):
    """A set with a slip in one of its files."""
    part = chance.choice(Set._fields)
    slip = chance.choice((byte_slipped, word_slipped, word_slipped, line_slipped))
    return texts._replace(**{part: slip(chance, getattr(texts, part))})


def odd_sets(seed):
    """Sets from elsewhere and with slips: a name, the set, and the sheet that comes back of it; None where a slip may be refused."""
    chance = random.Random(seed + 1)
    for turn in range(SMALL_SHEETS):
        sheet = random_sheet(chance, chance.randint(1, 4), chance.randint(1, 4))
        yield f"elsewhere-{turn}", elsewhere(chance, moved_out(sheet)), sheet
    for turn in range(SLIPS):
        ours = moved_out(random_sheet(chance, chance.randint(1, 3), chance.randint(1, 3)))
        yield f"slip-{turn}", slipped(chance, elsewhere(chance, ours) if chance.random() < 0.5 else ours), None


# ---- sheets that are refused, or that only `meadow` refuses

TOO_LONG = "0" * (MOST_FILE + 1)
MORE_SHEETS = [
    ("long", "a sheet of as many bytes as may be, and no line", TOO_LONG[:-1], (12, 1)),
    ("longer", "one byte more", TOO_LONG, (12, 0)),
    ("65-rows", "65 rows", damaged.flat_grid(65, 1).text(0), (1, 0)),
    ("65-columns", "65 columns", damaged.flat_grid(1, 65).text(0), (1, 0)),
    ("a-set-for-a-sheet", "a bed's grid for a sheet", BASE.bed, (12, 1)),
    ("a-note-for-a-sheet", "a note for a sheet", BASE.note, (12, 3)),
]


# what is within the limits of a set and not within those of `meadow`
LARGER = {"bytes-65537": (12, 1), "squares-over-1024": (12, 3)}


def sheets_judged():
    """Damaged sheets: a name, what is tried, the text, and the refusal; None where it is moved. `meadow` alone refuses over 1,024 squares,
    over 65,536 bytes, and in the run."""
    for name, base, words, edits, answer in damaged.CASES:
        text = damaged.sheet_of(base, edits)
        if isinstance(answer, str) or answer[0] in (8, 9):
            answer = None
        yield name, words, text, LARGER.get(name, answer)
    yield from MORE_SHEETS


# ---- what is held


def outcome(move, given):
    """What comes of moving: texts, or a number and a line."""
    try:
        return move(given)
    except Refused as refused:
        return refused.number, refused.line


def hold_worked(checks):
    """Numbers, grids and sets that were worked by hand."""
    for number, text in WRITTEN:
        checks.hold(metres(number) == text, f"{number} µm are written {metres(number)}")
    for kind, text, number in READ:
        checks.hold(number_of(kind, text) == number, f"{text} is read as {number_of(kind, text)}, not {number}")
    for kind, text in ((METRES, SIX_IN_METRES), (WHOLE, SIX_IN_WHOLE)):
        checks.hold(office_text(SIX_SQUARES, kind) == text, f"six squares are written {office_text(SIX_SQUARES, kind)!r}")
        checks.hold(read_office(text, kind) == SIX_SQUARES, f"six squares are read as {read_office(text, kind)}")
    checks.hold(read_office(THEIRS, METRES) == OfficeGrid(1, 2, 10, [1_500_000, None]), f"theirs is read as {read_office(THEIRS, METRES)}")
    for text, number in NO_GRIDS:
        told = outcome(lambda text: read_office(text, METRES), text)
        checks.hold(told == (12, number), f"{text!r} gives {told}, not 12 with line {number}")
    for sheet, texts in MOVED:
        checks.hold(outcome(moved_out, sheet) == texts, f"{sheet!r} is moved to {outcome(moved_out, sheet)}")
        checks.hold(outcome(moved_back, texts) == sheet, f"{texts} comes back as {outcome(moved_back, texts)!r}")
    for texts, answer in BACK:
        checks.hold(outcome(moved_back, texts) == answer, f"{texts} gives {outcome(moved_back, texts)!r}, not {answer!r}")


def hold_table(checks):
    """Each damaged set with its number and line, each whole one with its sheet."""
    names = Counter(words for _, words, _, _ in damaged_sets.table())
    checks.hold(max(names.values()) == 1, f"two cases have the words {names.most_common(1)}")
    for name, words, texts, answer in damaged_sets.table():
        told = outcome(moved_back, texts)
        checks.hold(told == answer, f"{name}, {words}: {told!r}, not {answer!r}")


def hold_good(checks, seed):
    """Sheets come back byte for byte, and so do the sets that we wrote; no set is longer than a file may be."""
    for name, text in good_sheets(seed):
        texts = outcome(moved_out, text)
        if checks.hold(isinstance(texts, Set), f"{name} of seed {seed} is refused: {texts}"):
            checks.hold(moved_back(texts) == text, f"{name} of seed {seed} does not come back: {shortened(text)}")
            checks.hold(moved_out(moved_back(texts)) == texts, f"the set of {name} of seed {seed} does not come back")
            checks.hold(max(map(len, texts)) <= MOST_FILE, f"the set of {name} has a file that is too long")


def hold_odd(checks, seed):
    """Sets from elsewhere come back as what they say. A slip is refused, or is a sheet that is moved and comes back; there are enough of both."""
    kinds = Counter()
    for name, texts, sheet in odd_sets(seed):
        told = outcome(moved_back, texts)
        if sheet is not None:
            checks.hold(told == sheet, f"{name} of seed {seed}: {texts} comes back as {shortened(str(told))}")
            continue
        moved = isinstance(told, str)
        kinds["moved" if moved else told[0]] += 1
        checks.hold(not moved or moved_back(moved_out(told)) == told, f"{name} of seed {seed}: {texts} becomes a sheet that does not come back")
    print(f"sets: of {SLIPS} random slips {dict(sorted(kinds.items(), key=str))}")
    checks.hold(min(kinds[kind] for kind in ("moved", 12, 14)) >= SLIPS // 40, "too few slips of some kind")


def hold_sheets(checks):
    """A sheet is refused as `meadow` refuses it, but for its limits and its run."""
    for name, words, text, refusal in sheets_judged():
        told = outcome(moved_out, text)
        right = told == refusal if refusal else isinstance(told, Set) and moved_back(told) == text
        checks.hold(right, f"{name}, {words}: it is moved to {shortened(str(told))}, and should give {refusal}")


# ---- for other tests to read


def written(folder, name, kinds, texts):
    """Texts as files of one name, a byte for each letter."""
    for kind, text in zip(kinds, texts, strict=True):
        (folder / f"{name}.{kind}").write_bytes(text.encode("latin-1"))


def text_told(told):
    """A sheet's text, or the line of a refusal."""
    return told if isinstance(told, str) else refused_text(*told)


def write_cases(folder):
    """Every set with what comes back of it, and every sheet with what it is moved to."""
    sets = [(name, texts, answer) for name, _, texts, answer in damaged_sets.table()]
    sets += [(f"worked-{at}", texts, answer) for at, (texts, answer) in enumerate(BACK)]
    sets += [(name, texts, outcome(moved_back, texts)) for name, texts, _ in odd_sets(SEED + 1)]
    for name, texts, answer in sets:
        written(folder, name, (*Set._fields, "back"), (*texts, text_told(answer)))
    moved = [(f"worked-sheet-{at}", sheet, texts) for at, (sheet, texts) in enumerate(MOVED)]
    moved += [(name, text, moved_out(text)) for name, text in good_sheets(SEED + 1)]
    moved += [(f"damaged-{name}", text, refusal or moved_out(text)) for name, _, text, refusal in sheets_judged()]
    for name, text, told in moved:
        written(folder, name, ("sheet",), (text,))
        if isinstance(told, Set):
            written(folder, name, (*Set._fields, "back"), (*told, text))
        else:
            written(folder, name, ("refused",), (refused_text(*told),))


def main():
    if sys.argv[1:2] == ["--write"]:
        write_cases(Path(sys.argv[2]))
        return
    seed = int(sys.argv[2]) if sys.argv[1:2] == ["--seed"] else SEED
    checks = Checks("sets")
    hold_worked(checks)
    hold_table(checks)
    hold_good(checks, seed)
    hold_odd(checks, seed)
    hold_sheets(checks)
    checks.end()


if __name__ == "__main__":
    main()
