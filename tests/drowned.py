"""Lists of sheets, worked and damaged: a list, what is tried in words, and the answer, worked by hand; names that cannot be opened; and random
lists of random sheets. The built `drowned` and document 02 in Python give the same. What the gate holds the program to is worked anew too.

`bin/test drowned --seed N` makes other random lists; `bin/test drowned --write` writes the program's stored output, and `--write FOLDER` each
list with its sheets and its answer there, random ones too, for other tests to read.
"""
import os
import pwd
import random
import subprocess
import tempfile
from pathlib import Path

from damaged import A_HATCH, A_SHOWER, after, field, flat_grid, last_gone, unended
from meadow.counted import Checks
from meadow.peaks.lists import MOST_SHEETS, listed
from meadow.peaks.winters import answered, told_of
from meadow.programs import TOP
from meadow.sheets.lines import SECOND, Sheet, refused_text
from meadow.sheets.reading import MOST_BYTES
from printouts import hold_both, hold_stored, seed_said, shortened

# ---- sheets: two pools, each one square with walls all round, so that only rain, a hatch or the soil changes its depth

ROWS, COLUMNS = 4, 9
WEST, EAST = (2, 5), (3, 8)
# soaks 277 µm in the first second, 278 in each of the next three
FAST_SOIL = 1_000_000


def pools(west, east, side=1, rate=0, **run):
    """So much water in the west and in the east pool, whose soil takes water at a rate; steps of one second."""
    sheet = Sheet(ROWS, COLUMNS, side, **{"tolerance": 100, "shortest": SECOND, "longest": SECOND, "update": SECOND, **run})
    sheet.put(WEST, 0, 100, west, rate=rate)
    sheet.put(EAST, 0, 100, east)
    return sheet


def drawn(sheet, until, litres):
    """A sheet with a hatch at its west pool, from the start until a clock."""
    sheet.inflow.append((*WEST, 0, until, litres))
    return sheet


def level(rows, columns, mark="o", depth=0):
    """A level grid without walls."""
    sheet = flat_grid(rows, columns)
    for place in sheet.squares:
        sheet.put(place, 0, 100, depth, mark)
    return sheet


def turned():
    """The low pools with rows for columns: as many squares, another shape."""
    sheet = flat_grid(COLUMNS, ROWS)
    sheet.put((5, 2), 0, 100, 1_100)
    sheet.put((8, 3), 0, 100, 20_200)
    return sheet


def third_pool(depth):
    """The high pools with another one beside them: the same shape, another mark."""
    sheet = pools(50_300, 3_400)
    sheet.put((0, 1), 0, 100, depth)
    return sheet


def with_exit():
    """The high pools with an exit for the eastern one."""
    sheet = pools(50_300, 3_400)
    sheet.put(EAST, 0, 100, 3_400, "e")
    return sheet


LOW = pools(1_100, 20_200).text(SECOND)
SHEETS = {
    "low": LOW,
    "high": pools(50_300, 3_400).text(SECOND),
    "even": pools(50_300, 20_200).text(SECOND),
    "dry": pools(0, 0).text(SECOND),
    "full": pools(100_000_000, 99_999_999).text(SECOND),
    "at once": pools(60_600, 70_700).text(0),
    # 60,600 at the start, 60,323 after its second
    "falling": pools(60_600, 40, rate=FAST_SOIL).text(SECOND),
    # in the west 10,000, 10,723, 11,445, 11,167 and 10,889
    "risen": drawn(pools(10_000, 800, rate=FAST_SOIL), 2 * SECOND, 1).text(4 * SECOND),
    # 8 l/s over 4 m² for a second are 2,000 µm: 3,100 in the west
    "side 2": drawn(pools(1_100, 20_200, side=2), SECOND, 8).text(SECOND),
    "edition 3": pools(50_301, 3_401, edition=3, edge=0, tolerance=0).text(2 * SECOND),
    # document 01's exit: 10,000, and 2,000 after a second
    "exit": level(1, 1, "e", 10_000).text(SECOND),
    "exit two": level(1, 1, "e", 9_000).text(SECOND),
    "walls": flat_grid(2, 3).text(SECOND),
    "largest": level(32, 32, depth=5).text(SECOND),
    # other plans
    "turned": turned().text(SECOND),
    "third pool": third_pool(9_900).text(SECOND),
    "with exit": with_exit().text(SECOND),
    "narrower": level(3, 9).text(SECOND),
    "third pool overflowing": drawn(third_pool(100_000_000), SECOND, 100_000).text(SECOND),
    "third pool cut": last_gone(1)(third_pool(9_900).text(SECOND)),
    "third pool rough 0": field(4, "roughness", 0)(third_pool(9_900).text(SECOND)),
    # sheets that `meadow` refuses
    "nothing": "",
    "cut line": last_gone(2)(LOW),
    "unended": unended(LOW),
    "long": "0" * MOST_BYTES,
    "longer": "0" * (MOST_BYTES + 1),
    "1025 squares": flat_grid(25, 41).text(SECOND),
    "rough 0": field(26, "roughness", 0)(LOW),
    "too deep": field(26, "depth", 100_000_001)(LOW),
    "bad rain": field(39, "rate", 1_000_001)(after(A_SHOWER)(LOW)),
    "hatch in a wall": after(A_HATCH)(LOW),
    "bad end": field(2, "end", 1_500)(LOW),
    # 1 l/s raises the pool by 1,000 µm a second
    "overflowing": drawn(pools(100_000_000, 7), SECOND, 1).text(SECOND),
    "overflowing alone": after(A_HATCH)(level(1, 1, depth=100_000_000).text(SECOND)),
}
# names of odd bytes, each a file with the low pools; one is not UTF-8, and counts as a file that cannot be opened (docs/DECISIONS.md, "a name")
NO_TEXT = b"\xff\xfe"
ODD_NAMES = [b"two words", b" before", b"after ", b"a\ttab", b"carriage\r", b"-n", b"\xc3\xa9t\xc3\xa9", NO_TEXT, b"\x01\x7f", b"1000", b"*", b"$HOME"]

# a name, and the number that it is refused with in every place of a list
REFUSED = [
    ("none", 12),
    ("", 12),
    (".", 12),
    ("low/", 12),
    ("no/such", 12),
    ("n" * 256, 12),
    ("low\0", 12),
    ("low\r", 12),
    ("/proc/self/mem", 12),
    ("nothing", 12),
    ("cut line", 12),
    ("unended", 12),
    ("long", 12),
    ("longer", 12),
    ("1025 squares", 1),
    ("rough 0", 2),
    ("too deep", 3),
    ("bad rain", 4),
    ("hatch in a wall", 4),
    ("bad end", 5),
    ("overflowing", 8),
]
# a name, and what is printed of the sheet alone: its plan is another
DIFFERING = {
    "turned": [(5, 2, 0, 1_100, 1), (8, 3, 1, 20_200, 1)],
    "third pool": [(0, 1, 1, 9_900, 1), (2, 5, 1, 50_300, 1), (3, 8, 1, 3_400, 1)],
    # what leaves by the exit leaves after the start
    "with exit": [(2, 5, 1, 50_300, 1), (3, 8, 1, 3_400, 1)],
    "walls": [],
}

# ---- what is printed


def given(depth, *names):
    """A list's bytes, of names as letters."""
    return listed(depth, *(name.encode("latin-1") for name in names))


def told(squares, ran, *refused):
    """The answer of squares as (row, column, count, deepest, place), how many sheets were run, and (place, number) of each refused."""
    return "".join("\t".join(map(str, line)) + "\n" for line in (*squares, (ran, len(refused)), *refused))


def both(west, east):
    """The two pools, each (count, deepest, place)."""
    return [(*WEST, *west), (*EAST, *east)]


def padded(name, size):
    """A name of so many bytes for a file of this folder."""
    return "." + "/" * (size - 1 - len(name)) + name


# the longest list: 5 bytes of a depth, 15 names of 4,095 bytes and one of 4,090, each with its newline, are 65,536
LONGEST = given(1_000, *[padded("low", 4_095)] * 15, padded("high", 4_090))
NO_NUMBERS = [b"", b" 1", b"1 ", b"+1", b"-1", b"01", b"00", b"1e3", b"1.0", b"1,000", b"0x10", b"4294967296", b"10000000000", b"low"]
NO_NUMBERS += [b"1\r", b"1\t", b"1\t2", b"\0", b"1\0", b"\xef\xbb\xbf1"]

# ---- the table: a name, what is tried, the list, and what is printed
CASES = [
    # the depth
    ("one-sheet", "each field with its own number", given(3_000, "low"), told(both((0, 1_100, 1), (1, 20_200, 1)), 1)),
    ("depth-0", "depth 0 counts every sheet, also where it is dry", given(0, "dry", "low"), told(both((2, 1_100, 2), (2, 20_200, 2)), 2)),
    ("depth-1", "depth 1 counts no dry sheet", given(1, "dry", "low"), told(both((1, 1_100, 2), (1, 20_200, 2)), 2)),
    ("depth-just", "exactly as deep counts", given(1_100, "low", "high"), told(both((2, 50_300, 2), (2, 20_200, 1)), 2)),
    ("depth-just-not", "one µm less does not", given(1_101, "low", "high"), told(both((1, 50_300, 2), (2, 20_200, 1)), 2)),
    (
        "depth-most",
        "a depth of 100 m, and water as deep",
        given(100_000_000, "low", "full"),
        told(both((1, 100_000_000, 2), (0, 99_999_999, 2)), 2),
    ),
    ("depth-too-deep", "one µm more", given(100_000_001, "low"), refused_text(5, 0)),
    ("depth-largest", "a depth of 2^32 - 1, read and then judged", given(4_294_967_295, "low"), refused_text(5, 0)),
    ("depth-too-large", "a depth of 2^32", given(4_294_967_296, "low"), refused_text(12, 1)),
    ("no-list", "nothing at all", b"", refused_text(12, 1)),
    ("no-depth", "a name for the depth", b"low\nhigh\n", refused_text(12, 1)),
    ("depth-blank", "a blank line for the depth", b"\nlow\n", refused_text(12, 1)),
    ("depth-unended", "a depth without its newline", b"1000", refused_text(12, 1)),
    ("depth-tab", "a tab for the newline", b"1000\tlow\n", refused_text(12, 1)),
    # how many names
    ("no-names", "a depth and no name", b"1000\n", told([], 0)),
    ("no-names-depth-0", "nor with depth 0", b"0\n", told([], 0)),
    ("names-200", "as many as may be", given(1_100, *["low"] * 200), told(both((200, 1_100, 1), (200, 20_200, 1)), 200)),
    (
        "names-200-last",
        "and the last has the deepest water",
        given(2_000, *["low"] * 199, "high"),
        told(both((1, 50_300, 200), (200, 20_200, 1)), 200),
    ),
    ("names-201", "one more", given(1_100, *["low"] * 201), refused_text(16, 0)),
    ("names-201-none", "none of which can be opened", given(1_100, *["none"] * 201), refused_text(16, 0)),
    ("names-201-blank", "or that are blank", given(1_100, *[""] * 201), refused_text(16, 0)),
    ("names-200-and-unended", "200 and one without its newline", given(1_100, *["low"] * 200) + b"low", refused_text(16, 0)),
    (
        "names-199-and-unended",
        "199 and one without its newline",
        given(1_100, *["low"] * 199) + b"low",
        told(both((199, 1_100, 1), (199, 20_200, 1)), 199, (200, 12)),
    ),
    ("names-200-none", "200 that cannot be opened", given(1_100, *["none"] * 200), told([], 0, *((place, 12) for place in range(1, 201)))),
    # the order of refusals
    ("five-before-sixteen", "a depth too deep, and 201 names", given(100_000_001, *["low"] * 201), refused_text(5, 0)),
    ("twelve-before-sixteen", "a depth that is none, and 201 names", given("deep", *["low"] * 201), refused_text(12, 1)),
    ("bytes-65536", "the longest list", LONGEST, told(both((16, 50_300, 16), (16, 20_200, 1)), 16)),
    ("bytes-65537", "one byte more", LONGEST + b"x", refused_text(12, 0)),
    ("bytes-65537-newline", "or one newline more", LONGEST + b"\n", refused_text(12, 0)),
    ("bytes-before-depth", "65,537 bytes and no depth", b"x" * (MOST_BYTES + 1), refused_text(12, 0)),
    ("bytes-before-five", "and a depth too deep", given(100_000_001) + b"x" * MOST_BYTES, refused_text(12, 0)),
    ("bytes-before-sixteen", "and far more than 200 names", given(1_000) + b"\n" * MOST_BYTES, refused_text(12, 0)),
    ("bytes-65536-sixteen", "65,536 bytes of blank names", given(1_000) + b"\n" * (MOST_BYTES - 5), refused_text(16, 0)),
    # names
    ("unended", "a last name without its newline", given(2_000, "high", "low") + b"low", told(both((1, 50_300, 1), (2, 20_200, 2)), 2, (3, 12))),
    ("unended-alone", "as the only one", given(2_000) + b"low", told([], 0, (1, 12))),
    ("blank", "a blank line is a name that cannot be opened", given(2_000, "high", "", "low"), told(both((1, 50_300, 1), (2, 20_200, 3)), 2, (2, 12))),
    ("blank-alone", "as the only one", given(2_000, ""), told([], 0, (1, 12))),
    ("path", "a name by its path", given(2_000, "./low", "../none"), told(both((0, 1_100, 1), (1, 20_200, 1)), 1, (2, 12))),
    ("path-4095", "a longest path", given(2_000, padded("low", 4_095)), told(both((0, 1_100, 1), (1, 20_200, 1)), 1)),
    ("path-4096", "one byte longer", given(2_000, padded("low", 4_096)), told([], 0, (1, 12))),
    # which state, which sheet
    (
        "three-sheets",
        "counts, depths and places of three",
        given(3_000, "dry", "high", "low"),
        told(both((1, 50_300, 2), (2, 20_200, 3)), 3),
    ),
    ("at-the-start", "the start counts: its depth is passed by then alone", given(60_600, "falling"), told(both((1, 60_600, 1), (0, 40, 1)), 1)),
    ("no-step", "a run without a step", given(70_000, "at once"), told(both((0, 60_600, 1), (1, 70_700, 1)), 1)),
    ("in-the-middle", "a depth that only the middle of a run has", given(11_445, "low", "risen"), told(both((1, 11_445, 2), (1, 20_200, 1)), 2)),
    ("in-the-middle-not", "one µm above it", given(11_446, "low", "risen"), told(both((0, 11_445, 2), (1, 20_200, 1)), 2)),
    ("tie", "equally deep: the earlier sheet", given(20_200, "even", "high", "low"), told(both((2, 50_300, 1), (2, 20_200, 1)), 3)),
    ("tie-later", "and not the one before that is shallower", given(20_200, "low", "high", "even"), told(both((2, 50_300, 2), (2, 20_200, 1)), 3)),
    ("tie-dry", "dry in all: the first", given(1, "dry", "dry"), told(both((0, 0, 1), (0, 0, 1)), 2)),
    (
        "tie-across-refused",
        "places count the refused ones",
        given(9, "none", "dry", "even", "even"),
        told(both((2, 50_300, 3), (2, 20_200, 3)), 3, (1, 12)),
    ),
    ("twice", "one sheet four times", given(1_100, *["low"] * 4), told(both((4, 1_100, 1), (4, 20_200, 1)), 4)),
    (
        "refused-deepest",
        "a sheet refused in its run adds nothing",
        given(1, "dry", "overflowing", "low"),
        told(both((1, 1_100, 3), (1, 20_200, 3)), 2, (2, 8)),
    ),
    ("exit", "water that leaves: the start was the deepest", given(9_001, "exit two", "exit"), told([(0, 0, 1, 10_000, 2)], 2)),
    ("walls", "every square closed", given(0, "walls", "walls"), told([], 2)),
    (
        "largest",
        "1,024 squares",
        given(5, "largest", "largest"),
        told([(row, column, 2, 5, 1) for row in range(32) for column in range(32)], 2),
    ),
    # the plan
    ("side-differs", "another D is the same plan", given(3_100, "low", "side 2", "low"), told(both((1, 3_100, 2), (3, 20_200, 1)), 3)),
    ("rules-differ", "so are other rules and another end", given(3_401, "high", "edition 3"), told(both((2, 50_301, 2), (1, 3_401, 2)), 2)),
    (
        "plan-by-first-accepted",
        "a first sheet refused in its run sets no plan",
        given(2_000, "overflowing alone", "low", "high"),
        told(both((1, 50_300, 3), (2, 20_200, 2)), 2, (1, 8)),
    ),
    (
        "plan-by-first-read",
        "nor does one that cannot be read",
        given(2_000, "third pool cut", "high", "low"),
        told(both((1, 50_300, 2), (2, 20_200, 3)), 2, (1, 12)),
    ),
    (
        "plan-not-by-second",
        "a differing sheet sets none either",
        given(2_000, "low", "third pool", "third pool", "high"),
        told(both((1, 50_300, 4), (2, 20_200, 1)), 2, (2, 14), (3, 14)),
    ),
    (
        "fourteen-before-the-run",
        "a differing sheet that would be refused in its run",
        given(2_000, "low", "third pool overflowing", "overflowing", "overflowing alone"),
        told(both((0, 1_100, 1), (1, 20_200, 1)), 1, (2, 14), (3, 8), (4, 14)),
    ),
    (
        "reader-before-fourteen",
        "differing sheets that the reader refuses",
        given(2_000, "high", "third pool cut", "third pool rough 0", "1025 squares", "narrower"),
        told(both((1, 50_300, 1), (1, 3_400, 1)), 1, (2, 12), (3, 2), (4, 1), (5, 14)),
    ),
    # none accepted
    (
        "none-accepted",
        "one refused by each number",
        given(0, "overflowing", "bad end", "bad rain", "too deep", "rough 0", "1025 squares", "nothing"),
        told([], 0, (1, 8), (2, 5), (3, 4), (4, 3), (5, 2), (6, 1), (7, 12)),
    ),
    ("none-at-all", "five names, no file", given(0, *["none"] * 5), told([], 0, *((place, 12) for place in range(1, 6)))),
    (
        "one-of-seven",
        "the last alone",
        given(0, *["none"] * 6, "low"),
        told(both((1, 1_100, 7), (1, 20_200, 7)), 1, *((place, 12) for place in range(1, 7))),
    ),
]


def refused_everywhere():
    """A refused sheet at each place of a list with the high pools and then the low ones: what is tried, the list, and what is printed."""
    for number, (name, wanted) in enumerate(REFUSED):
        for at in range(3):
            names = ["high", "low"]
            names.insert(at, name)
            places = [names.index(good) + 1 for good in ("high", "low")]
            answer = told(both((1, 50_300, places[0]), (2, 20_200, places[1])), 2, (at + 1, wanted))
            yield f"refused-{number}-{at}", f"{name[:20]!r} at place {at + 1}", given(3_000, *names), answer


def differing_everywhere():
    """A sheet of another plan: first, it is taken and the others are not; in the middle and last, the others are."""
    for name, squares in DIFFERING.items():
        kind = name.replace(" ", "-")
        yield f"{kind}-first", f"{name} first", given(3_400, name, "high", "low"), told(squares, 1, (2, 14), (3, 14))
        for at in (1, 2):
            names = ["high", "low"]
            names.insert(at, name)
            answer = told(both((1, 50_300, 1), (2, 20_200, names.index("low") + 1)), 2, (at + 1, 14))
            yield f"{kind}-{at}", f"{name} at place {at + 1}", given(3_000, *names), answer


def no_numbers():
    """A first line that is no number."""
    for at, line in enumerate(NO_NUMBERS):
        yield f"no-number-{at}", f"{line!r} for the depth", line + b"\nlow\n", refused_text(12, 1)


def odd_names():
    """Names of all bytes in one list: each is opened but the one that is no text, which is refused in its place."""
    many, none = len(ODD_NAMES), ODD_NAMES.index(NO_TEXT) + 1
    yield "odd-names", "names of odd bytes", listed(2_000, *ODD_NAMES, b"high"), told(both((1, 50_300, many + 1), (many, 20_200, 1)), many, (none, 12))


def table():
    """Every worked list: its name, what is tried, its bytes, and what is printed."""
    for part in (CASES, refused_everywhere(), differing_everywhere(), no_numbers(), odd_names()):
        yield from part


def put_sheets():
    """Every sheet of the table as a file of this folder."""
    for name, text in SHEETS.items():
        Path(name).write_bytes(text.encode("latin-1"))
    for name in ODD_NAMES:
        with open(name, "wb") as file:
            file.write(SHEETS["low"].encode("ascii"))


def hold_table(checks):
    """The program and the Python give each answer."""
    cases = list(table())
    checks.hold(len({name for name, *_ in cases}) == len(cases), "two cases have one name")
    checks.hold((len(LONGEST), MOST_SHEETS) == (MOST_BYTES, 200), f"the longest list has {len(LONGEST)} bytes")
    for name, words, stdin, answer in cases:
        hold_both(checks, f"{name}, {words}", told_of(stdin), answered(stdin), answer)


def hold_rights(checks):
    """A file that nobody may read is a place refused by 12; root may read all, so that there the program is started as nobody."""
    how = {"user": pwd.getpwnam("nobody").pw_uid} if os.geteuid() == 0 else {}
    stdin = given(3_000, "high", "low")
    try:
        whole = told_of(stdin, **how)
    except (subprocess.CalledProcessError, OSError) as fault:
        checks.skip("a file that nobody may read", f"drowned cannot be started by nobody: {fault}")
        return
    checks.hold(whole == told(both((1, 50_300, 1), (2, 20_200, 2)), 2), f"as nobody: {whole!r}")
    Path("low").chmod(0)
    program = told_of(stdin, **how)
    Path("low").chmod(0o644)
    checks.hold(program == told(both((1, 50_300, 1), (1, 3_400, 1)), 1, (2, 12)), f"no right to read the second sheet: {program!r}")


# ---- random lists

SEED, RANDOM_LISTS = 114, 120


def random_plan(chance):
    """A small shape with walls and exits: the mark of each square."""
    rows, columns = chance.randint(1, 3), chance.randint(1, 4)
    marks = {}
    for row in range(rows):
        for column in range(columns):
            rim = row in (0, rows - 1) or column in (0, columns - 1)
            marks[row, column] = "x" if chance.random() < 0.15 else "e" if rim and chance.random() < 0.2 else "o"
    return rows, columns, marks


def random_sheet(chance, plan):
    """A sheet of a plan with its own water, rain, inflow, soil, rules and end; now and then one that is refused in its run."""
    rows, columns, marks = plan
    update, shortest = chance.choice((1_000, 1_500, 4_000)), chance.choice((100, 300, 700))
    longest = shortest + chance.choice((0, 300, 2_000))
    rules = {"shortest": shortest, "longest": longest, "update": update, "edge": chance.choice((0, 50, 10_000)), "edition": chance.randint(1, 3)}
    sheet = Sheet(rows, columns, chance.choice((1, 2, 3, 7, 10)), **rules)
    deepest = chance.choice((2_000, 50_000, 1_000_000, 100_000_000))
    for place, mark in marks.items():
        if mark != "x":
            depth = chance.choice((0, chance.randint(0, 1_000), chance.randint(0, deepest)))
            rate = chance.choice((0, 0, 50_000, 1_000_000))
            sheet.put(place, chance.randint(0, 800_000), chance.choice((100, 350)), depth, mark, rate=rate)
    sheet.rain = [(0, chance.randint(0, 10_000), chance.randint(0, 1_000_000)) for _ in range(chance.randint(0, 2))]
    places = sheet.ground()
    litres = chance.choice((10, 300, 300, 100_000))
    sheet.inflow = [(*chance.choice(places), 0, chance.randint(0, 9_000), chance.randint(0, litres)) for _ in range(chance.randint(0, 2)) if places]
    return sheet.text(update * chance.choice((0, 1, 2, 3)))


def slipped(chance, text):
    """A text with a slip at a random place."""
    at = chance.randrange(len(text) + 1)
    return text[:at] + chance.choice(("\t", " ", "\n", "0", "9", "x", "")) + text[at + chance.choice((0, 0, 1)) :]


def random_list(chance, turn):
    """The texts of some sheets by name, and a list of them: mostly of one plan, some of another, some with a slip, some that are not there."""
    plans = [random_plan(chance) for _ in range(2)]
    texts = {}
    for number in range(chance.randint(1, 6)):
        text = random_sheet(chance, plans[chance.random() < 0.15])
        texts[f"random-{turn}-{number}"] = slipped(chance, text) if chance.random() < 0.1 else text
    names = [chance.choice([*texts] * 4 + ["none"]) for _ in range(chance.randint(1, 9))]
    depth = chance.randint(0, chance.choice((0, 1_000, 1_000, 3_000, 3_000, 50_000, 50_000, 1_000_000, 100_000_000)))
    stdin = given(depth, *names)
    return texts, slipped(chance, stdin.decode("ascii")).encode("ascii") if chance.random() < 0.15 else stdin


def random_cases(seed, many):
    """Random lists with their sheets in this folder: a name, the list's bytes, and the answer by document 02 in Python."""
    chance = random.Random(seed)
    for turn in range(many):
        texts, stdin = random_list(chance, turn)
        for name, text in texts.items():
            Path(name).write_text(text, encoding="ascii")
        yield f"random-{turn}", stdin, answered(stdin)


def hold_random(checks, seed, many):
    """Program against Python; among the lists are enough with several sheets run, with counts between none and all, and of each kind of refusal."""
    several = between = later = 0
    numbers = set()
    for name, stdin, worked in random_cases(seed, many):
        program = told_of(stdin)
        if not checks.hold(program == worked, f"{name} of seed {seed}: {stdin!r}"):
            print(f"drowned: it prints {shortened(program)}, and by document 02 it is {shortened(worked)}")
        lines = [tuple(map(int, line.split("\t"))) for line in worked.splitlines() if not line.startswith("refused")]
        squares, pairs = [line for line in lines if len(line) == 5], [line for line in lines if len(line) == 2]
        several += bool(pairs) and pairs[0][0] > 1
        between += any(0 < count < pairs[0][0] for _, _, count, _, _ in squares)
        later += any(first > 1 for *_, first in squares)
        numbers |= {number for _, number in pairs[1:]}
    print(f"drowned: of {many} random lists {several} run several sheets, {between} drown a square in some of them; refused by {sorted(numbers)}")
    checks.hold(several >= many // 2 and min(between, later) >= many // 5, "the random lists are too much of one kind")
    checks.hold(numbers >= {8, 12, 14}, "no sheet of the random lists is refused in its run, or for its plan")


# ---- what the gate holds the program to

CRATE = TOP / "crates" / "drowned"


def stored_text():
    """What the program prints in the gate, of the files beside it, worked in Python."""
    before = os.getcwd()
    os.chdir(CRATE / "data")
    worked = answered((CRATE / "stdin").read_bytes())
    os.chdir(before)
    return worked


def write_cases(folder):
    """Every case as a list and its answer, with the sheets beside them."""
    os.chdir(folder)
    put_sheets()
    cases = [(name, stdin, answer) for name, _, stdin, answer in table()]
    for name, stdin, answer in (*cases, *random_cases(SEED + 1, 4 * RANDOM_LISTS)):
        Path(f"{name}.list").write_bytes(stdin)
        Path(f"{name}.list.out").write_text(answer, encoding="ascii")


def main():
    seed = seed_said("drowned", SEED, stored_text, write_cases)
    if seed is None:
        return
    checks = Checks("drowned")
    with tempfile.TemporaryDirectory() as folder:
        os.chmod(folder, 0o755)
        os.chdir(folder)
        put_sheets()
        hold_table(checks)
        hold_rights(checks)
        hold_random(checks, seed, RANDOM_LISTS)
        os.chdir(TOP)
    hold_stored(checks, "drowned", stored_text())
    checks.end()


if __name__ == "__main__":
    main()
