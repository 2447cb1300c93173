"""The program `highest`: sheets with the highest depth of each square and its clock, worked by hand; the damaged sheets, refused as by `meadow`;
the samples; and random sheets. The built program and document 02 in Python give the same, and the totals are `meadow`'s. What the gate holds
the program to is worked anew too.

`bin/test highest --seed N` makes other random sheets; `bin/test highest --write` writes the program's stored output, and `--write FOLDER` each
sheet with its answer there, random ones too, for other tests to read.
"""
import random

import damaged
from damaged import BASES, answer_of, field, flat_grid, sheet_of
from drowned import EAST, FAST_SOIL, SHEETS, WEST, drawn, pools, random_plan, random_sheet
from meadow.counted import Checks
from meadow.peaks.heights import answered, heights_text
from meadow.peaks.runs import Peak
from meadow.programs import TOP, printed
from meadow.sheets.lines import DEPTH, SECOND, Answer, refused_text
from printouts import hold_both, hold_stored, seed_said, shortened

# ---- sheets


def slow_rain(end):
    """A pool whose soil takes 1 µm a second, and from the second second on rain of 2: 5,000, 4,999, 5,000, 5,001 and so on."""
    sheet = pools(5_000, 60, rate=3_600)
    sheet.rain.append((SECOND, 9 * SECOND, 7_200))
    return sheet.text(end * SECOND)


def quick_steps():
    """Steps of 400, 400 and 200 ms, a hatch for the first of them, and soil that takes 111 µm in each of the first two."""
    return drawn(pools(0, 90, rate=FAST_SOIL, shortest=400, longest=400), 400, 1)


def late_rain():
    """277 µm in the fifth second and 278 in the sixth, on dry ground."""
    sheet = flat_grid(1, 2)
    for column in (0, 1):
        sheet.put((0, column), 0, 100)
    sheet.rain.append((4 * SECOND, 6 * SECOND, 1_000_000))
    return sheet.text(8 * SECOND)


def square_by_square():
    """A grid whose rows and columns cannot be taken for each other: 3 by 2, of which the last row is a wall."""
    sheet = flat_grid(3, 2)
    for at, place in enumerate([(0, 0), (0, 1), (1, 0), (1, 1)]):
        sheet.put(place, 0, 100, 7_000 + at)
    return sheet.text(0)


# ---- what is printed


def told(peaks, outflow=0, soaked=0, steps=1, clock=None):
    """The answer of (depth, clock) by place and of the totals; steps of one second are as many as its seconds."""
    totals = {"outflow": outflow, "soaked": soaked, "steps": steps, "clock": steps * SECOND if clock is None else clock}
    return heights_text({place: Peak(*peak) for place, peak in peaks.items()}, totals)


def told_of(sheet):
    """What the built program prints of a sheet."""
    return printed("highest", sheet.encode("latin-1")).decode("ascii")


# ---- the table: a name, what is tried, the sheet, and what is printed
CASES = [
    ("at-the-start", "the start is deeper than all later states", SHEETS["falling"], told({WEST: (60_600, 0), EAST: (40, 0)}, soaked=277)),
    (
        "in-the-middle",
        "the highest is neither the start nor the end",
        SHEETS["risen"],
        told({WEST: (11_445, 2_000), EAST: (800, 0)}, soaked=1_111, steps=4),
    ),
    ("never-wet", "never wet: depth 0, clock 0", SHEETS["dry"], told({WEST: (0, 0), EAST: (0, 0)})),
    ("no-step", "a run without a step", SHEETS["at once"], told({WEST: (60_600, 0), EAST: (70_700, 0)}, steps=0)),
    ("full", "as deep as may be", SHEETS["full"], told({WEST: (100_000_000, 0), EAST: (99_999_999, 0)})),
    ("document-01", "the first step that document 01 works", BASES["document 01"], told({(0, 0): (1_000, 0), (0, 1): (31, 1_000)})),
    (
        "document-01-twice",
        "and the second",
        field(2, "end", 2_000)(BASES["document 01"]),
        told({(0, 0): (1_000, 0), (0, 1): (59, 2_000)}, steps=2),
    ),
    ("exit", "water that leaves", BASES["exit"], told({(0, 0): (10_000, 0)}, outflow=8_000)),
    (
        "stays",
        "a height that stays: the first state that had it",
        drawn(pools(6, 50), 3 * SECOND, 2).text(7 * SECOND),
        told({WEST: (6_006, 3_000), EAST: (50, 0)}, steps=7),
    ),
    ("twice-as-high", "the same height again later: the first", slow_rain(2), told({WEST: (5_000, 0), EAST: (62, 2_000)}, soaked=2, steps=2)),
    ("and-higher", "and one µm more", slow_rain(3), told({WEST: (5_001, 3_000), EAST: (64, 3_000)}, soaked=3, steps=3)),
    (
        "between-updates",
        "a clock that is no multiple of the update time",
        quick_steps().text(SECOND),
        told({WEST: (400, 400), EAST: (90, 0)}, soaked=166, steps=3, clock=1_000),
    ),
    ("late-rain", "dry until rain comes", late_rain(), told({(0, 0): (555, 6_000), (0, 1): (555, 6_000)}, steps=8)),
    (
        "rows-and-columns",
        "each square its own number",
        square_by_square(),
        told({(0, 0): (7_000, 0), (0, 1): (7_001, 0), (1, 0): (7_002, 0), (1, 1): (7_003, 0)}, steps=0),
    ),
    ("walls", "every square closed", SHEETS["walls"], told({})),
    ("largest", "1,024 squares", SHEETS["largest"], told({(row, column): (5, 0) for row in range(32) for column in range(32)})),
    ("1025-squares", "one square too many", SHEETS["1025 squares"], refused_text(1, 0)),
    ("overflowing", "refused in its run: the refusal alone", SHEETS["overflowing"], refused_text(8, 0)),
    ("long", "65,536 bytes and no line", SHEETS["long"], refused_text(12, 1)),
    ("longer", "65,537 bytes", SHEETS["longer"], refused_text(12, 0)),
]


def hold_table(checks):
    """The program and the Python give each answer."""
    checks.hold(len({name for name, *_ in CASES}) == len(CASES), "two cases have one name")
    for name, words, sheet, answer in CASES:
        hold_both(checks, f"{name}, {words}", told_of(sheet), answered(sheet.encode("latin-1")), answer)


def totals_in(text):
    """What stands after the squares: the totals, or a refusal."""
    return [line for line in text.splitlines() if not line.startswith(DEPTH)]


def hold_damaged(checks, told_of, answered):
    """Of each damaged sheet what `meadow` prints, but for the squares of those that are whole: by a program and by the rule in Python."""
    for name, base, words, edits, answer in damaged.CASES:
        sheet, wanted = sheet_of(base, edits), answer_of(answer)
        program = told_of(sheet)
        checks.hold(totals_in(program) == totals_in(wanted), f"{name}, {words}: it prints {shortened(program)}")
        checks.hold(program == answered(sheet.encode("latin-1")), f"{name}, {words}: by the rule in Python it is something else")


def samples_told(checks, told_of, answered):
    """Of each sample the totals of its answer, by a program and by the rule in Python; then its path, what the program prints, and the answer."""
    sheets = sorted((TOP / "samples").glob("*.sheet"))
    checks.hold(sheets != [], "samples/ has no sheet")
    for path in sheets:
        program, answer = told_of(path.read_text(encoding="ascii")), path.with_suffix(".out").read_text(encoding="ascii")
        checks.hold(program == answered(path.read_bytes()), f"{path.name}: by the rule in Python it is something else")
        checks.hold(totals_in(program) == totals_in(answer), f"{path.name}: the totals are not meadow's")
        yield path, program, answer


def hold_samples(checks):
    """No square of a sample was ever lower than it ends."""
    for path, program, answer in samples_told(checks, told_of, answered):
        heights = [int(line.split("\t")[3]) for line in program.splitlines() if line.startswith(DEPTH)]
        ends = [depth for _, depth in sorted(Answer(answer).depths.items())]
        checks.hold(len(heights) == len(ends) and all(map(int.__ge__, heights, ends)), f"{path.name}: a square ends higher than it ever was")


# ---- random sheets

SEED, RANDOM_SHEETS = 114, 60


def random_cases(seed, many):
    """Random sheets: a name, the sheet, and the answer by document 02 in Python."""
    chance = random.Random(seed)
    for turn in range(many):
        sheet = random_sheet(chance, random_plan(chance))
        yield f"random-{turn}", sheet, answered(sheet.encode("ascii"))


def hold_random(checks, seed, many):
    """Program against Python; among the sheets are enough whose squares are highest neither at the start nor at the end."""
    between = 0
    for name, sheet, worked in random_cases(seed, many):
        program = told_of(sheet)
        checks.hold(program == worked, f"{name} of seed {seed}: {sheet!r}: it prints {shortened(program)}, not {shortened(worked)}")
        clocks = {line.split("\t")[-1] for line in worked.splitlines() if line.startswith(DEPTH)}
        between += bool(clocks - {"0", totals_in(worked)[-1].split("\t")[-1]})
    print(f"highest: of {many} random sheets {between} have a square that is highest neither at the start nor at the end")
    checks.hold(between >= many // 5, "the random sheets are too much of one kind")


# ---- what the gate holds the program to



def stored_text():
    """What the program prints in the gate, worked in Python."""
    return answered((TOP / "crates" / "highest" / "stdin").read_bytes())


def write_cases(folder):
    """Every case as a sheet and its answer."""
    cases = [(name, sheet, answer) for name, _, sheet, answer in CASES]
    for name, sheet, answer in (*cases, *random_cases(SEED + 1, 4 * RANDOM_SHEETS)):
        (folder / f"{name}.sheet").write_text(sheet, encoding="ascii")
        (folder / f"{name}.highest").write_text(answer, encoding="ascii")


def main():
    seed = seed_said("highest", SEED, stored_text, write_cases)
    if seed is None:
        return
    checks = Checks("highest")
    hold_table(checks)
    hold_damaged(checks, told_of, answered)
    hold_samples(checks)
    hold_random(checks, seed, RANDOM_SHEETS)
    hold_stored(checks, "highest", stored_text())
    checks.end()


if __name__ == "__main__":
    main()
