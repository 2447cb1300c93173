"""The program `hours_wet`: sheets with the time for which each square was wet, worked by hand; the damaged sheets, refused as by `meadow`; the
samples; and random sheets. The built program and the rule in Python give the same, and the totals are `meadow`'s. What the gate holds the program
to is worked anew too.

`bin/test hours_wet --seed N` makes other random sheets; `bin/test hours_wet --write` writes the program's stored output, and `--write FOLDER` each
sheet with its answer there, random ones too, for other tests to read.
"""
import random

from damaged import BASES
from drowned import EAST, FAST_SOIL, SHEETS, WEST, drawn, pools, random_plan, random_sheet
from highest import hold_damaged, samples_told
from meadow.counted import Checks
from meadow.peaks.hours import WET, answered, hours_of
from meadow.programs import TOP, printed
from meadow.sheets.lines import SECOND, Answer, Unreadable, answer_text, refused_text
from printouts import hold_both, hold_stored, seed_said, shortened

# ---- sheets


def soaking(west):
    """Four seconds of a pool whose soil takes 277 µm in the first and 278 in each other, beside one of 1 cm that stays."""
    return pools(west, WET, rate=FAST_SOIL).text(4 * SECOND)


def filled_again():
    """A pool that soaks below 1 cm, is filled above it by a hatch in the fourth second, and soaks below it again in the sixth."""
    sheet = pools(10_500, 60, rate=FAST_SOIL)
    sheet.inflow.append((*WEST, 3 * SECOND, 4 * SECOND, 1))
    return sheet.text(6 * SECOND)


def uneven_steps(west):
    """Steps of 400, 400 and 200 ms, and soil that takes 111 µm in each of the first two."""
    return pools(west, WET, rate=FAST_SOIL, shortest=400, longest=400).text(SECOND)


# ---- what is printed


def told(times, soaked=0, outflow=0, steps=1, clock=None):
    """The answer of times by place and of the totals; steps of one second are as many as its seconds."""
    return answer_text(times, {"outflow": outflow, "soaked": soaked, "steps": steps, "clock": steps * SECOND if clock is None else clock})


def told_of(sheet):
    """What the built program prints of a sheet."""
    return printed("hours_wet", sheet.encode("latin-1")).decode("ascii")


# ---- the table: a name, what is tried, the sheet, and what is printed
CASES = [
    ("one-cm", "1 cm is wet, 1 µm less is not", pools(WET, WET - 1).text(3 * SECOND), told({WEST: 3_000, EAST: 0}, steps=3)),
    ("soaks-to-one-cm", "1 cm at a step's end", soaking(10_555), told({WEST: 2_000, EAST: 4_000}, soaked=1_111, steps=4)),
    ("soaks-below", "1 µm below it at that end", soaking(10_554), told({WEST: 1_000, EAST: 4_000}, soaked=1_111, steps=4)),
    ("the-start-alone", "the depth before a step does not count", soaking(10_276), told({WEST: 0, EAST: 4_000}, soaked=1_111, steps=4)),
    (
        "filled",
        "dry before its first step, 1 cm deep at its end: the whole step counts",
        drawn(pools(9_000, 50), SECOND, 1).text(2 * SECOND),
        told({WEST: 2_000, EAST: 0}, steps=2),
    ),
    ("twice", "wet, dry, and wet again: both times", filled_again(), told({WEST: 3_000, EAST: 0}, soaked=1_666, steps=6)),
    ("uneven-first", "steps of different length: the first", uneven_steps(10_111), told({WEST: 400, EAST: 1_000}, soaked=277, steps=3, clock=SECOND)),
    ("uneven-second", "the first two", uneven_steps(10_222), told({WEST: 800, EAST: 1_000}, soaked=277, steps=3, clock=SECOND)),
    ("uneven-all", "all three", uneven_steps(10_277), told({WEST: 1_000, EAST: 1_000}, soaked=277, steps=3, clock=SECOND)),
    ("no-step", "a run without a step, deep as its squares are", SHEETS["at once"], told({WEST: 0, EAST: 0}, steps=0)),
    ("never-wet", "never any water", SHEETS["dry"], told({WEST: 0, EAST: 0})),
    ("full", "as deep as may be", SHEETS["full"], told({WEST: 1_000, EAST: 1_000})),
    ("document-01", "the first step that document 01 works", BASES["document 01"], told({(0, 0): 0, (0, 1): 0})),
    ("walls", "every square closed", SHEETS["walls"], told({})),
    ("largest", "1,024 squares", SHEETS["largest"], told({(row, column): 0 for row in range(32) for column in range(32)})),
    ("1025-squares", "one square too many", SHEETS["1025 squares"], refused_text(1, 0)),
    ("overflowing", "refused in its run: the refusal alone", SHEETS["overflowing"], refused_text(8, 0)),
    ("long", "65,536 bytes and no line", SHEETS["long"], refused_text(12, 1)),
    ("longer", "65,537 bytes", SHEETS["longer"], refused_text(12, 0)),
]


def hold_table(checks):
    """The program and the Python give each answer."""
    checks.hold(len({name for name, *_ in CASES}) == len(CASES), "two cases have one name")
    for name, words, sheet, answer in CASES:
        hold_both(checks, f"{name}, {words}", told_of(sheet), answered(sheet.encode("latin-1")), answer)


def hold_samples(checks):
    """Each square of a sample that is wet at its end has been for some time."""
    for path, program, answer in samples_told(checks, told_of, answered):
        times = hours_of(path.read_text(encoding="ascii"), program).times
        wet = [place for place, deep in Answer(answer).depths.items() if deep >= WET]
        checks.hold(all(times[place] > 0 for place in wet), f"{path.name}: a square that ends wet never was")


def hold_another(checks):
    """What is no answer to a sheet is not read as one."""
    sheet = pools(WET, WET - 1).text(3 * SECOND)
    checks.hold(hours_of(sheet, told({WEST: 3_000, EAST: 0}, steps=3)).wet() == {WEST: 3_000}, "other squares are wet")
    for what, text in (
        ("another clock", told({WEST: 2_000, EAST: 0}, steps=2)),
        ("a square less", told({WEST: 3_000}, steps=3)),
        ("longer than the run", told({WEST: 3_001, EAST: 0}, steps=3)),
        ("a refusal", refused_text(12, 1)),
        ("cut off", told({WEST: 3_000, EAST: 0}, steps=3)[:-1]),
    ):
        try:
            checks.hold(False, f"{what}: it is read as {hours_of(sheet, text)}")
        except Unreadable:
            checks.hold(True, what)


# ---- random sheets

SEED, RANDOM_SHEETS = 38, 80


def random_cases(seed, many):
    """Random sheets: a name, the sheet, and the answer by the rule in Python."""
    chance = random.Random(seed)
    for turn in range(many):
        sheet = random_sheet(chance, random_plan(chance))
        yield f"random-{turn}", sheet, answered(sheet.encode("ascii"))


def wet_for_a_part(worked):
    """Whether an answer has a square that is wet for a part of the run only."""
    return not worked.startswith("refused") and any(0 < time < Answer(worked).clock for time in Answer(worked).depths.values())


def hold_random(checks, seed, many):
    """Program against Python; among the sheets are enough with a square that is wet for a part of the run, and some that are refused."""
    part = refused = 0
    for name, sheet, worked in random_cases(seed, many):
        program = told_of(sheet)
        checks.hold(program == worked, f"{name} of seed {seed}: {sheet!r}: it prints {shortened(program)}, not {shortened(worked)}")
        part += wet_for_a_part(worked)
        refused += worked.startswith("refused")
    print(f"hours_wet: of {many} random sheets {part} have a square that is wet for a part of the run, {refused} are refused")
    checks.hold(part >= many // 8 and refused > 0, "the random sheets are too much of one kind")


# ---- what the gate holds the program to


def stored_text():
    """What the program prints in the gate, worked in Python."""
    return answered((TOP / "crates" / "hours_wet" / "stdin").read_bytes())


def hold_apart(checks):
    """No two squares of the stored sheet are wet for as long: a number that is another square's shows."""
    times = list(Answer(stored_text()).depths.values())
    checks.hold(len(set(times)) == len(times) and 0 in times, f"the stored times are {times}")


def write_cases(folder):
    """Every case as a sheet and its answer."""
    cases = [(name, sheet, answer) for name, _, sheet, answer in CASES]
    for name, sheet, answer in (*cases, *random_cases(SEED + 1, 4 * RANDOM_SHEETS)):
        (folder / f"{name}.sheet").write_text(sheet, encoding="ascii")
        (folder / f"{name}.hours").write_text(answer, encoding="ascii")


def main():
    seed = seed_said("hours_wet", SEED, stored_text, write_cases)
    if seed is None:
        return
    checks = Checks("hours_wet")
    hold_table(checks)
    hold_damaged(checks, told_of, answered)
    hold_samples(checks)
    hold_another(checks)
    hold_random(checks, seed, RANDOM_SHEETS)
    hold_stored(checks, "hours_wet", stored_text())
    hold_apart(checks)
    checks.end()


if __name__ == "__main__":
    main()
