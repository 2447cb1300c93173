"""python/flood gives what the library gives: series of steps, runs, take-backs and looks on samples are held to document 01 in plain Python, damaged
sheets to their answers, and refusals carry their numbers; depths come as arrays of numpy where there is one, and without. Where libflood.so cannot
be loaded, the words name the program instead. The crate rust/ passes its own tests, built offline by cargo.

`bin/test bindings --seed N` makes other series.
"""
import os
import random
import re
import subprocess
import sys
import tempfile
from pathlib import Path
from unittest import mock

import flood
from damaged import CASES, answer_of, sheet_of
from flood import library
from meadow.counted import Checks
from meadow.programs import TOP
from meadow.rule import bounds, sights, steps, take_back
from meadow.rule.refusals import Refused
from meadow.rule.world import rows_of
from meadow.sheets.lines import answer_text
from meadow.sheets.reading import meadow_of, read
from outward import ON_X86, built_by

SAMPLES = [TOP / "samples" / f"{name}.sheet" for name in ("document-01", "dry-weather", "held-pond", "soaking-meadow", "walled-evening")]
NOTEBOOK = TOP / "tests" / "support" / "notebook.py"
SEED, CALLS, KEPT = 43, 120, 5
LAST_CLOCK = 604_800_000
# limits that the program has and the library has not
OF_THE_PROGRAM = {"squares-over-1024", "bytes-65537"}
# Debian's own, which has the numpy of its package, whatever other python3 comes first on the path
DEBIANS = "/usr/bin/python3"


def outcome(call, *words):
    """What a call gives, or the number that refuses it."""
    try:
        return "gives", call(*words)
    except (Refused, flood.Refused) as refused:
        return "refused", refused.number


def told(meadow, worked):
    """All that can be seen of a meadow's state, by python/flood and by document 01."""
    seen = ([list(row) for row in meadow.depths], meadow.clock, meadow.outflow, meadow.soaked, meadow.kept)
    wanted = (rows_of(worked.depths, worked.columns), worked.clock, worked.outflow, worked.soaked, worked.kept)
    return seen, wanted


def run_by_rule(worked, end):
    """A run to an end by document 01, its refusal raised."""
    number, made = steps.run_to(worked, end)
    if number:
        raise Refused(number)
    return made


def arrow_by_rule(worked, row, column):
    """An arrow by document 01, as python/flood gives it."""
    kind, speeds = sights.arrow(worked, row, column)
    return speeds or kind


def wet_by_rule(worked, depth):
    """Wet rows and their count by document 01."""
    rows = [0] * worked.rows
    return (rows, sights.wet_rows(worked, depth, rows))


def one_call(chance, meadow, worked, update):
    """One call of each, chosen by chance: its name, and the two outcomes."""
    end = chance.choice([meadow.clock, meadow.clock // update * update + update, update * chance.randrange(4), 7, LAST_CLOCK + update])
    place = chance.randrange(meadow.rows + 1), chance.randrange(meadow.columns + 1)
    depth = chance.choice([0, 1, 1_000, 100_000_000, 100_000_001])
    kind = chance.choice(["step", "step", "step", "back", "back", "run", "arrow", "wet", "bounds", "table"])
    if kind == "step":
        return kind, outcome(meadow.step), outcome(steps.step, worked)
    if kind == "back":
        return kind, outcome(meadow.back), outcome(take_back.take_back, worked)
    if kind == "run":
        return kind, outcome(meadow.run_to, min(end, 20 * update)), outcome(run_by_rule, worked, min(end, 20 * update))
    if kind == "arrow":
        return kind, outcome(meadow.arrow, *place), outcome(arrow_by_rule, worked, *place)
    if kind == "wet":
        way, wet = outcome(meadow.wet_rows, depth)
        return kind, (way, (list(wet.rows), wet.count) if way == "gives" else wet), outcome(wet_by_rule, worked, depth)
    if kind == "bounds":
        return kind, outcome(meadow.bounds, end), outcome(bounds.step_bounds, worked, end)
    rows = [(*place, 0, LAST_CLOCK, chance.choice([0, 50, 2_000])) for _ in range(chance.choice([0, 1, 1, 2]))]
    meadow.inflow, worked.inflow = rows, [number for row in rows for number in row]
    return kind, [tuple(row) for row in meadow.inflow], rows


def hold_series(checks, path, chance):
    """A series of calls on a sample, each with the outcome and the state of document 01."""
    text = path.read_text(encoding="ascii")
    meadow = flood.Meadow.open(path, kept=KEPT)
    sheet, end = read(text)
    worked = meadow_of(sheet, KEPT)
    steps.fresh(worked)
    checks.hold(meadow.end == end and [tuple(row) for row in meadow.rain] == [tuple(row) for row in sheet.rain], f"{path.name} is read otherwise")
    checks.hold([list(row) for row in meadow.marks] == rows_of(worked.marks, worked.columns), f"{path.name}: other marks")
    for at in range(CALLS):
        kind, given, wanted = one_call(chance, meadow, worked, sheet.run["update"])
        checks.hold(given == wanted, f"{path.name}, call {at}, {kind}: {given}, and by document 01 {wanted}")
        seen, state = told(meadow, worked)
        if not checks.hold(seen == state, f"{path.name}, call {at}, {kind}: another state than document 01's"):
            return


def answer_by_library(text):
    """What python/flood answers to a sheet, as `meadow` prints it."""
    meadow = flood.Meadow(text, kept=1)
    made = meadow.run_to(meadow.end)
    places = ((row, column) for row in range(meadow.rows) for column in range(meadow.columns))
    depths = {(row, column): meadow.depths[row][column] for row, column in places if meadow.marks[row][column]}
    return answer_text(depths, {"outflow": meadow.outflow, "soaked": meadow.soaked, "steps": made, "clock": meadow.clock})


def hold_sheets(checks):
    """Samples and damaged sheets: what `meadow` prints of each, and its number and line as an exception."""
    for path in sorted((TOP / "samples").glob("*.sheet")):
        wanted = path.with_suffix(".out").read_text(encoding="ascii")
        checks.hold(flood.printed(path.read_bytes()) == wanted, f"{path.name}: printed otherwise")
        checks.hold(answer_by_library(path.read_bytes()) == wanted, f"{path.name}: other depths")
    for name, base, _, edits, answer in CASES:
        text, wanted = sheet_of(base, edits), answer_of(answer)
        checks.hold(flood.printed(text) == wanted, f"{name}: printed otherwise")
        if name in OF_THE_PROGRAM:
            continue
        try:
            given = answer_by_library(text)
        except flood.Refused as refused:
            given = f"refused\t{refused.number}\t{refused.line}\n"
        checks.hold(given == wanted, f"{name}: {given!r}, not {wanted!r}")


def raised(kind, call, *words):
    """Whether a call raises an error of this kind; its words."""
    try:
        call(*words)
    except kind as error:
        return str(error)
    return None


def hold_refusals(checks):
    """What is refused leaves all as it was, and what is no number of its kind does not get to the library."""
    meadow = flood.Meadow.open(SAMPLES[0], kept=2)
    meadow.step(2)
    before = [list(row) for row in meadow.depths]
    checks.hold(outcome(meadow.back, 3) == ("refused", 10) and meadow.kept == 2, "three steps taken back where two are kept")
    checks.hold([list(row) for row in meadow.depths] == before, "a refused take-back leaves a mark")
    checks.hold(raised(OverflowError, meadow.wet_rows, 1 << 32) and raised(OverflowError, meadow.run_to, -1), "a number is cut to its lowest bits")
    checks.hold(raised(ValueError, setattr, meadow, "inflow", [(0, 0, 5)]), "an inflow row of three numbers is taken")
    meadow.inflow = [(9, 9, 0, 1, 1)]
    checks.hold(outcome(meadow.step) == ("refused", 4), "an inflow off the grid is taken")
    checks.hold(outcome(flood.Meadow, SAMPLES[0].read_bytes(), 0) == ("refused", 6), "a meadow without room for a record is taken")
    meadow.inflow = [(0, 0, 0, LAST_CLOCK, 30_000)]
    try:
        meadow.run_to(LAST_CLOCK)
    except flood.Refused as refused:
        checks.hold(refused.number == 8 and refused.steps > 0 and "100,000,000" in str(refused), f"a run refused on its way says {refused}")


def looked_at(around):
    """What a notebook shows of the first sample, with these things around it."""
    done = subprocess.run([DEBIANS, NOTEBOOK, SAMPLES[0]], env={**os.environ, **around}, capture_output=True, text=True)
    return done.stdout.splitlines() or [done.stderr]


def hold_arrays(checks):
    """Depths as rows, by Debian's numpy, whose arrays can be subtracted whole, and by a Python that has none."""
    with tempfile.TemporaryDirectory() as folder:
        (Path(folder) / "numpy.py").write_text("raise ImportError\n")
        for name, around, kind, least in (("with", {}, "numpy", "-31"), ("without", {"PYTHONPATH": folder}, "builtins", "None")):
            shown = looked_at(around)
            checks.hold(shown == [f"{kind} 1 2", "[[969, 31]]", "-31", least, "969", "[1] 1"], f"{name} numpy a notebook shows {shown}")
    evening = subprocess.run([DEBIANS, "examples/evening.py", SAMPLES[-1]], cwd=TOP, capture_output=True, text=True)
    checks.hold(evening.stdout == SAMPLES[-1].with_suffix(".out").read_text(), f"the evening ends with other depths; {evening.stderr[-300:]!r}")


def hold_elsewhere(checks):
    """Where there is no library, what to run instead."""
    with mock.patch("platform.machine", return_value="aarch64"):
        words = raised(flood.NoLibrary, library.functions.__wrapped__)
    checks.hold(words and "this machine is aarch64" in words and "bin/meadow SHEET" in words, f"on another machine: {words}")
    with mock.patch.dict(os.environ, {"FLOOD_LIBRARY": "/nowhere/libflood.so"}):
        words = raised(flood.NoLibrary, library.path)
    checks.hold(words and "/nowhere/libflood.so" in words and "bin/meadow SHEET" in words, f"with no library: {words}")


def hold_rust(checks):
    """What cargo says of the crate's tests."""
    _, _, around = built_by()
    places = {"FLOOD_LIB": TOP / "target" / "flood", "CARGO_TARGET_DIR": TOP / "target" / "outside" / "cargo"}
    words = ["cargo", "test", "--offline", "--locked", "--manifest-path", TOP / "rust" / "Cargo.toml", "--test", "calls"]
    told = subprocess.run(words, env={**os.environ, **places, **around}, stdin=subprocess.DEVNULL, capture_output=True, text=True)
    passed = re.search(r"^test result: ok\. (\d+) passed; 0 failed; 0 ignored", told.stdout, re.M)
    checks.hold(passed and int(passed[1]) > 0 and told.returncode == 0, f"cargo test: {told.stdout[-1000:]}{told.stderr[-1000:]}")


def main():
    checks = Checks("bindings")
    seed = int(sys.argv[2]) if sys.argv[1:2] == ["--seed"] else SEED
    hold_elsewhere(checks)
    made = subprocess.run([TOP / "bin" / "release", "--library"], stdin=subprocess.DEVNULL, capture_output=True, text=True)
    if checks.hold(made.returncode == 0, f"bin/release --library: {made.stderr}"):
        hold_rust(checks)
        if ON_X86:
            for path in SAMPLES:
                hold_series(checks, path, random.Random(f"{seed} {path.name}"))
            for part in (hold_sheets, hold_refusals, hold_arrays):
                part(checks)
    checks.end()


if __name__ == "__main__":
    main()
