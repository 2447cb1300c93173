"""Which run line suits which meadow (meadow.words.run_lines): figures worked by hand, the rule at the depths that it says stand still, faults
told just where they begin, the page's table of shortest steps, and the program `meadow` on ponds by run lines that are told and by those that suit."""
import subprocess
import sys
import tempfile
from pathlib import Path

from meadow.counted import Checks
from meadow.programs import TOP, meadow
from meadow.rule.weighing import WEIGHTED, weigh
from meadow.sheets.lines import MINUTE, Sheet
from meadow.words.run_lines import longest_shortest, pond_line, run_line_faults, still_up_to, suited

TOOL = TOP / "tools" / "tell.py"
LONG, THIN, AT_REST = "is long for", "every step is at most", "nearly at rest goes by the shortest step"
# side in m, roughness, deepest in µm: the shortest step to write; 10² · 500 / 160 / 3^(5/3) is 50.07 ms, 5² · 300 / 160 / 0.66^(5/3) is 93.7
BY_HAND = [
    ((10, 500, 3_000_000), 50),
    ((5, 300, 660_000), 50),
    ((20, 500, 3_000_000), 200),
    ((100, 350, 100_000), 500),
    ((1, 100, 50_000_000), 1),
    ((10, 350, 0), 500),
]


def pond(side=10, roughness=500, depth=3_000_000, **run):
    """Thirty squares in a row under level water, with an exit in the west that drains like a cliff."""
    sheet = Sheet(3, 30, side, **run)
    for column in range(30):
        sheet.put((1, column), 1_000_000, roughness, depth, "o" if column else "e")
    return sheet


# a sheet, and the fault that its run line has; None: none. Twice 50.07 ms are 100 ms; 1 cm stands still in 17 ms at n 0.025 in squares of 10 m
CASES = [
    (pond(), LONG),
    (pond(shortest=101, update=1_000), LONG),
    (pond(shortest=100, update=1_000), None),
    (pond(shortest=500, update=100), None),
    (pond(depth=0), None),
    (pond(depth=100_000), None),
    (pond(roughness=250, depth=1_000, shortest=17, longest=17), THIN),
    (pond(roughness=250, depth=1_000, shortest=18, longest=18), None),
    (pond(roughness=250, depth=1_000, shortest=1, longest=10_000, update=17), THIN),
    (pond(roughness=250, depth=1_000, tolerance=0, shortest=17), AT_REST),
    (pond(roughness=250, depth=1_000, tolerance=0, shortest=18), None),
    (pond(roughness=250, depth=1_000, tolerance=1, shortest=1), None),
]


def hold_by_hand(checks):
    """Shortest steps, and that each is the greatest of the round numbers that is not too long."""
    for given, shortest in BY_HAND:
        found = suited(*given)
        checks.hold(found == {"tolerance": 1, "shortest": shortest, "longest": 10_000, "update": 1_000}, f"{given} is suited by {found}")
        checks.hold(not given[2] or shortest in (1, 500) or shortest <= longest_shortest(*given) < 2.5 * shortest, f"{given} has a longer shortest step")


def hold_chosen(checks):
    """What make_sheet takes for the water of the start: the suited line where the sheet's own shortest step is too long for it, else nothing."""
    checks.hold(pond_line(pond()) == suited(10, 500, 3_000_000), "a deep pond does not get the line that suits it")
    checks.hold(pond_line(pond(shortest=50)) == {}, "a pond whose shortest step suits gets another line")
    checks.hold(pond_line(pond(depth=0)) == {} and pond_line(pond(depth=10_000)) == {}, "dry ground or a film gets a pond's line")


def hold_page(checks):
    """The table of shortest steps on the page is as the module has it, for n 0.035."""
    lines = (TOP / "docs" / "VALIDATION.md").read_text(encoding="utf-8").splitlines()
    at = next(number for number, line in enumerate(lines) if line.startswith("| side, m |"))
    heads, rows = (
        [[cell.strip() for cell in line.strip("|").split("|")] for line in lines[first:last]] for first, last in ((at, at + 1), (at + 2, at + 7))
    )
    depths = [round(1e6 * float(head.removesuffix(" m"))) for head in heads[0][1:]]
    checks.hold(len(depths) == 5, "the page has not five depths")
    for side, *cells in rows:
        found = [suited(int(side.split()[0]), 350, depth)["shortest"] for depth in depths]
        checks.hold(list(map(int, cells)) == found, f"the page has {cells} for squares of {side} m, and {found} suit")


def hold_still(checks):
    """On a slope of 1 in 1,000 nothing leaves water a twentieth thinner than is said, and something leaves water a twentieth deeper."""
    for side in (1, 5, 10, 50, 100):
        for roughness in (100, 350, 1_000):
            for ms in (1, 17, 500, 10_000):
                still = still_up_to(side, roughness, ms)
                leaves = [sum(weigh(side, round(share * still), 10**8, roughness, ms, [1_000 * side, 0, 0, 0], WEIGHTED)) for share in (0.95, 1.05)]
                checks.hold(leaves[0] == 0 < leaves[1], f"squares of {side} m, roughness {roughness}, {ms} ms: {still:.0f} µm are said to stand still")


def hold_faults(checks):
    """Each fault is said just where it begins, by `tell` too, and the run line that suits has none."""
    with tempfile.TemporaryDirectory() as room:
        text = Path(room) / "sheet"
        for at, (sheet, wanted) in enumerate(CASES):
            found = run_line_faults(sheet)
            right = found == [] if wanted is None else len(found) == 1 and wanted in found[0]
            checks.hold(right, f"case {at}: {found}")
            text.write_text(sheet.text(10 * sheet.run["update"]))
            said = subprocess.run([sys.executable, TOOL, text], capture_output=True, text=True).stdout
            checks.hold(all(f"likely a slip: line 2: {fault}\n" in said for fault in found), f"case {at}: tell does not say {found}")
            (square,) = {(values["roughness"], values["depth"]) for values in sheet.squares.values() if "depth" in values}
            sheet.run.update(suited(sheet.side, *square))
            checks.hold(run_line_faults(sheet) == [], f"case {at}: the run line that suits it has a fault")
    checks.hold(run_line_faults(Sheet(1, 1, 10)) == [], "a sheet that is all closed has a fault")


def hold_ponds(checks):
    """What is told is so: in a minute usual steps let less than three quarters out of a deep pond of what suited ones let out, and steps of
    1 ms less than half of thin water."""
    gone = lambda sheet: meadow(sheet.text(MINUTE)).out
    deep, thin = {"side": 5, "roughness": 350, "depth": 2_000_000}, {"side": 50, "roughness": 350, "depth": 50_000}
    for ground, run, most in ((deep, {}, 0.75), (thin, {"shortest": 1, "longest": 1}, 0.5)):
        bad, good = pond(**ground, **run), pond(**ground, **suited(*ground.values()))
        checks.hold(run_line_faults(bad) != [] and run_line_faults(good) == [], f"{ground}: the wrong one is told")
        checks.hold(gone(bad) < most * gone(good), f"{ground}: {gone(bad)} and {gone(good)} µm have gone")


def main():
    checks = Checks("run_lines")
    hold_by_hand(checks)
    hold_chosen(checks)
    hold_page(checks)
    hold_still(checks)
    hold_faults(checks)
    hold_ponds(checks)
    checks.end()


if __name__ == "__main__":
    main()
