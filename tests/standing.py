"""tools/standing.py on small ponds that are worked by hand, and on the samples."""
import subprocess
import sys
import tempfile
from pathlib import Path

from meadow.counted import Checks
from meadow.programs import TOP
from meadow.rule.weighing import EDITIONS, WEIGHTED
from meadow.sheets.lines import SECOND, Sheet, answer_text

TOOL = TOP / "tools" / "standing.py"
# Beds and depths of three squares in a row, D 10, roughness 300, steps of 1000 ms; the edge slope where the middle square is an exit; then
# the squares that stand, each with its least and greatest drop.
ROWS = [
    # Vmin 1, T 300,002: the total 1 gives 1·300,000/300,002 = 0 to the steep side
    ("1 µm down one way, 30 cm the other", (0, 0, 0), (999_999, 1_000_000, 700_000), None, [(1, 1, 300_000)]),
    # Vmin 2, T 300,004: the total 2 gives 2·300,000/300,004 = 1
    ("2 µm down one way, 30 cm the other", (0, 0, 0), (999_998, 1_000_000, 700_000), None, []),
    # one drop of 1: T 2, the total 1 gives 1·1/2 = 0
    ("1 µm down", (0, 0, 0), (1_000_000, 1_000_000, 999_999), None, [(1, 1, 1)]),
    ("level", (0, 1_000, 5_000), (9_000, 8_000, 4_000), None, []),
    # h 21, s 4: 100·21·4/300 = 28 µm/s, and m is 28·1000·101/10^10 = 0, so it is the speed that keeps it
    ("thin water", (1, 1, 0), (100, 101, 100), None, []),
    # h 785, s 3: 785 µm/s, which is 0 in whole mm/s; m 1, of T 2 and VM 1 a total of 2, which gives 1, but Vmin 1 gives 1·1/2 = 0
    ("slow water, 1 µm down", (0, 0, 0), (22_000, 22_000, 21_999), None, [(1, 1, 1)]),
    # north and south lie off the grid, with drops of 300,000 and not of 1,000,000
    ("an exit, 1 µm down one way", (0, 0, 0), (1_000_000, 1_000_000, 999_999), 300, [(1, 1, 300_000)]),
    ("an exit that lets nothing out, 1 µm down one way", (0, 0, 0), (1_000_000, 1_000_000, 999_999), 0, [(1, 1, 1)]),
    ("an exit in level water", (0, 0, 0), (1_000_000, 1_000_000, 1_000_000), 300, []),
]


def told(sheet, answer):
    return subprocess.run([sys.executable, TOOL, sheet, answer], capture_output=True, text=True)


def pond(beds, depths, edge, edition=1):
    """Three squares in a row, before any step."""
    sheet = Sheet(1, 3, 10, tolerance=0, shortest=SECOND, longest=SECOND, update=SECOND, edge=edge or 0, edition=edition)
    for column, (bed, depth) in enumerate(zip(beds, depths)):
        sheet.put((0, column), bed, 300, depth, "e" if column == 1 and edge is not None else "o")
    return sheet.text(0)


def answered(depths):
    """The answer that leaves them as they are."""
    return answer_text({(0, column): depth for column, depth in enumerate(depths)}, {"outflow": 0, "soaked": 0, "steps": 0, "clock": 0})


def expected(depths, standing):
    lines = [f"standing\t{len(standing)}", f"steep\t{sum(greatest >= 1_000 for _, _, greatest in standing)}"]
    lines += [f"square\t0\t{column}\t{depths[column]}\t{least}\t{greatest}" for column, least, greatest in standing]
    return "".join(line + "\n" for line in lines)


def hold_ponds(checks, room):
    """Each row as worked by hand; without the limit Vmin + P, in editions 2 and 3, no square stands."""
    for name, beds, depths, edge, standing in ROWS:
        sheet, answer = Path(room) / "sheet", Path(room) / "out"
        answer.write_text(answered(depths))
        for edition in EDITIONS:
            sheet.write_text(pond(beds, depths, edge, edition))
            wanted = expected(depths, standing if edition == WEIGHTED else [])
            checks.hold(told(sheet, answer).stdout == wanted, f"{name}, edition {edition}: not as worked by hand")


def hold_samples(checks):
    """The held pond stands at its mouth; an answer to another sheet is no answer."""
    samples = TOP / "samples"
    held = told(samples / "held-pond.sheet", samples / "held-pond.out").stdout.splitlines()
    checks.hold(held[:2] == ["standing\t22", "steep\t1"] and held[2].startswith("square\t3\t6\t"), "the held pond")
    other = told(samples / "held-pond.sheet", samples / "document-01.out")
    checks.hold(other.returncode == 1 and "no depth for square 1 1" in other.stderr, "another sheet's answer is taken")


def main():
    checks = Checks("standing")
    with tempfile.TemporaryDirectory() as room:
        hold_ponds(checks, room)
    hold_samples(checks)
    checks.end()


if __name__ == "__main__":
    main()
