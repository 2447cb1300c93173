#!/usr/bin/env python3
"""run.py [--long] [PART ..]: works the figures of docs/FIGURES.md with the proved programs and prints them.

Without --long it is the short form that the gate runs. It fails where a claim of a part does not hold, where a row of a table that it
prints does not stand in the part's section of the page and, in the long form, where the page has a row that was not printed.
"""
import os
import sys
from pathlib import Path

sys.path.insert(0, str(Path(__file__).resolve().parent.parent / "python"))

import analytical_wave
import basin
import beach
import ditch_mouth
import drained_plane
import editions
import lake
import long_step
import loss_rate
import plane_wetting
import pond
import rain_terrain
import soaking
import thin_water
import turns
import update_time
import walls
import wetting_front
import which_steps
from meadow.counted import Checks
from meadow.programs import TOP, ended
from shared import Wrong

PAGE = TOP / "docs" / "FIGURES.md"
PARTS = {
    "wave": analytical_wave,
    "update": update_time,
    "lake": lake,
    "basin": basin,
    "turns": turns,
    "walls": walls,
    "pond": pond,
    "thin": thin_water,
    "mouth": ditch_mouth,
    "step": long_step,
    "editions": editions,
    "soak": soaking,
    "front": wetting_front,
    "plane": plane_wetting,
    "beach": beach,
    "terrain": rain_terrain,
    "drain": drained_plane,
    "loss": loss_rate,
    "lines": which_steps,
}


def page_rows(name):
    """The rows of the tables in a part's section of the page, which begins with the part's command."""
    rows, inside = set(), False
    for line in PAGE.read_text(encoding="utf-8").splitlines():
        if line == f"`python3 validation/run.py --long {name}`":
            inside = True
        elif line.startswith("#"):
            inside = False
        elif inside and line.startswith("|"):
            rows.add(line)
    return rows


def worked():
    """Seconds of processor time that this program and the runs that it started have taken."""
    times = os.times()
    return times.user + times.system + times.children_user + times.children_system


def run_part(name, long, checks):
    """Prints a part's figures, and holds each row of its tables to the page."""
    print(f"\n### {name}: {PARTS[name].__doc__.splitlines()[0]}\n")
    told, printed = page_rows(name), set()
    try:
        for line in PARTS[name].figures(long):
            print(line, flush=True)
            if line.startswith("|"):
                printed.add(line)
                checks.hold(line in told, f"{name}: not in docs/FIGURES.md: {line}")
        checks.hold(printed != set(), f"{name}: no figure was printed")
    except Wrong as fault:
        checks.hold(False, f"{name}: {fault}")
    for row in sorted(told - printed) if long else []:
        checks.hold(False, f"{name}: in docs/FIGURES.md, but not printed: {row}")


def main():
    words = sys.argv[1:]
    long = "--long" in words
    asked = [word for word in words if word != "--long"] or list(PARTS)
    unknown = [name for name in asked if name not in PARTS]
    if unknown:
        print(f"validation: no part {unknown[0]}; there are {', '.join(PARTS)}", file=sys.stderr)
        return 2
    checks = Checks("validation")
    for name in asked:
        begun = worked()
        run_part(name, long, checks)
        print(f"validation: {name}: {worked() - begun:.0f} s of processor time", file=sys.stderr)
    print()
    checks.end()


if __name__ == "__main__":
    ended(main, "validation")
