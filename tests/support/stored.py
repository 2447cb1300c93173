"""Holds the stored output of a program to the lines that were worked for it, and to what the built program prints."""
import sys

from meadow.counted import Checks
from meadow.programs import TOP, printed


def hold(name, text, more=None):
    """Line by line: what is stored is what was worked, and the built program prints it; `more` holds what else the test asks. With --write
    the file is written instead."""
    path = TOP / "crates" / name / "stdout"
    if sys.argv[1:] == ["--write"]:
        path.write_text(text, encoding="ascii")
        return
    checks = Checks(name)
    worked, stored = text.splitlines(), path.read_text(encoding="ascii").splitlines()
    for at, line in enumerate(worked):
        told = stored[at] if at < len(stored) else "nothing"
        checks.hold(told == line, f"line {at + 1} of the stored output is {told!r}, and document 01 gives {line!r}")
    checks.hold(len(stored) == len(worked), f"the stored output has {len(stored)} lines, and document 01 gives {len(worked)}")
    checks.hold(printed(name).decode("ascii") == text, "the built program prints something else")
    if more:
        more(checks)
    checks.end()
