"""What programs print, held to documents 01 and 02 in Python, and the words that such a test takes: --seed N makes other random cases, --write
writes the program's stored output, and --write FOLDER every case there, for other tests to read."""
import sys
from pathlib import Path

from meadow.programs import TOP


def shortened(text):
    """A text to be shown, cut where it is long."""
    return repr(text) if len(text) < 600 else f"{text[:300]!r} .. {text[-300:]!r}, {len(text)} letters"


def hold_both(checks, words, program, worked, answer):
    """The program and the Python both give an answer that was worked by hand."""
    checks.hold(program == answer, f"{words}: it prints {shortened(program)}, not {shortened(answer)}")
    checks.hold(worked == answer, f"{words}: by document 02 it is {shortened(worked)}, not {shortened(answer)}")


def hold_stored(checks, name, text):
    """What the gate holds a program to is what was worked in Python."""
    path = TOP / "crates" / name / "stdout"
    if checks.hold(path.exists(), f"crates/{name} has no stored output"):
        checks.hold(path.read_text(encoding="ascii") == text, f"the stored output of {name} is not what document 02 gives")


def seed_said(name, usual, stored_text, write_cases):
    """The seed of the random cases, the usual one where none is said; None where something was written instead."""
    if sys.argv[1:] == ["--write"]:
        (TOP / "crates" / name / "stdout").write_text(stored_text(), encoding="ascii")
    elif sys.argv[1:2] == ["--write"]:
        write_cases(Path(sys.argv[2]))
    else:
        return int(sys.argv[2]) if sys.argv[1:2] == ["--seed"] else usual
    return None
