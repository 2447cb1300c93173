"""Document 02, #104: the built `from_survey` gives the sheet that the plain Python gives, or its number and line: of every set of tests/sets.py,
damaged ones and those from elsewhere among them, of files at their longest, and of names that are none.

`bin/test from_survey --seed N` makes other random sets; `--write` writes the program's stored output.
"""
import os
import sys
import tempfile
from pathlib import Path

import damaged_sets
import sets
from damaged_sets import BASE, SHEET
from meadow.counted import Checks
from meadow.programs import TOP
from meadow.sheets.lines import refused_text
from meadow.surveys.sets import Set, moved_back, named_back
from printouts import hold_both, hold_stored, shortened
from set_files import NOBODY, SetFiles, given_of, standing

CRATE = TOP / "crates" / "from_survey"
UNREAD = refused_text(12, 0)


def hold_table(checks, files):
    """Each damaged set with its number and line, each whole one with its sheet, and those worked by hand."""
    cases = [(f"{name}, {words}", texts, answer) for name, words, texts, answer in damaged_sets.table()]
    cases += [(f"worked set {at}", texts, answer) for at, (texts, answer) in enumerate(sets.BACK)]
    cases += [(f"moved set {at}", texts, sheet) for at, (sheet, texts) in enumerate(sets.MOVED)]
    for words, texts, answer in cases:
        files.put_set(texts)
        told, wanted = files.moved_back(), sets.text_told(answer)
        checks.hold(told == wanted, f"{words}: it prints {shortened(told)}, not {shortened(wanted)}")


def hold_odd(checks, files, seed):
    """Sets from elsewhere, and sets with slips, as the Python has them."""
    for name, texts, _ in sets.odd_sets(seed):
        files.put_set(texts)
        told, wanted = files.moved_back(), sets.text_told(sets.outcome(moved_back, texts))
        checks.hold(told == wanted, f"{name} of seed {seed}: it prints {shortened(told)}, and by document 02 it is {shortened(wanted)}")


def names_of(files):
    """What is tried, the bytes at the standard input, and what is printed; the files are the base set's."""
    paths = files.names()[1:]
    whole = given_of(*paths)
    one, folder, name = os.fsencode(paths[0]), os.fsencode(files.folder), os.fsencode(paths[0].name)
    slashes = 4_095 - len(folder) - len(name)
    rest = given_of(*paths[1:])
    swapped = given_of(paths[0], paths[2], paths[1], *paths[3:])
    yield "five names", whole, SHEET
    yield "a longest path", folder + b"/" * slashes + name + b"\n" + rest, SHEET
    yield "a path one byte longer", folder + b"/" * (slashes + 1) + name + b"\n" + rest, UNREAD
    yield "bed and depth in each other's places", swapped, refused_text(3, 0)
    yield "the note for each of them", given_of(*[paths[0]] * 5), refused_text(12, 1)
    yield "the bed for each grid", given_of(paths[0], *[paths[1]] * 4), refused_text(12, 7)
    yield "nothing", b"", UNREAD
    yield "five blank names", b"\n" * 5, UNREAD
    yield "four names", given_of(*paths[:4]), UNREAD
    yield "the last without its newline", whole[:-1], UNREAD
    yield "six names", whole + one + b"\n", UNREAD
    yield "a sixth without its newline", whole + b"x", UNREAD
    yield "a blank line after them", whole + b"\n", UNREAD
    yield "a blank line before them", b"\n" + whole, UNREAD
    yield "very much more", whole + b"x" * 70_000, UNREAD
    yield "carriage returns", whole.replace(b"\n", b"\r\n"), UNREAD
    yield "a nought in a name", one + b"\0\n" + rest, UNREAD
    for at, path in enumerate(paths):
        for words, other in (("no such file", files.folder / "none"), ("a folder", files.folder), ("no reading", "/proc/self/mem"), ("in a file", path / "a")):
            yield f"{words} for the {Set._fields[at]}", given_of(*paths[:at], other, *paths[at + 1 :]), UNREAD


def hold_names(checks, files):
    """Names that cannot be opened are 12, line 0, before anything is read, and no file is touched."""
    files.put_set(BASE)
    before = standing(files.folder)
    for words, given, answer in names_of(files):
        hold_both(checks, words, files.moved_back(given), named_back(given), answer)
    checks.hold(standing(files.folder) == before, "a file is another after the names")
    files.put_set(BASE._replace(note=""))
    given = given_of(*files.names(rate=files.folder / "none")[1:])
    hold_both(checks, "no rate, and a note that is none", files.moved_back(given), named_back(given), UNREAD)


def hold_rights(checks, files):
    """A file that nobody may read is 12, line 0."""
    files.put_set(BASE)
    try:
        whole = files.moved_back(**NOBODY)
    except OSError as fault:
        checks.skip("files that nobody may read", f"from_survey cannot be started by nobody: {fault}")
        return
    checks.hold(whole == SHEET, f"as nobody: {shortened(whole)}")
    for kind in Set._fields:
        files.paths[kind].chmod(0)
        told = files.moved_back(**NOBODY)
        files.paths[kind].chmod(0o644)
        checks.hold(told == UNREAD, f"no right to read the {kind}: {shortened(told)}")


def stored_text():
    """What the program prints in the gate, of the files beside it, worked in Python."""
    names = (CRATE / "stdin").read_text(encoding="ascii").splitlines()
    return moved_back(Set(*((CRATE / "data" / name).read_text(encoding="ascii") for name in names)))


def main():
    if sys.argv[1:] == ["--write"]:
        (CRATE / "stdout").write_text(stored_text(), encoding="ascii")
        return
    seed = int(sys.argv[2]) if sys.argv[1:2] == ["--seed"] else sets.SEED
    checks = Checks("from_survey")
    with tempfile.TemporaryDirectory() as folder:
        files = SetFiles(Path(folder))
        hold_table(checks, files)
        hold_odd(checks, files, seed)
        hold_names(checks, files)
        hold_rights(checks, files)
    hold_stored(checks, "from_survey", stored_text())
    checks.end()


if __name__ == "__main__":
    main()
