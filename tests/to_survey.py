"""Document 02, #104: the built `to_survey` writes the set that the plain Python gives, byte for byte, and `from_survey` brings the sheet back, of
every good sheet of tests/sets.py; damaged sheets are refused with their number and line, and so are names that are none and files that cannot be
written. Where it is refused nothing is written: no file is made, and one that was there has its bytes and its time.

`bin/test to_survey --seed N` makes other random sheets.
"""
import os
import shutil
import sys
import tempfile
from pathlib import Path

import damaged
import sets
from damaged_sets import BASE, MOST_FILE, SHEET
from meadow.counted import Checks
from meadow.programs import TOP, printed_often
from meadow.sheets.lines import refused_text
from meadow.surveys.sets import Set, moved_out
from printouts import shortened
from set_files import NOBODY, SetFiles, given_of, standing

CRATE = TOP / "crates" / "to_survey"
UNREAD = refused_text(12, 0)
# what stands in the five files before, longer than some of the texts and shorter than others
OLD = Set("old\n", "", "x" * MOST_FILE, "old\n", "9" * 300)


def hold_moved(checks, words, files, texts, told):
    """Nothing is printed, and the files are those of the set."""
    found = files.set_there()
    checks.hold(told == "", f"{words}: it prints {shortened(told)}")
    checks.hold(found == texts, f"{words}: the files are {shortened(str(found))}, not {shortened(str(texts))}")


def hold_refused(checks, words, files, given, answer, **how):
    """It prints the refusal, and everything in the folder is as it was."""
    before = standing(files.folder)
    told = files.moved_out(given, **how)
    checks.hold(told == answer, f"{words}: it prints {shortened(told)}, not {answer!r}")
    after = standing(files.folder)
    touched = sorted(path.name for path in before.keys() | after.keys() if before.get(path) != after.get(path))
    checks.hold(touched == [], f"{words}: written, or gone: {touched}")


# ---- sheets


def hold_good(checks, files, seed):
    """There and back byte for byte, into files that are not there and over files that are."""
    for at, (name, text) in enumerate(sets.good_sheets(seed)):
        files.cleared()
        if at % 2:
            files.put_set(OLD)
        files.put_sheet(text)
        hold_moved(checks, f"{name} of seed {seed}", files, moved_out(text), files.moved_out())
        told = files.moved_back()
        checks.hold(told == text, f"{name} of seed {seed} comes back as {shortened(told)}")
        checks.hold(files.paths["sheet"].read_bytes() == text.encode("ascii"), f"{name} of seed {seed}: the sheet was written")


def hold_damaged(checks, files):
    """Each sheet that is refused with its number and line, and nothing is written; the others are moved."""
    for name, words, text, refusal in sets.sheets_judged():
        files.cleared()
        files.put_sheet(text)
        if refusal is None:
            hold_moved(checks, f"{name}, {words}", files, moved_out(text), files.moved_out())
            continue
        hold_refused(checks, f"{name}, {words}", files, None, refused_text(*refusal))
    for name, words, text, refusal in sets.MORE_SHEETS:
        files.put_set(OLD)
        files.put_sheet(text)
        hold_refused(checks, f"{name}, {words}, over old files", files, None, refused_text(*refusal))


# ---- names


def unreadable(files):
    """What is tried, and the bytes at the standard input; the sheet is a good one, and each is refused by 12, line 0."""
    paths = files.names()
    whole = given_of(*paths)
    yield "nothing", b""
    yield "a newline", b"\n"
    yield "six blank names", b"\n" * 6
    yield "the sheet alone", given_of(paths[0])
    yield "five names", given_of(*paths[:5])
    yield "five names and a blank one", given_of(*paths[:5]) + b"\n"
    yield "the last without its newline", whole[:-1]
    yield "seven names", whole + given_of(files.folder / "more")
    yield "a seventh without its newline", whole + b"x"
    yield "a blank line after them", whole + b"\n"
    yield "a blank line before them", b"\n" + whole
    yield "very much more", whole + b"x" * 70_000
    yield "carriage returns", whole.replace(b"\n", b"\r\n")
    yield "no such sheet", given_of(*files.names(sheet=files.folder / "none"))
    yield "a folder for the sheet", given_of(*files.names(sheet=files.folder))
    yield "a sheet that opens and cannot be read", given_of(*files.names(sheet="/proc/self/mem"))
    (files.folder / "nowhere").unlink(missing_ok=True)
    (files.folder / "nowhere").symlink_to(files.folder / "no-such-folder" / "file")
    for kind in Set._fields:
        for words, other in (
            ("a folder", files.folder),
            ("a file in no folder", files.folder / "none" / "a"),
            ("a file in a file", paths[0] / "a"),
            ("a name too long for a folder", files.folder / ("n" * 256)),
            ("a link to nowhere", files.folder / "nowhere"),
            ("a nought in the name", f"{paths[-1]}\0"),
            ("a blank name", ""),
        ):
            yield f"{words} for the {kind}", given_of(*files.names(**{kind: other}))


def hold_names(checks, files):
    """Names that are none, where no file of the set is there and where all are."""
    files.put_sheet(SHEET)
    for old in (None, OLD):
        files.cleared()
        if old:
            files.put_set(old)
        for words, given in unreadable(files):
            hold_refused(checks, f"{words}, {'over old files' if old else 'no file there'}", files, given, UNREAD)
    checks.hold((files.folder / "nowhere").is_symlink(), "a link to nowhere was taken away")
    files.put_sheet(damaged.cut(4)(SHEET))
    given = given_of(*files.names(rate=files.folder))
    hold_refused(checks, "a sheet that is none, and a rate that cannot be written: the sheet first", files, given, refused_text(12, 4))


def hold_longest(checks, files):
    """A path as long as the system takes one, and one byte longer."""
    files.put_sheet(SHEET)
    folder, name = os.fsencode(files.folder), os.fsencode(files.paths["rate"].name)
    for more, answer in ((0, ""), (1, UNREAD)):
        files.cleared()
        path = folder + b"/" * (4_095 + more - len(folder) - len(name)) + name
        given = given_of(*files.names()[:-1]) + path + b"\n"
        if answer:
            hold_refused(checks, "a path one byte longer", files, given, answer)
        else:
            hold_moved(checks, "a longest path", files, BASE, files.moved_out(given))


def hold_same(checks, files):
    """Names that are the same: the files are written in their order, and the last text stands; a link is written through."""
    files.put_sheet(SHEET)
    files.cleared()
    told = files.moved_out(given_of(files.paths["sheet"], *[files.paths["note"]] * 5))
    found = files.paths["note"].read_text()
    checks.hold((told, found) == ("", BASE.rate), f"five times the same name: {told!r}, {found!r}")
    told = files.moved_out(given_of(*files.names(bed=files.paths["rate"])))
    checks.hold((told, files.paths["rate"].read_text()) == ("", BASE.rate), f"the rate's name for the bed: {told!r}")
    files.cleared()
    files.paths["bed"].symlink_to(files.folder / "linked")
    (files.folder / "linked").write_text("old")
    hold_moved(checks, "a link for the bed", files, BASE, files.moved_out())
    checks.hold(files.paths["bed"].is_symlink() and (files.folder / "linked").read_text() == BASE.bed, "a link is not written through")
    files.cleared()
    told = files.moved_out(given_of(*files.names(note=files.paths["sheet"])))
    files.paths["note"].write_text(files.paths["sheet"].read_text())
    hold_moved(checks, "the sheet's own name for the note: all of it was read before", files, BASE, told)


def hold_full(checks, files):
    """A file that takes nothing: what was written before it stands, nothing after it is, and it is told."""
    for at, kind in enumerate(Set._fields):
        files.cleared()
        files.put_set(OLD)
        files.put_sheet(SHEET)
        told = files.moved_out(given_of(*files.names(**{kind: "/dev/full"})))
        wanted = Set(*BASE[:at], *OLD[at:])
        checks.hold(told == UNREAD, f"a full disk for the {kind}: it prints {told!r}")
        checks.hold(files.set_there() == wanted, f"a full disk for the {kind}: the files are {shortened(str(files.set_there()))}")


def hold_rights(checks, files):
    """As nobody: a sheet without the right to read it, a file without the right to write it, and a folder without."""
    files.cleared()
    files.put_sheet(SHEET)
    try:
        files.folder.chmod(0o777)
        told = files.moved_out(**NOBODY)
    except OSError as fault:
        checks.skip("files that nobody may write", f"to_survey cannot be started by nobody: {fault}")
        return
    hold_moved(checks, "a folder that is everybody's", files, BASE, told)
    files.paths["sheet"].chmod(0)
    hold_refused(checks, "no right to read the sheet", files, None, UNREAD, **NOBODY)
    files.paths["sheet"].chmod(0o644)
    for kind in Set._fields:
        files.cleared()
        files.paths[kind].write_text("old")
        files.paths[kind].chmod(0o444)
        hold_refused(checks, f"no right to write the {kind}", files, None, UNREAD, **NOBODY)
    files.cleared()
    files.folder.chmod(0o555)
    hold_refused(checks, "no right to write in the folder", files, None, UNREAD, **NOBODY)
    files.folder.chmod(0o755)


# ---- what the gate holds the program to


def hold_stored(checks):
    """In a copy of its data, with its names: it prints nothing, as there is no stored output, and writes the set that from_survey has beside it."""
    names = (CRATE / "stdin").read_bytes()
    back = TOP / "crates" / "from_survey" / "data"
    checks.hold(not (CRATE / "stdout").exists(), "crates/to_survey has a stored output, and it prints nothing")
    with tempfile.TemporaryDirectory() as folder:
        room = Path(folder) / "data"
        shutil.copytree(CRATE / "data", room)
        told = printed_often("to_survey", names, cwd=room)
        sheet, *parts = names.decode("ascii").splitlines()
        texts = [(room / name).read_text(encoding="ascii") if (room / name).exists() else None for name in parts]
        checks.hold(told == b"" and tuple(texts) == moved_out((room / sheet).read_text(encoding="ascii")), f"in the gate: {told!r}, {texts}")
        checks.hold(texts == [(back / name).read_text(encoding="ascii") for name in parts], "crates/from_survey/data has another set")


def main():
    seed = int(sys.argv[2]) if sys.argv[1:2] == ["--seed"] else sets.SEED
    checks = Checks("to_survey")
    for hold, *more in ((hold_good, seed), (hold_damaged,), (hold_names,), (hold_longest,), (hold_same,), (hold_full,), (hold_rights,)):
        with tempfile.TemporaryDirectory() as folder:
            hold(checks, SetFiles(folder), *more)
    hold_stored(checks)
    checks.end()


if __name__ == "__main__":
    main()
