"""tools/why.py with a set, and the lines of sense of bin/to_survey and bin/from_survey: over every damaged set and sheet of the survey office's
tables the words are found, name the right file and the right line, and say what stands there and what to write."""
import subprocess
import sys
import tempfile
from pathlib import Path

import damaged_sets
import sets
from damaged_sets import BASE, SHEET, of, square
from meadow.counted import Checks
from meadow.programs import TOP
from meadow.surveys.set_reasons import moving_reasons, set_reasons
from meadow.surveys.sets import GRIDS, Set, set_paths
from meadow.words.reasons import NOT_FOUND

FILES = set_paths("office", "mill")
BED, NOTE, DEPTH = (f"the {part} {FILES[part]}" for part in ("bed", "note", "depth"))
# what is tried, as the table of damaged sets has it, and the first words of all that is said of it
SAID = {
    "the note: the sheet for the note": "line 3: a note's line ends after its mark: take away 1000001→100→50→36",
    "the note: a tab after a mark": "line 4: it has a tab too many at its end: delete it",
    "the note: a large mark": "line 5: the mark E is in upper case: write e",
    "the note: another row": "line 6: row 1, column 0 is due here: write the squares row by row",
    "the note: the last square gone": "line 8: row 1, column 2 is missing: say it before the first rain line",
    "the note: a remark between the squares": "line 5: it has a space for a tab: part fields by one tab",
    "the note: cut before line 6": "line 6: the note ends before it, after 5 lines; row 1, column 0 is missing",
    "the note: no column said": "line 3: line 1 says 2 rows and 0 columns: mend line 1",
    "the note: rain in mm": "line 9: the rate: 0.09 is a decimal: write the rate as a whole number",
    "the bed: columns in large letters": "line 1: its word is NCOLS: write ncols, in these letters",
    "the bed: a tab for the space": "line 1: it has a tab or another blank for a space: part fields by spaces",
    "the bed: a western corner on a map": "line 3: the corner is 432100.5, and 0 in a set: tools/office_grid.py brings a map program's grid",
    "the bed: the centre of the southern square": "line 4: it says the middle of a square, and a set says the corner: tools/office_grid.py",
    "the bed: a side with a point": "line 5: 5.0 has a point, and is a whole number: write 5, or the next",
    "the bed: another NODATA": "line 6: NODATA is -9998, and -9999 in a set: tools/office_grid.py",
    "the bed: side and NODATA in each other's places": "line 5: NODATA_value does not stand here: the first six lines are ncols, nrows",
    "the bed: a row with a square more": "line 7: it has 4 squares and should have 3, as line 1 says",
    "the bed: a row more": "line 9: the grid has 2 rows, as line 2 says, and this is more: delete it, or mend line 2",
    "the bed: two rows said to be three": "line 9: the file ends before it, after 8 lines, and line 2 says 3 rows",
    "the bed: no newline at the end": "line 8: the last line has no newline at its end: press Enter after it",
    "the bed: newlines as another system has them": "line 1: it has a carriage return, as Windows ends lines: sed -i 's/\\r$//' GRID",
    "the bed: UTF-16": "line 1: the file is saved as UTF-16, or is no text",
    "the bed: a space after the last row": "line 8: it begins or ends with a space: delete it",
    "the bed: seven decimals, in the first square": "line 7: row 0, column 0: the bed: 1.0000001 has 7 decimals, and at most six are read",
    "the bed: a decimal comma, in the last square": "line 8: row 1, column 2: the bed: 1,5 has a comma for its point: write 1.5",
    "the bed: a needless zero before a point, in the first square": "line 7: row 0, column 0: the bed: 00.5 has a needless zero before it: write 0.5",
    "the bed: NODATA with decimals, in the first square": "line 7: row 0, column 0: the bed: -9999.0 has a point: a closed square is -9999",
    "the bed: 2^32 µm": "line 7: row 0, column 2: the bed: 4294.967296 is above 4294.967295",
    "the roughness: a decimal": "line 7: row 0, column 2: the roughness: 1.5 has a point, and is a whole number: write 1, or the next",
    "the bed alone: another side": f"{NOTE} has squares of 5 m in line 1, and {BED} of 6 m in line 5",
    "the bed alone: rows and columns turned": f"{NOTE} has 2 by 3 squares, and {BED} 3 by 2",
    "the depth alone: the closed square open": f"row 0, column 1 is closed in {NOTE}, line 4, and not in {DEPTH}, line 7",
    "the depth alone: an open square closed": f"row 1, column 0 is closed in {DEPTH}, line 8, and not in {NOTE}, line 6",
    "the bed alone: every square closed": f"row 0, column 0 is closed in {BED}, line 7, and not in {NOTE}, line 3; 4 more differ",
    "a side of 101 m": f"{NOTE}, line 1: the side of a square is 101: write 1 to 100 (m); the grids say the same",
    "a bed of 1,000 m and 1 µm": f"{BED}, line 8: row 1, column 1: the bed is 1000.000001 m: write 0 to 1,000",
    "a roughness of 0": f"the roughness {FILES['roughness']}, line 7: row 0, column 0: the roughness is 0: write 1 to 10,000",
    "a soak rate of 1,000,001": f"the rate {FILES['rate']}, line 8: row 1, column 0: the soak rate is 1,000,001: write 0 to 1,000,000",
    "an exit off the rim": f"{NOTE}, line 7: the exit at row 1, column 1 is not on the rim",
    "a depth of 100 m and 1 µm": f"{DEPTH}, line 8: row 1, column 2: the depth is 100.000001 m: write 0 to 100",
    "rain that ends before it begins": f"{NOTE}, line 9: rain: it ends at 150 ms, before it begins at 151 ms",
    "a hatch on the closed square": f"{NOTE}, line 10: the hatch at row 0, column 1 stands on a closed square",
    "an end that is no multiple": f"{NOTE}, line 2: the end, 2,001 ms, is no multiple of the update time",
}


def hold_table(checks):
    """Every damaged set: a place is found, in the file and in the line that the refusal is about."""
    seen = set()
    for name, words, texts, answer in damaged_sets.table():
        if isinstance(answer, str) or answer == (12, 0):
            continue
        (of_file, said), part = set_reasons(FILES, texts, answer), name.split("-")[0]
        checks.hold(NOT_FOUND not in " ".join(said) and all(said), f"{words}: {said}")
        if answer[0] == 12:
            checks.hold(all(told.startswith(f"line {answer[1]}") for told in said), f"{words}: refused in line {answer[1]}: {said}")
            right = of_file == f", of the {part} {FILES[part]}" if part in FILES else any(of_file == f", of the {one} {FILES[one]}" for one in FILES)
            checks.hold(right, f"{words}: it is said to be{of_file}")
        if words in SAID:
            seen.add(words)
            checks.hold(said[0].startswith(SAID[words]), f"{words}: not told: {SAID[words]}: {said}")
    checks.hold(SAID.keys() == seen, f"in no table: {SAID.keys() - seen}")
    both = of("bed", square(7, 1, "1"))(of("rate", square(8, 0, "-9999"))(BASE))
    checks.hold(len(set_reasons(FILES, both, (14, 0))[1]) == 2, "two grids disagree, and both are not told")


def hold_slips(checks):
    """Sets with random slips: a place is found for every refusal."""
    for name, texts, _ in sets.odd_sets(sets.SEED + 2):
        told = sets.outcome(sets.moved_back, texts)
        if not isinstance(told, str):
            said = " ".join(set_reasons(FILES, texts, told)[1])
            checks.hold(said and NOT_FOUND not in said, f"{name}: {texts} gives {told}: {said}")


def hold_sheets(checks):
    """Damaged sheets that are not moved, with the limits of a set."""
    for name, words, text, refusal in sets.sheets_judged():
        if refusal and refusal != (12, 0):
            of_file, said = moving_reasons("mill.sheet", text, FILES, refusal)
            right = of_file == ", of the sheet mill.sheet" and NOT_FOUND not in " ".join(said) and "1,024" not in " ".join(said)
            checks.hold(right, f"{name}, {words}: {of_file}: {said}")


# ---- the tool and the two scripts


def ran(*words, cwd):
    """The status of a command, what it prints and what it complains."""
    done = subprocess.run([str(word) for word in words], cwd=cwd, stdin=subprocess.DEVNULL, capture_output=True, text=True)
    return done.returncode, done.stdout, done.stderr


def why(folder, *words):
    """What tools/why.py says of a set."""
    return ran(sys.executable, TOP / "tools" / "why.py", "--set", *words, cwd=folder)


def hold_tool(checks, folder):
    """The tool: a refusal with its words and status 1, by the set's name and by its files; a set that is taken; a file that is not there."""
    put(folder, BASE)
    files = list(set_paths(".", "mill").values())
    checks.hold(why(folder, ".", "mill") == (0, "taken: a sheet of 2 by 3 squares of 5 m\n", ""), f"a whole set: {why(folder, '.', 'mill')}")
    put(folder, of("depth", square(8, 0, "1,5"))(BASE))
    for words in ((".", "mill"), files):
        status, said, complained = why(folder, *words)
        wanted = ["refused by 12, line 8, of the depth ./mill.depth.asc", "line 8: row 1, column 0: the depth: 1,5 has a comma for its point: write 1.5"]
        checks.hold((status, said.splitlines()[:2], complained) == (1, wanted, ""), f"a comma: {status} {said!r} {complained!r}")
    put(folder, of("rate", square(8, 0, "-9999"))(BASE))
    status, said, _ = why(folder, ".", "mill")
    wanted = "refused by 14\nrow 1, column 0 is closed in the rate ./mill.rate.asc, line 8, and not in the note ./mill.note, line 6\n"
    checks.hold((status, said) == (1, wanted), f"14: {status} {said!r}")
    status, said, _ = why(folder, ".", "none")
    checks.hold(status == 1 and said.startswith("refused by 12\nthe note ./none.note cannot be opened: No such file"), f"no set: {said!r}")
    checks.hold(why(folder, "mill")[0] == 2, "a set of one word is taken")


def put(folder, texts):
    """A set's files in a folder."""
    for path, text in zip(set_paths(str(folder), "mill").values(), texts, strict=True):
        Path(path).write_text(text, encoding="latin-1")


def hold_scripts(checks, folder):
    """bin/to_survey and bin/from_survey: there and back, what is there already, --replace, refusals, and what is wrong with the words."""
    (folder / "mill.sheet").write_text(SHEET)
    (folder / "cut.sheet").write_text(SHEET[:-1])
    (folder / "dead.note").write_text(SHEET)
    (folder / "file").write_text("")
    there, back = TOP / "bin" / "to_survey", TOP / "bin" / "from_survey"
    plan = "mill.note and its four grids: 2 by 3 squares of 5 m, 1 closed\n"
    for words, status, printed, complained in (
        ((there, "mill.sheet", "out"), 0, "", f"made out/{plan}"),
        ((there, "mill.sheet", "out"), 1, "", "bin/to_survey: out/mill.note is there already: take another folder, or give --replace\n"),
        ((there, "--replace", "mill.sheet", "out/"), 0, "", f"made out/{plan}"),
        ((back, "out", "mill"), 0, SHEET, f"a sheet of out/{plan}"),
        ((back, *set_paths("out", "mill").values()), 0, SHEET, f"a sheet of out/{plan}"),
        ((there, "cut.sheet", "new"), 1, "refused\t12\t10\n", "refused by 12, of the sheet cut.sheet: line 10: the last line has no newline at its end"),
        ((there, "none.sheet", "new"), 1, "refused\t12\t0\n", "refused by 12: the sheet none.sheet cannot be opened: No such file"),
        ((there, "mill.sheet", "file"), 1, "refused\t12\t0\n", "refused by 12: the note file/mill.note cannot be written: file is no folder"),
        ((there, "dead.note", "."), 0, "", "made ./dead.note.note and its four grids"),
        ((there, "mill.sheet"), 2, "", "bin/to_survey: usage: bin/to_survey SHEET FOLDER [--replace]\n"),
        ((back, "out"), 2, "", "bin/from_survey: usage: bin/from_survey FOLDER NAME"),
        ((back, "out", "none"), 1, "refused\t12\t0\n", "refused by 12: the note out/none.note cannot be opened"),
        ((there, "--help"), 0, "bin/to_survey SHEET FOLDER", ""),
        ((back, "--help"), 0, "bin/from_survey FOLDER NAME", ""),
    ):
        told = ran(*words, cwd=folder)
        right = told[0] == status and told[1].startswith(printed) and bool(told[1]) == bool(printed) and told[2].startswith(complained)
        checks.hold(right and told[2].count("\n") == bool(complained), f"{[str(word) for word in words]}: {told}")
    found = Set(*(Path(folder, path).read_text() for path in set_paths("out", "mill").values()))
    checks.hold(found == BASE, f"bin/to_survey makes {found}")
    checks.hold(not (folder / "new").exists(), "bin/to_survey leaves a folder behind where it is refused")
    (folder / "mill.bed.asc").hardlink_to(folder / "mill.sheet")
    told = ran(there, "--replace", "mill.sheet", ".", cwd=folder)
    right = told == (1, "", "bin/to_survey: ./mill.bed.asc is the sheet itself: take another folder\n")
    checks.hold(right and (folder / "mill.sheet").read_text() == SHEET, f"the sheet for its bed: {told}")


def main():
    checks = Checks("why_sets")
    checks.hold(tuple(FILES) == Set._fields and set(GRIDS) < set(FILES), f"the files of a set are {FILES}")
    hold_table(checks)
    hold_slips(checks)
    hold_sheets(checks)
    for hold in (hold_tool, hold_scripts):
        with tempfile.TemporaryDirectory() as folder:
            hold(checks, Path(folder))
    checks.end()


if __name__ == "__main__":
    main()
