"""tools/why.py with boards: over the damaged boards' texts and the boards that cannot be, the number and the line are the program's, and the words
name the right file, the right line and what to write there; and one line of sense about boards that are shown."""
import random
import subprocess
import sys
import tempfile
from pathlib import Path

from board_texts import DAMAGED, GOOD, LONG, UNREADABLE, wrong_boards
from damaged import A_HATCH, BASES, after, closed, field, last_gone
from meadow.boards.answers import Shown, answered, named
from meadow.boards.texts import written
from meadow.boards.watching import Board
from meadow.counted import Checks
from meadow.programs import TOP
from meadow.sheets.lines import Sheet
from meadow.words.board_reasons import both_reasons
from meadow.words.levels import boards_sense
from meadow.words.reasons import IN_THE_RUN, NOT_FOUND, refusal
from two_files import Files

TOOL = TOP / "tools" / "why.py"
DOCUMENT = BASES["document 01"]
# of lines that cannot be read, what the words say
LINE_SLIPS = {
    "blank": "it is blank: delete it",
    "a tab alone": "it is blank: delete it",
    "spaces for tabs": "it has a space for a tab: part fields by one tab",
    "a space after the mark": "it has a space or a tab before its first field, or a space after its last",
    "a tab more at the end": "it has a tab too many, two in a row or one at its end",
    "a tab more in the middle": "it has a tab too many, two in a row or one at its end",
    "no mark": "it has 2 fields and should have 3: row→column→mark",
    "a row alone": "it has 1 field and should have 3: row→column→mark",
    "a fourth field": "it has 4 fields and should have 3: row→column→mark",
    "a carriage return": "it has a carriage return, as Windows ends lines: sed -i 's/\\r$//' BOARDS",
    "a needless zero before the mark": "the mark: 05 has a needless zero before it: write 5",
    "a sign before the mark": "the mark: -5 has a sign, and no number is below 0",
    "a plus": "the column: +0 has a sign: write it without",
    "a decimal": "the mark: 0.5 is a decimal: write 500000, which is 0.5 times 1,000,000",
    "commas": "the mark: 100,000 has commas between its digits: write 100000",
    "the short form": "the mark: 1e5 is in the short form of a spreadsheet",
    "a unit": "the mark: 5cm has a unit: write 50000, which is in µm",
    "a mark of 2^32": "the mark: 4294967296 is above 4,294,967,295",
    "a row of 2^32": "the row: 4294967296 is above 4,294,967,295",
    "the word that is printed": "it has 4 fields and should have 3: row→column→mark",
    "a word for the row": "the row: north is no number",
    "a remark": "a list of boards has no room for remarks: delete it",
    "a byte order mark": "it begins with a byte order mark",
    "a nought byte": "the file is saved as UTF-16, or is no text",
}
# of whole texts
TEXT_SLIPS = {
    "a newline alone": "line 1: it is blank: delete it",
    "the last line without its newline": "line 2: the last line has no newline at its end: press Enter after it",
    "newlines as another system has them": "line 1: it has a carriage return",
    "UTF-16": "line 1: the file is saved as UTF-16",
    "seventeen boards, and then a line that is none": "line 18: it has 1 field and should have 3",
    "a byte more": "a.boards has 65,537 bytes, and at most 65,536 are read",
    "the longest text: far too many boards": "line 17: there are 10,922 boards: at most 16 are shown, so take some away",
}
# of boards that cannot be
OFF = "is off the grid: rows go from 0 to 0, columns from 0 to 1"
BOARD_FAULTS = {
    "a row too far south": [f"line 1: the board at row 1, column 0 {OFF}", "row and column may be swapped"],
    "a column too far east": [f"line 1: the board at row 0, column 2 {OFF}"],
    "a closed square": ["line 1: the board at row 0, column 1 stands on a closed square: move the board, or open the square"],
    "a mark one above the deepest": ["line 1: the mark is 100,000,001: write 0 to 100,000,000 (µm: metres times 1,000,000)"],
    "the last of sixteen": ["line 16: the board at row 0, column 1 stands on a closed square"],
    "one board too many": ["line 17: there are 17 boards: at most 16 are shown, so take some away"],
    "one board too many, which is on a closed square": ["line 17: there are 17 boards", "line 17: the board at row 0, column 1 stands"],
}


def words_of(files):
    """The refusal of the files by document 02 in Python, and what is said of it; None where they are taken."""
    texts = [path.read_bytes() for path in (files.sheet, files.other)]
    refused = refusal(answered(*texts))
    return refused and (refused, both_reasons((files.sheet, files.other), [text.decode("latin-1") for text in texts], refused))


def hold_texts(checks, files):
    """Lines and texts that cannot be read, each with its slip, in the boards' file and in its line."""
    good = written([GOOD])
    cases = [(words, good + line + "\n" + good, f"line 2: {LINE_SLIPS[words]}" if words in LINE_SLIPS else "") for words, line in UNREADABLE.items()]
    cases += [(words, text, TEXT_SLIPS.get(words, "")) for words, text, _ in (*DAMAGED, *LONG)]
    for words, text, wanted in cases:
        files.put(DOCUMENT, text)
        (number, line), (of, said) = words_of(files)
        place = f", of the boards {files.other}" if (number, line) != (12, 0) else ""
        right = of == place and all(told.startswith(f"line {line}") for told in said if line) and NOT_FOUND not in " ".join(said)
        checks.hold(right, f"{words}: refused by {number}, line {line}{of}: {said}")
        checks.hold(any(wanted in told for told in said), f"{words}: not told: {wanted}: {said}")
    known = {words for words, *_ in cases}
    checks.hold(LINE_SLIPS.keys() | TEXT_SLIPS.keys() <= known, "a text has words here that is in no table")


def hold_boards(checks, files):
    """Boards that cannot be."""
    cases = wrong_boards(1, 2, (0, 1), (0, 0))
    for words, boards in cases:
        files.put(closed(4)(DOCUMENT), written(boards))
        refused, (of, said) = words_of(files)
        checks.hold((refused, of) == ((13, 0), f", of the boards {files.other}"), f"{words}: refused by {refused}{of}")
        for place in BOARD_FAULTS.get(words, [""]):
            checks.hold(any(place in told for told in said) and NOT_FOUND not in said, f"{words}: not told: {place}: {said}")
    checks.hold(BOARD_FAULTS.keys() <= {words for words, _ in cases}, "a board has words here that is in no table")


def hold_sheets(checks, files):
    """What the sheet is refused for is told of the sheet, and so is a run that is refused on its way."""
    for sheet, boards, wanted in (
        (last_gone(4)(DOCUMENT), "x\n", "line 4: it has 6 fields after its word and should have 7"),
        (field(2, "end", 1_500)(DOCUMENT), "9\t9\t5\n", "line 2: the end, 1,500 ms, is no multiple"),
        (after(A_HATCH)(BASES["full square"]), written([GOOD]), "a square would be more than 100 m deep between 0 min and 1 s"),
    ):
        files.put(sheet, boards)
        _, (of, said) = words_of(files)
        checks.hold(of == f", of the sheet {files.sheet}" and said[0].startswith(wanted), f"of a sheet: {of}: {said}")


EAST = "row 0, column 1"


def hold_tool(checks, files):
    """The tool itself: a refusal with its words and status 1, boards that are taken, and a file that is not there."""
    of = f"of the boards {files.other}"
    for boards, status, wanted in (
        ("0\t0\t10cm\n", 1, [f"refused by 12, line 1, {of}", "line 1: the mark: 10cm has a unit: write 100000, which is in µm"]),
        ("0\t7\t1\n", 1, [f"refused by 13, {of}", f"line 1: the board at row 0, column 7 {OFF}"]),
        ("0\t1\t31\n", 0, [f"taken: 1 of 1 mark reached, the last at {EAST} after 1 s; highest 31 µm at {EAST}, of a run of 1 s; 1 step"]),
    ):
        files.put(DOCUMENT, boards)
        said = subprocess.run([sys.executable, TOOL, files.sheet, "--boards", files.other], capture_output=True, text=True)
        right = said.returncode == status and said.stdout.splitlines()[: len(wanted)] == wanted and said.stderr == ""
        checks.hold(right, f"{boards!r}: {said.stdout!r}{said.stderr!r}")
    said = subprocess.run([sys.executable, TOOL, files.sheet, "--boards", Path(files.folder) / "none"], capture_output=True, text=True)
    checks.hold(said.returncode == 1 and "none cannot be opened: No such file" in said.stdout, f"no boards: {said.stdout!r}{said.stderr!r}")


def hold_sense(checks):
    """The line of sense, by hand."""
    deep, low, dry = Board(0, 1, 50, 59, 2_000), Board(2, 3, 60_000, 1_234, None), Board(4, 5, 0, 7, 0)
    other, third = "row 2, column 3", "row 4, column 5"
    for shown, wanted in (
        (Shown([], 0, 0), "no boards, of a run of 0 min; 0 steps"),
        (Shown([deep], 2, 2_000), f"1 of 1 mark reached, the last at {EAST} after 2 s; highest 59 µm at {EAST}, of a run of 2 s; 2 steps"),
        (Shown([low], 1, 60_000), f"no mark of 1 board reached; highest 1.2 mm at {other}, of a run of 1 min; 1 step"),
        (Shown([dry], 1, 60_000), f"1 of 1 mark reached, the last at {third} at the start; highest 7 µm at {third}, of a run of 1 min; 1 step"),
        (Shown([deep, low], 9, 90_000), f"1 of 2 marks reached, the last at {EAST} after 2 s; highest 1.2 mm at {other}, of a run of 1 min 30 s; 9 steps"),
    ):
        checks.hold(boards_sense(shown) == wanted, f"{boards_sense(shown)!r}, not {wanted!r}")


# what random damage puts in
BITS = ["\t", " ", "\r", "\n", "0", "9", "-", "+", ".", ",", "x", "#", "\0", "\xef\xbb\xbf", "\xa0", "cm", "?", '"', "99999999999", ""]


def hold_random(checks, files):
    """Boards damaged at random places: a place is found for every refusal, and it is the refused line's."""
    chance = random.Random(101)
    for _ in range(400):
        sheet = Sheet(chance.randint(1, 3), chance.randint(1, 4), 10)
        for place in sheet.squares:
            if chance.random() < 0.8:
                sheet.put(place, 0, 300)
        text = written((*chance.choice(list(sheet.squares)), chance.randint(0, 2_000_000)) for _ in range(chance.randint(1, 5)))
        for _ in range(chance.randint(0, 2)):
            at = chance.randrange(len(text) + 1)
            text = text[:at] + chance.choice(BITS) + text[at + chance.choice((0, 0, 1, 5)) :]
        files.put(sheet.text(0), text)
        found = words_of(files)
        if found and found[0][0] not in IN_THE_RUN:
            (number, line), (of, said) = found
            right = of == f", of the boards {files.other}" and all(told.startswith(f"line {line}" if line else "line ") for told in said)
            checks.hold(right and NOT_FOUND not in " ".join(said), f"{text!r}, refused by {number}: {said}")


def main():
    checks = Checks("why_boards")
    with tempfile.TemporaryDirectory() as folder:
        files = Files(folder, "boards", "boards", answered, named)
        hold_texts(checks, files)
        hold_boards(checks, files)
        hold_sheets(checks, files)
        hold_random(checks, files)
        hold_tool(checks, files)
    hold_sense(checks)
    checks.end()


if __name__ == "__main__":
    main()
