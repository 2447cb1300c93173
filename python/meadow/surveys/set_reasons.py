"""Why `from_survey` refused a set, or `to_survey` a sheet, in words: which file it is about, the line, what stands there and what to write.

Number and line are the program's own; the place is looked for afterwards, file by file in the order in which they are judged. Where no place is
found that fits the number, that is said.
"""
import os
from pathlib import Path

from ..rule.ranges import RANGES, fine
from ..rule.refusals import Refused
from ..sheets.lines import CLOSED, GRID, INFLOW, MARKS, SQUARE
from ..sheets.reading import Lines
from ..words import misplaced
from ..words.faults import BY_NUMBER, SAID, out_of_range
from ..words.opening import named_faults
from ..words.reasons import NOT_FOUND, first_told, reasons
from ..words.slips import mark_slip, mended, shown
from ..words.units import square
from . import grid_slips
from .depths import metres
from .office import METRES, read_office
from .sets import GRIDS, MOST_FILE, MOST_SQUARES, Set, read_note, sheet_said

# what a square's line has after its mark, so that the note reads as a sheet
WATERLESS = "\t0\t1\t0\t0"
# fields of a square's line in a note, after its word
NOTE_FIELDS = ("row", "column", "mark")


# ---- 12: the text


def as_sheet(note):
    """A note as a sheet's text: its squares have something after their marks."""
    return "\n".join(line + WATERLESS if line.startswith(SQUARE) and line.split("\t")[3:] in (["o"], ["e"]) else line for line in note.split("\n"))


def square_slips(line, place, every):
    """The slips of the line of a note's square."""
    line, slips = mended(line, every)
    word, *fields = line.split("\t")
    if word != SQUARE:
        return [*slips, misplaced.word_slip(word, misplaced.Wanted([SQUARE], place, {"rows": 0, "columns": 0, "side": 0}), [])]
    if len(fields) > len(NOTE_FIELDS) and not any(fields[len(NOTE_FIELDS) :]):
        slips.append("it has a tab too many at its end: delete it")
    elif len(fields) > len(NOTE_FIELDS):
        slips.append(f"a note's line ends after its mark: take away {'→'.join(map(shown, fields[len(NOTE_FIELDS) :]))}")
    elif len(fields) < len(NOTE_FIELDS):
        slips.append(f"it has {len(fields)} fields after its word and should have 3: say the {', the '.join(NOTE_FIELDS[len(fields) :])}")
    if fields[:2] != [str(number) for number in place]:
        slips.append(f"{square(place)} is due here: write the squares row by row, as many as line 1 says")
    if len(fields) >= len(NOTE_FIELDS) and fields[2] not in MARKS:
        slips.append(mark_slip(fields[2]))
    return slips


def note_slips(text, line):
    """The likely slips where a note was refused by 12 with a line, and what the line is and may be."""
    every = misplaced.lines_in(text)
    if "\0" in text:
        return ["the file is saved as UTF-16, or is no text: save it as plain text or UTF-8"], []
    if line > 2 and 0 in (grid := Lines(text).take(GRID)).values():
        return [f"line 1 says {grid['rows']} rows and {grid['columns']} columns: mend line 1"], []
    due = misplaced.wanted(text, line)
    stands = [f"is {shown(every[line - 1]) or 'blank'}"] if line <= len(every) else []
    if due.place is None:
        forms = [*due.forms(), *(["the note's end"] if INFLOW in due.kinds else [])]
        return misplaced.slips_at(as_sheet(text), line), [*stands, f"may be {', or '.join(forms)}"]
    if line > len(every):
        slips = [f"the note ends before it, after {len(every)} line{'' if len(every) == 1 else 's'}; {square(due.place)} is missing"]
    else:
        slips = square_slips(every[line - 1], due.place, every)
    if every[line - 1 :] == [Lines(text).rest]:
        slips.append("the last line has no newline at its end: press Enter after it")
    return slips, [*stands, f"may be {'→'.join([SQUARE, *map(str, due.place)])}→x, o or e"]


def refused_part(texts, line):
    """The file of a set that is refused by 12 with a line, the first that cannot be read; None where there is none."""
    for part in Set._fields:
        try:
            read_office(getattr(texts, part), GRIDS[part]) if part in GRIDS else read_note(texts.note)
        except Refused as found:
            return part if found.line == line else None
    return None


def text_reasons(part, text, line):
    """Of 12 with a line: the slips of that line in a file of the set, what it is, and what it may be."""
    slips, told = grid_slips.slips_at(part, GRIDS[part], text, line) if part in GRIDS else note_slips(text, line)
    word = "GRID" if part in GRIDS else "NOTE"
    slips = [slip.replace("SHEET", word).replace("the sheet", "the note").replace("a sheet", "a note") for slip in slips or [NOT_FOUND]]
    return [*first_told([f"line {line}: {slip}" for slip in slips]), *(f"line {line} {words}" for words in told)]


# ---- 14: files that disagree


def differences(files, note, part, grid):
    """In what a grid and the note disagree: the shape, or the side, or else the first closed square."""
    ours, theirs = f"the note {files['note']}", f"the {part} {files[part]}"
    if (grid.rows, grid.columns) != (note.rows, note.columns):
        return f"{ours} has {note.rows:,} by {note.columns:,} squares, and {theirs} {grid.rows:,} by {grid.columns:,}"
    if grid.side != note.side:
        return f"{ours} has squares of {note.side:,} m in line 1, and {theirs} of {grid.side:,} m in line 5"
    other = [at for at, (mark, number) in enumerate(zip(note.marks, grid.numbers)) if (mark == CLOSED) != (number is None)]
    if not other:
        return None
    row, column = divmod(other[0], note.columns)
    closed, open_ = (ours, theirs) if note.marks[other[0]] == CLOSED else (theirs, ours)
    lines = {ours: 3 + other[0], theirs: grid_slips.FIRST_ROW + row}
    more = f"; {len(other) - 1:,} more differ" if len(other) > 1 else ""
    return f"{square((row, column))} is closed in {closed}, line {lines[closed]}, and not in {open_}, line {lines[open_]}{more}"


# ---- 1 to 5, where all five agree


def value_faults(files, sheet, number):
    """Of 2 and 3: what a grid says of a square and is out of range, in the grid's own unit."""
    for part, kind in GRIDS.items():
        name = "soak rate" if part == "rate" else part
        for (row, column), values in sorted(sheet.squares.items()):
            if (part == "depth") == (number == 3) and part in values and not fine(name, values[part]):
                least, most = RANGES[name]
                said = f"{metres(values[part])} m: write 0 to {most // 1_000_000:,}" if kind is METRES else f"{values[part]:,}: write {least:,} to {most:,}"
                place = f"the {part} {files[part]}, line {grid_slips.FIRST_ROW + row}: {square((row, column))}"
                yield f"{place}: {SAID[name][0]} is {said}"


def range_reasons(files, note, grids, number):
    """Of 1 to 5: each place with its file; the note has the lines of the sheet."""
    of_note = f"the note {files['note']}, "
    if number == 1:
        shape = {name: getattr(note, name) for name in ("rows", "columns", "side")}
        return [f"{of_note}{fault}; the grids say the same in their first lines" for fault in out_of_range(1, shape)]
    sheet, end = sheet_said(note, grids)
    found = list(value_faults(files, sheet, number)) if number in (2, 3) else []
    said = [fault for fault in BY_NUMBER[number](sheet, end) if number > 3 or "exit" in fault.what]
    return [f"{of_note}{fault}" for fault in said] + found


# ---- all of it


def set_reasons(files, texts, refused):
    """The words for which file it is, and why: of the names of a set's files, their texts, and the refusal."""
    number, line = refused
    if (number, line) == (12, 0):
        return "", list(named_faults(files, MOST_FILE)) or [NOT_FOUND]
    if number == 12:
        part = refused_part(texts, line)
        return (f", of the {part} {files[part]}", text_reasons(part, getattr(texts, part), line)) if part else ("", [NOT_FOUND])
    note, grids = read_note(texts.note), {part: read_office(text, GRIDS[part]) for part, text in texts.grids().items()}
    if number == 14:
        return "", list(filter(None, (differences(files, note, *each) for each in grids.items()))) or [NOT_FOUND]
    return "", first_told(range_reasons(files, note, grids, number) if number <= 5 else [])


def unwritten(path):
    """Why a file cannot be written; None where it can."""
    folder = Path(path).parent
    if Path(path).is_dir():
        return "it is a folder"
    if not folder.is_dir():
        return f"{folder} is no folder"
    return None if os.access(path if os.path.lexists(path) else folder, os.W_OK) else "there is no right to"


def moving_reasons(sheet_file, text, files, refused):
    """Why a sheet could not be moved to the files of a set: the sheet's own reasons, or those of the files."""
    if tuple(refused) != (12, 0):
        return f", of the sheet {sheet_file}", reasons(text, *refused, MOST_SQUARES)
    found = list(named_faults({"sheet": sheet_file}, MOST_FILE))
    for part, path in files.items():
        why = "its name has a newline in it" if "\n" in str(path) else unwritten(path)
        found += [f"the {part} {path} cannot be written: {why}"] if why else []
    return "", found or ["a file took only some of its text: the disk may be full, and the files may stand half written"]
