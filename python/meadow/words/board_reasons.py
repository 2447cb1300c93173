"""Why `boards` refused a sheet or its boards, in words: which of the two files it is about, the line, and what to write there.

Number and line are the program's own; 13 has no line, and the boards that it can be about are looked for. Where no place is found that fits the
number, that is said.
"""
from ..boards.texts import Asked, board_of, boards_in
from ..boards.watching import MOST_BOARDS
from ..sheets.reading import Lines, number_well, read
from .faults import Fault, out_of_range, place_faults
from .list_reasons import depth_slip
from .opening import file_faults, is_the_sheets
from .reasons import IN_THE_RUN, NOT_FOUND, first_told, reasons
from .slips import REMARKS, mended, number_slip, shown

# how a line is written
FORM = "→".join(Asked._fields)


def field_slip(name, text):
    """The slip of a field that is no number."""
    return depth_slip(text).replace("the depth", "the mark") if name == "mark" else number_slip(name, text)


def line_slips(line, every):
    """The slips of a line that cannot be read."""
    line, slips = mended(line, every)
    slips = [slip.replace("SHEET", "BOARDS") for slip in slips]
    if board_of(line):
        return slips
    fields = line.split("\t")
    said = [field for field in fields if field]
    if not said:
        return [*slips, "it is blank: delete it"]
    if said[0].startswith(REMARKS):
        return [*slips, "a list of boards has no room for remarks: delete it"]
    if said != fields and len(said) == len(Asked._fields):
        slips.append("it has a tab too many, two in a row or one at its end: delete it")
        fields = said
    if len(fields) != len(Asked._fields):
        slips.append(f"it has {len(fields)} field{'' if len(fields) == 1 else 's'} and should have {len(Asked._fields)}: {FORM}")
    return slips + [field_slip(name, text) for name, text in zip(Asked._fields, fields) if not number_well(text)]


def text_reasons(text, line):
    """Of 12: what the line is, what it may be, and its likely slips."""
    lines = Lines(text)
    every = lines.lines + ([lines.rest] if lines.rest else [])
    if "\0" in text:
        return [f"line {line}: the file is saved as UTF-16, or is no text: save it as plain text or UTF-8"]
    slips = line_slips(every[line - 1], every)
    if line > len(lines.lines):
        slips.append("the last line has no newline at its end: press Enter after it")
    ends = [f"line {line} is {shown(every[line - 1]) or 'blank'}", f"line {line} may be {FORM}"]
    return [*(f"line {line}: {slip}" for slip in slips or [NOT_FOUND]), *ends]


def board_faults(sheet, boards):
    """Of 13: a board too many, and each board on no good square or with a mark that cannot be."""
    if len(boards) > MOST_BOARDS:
        yield Fault(MOST_BOARDS + 1, f"there are {len(boards):,} boards", f"at most {MOST_BOARDS} are shown, so take some away")
    for line, board in enumerate(boards, 1):
        yield from place_faults(sheet, line, board._asdict(), "board")
        for fault in out_of_range(line, {"depth": board.mark}):
            yield fault._replace(what=fault.what.replace("the depth", "the mark"))


def boards_reasons(sheet_text, text, number, line):
    """Why the boards, or the run itself, were refused, the likeliest first."""
    if number == 12:
        return text_reasons(text, line)
    if number in IN_THE_RUN:
        return reasons(sheet_text, number, line)
    found = [str(fault) for fault in board_faults(read(sheet_text)[0], boards_in(text))] if number == 13 else []
    return first_told(found)


def both_reasons(files, texts, refused):
    """The words for which file it is, and why: of the names of a sheet and of boards, their texts, and the refusal."""
    number, line = refused
    if (number, line) == (12, 0):
        return "", list(file_faults("boards", *files)) or [NOT_FOUND]
    if is_the_sheets(texts[0], refused):
        return f", of the sheet {files[0]}", reasons(texts[0], number, line)
    of = f", of the sheet {files[0]}" if number in IN_THE_RUN else f", of the boards {files[1]}"
    return of, boards_reasons(*texts, number, line)
