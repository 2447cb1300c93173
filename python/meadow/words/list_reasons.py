"""Why `drowned` refused a list, or a sheet of one, in words. Numbers and turns are the program's own; what a sheet is refused for is looked up as
for `meadow`, and of one of another plan it is said what differs. Where nothing is found that fits, that is said."""
import re

from ..peaks.lists import MOST_SHEETS
from ..programs import printed
from ..rule.ranges import MOST_DEPTH
from ..sheets.lines import MARKS
from ..sheets.pairs import bytes_as_text
from ..sheets.reading import MOST_BYTES, read
from .opening import unopened
from .reasons import NOT_FOUND, reasons, refusal
from .slips import number_slip
from .units import square

# a depth with its unit, as people write it, and how many µm the unit has
WITH_UNIT = re.compile(r"(\d+(?:\.\d+)?) ?(mm|cm|m)")
UNITS = {"mm": 1_000, "cm": 10_000, "m": 1_000_000}
MARK_NAMES = dict(zip(MARKS, ("closed", "open", "an exit")))


def depth_slip(text):
    """The slip in a depth that is no number."""
    said = WITH_UNIT.fullmatch(text)
    if said:
        return f"the depth: {text} has a unit: write {float(said[1]) * UNITS[said[2]]:.0f}, which is in µm"
    return number_slip("depth", text)


def list_reasons(wet_depth, names, refused):
    """Why the list itself was refused, of its first line, its names and the refusal."""
    number, line = refused
    if (number, line) == (12, 0):
        size = sum(len(name.encode("utf-8", "surrogateescape")) + 1 for name in (wet_depth, *names))
        return f"the list has {size:,} bytes, and at most {MOST_BYTES:,} are read: give fewer sheets, or shorter names"
    if number == 12:
        return depth_slip(wet_depth)
    if number == 5:
        return f"the depth is {int(wet_depth):,} µm: write 0 to {MOST_DEPTH:,}"
    if number == 16:
        return f"the list has {len(names):,} sheets, and at most {MOST_SHEETS} are taken: make two lists of it"
    return NOT_FOUND


def plan_reason(sheet, first, first_name):
    """What differs between a sheet and the first that was run: the shape, or else the marks."""
    if (sheet.rows, sheet.columns) != (first.rows, first.columns):
        return f"it has {sheet.rows} by {sheet.columns} squares, and {first_name} has {first.rows} by {first.columns}"
    other = [place for place in sorted(sheet.squares) if sheet.squares[place]["mark"] != first.squares[place]["mark"]]
    if not other:
        return NOT_FOUND
    here, there = (MARK_NAMES[of.squares[other[0]]["mark"]] for of in (sheet, first))
    more = f", and {len(other) - 1:,} more differ" if len(other) > 1 else ""
    return f"{square(other[0])} is {here}, and {there} in {first_name}{more}"


def sheet_reason(name, number, first_name):
    """Why a sheet of the list was refused."""
    why = unopened(name)
    if why:
        return f"it cannot be opened: {why}"
    text = bytes_as_text(name)
    if number == 14:
        return plan_reason(read(text)[0], read(bytes_as_text(first_name))[0], first_name)
    refused = refusal(printed("meadow", text.encode("latin-1")).decode("ascii"))
    return reasons(text, *refused)[0] if refused and refused[0] == number else NOT_FOUND


def sheets_reasons(names, tally):
    """Each refused sheet of a list with its reason."""
    if any("\n" in name for name in names):
        yield "a name has a newline in it, and is taken for two: give the file another name"
        return
    refused = dict(tally.refused)
    first_name = next((name for turn, name in enumerate(names, 1) if turn not in refused), None)
    for turn, number in tally.refused:
        name = names[turn - 1]
        shown = name.encode("utf-8", "surrogateescape").decode("utf-8", "backslashreplace")
        yield f"sheet {turn}, {shown}: refused by {number}: {sheet_reason(name, number, first_name)}"
