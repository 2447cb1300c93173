"""The likely slips inside a line that is no line of a sheet: what a typist, a spreadsheet or an editor of another system leaves there.

Each mend is one slip: where it changes the line, the slip is there. What the reader of sheets still does not take of the mended line is
told field by field.
"""
import re

from ..sheets.lines import CLOSED, MARKS, RUN, SHEET_LINES, SQUARE, place_of
from ..sheets.reading import MOST_NUMBER, number_well

# a byte order mark, as its bytes are read one by one, and a space that does not break, as UTF-8 and by itself
MARK_OF_ORDER = "\xef\xbb\xbf"
HARD_SPACE = "\xc2\xa0|\xa0"
# a change that mends a line, and the slip that it mends
MENDS = [
    (lambda line: line.removeprefix(MARK_OF_ORDER), "it begins with a byte order mark, which is not seen: save the file as UTF-8 without it"),
    (lambda line: line.replace("\r", ""), r"it has a carriage return, as Windows ends lines: sed -i 's/\r$//' SHEET takes them away"),
    (lambda line: line.replace('"', ""), "it has quotation marks, as a spreadsheet puts them: take them away"),
    (lambda line: line.lstrip(" \t").rstrip(" "), "it has a space or a tab before its first field, or a space after its last: delete it"),
    (lambda line: re.sub(HARD_SPACE, " ", line), "it has a space that does not break, as web pages have: delete it, or put a tab for it"),
    (lambda line: re.sub(" *\t *| +", "\t", line), "it has a space for a tab: part fields by one tab"),
]
# a unit after a number, with a space between them that is no tab missing
UNIT, KEPT_SPACE = r"[A-Za-z%][A-Za-z0-9%/]*", "\x1f"
WITH_UNIT = re.compile(rf"(?<![^\t])(\d+(?:[.,]\d+)?) +({UNIT})(?![^\t])")
# how a number that is none looks, and what to write
NUMBERS = [
    (r"0\d+", "{text} has a needless zero before it: write {plain}"),
    (r"-\d+([.,]\d+)?", "{text} has a sign, and no number is below 0: {below}"),
    (r"\+\d+([.,]\d+)?", "{text} has a sign: write it without"),
    (r"\d{1,3}(,\d{3})+", "{text} has commas between its digits: write {plain}"),
    (r"\d*[.,]\d+", "{text} is a decimal: write {whole}"),
    (r"\d+([.,]\d+)?[eE][+-]?\d+", "{text} is in the short form of a spreadsheet: write all its digits"),
    (r"\?", "? stands for what the survey did not see: say it, or close the square; beds are guessed by tools/repair.py"),
    (rf"\d+([.,]\d+)?{KEPT_SPACE}?{UNIT}", "{text} has a unit: write the number alone, {unit}"),
    (r"", "it is empty: say a number"),
]
# what to do where a number is below 0, and the unit of a field that is no height
BELOW = {
    "bed": "count heights from a zero of your own below the lowest bed",
    "litres": "a hatch lets water in; an exit lets it out",
    "rate": "rain falls, and ground that soaks has a rate of its own at the end of its line",
}
UNITS = {
    "litres": "in litres a second",
    "bed": "in µm, metres times 1,000,000",
    "depth": "in µm, metres times 1,000,000",
    "roughness": "n times 10,000",
    "rate": "in µm an hour, mm times 1,000",
    "side": "in m",
    **dict.fromkeys(("from", "to", "end", "shortest", "longest", "update"), "in ms, seconds times 1,000"),
}
REMARKS = ("#", "//", ";")
# by how much a person's metres and Manning's n are multiplied
TIMES = {"bed": 1_000_000, "depth": 1_000_000, "roughness": 10_000}
# what an older sheet's line wants at its end
OLDER = {
    RUN: "an older sheet wants an edge slope and an edition at this line's end, 10000 and 1 for what it had",
    SQUARE: "an older sheet wants a soak rate at this line's end, 0 for what it had",
}
LATER = ("edge", "edition", "rate")
LONGEST_SHOWN = 90


def shown(line):
    """A line with its tabs, spaces and carriage returns to be seen, cut where it is long."""
    seen = line.replace(MARK_OF_ORDER, "␂").replace("\t", "→").replace(" ", "·").replace("\r", "␍").replace(KEPT_SPACE, " ")
    return seen if len(seen) <= LONGEST_SHOWN else seen[:LONGEST_SHOWN] + "…"


def mended(line, every, mends=None):
    """A line with every mend made, and the slips that were there, each with how many other lines have it. A unit stays with its number."""
    slips = []
    line, every = WITH_UNIT.sub(rf"\1{KEPT_SPACE}\2", line), [WITH_UNIT.sub(rf"\1{KEPT_SPACE}\2", other) for other in every]
    for mend, words in mends or MENDS:
        if mend(line) != line:
            others = sum(mend(other) != other for other in every) - 1
            slips.append(words + (f" (so in {others} other lines)" if others > 0 else ""))
            line = mend(line)
    return line, slips


def whole(name, text):
    """What to write for a decimal."""
    if name not in TIMES:
        return f"the {name} as a whole number of the sheet's unit"
    return f"{float(text.replace(',', '.')) * TIMES[name]:.0f}, which is {text} times {TIMES[name]:,}"


def number_slip(name, text):
    """The slip in a field that is no number."""
    if re.fullmatch("[1-9][0-9]*", text):
        return f"the {name}: {text} is above {MOST_NUMBER:,}, the largest number that is read"
    for pattern, words in NUMBERS:
        if re.fullmatch(pattern, text, re.ASCII):
            plain = text.replace(",", "").lstrip("0") or "0"
            told = {"text": text.replace(KEPT_SPACE, " "), "plain": plain}
            told |= {"below": BELOW.get(name, "write it without"), "unit": UNITS.get(name, "in the sheet's own unit")}
            return f"the {name}: " + words.format(whole=whole(name, text) if "{whole}" in words else "", **told)
    return f"the {name}: {shown(text)} is no number"


def remark_slip(line):
    """The slip of a line that is a remark, or has one at its end; None where it is neither."""
    said = line.lstrip(" \t")
    if said.startswith(REMARKS):
        return "a sheet has no room for remarks: delete it"
    remark = re.search(r"[ \t](#|//).*", line)
    return f"it has a remark at its end, and a sheet has no room for any: take away {shown(remark[0].lstrip())}" if remark else None


def mark_slip(text):
    """The slip in a mark."""
    if text.lower() in MARKS:
        return f"the mark {text} is in upper case: write {text.lower()}"
    return f"the mark {shown(text)} is none: write x (closed), o (open) or e (exit)"


def count_slips(kind, fields, names):
    """The slips of a line that has too many or too few fields."""
    said = f"it has {len(fields)} fields after its word and should have {len(names)}"
    if len(fields) > len(names):
        closed = ", since a closed square's line ends after its x" if names[-1] == "mark" else ""
        yield f"{said}{closed}: take away {'→'.join(map(shown, fields[len(names) :]))}"
    elif len(fields) < len(names):
        yield f"{said}: say the {', the '.join(names[len(fields) :])}"
        if kind in OLDER and names[len(fields)] in LATER:
            yield OLDER[kind]


def names_of(kind, fields):
    """The names of the fields that a line should have; a closed square's ends after its mark."""
    names = [field.name for field in SHEET_LINES[kind]]
    mark = place_of(kind, "mark") if kind == SQUARE else 0
    return names[:mark] if mark and fields[mark - 1 : mark] == [CLOSED] else names


def value_slips(names, fields):
    """The slips of single fields: marks that are none first, since the fields after one depend on it."""
    wrong = [(name, text) for name, text in zip(names, fields) if (text not in MARKS if name == "mark" else not number_well(text))]
    yield from (mark_slip(text) for name, text in wrong if name == "mark")
    yield from (number_slip(name, text) for name, text in wrong if name != "mark")


def field_slips(kind, fields):
    """The slips of a line's fields: how many there are, and what each is. A mark in upper case is read as it is meant, and told first."""
    said = [field for field in fields if field]
    if said != fields and len(said) == len(names_of(kind, said)):
        yield "it has a tab too many, two in a row or one at its end: delete it"
        fields = said
    meant = [text.lower() if text.lower() in MARKS else text for text in fields]
    names = names_of(kind, meant)
    values, counts = list(value_slips(names, fields)), list(count_slips(kind, fields, names))
    yield from (*values, *counts) if meant != fields else (*counts, *values)
