"""The likely slips in a line that is no line of a grid in the survey office's form: what a map program, a spreadsheet or a typist leaves there, and
what to write."""
import re

from ..words.slips import HARD_SPACE, MARK_OF_ORDER, mended, shown
from ..words.units import square
from .office import CLOSED_TEXT, DECIMALS, METRES, WHOLE, number_of

HEAD = ("ncols", "nrows", "xllcorner", "yllcorner", "cellsize", "NODATA_value")
FIRST_ROW = len(HEAD) + 1
CORNERS = ("xllcorner", "yllcorner")
BROUGHT = "tools/office_grid.py brings a map program's grid into the form, and keeps its corner"
# how a line of the header is written
FORMS = {word: f"{word} 0" for word in CORNERS} | {"NODATA_value": f"NODATA_value {CLOSED_TEXT}"}
# a change that mends a line, and the slip that it mends
MENDS = [
    (lambda line: line.removeprefix(MARK_OF_ORDER), "it begins with a byte order mark, which is not seen: save the file as UTF-8 without it"),
    (lambda line: line.replace("\r", ""), r"it has a carriage return, as Windows ends lines: sed -i 's/\r$//' GRID takes them away"),
    (lambda line: line.replace('"', ""), "it has quotation marks, as a spreadsheet puts them: take them away"),
    (lambda line: re.sub(f"{HARD_SPACE}|[\t\v\f]", " ", line), "it has a tab or another blank for a space: part fields by spaces"),
    (lambda line: line.strip(" "), "it begins or ends with a space: delete it"),
]
# how a number that is none looks, and what to write
NUMBERS = [
    (rf"{CLOSED_TEXT}\.0*", f"{{text}} has a point: a closed square is {CLOSED_TEXT} and nothing else"),
    (r"\d+,\d{1,2}|\d+,\d{4,}", "{text} has a comma for its point: write {point}"),
    (r"\d{1,3}(,\d{3})+(\.\d+)?", "{text} has commas between its digits: write {plain}"),
    (r"0\d+(\.\d+)?", "{text} has a needless zero before it: write {bare}"),
    (r"-\d+(\.\d*)?", f"{{text}} has a sign, and no number is below 0: a closed square is {CLOSED_TEXT}"),
    (r"\+\d+(\.\d*)?", "{text} has a sign: write it without"),
    (r"\d+\.", "{text} ends with its point: write decimals after it, or no point"),
    (r"\.\d+", "{text} has no digit before its point: write 0{text}"),
    (r"[+-]?\d*\.?\d+[eE][+-]?\d+", "{text} is in the short form of a spreadsheet: write all its digits"),
    (r"\?", "? stands for what the survey did not see: give a height, or close the square"),
]


def number_slip(kind, text):
    """The slip in a text that is no number of a kind."""
    for pattern, words in NUMBERS:
        if re.fullmatch(pattern, text, re.ASCII):
            return words.format(text=text, point=text.replace(",", "."), plain=text.replace(",", ""), bare=re.sub("^0+(?=[0-9])", "", text))
    if re.fullmatch(r"\d+\.\d+", text, re.ASCII) and kind is WHOLE:
        return f"{text} has a point, and is a whole number: write {text.split('.')[0]}, or the next"
    if re.fullmatch(r"\d+\.\d+", text, re.ASCII) and len(text.split(".")[1]) > DECIMALS:
        return f"{shown(text)} has {len(text.split('.')[1]):,} decimals, and at most six are read: round it to the micrometre"
    if re.fullmatch(r"\d+(\.\d+)?", text, re.ASCII):
        return f"{shown(text)} is above {'4294.967295' if kind is METRES else '4,294,967,295'}, the largest number that is read"
    return f"{shown(text) or 'nothing'} is no number"


def value_slips(word, text):
    """The slips in the value of a line of the header, where it has the right word."""
    if word == "NODATA_value":
        return [] if text == CLOSED_TEXT else [f"NODATA is {shown(text)}, and {CLOSED_TEXT} in a set: {BROUGHT}"]
    kind = METRES if word in CORNERS else WHOLE
    if number_of(kind, text) is None and not (word in CORNERS and re.fullmatch(r"-?\d+(\.\d+)?", text, re.ASCII)):
        return [number_slip(kind, text)]
    return [f"the corner is {shown(text)}, and 0 in a set: {BROUGHT}"] if word in CORNERS and number_of(kind, text) != 0 else []


def head_slips(word, fields):
    """The slips of a line of the header that should begin with a word."""
    if fields == [""]:
        return ["it is blank: delete it"]
    if fields[0] != word and fields[0].lower() == word.lower():
        return [f"its word is {shown(fields[0])}: write {word}, in these letters"]
    if fields[0] in ("xllcenter", "yllcenter"):
        return [f"it says the middle of a square, and a set says the corner: {BROUGHT}"]
    if fields[0] in HEAD and fields[0] != word:
        return [f"{fields[0]} does not stand here: the first six lines are {', '.join(HEAD)}"]
    if fields[0] != word:
        return [f"its word is {shown(fields[0])}: write {word}"]
    if len(fields) != 2:
        return [f"it has {len(fields) - 1} field{'' if len(fields) == 2 else 's'} after its word and should have 1"]
    return value_slips(word, fields[1])


def row_slips(name, kind, row, fields, columns):
    """The slips of a row: how many squares it has, and those that are no number."""
    if fields == [""]:
        return ["it is blank: delete it"]
    if len(fields) != columns:
        return [f"it has {len(fields):,} square{'' if len(fields) == 1 else 's'} and should have {columns:,}, as line 1 says"]
    bad = [(column, field) for column, field in enumerate(fields) if field != CLOSED_TEXT and number_of(kind, field) is None]
    return [f"{square((row, column))}: the {name}: {number_slip(kind, field)}" for column, field in bad]


def shape_in(lines):
    """Rows and columns as the first two lines say them."""
    columns, rows = (int(lines[at].split()[1]) for at in (0, 1))
    return rows, columns


def due_at(kind, lines, line):
    """What a line of a grid may be, where all before it read well."""
    if line < FIRST_ROW:
        return FORMS.get(HEAD[line - 1], f"{HEAD[line - 1]} and a whole number")
    rows, columns = shape_in(lines)
    if line - FIRST_ROW >= (rows if columns else 0):
        return "the grid's end"
    unit = "in metres with at most six decimals" if kind is METRES else "that are whole"
    return f"{columns:,} numbers {unit}, or {CLOSED_TEXT} where it is closed, parted by spaces"


def line_slips(name, kind, lines, line):
    """The slips of a line that is there."""
    text, slips = mended(lines[line - 1], lines, MENDS)
    fields = re.split(" +", text)
    if line < FIRST_ROW:
        return slips + head_slips(HEAD[line - 1], fields)
    rows, columns = shape_in(lines)
    if line - FIRST_ROW >= (rows if columns else 0):
        return [*slips, f"the grid has {rows:,} row{'' if rows == 1 else 's'}, as line 2 says, and this is more: delete it, or mend line 2"]
    return slips + row_slips(name, kind, line - FIRST_ROW, fields, columns)


def slips_at(name, kind, text, line):
    """The likely slips where a grid was refused by 12 with a line, and what the line is and may be."""
    if "\0" in text:
        return ["the file is saved as UTF-16, or is no text: save it as plain text or UTF-8"], []
    *lines, rest = text.split("\n")
    every = lines + ([rest] if rest else [])
    if line > len(every):
        said = f", and line 2 says {shape_in(lines)[0]:,} rows" if line > FIRST_ROW else ""
        return [f"the file ends before it, after {len(every)} line{'' if len(every) == 1 else 's'}{said}"], [f"may be {due_at(kind, lines, line)}"]
    slips = line_slips(name, kind, every, line)
    if line > len(lines):
        slips.append("the last line has no newline at its end: press Enter after it")
    return slips, [f"is {shown(every[line - 1]) or 'blank'}", f"may be {due_at(kind, every, line)}"]
