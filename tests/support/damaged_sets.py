"""Sets of the survey office (document 02, #104) that are damaged, and whole ones that are written otherwise than we write them: a base set,
what is tried in words, an edit of the set, and the answer, worked by hand."""
from damaged import after, before, cut, field, last_gone, one_more, only, spaces, swapped, unended, word
from meadow.sheets.lines import SQUARE
from meadow.surveys.office import WHOLE
from meadow.surveys.sets import GRIDS, Set

# ---- the base set: two rows of three squares of 5 m, one of them closed, no number twice; tabs of the note and the sheet are shown as spaces

HEAD = "ncols 3\nnrows 2\nxllcorner 0\nyllcorner 0\ncellsize 5\nNODATA_value -9999\n"
NOTE = """grid 2 3 5
run 10 300 700 1000 2000 8 2
cell 0 0 o
cell 0 1 x
cell 0 2 e
cell 1 0 o
cell 1 1 o
cell 1 2 e
rain 51 150 90
inflow 1 0 7 101 8
""".replace(" ", "\t")
SHEET = """grid 2 3 5
run 10 300 700 1000 2000 8 2
cell 0 0 o 1000001 100 50 36
cell 0 1 x
cell 0 2 e 20 101 1000051 37
cell 1 0 o 300000 102 0 0
cell 1 1 o 4000000 103 2500000 38
cell 1 2 e 999999999 9999 99999999 999999
rain 51 150 90
inflow 1 0 7 101 8
""".replace(" ", "\t")
BASE = Set(
    NOTE,
    HEAD + "1.000001 -9999 0.000020\n0.300000 4.000000 999.999999\n",
    HEAD + "0.000050 -9999 1.000051\n0.000000 2.500000 99.999999\n",
    HEAD + "100 -9999 101\n102 103 9999\n",
    HEAD + "36 -9999 37\n0 38 999999\n",
)
# the most bytes of a file, said once more than in the module that is tried
MOST_FILE = 262_144
# where the rows of a grid begin, and the lines of a grid and of the note
FIRST_ROW, LAST_ROW, LAST_NOTE_LINE = 7, 8, 10

# ---- edits of one text


def line(number, text):
    """Another text for a line."""

    def edit(whole):
        lines = whole.split("\n")
        lines[number - 1] = text
        return "\n".join(lines)

    return edit


def changed(number, change):
    """A line changed."""
    return lambda whole: line(number, change(whole.split("\n")[number - 1]))(whole)


def square(number, at, text):
    """Another text for a square of a line, counted from 0."""

    def change(old):
        fields = old.split(" ")
        return " ".join([*fields[:at], text, *fields[at + 1 :]])

    return changed(number, change)


def gone(number):
    """A line gone."""
    return lambda whole: "".join(whole.splitlines(True)[: number - 1] + whole.splitlines(True)[number:])


def twice(number):
    """A line twice."""
    return lambda whole: "".join(whole.splitlines(True)[:number] + whole.splitlines(True)[number - 1 :])


def rows(text):
    """Other rows below the header."""
    return lambda whole: "".join(whole.splitlines(True)[: FIRST_ROW - 1]) + text


def each(*edits):
    """Edits one after the other."""

    def edit(whole):
        for one in edits:
            whole = one(whole)
        return whole

    return edit


def constant(text):
    """Another text for the whole."""
    return lambda whole: text


# ---- edits of a set


def of(part, *edits):
    """Edits of one of its texts."""
    return lambda texts: texts._replace(**{part: each(*edits)(getattr(texts, part))})


def of_grids(*edits):
    """The same edits of each grid."""
    return lambda texts: each(*(of(part, *edits) for part in GRIDS))(texts)


def side(metres):
    """Another side of a square in all five."""
    return each(of("note", field(1, "side", metres)), of_grids(line(5, f"cellsize {metres}")))


def sized(down, across):
    """Another set: so many rows and columns of open squares, with a 1 in each grid."""
    marks = "".join("\t".join([SQUARE, str(row), str(column), "o\n"]) for row in range(down) for column in range(across))
    note = each(cut(3), field(1, "rows", down), field(1, "columns", across))(NOTE) + marks
    grid = each(line(1, f"ncols {across}"), line(2, f"nrows {down}"))(HEAD) + (" ".join(["1"] * across) + "\n") * (down if across else 0)
    return constant(Set(note, grid, grid, grid, grid))


def longer(part, size):
    """A text of the set with so many bytes, by spaces in its first line."""
    return of(part, changed(1, lambda text: text.replace(" ", " " * (1 + size - len(getattr(BASE, part))))))


# ---- what cannot be read of a grid

# texts that are no square, in any grid
NO_SQUARE = {
    "a sign": "-1",
    "a plus": "+1",
    "nought with a sign": "-0",
    "a needless zero": "01",
    "two noughts": "00",
    "a point alone": ".",
    "a point and no decimal": "1.",
    "no digit before the point": ".5",
    "two points": "1.0.0",
    "seven decimals": "1.0000001",
    "seven decimals that are noughts": "1.0000000",
    "very many decimals": "1." + "0" * 5_000,
    "very many digits": "9" * 5_000,
    "a needless zero before a point": "00.5",
    "a decimal comma": "1,5",
    "a thousands comma": "1,000",
    "an underscore": "1_0",
    "the short form": "1e2",
    "the short form with a point": "1.0E+02",
    "a unit": "1m",
    "a hexadecimal number": "0x1",
    "a letter": "x",
    "a question mark": "?",
    "an asterisk": "*",
    "not a number": "nan",
    "infinity": "inf",
    "nothing where a square should be": "",
    "NODATA with decimals": "-9999.0",
    "NODATA with six decimals": "-9999.000000",
    "NODATA with a digit more": "-99990",
    "NODATA with a digit less": "-999",
    "NODATA with a space in it": "- 9999",
    "NODATA with a needless zero": "-09999",
    "another NODATA": "-3.4e38",
    "NODATA in quotes": '"-9999"',
    "a number in quotes": '"1"',
    "a tab before it": "\t1",
    "a tab after it": "1\t",
    "a carriage return after it": "1\r",
    "a nought byte after it": "1\0",
    "a byte that looks like a space": "1\xa0",
    "a vertical tab": "1\x0b",
    "a digit of other letters": "\xd9\xa1",
    "a square more": "1 1",
}
NO_METRES = {"2^32 µm": "4294.967296", "2^32 m": "4294967296", "2^64 µm": "18446744073709.551616"}
NO_WHOLE = {"2^32": "4294967296", "2^64 and one": "18446744073709551617", "a decimal": "1.5", "a nought decimal": "1.0", "six of them": "1.000000"}

# a line of the header that cannot be read: its number and its text
NO_HEAD = [
    ("columns with a point", 1, "ncols 3.0"),
    ("columns with a sign", 1, "ncols +3"),
    ("columns with a needless zero", 1, "ncols 03"),
    ("columns of 2^32", 1, "ncols 4294967296"),
    ("columns in large letters", 1, "NCOLS 3"),
    ("columns with a large letter", 1, "Ncols 3"),
    ("a word cut short", 1, "ncol 3"),
    ("a word with a letter more", 1, "ncolss 3"),
    ("a space before the word", 1, " ncols 3"),
    ("a space after the number", 1, "ncols 3 "),
    ("a tab for the space", 1, "ncols\t3"),
    ("a tab beside the space", 1, "ncols \t3"),
    ("no space", 1, "ncols3"),
    ("a word alone", 1, "ncols"),
    ("a word and a space", 1, "ncols "),
    ("two numbers", 1, "ncols 3 3"),
    ("a colon", 1, "ncols: 3"),
    ("an equals sign", 1, "ncols = 3"),
    ("a blank line first", 1, ""),
    ("a byte order mark", 1, "\xef\xbb\xbfncols 3"),
    ("a carriage return", 1, "ncols 3\r"),
    ("a nought byte", 1, "ncols 3\0"),
    ("columns for rows", 2, "ncols 2"),
    ("rows with a point", 2, "nrows 2.0"),
    ("rows with a sign", 2, "nrows -2"),
    ("rows of 2^32", 2, "nrows 4294967296"),
    ("rows in large letters", 2, "NROWS 2"),
    ("rows with a remark", 2, "nrows 2 # two"),
    ("a western corner of 1 µm", 3, "xllcorner 0.000001"),
    ("a western corner of 1 m", 3, "xllcorner 1"),
    ("a western corner on a map", 3, "xllcorner 432100.5"),
    ("a western corner below nought", 3, "xllcorner -1"),
    ("a western corner of nought with a sign", 3, "xllcorner -0"),
    ("a western corner of two noughts", 3, "xllcorner 00"),
    ("a western corner with a bare point", 3, "xllcorner 0."),
    ("a western corner without a digit before the point", 3, "xllcorner .0"),
    ("a western corner with seven decimals", 3, "xllcorner 0.0000000"),
    ("a western corner in the short form", 3, "xllcorner 0e0"),
    ("the centre of the western square", 3, "xllcenter 0"),
    ("the southern corner first", 3, "yllcorner 0"),
    ("a corner too far for a number", 3, "xllcorner 4294.967296"),
    ("a corner that is NODATA", 3, "xllcorner -9999"),
    ("a southern corner of 1 µm", 4, "yllcorner 0.000001"),
    ("a southern corner on a map", 4, "yllcorner 215000"),
    ("a southern corner with seven decimals", 4, "yllcorner 0.0000000"),
    ("a southern corner with a sign", 4, "yllcorner -0.0"),
    ("the centre of the southern square", 4, "yllcenter 0"),
    ("a southern corner with a space after it", 4, "yllcorner 0 "),
    ("a side with a point", 5, "cellsize 5.0"),
    ("a side with six decimals", 5, "cellsize 5.000000"),
    ("half a metre", 5, "cellsize 5.5"),
    ("a side with a sign", 5, "cellsize -5"),
    ("a side of 2^32", 5, "cellsize 4294967296"),
    ("another word for the side", 5, "dx 5"),
    ("a side in large letters", 5, "CELLSIZE 5"),
    ("NODATA with a point", 6, "NODATA_value -9999.0"),
    ("NODATA without a sign", 6, "NODATA_value 9999"),
    ("another NODATA", 6, "NODATA_value -9998"),
    ("NODATA with a digit more", 6, "NODATA_value -99990"),
    ("NODATA with a digit less", 6, "NODATA_value -999"),
    ("NODATA nought", 6, "NODATA_value 0"),
    ("NODATA in small letters", 6, "nodata_value -9999"),
    ("NODATA in large letters", 6, "NODATA_VALUE -9999"),
    ("NODATA with a space after it", 6, "NODATA_value -9999 "),
    ("NODATA and no value", 6, "NODATA_value"),
    ("NODATA not a number", 6, "NODATA_value nan"),
]
# a grid damaged as a whole, and the line of its 12
NO_GRID = [
    ("nothing at all", constant(""), 1),
    ("a newline alone", constant("\n"), 1),
    ("the note for a grid", constant(NOTE), 1),
    ("the sheet for a grid", constant(SHEET), 1),
    ("a letter and no newline", constant("n"), 1),
    ("newlines as another system has them", lambda text: text.replace("\n", "\r\n"), 1),
    ("carriage returns alone", lambda text: text.replace("\n", "\r"), 1),
    ("UTF-16", lambda text: text.encode("utf_16").decode("latin-1"), 1),
    ("commas between squares", lambda text: text.replace(" -9999 ", ",-9999,"), 7),
    ("tabs between squares", lambda text: text.replace(" -9999 ", "\t-9999\t"), 7),
    ("a space before the first row", changed(7, lambda row: " " + row), 7),
    ("a space after the first row", changed(7, lambda row: row + " "), 7),
    ("a space before the last row", changed(8, lambda row: " " + row), 8),
    ("a space after the last row", changed(8, lambda row: row + " "), 8),
    ("a row with a square more", changed(7, lambda row: row + " 1"), 7),
    ("a row with a closed square more", changed(8, lambda row: row + " -9999"), 8),
    ("a row with a square less", changed(8, lambda row: row.rsplit(" ", 1)[0]), 8),
    ("a row wrapped", changed(7, lambda row: row.replace(" ", "\n", 1)), 7),
    ("two rows in one line", lambda text: text[: text.rindex("\n", 0, -1)] + " " + text[text.rindex("\n", 0, -1) + 1 :], 7),
    ("a blank line before the rows", changed(7, lambda row: "\n" + row), 7),
    ("a blank line between the rows", changed(8, lambda row: "\n" + row), 8),
    ("a blank line after the rows", lambda text: text + "\n", 9),
    ("a space after the rows", lambda text: text + " ", 9),
    ("a nought byte after the rows", lambda text: text + "\0", 9),
    ("a row more", twice(8), 9),
    ("a row more, without its newline", lambda text: text + "1 1 1", 9),
    ("the grid twice", lambda text: text + text, 9),
    ("no newline at the end", unended, 8),
    ("the last square cut", lambda text: text[: text.rindex(" ")], 8),
    ("three columns said to be two", line(1, "ncols 2"), 7),
    ("three columns said to be four", line(1, "ncols 4"), 7),
    ("three columns said to be six", line(1, "ncols 6"), 7),
    ("three columns said to be one", line(1, "ncols 1"), 7),
    ("very many columns", line(1, "ncols 4294967295"), 7),
    ("two rows said to be one", line(2, "nrows 1"), 8),
    ("two rows said to be three", line(2, "nrows 3"), 9),
    ("very many rows", line(2, "nrows 4294967295"), 9),
    ("very many rows and columns", each(line(1, "ncols 4294967295"), line(2, "nrows 4294967295")), 7),
    ("no columns, and rows", line(1, "ncols 0"), 7),
    ("no rows, and rows", line(2, "nrows 0"), 7),
    ("a remark first", before("# beds"), 1),
    ("rows and columns in each other's places", swapped(1, 2), 1),
    ("the corners in each other's places", swapped(3, 4), 3),
    ("side and NODATA in each other's places", swapped(5, 6), 5),
]
NO_GRID += [(f"line {number} gone", gone(number), number) for number in range(1, FIRST_ROW)]
NO_GRID += [(f"line {number} twice", twice(number), number + 1) for number in range(1, FIRST_ROW)]
NO_GRID += [(f"cut before line {number}", cut(number), number) for number in range(1, LAST_ROW + 1)]
NO_GRID += [(words, line(number, text), number) for words, number, text in NO_HEAD]
NO_GRID += [(f"{words}, in the first square", square(FIRST_ROW, 0, text), FIRST_ROW) for words, text in NO_SQUARE.items()]
NO_GRID += [(f"{words}, in the last square", square(LAST_ROW, 2, text), LAST_ROW) for words, text in NO_SQUARE.items()]

# ---- what cannot be read of a note

NO_NOTE = [
    ("nothing at all", constant(""), 1),
    ("a newline alone", constant("\n"), 1),
    ("a grid for the note", constant(BASE.bed), 1),
    ("the sheet for the note", constant(SHEET), 3),
    ("newlines as another system has them", lambda text: text.replace("\n", "\r\n"), 1),
    ("a byte order mark", lambda text: "\xef\xbb\xbf" + text, 1),
    ("no newline at the end", unended, LAST_NOTE_LINE),
    ("a blank line at the end", after(""), LAST_NOTE_LINE + 1),
    ("a letter at the end", lambda text: text + "x", LAST_NOTE_LINE + 1),
    ("a word before all", before("note"), 1),
    ("columns gone", last_gone(1), 1),
    ("a field more in the first line", one_more(1), 1),
    ("spaces for tabs in the first line", spaces(1), 1),
    ("a side with a point", field(1, "side", "5.0"), 1),
    ("a needless zero", field(1, "rows", "02"), 1),
    ("a side of 2^32", field(1, "side", 4_294_967_296), 1),
    ("the office's word for the shape", word(1, "ncols"), 1),
    ("the edition gone", last_gone(2), 2),
    ("a field more in the run's line", one_more(2), 2),
    ("the run's word cut", word(2, "ru"), 2),
    ("an end with a sign", field(2, "end", "-1"), 2),
    ("a space in the run's line", field(2, "end", "2000 "), 2),
    ("a bed after a mark", one_more(3), 3),
    ("a square as in the sheet", one_more(3, "0\t100\t0\t0"), 3),
    ("a tab after a mark", one_more(4, ""), 4),
    ("a mark gone", last_gone(5), 5),
    ("another mark", field(5, "mark", "w"), 5),
    ("a large mark", field(5, "mark", "E"), 5),
    ("a mark twice", field(5, "mark", "ee"), 5),
    ("an empty mark", field(5, "mark", ""), 5),
    ("a mark as a number", field(5, "mark", "2"), 5),
    ("a space after a mark", field(5, "mark", "e "), 5),
    ("another row", field(6, "row", 0), 6),
    ("another column", field(6, "column", 1), 6),
    ("a needless zero in a row", field(6, "row", "01"), 6),
    ("row and column alone", only(6, 2), 6),
    ("spaces for tabs at a square", spaces(7), 7),
    ("two squares in each other's places", swapped(3, 4), 3),
    ("the last square gone", gone(8), 8),
    ("a square twice", twice(8), 9),
    ("rain cut", last_gone(9), 9),
    ("rain with a field more", one_more(9), 9),
    ("rain in mm", field(9, "rate", "0.09"), 9),
    ("a hatch cut", last_gone(10), 10),
    ("a hatch with a unit", field(10, "litres", "8l"), 10),
    ("rain after a hatch", swapped(9, 10), 10),
    ("rain before the squares", swapped(3, 9), 3),
    ("a remark between the squares", changed(5, lambda text: "# wall\n" + text), 5),
    ("three rows said", field(1, "rows", 3), 9),
    ("one row said", field(1, "rows", 1), 6),
    ("two columns said", field(1, "columns", 2), 5),
    ("four columns said", field(1, "columns", 4), 6),
    ("no column said", field(1, "columns", 0), 3),
    ("no row said", field(1, "rows", 0), 3),
    ("very many rows", field(1, "rows", 4_294_967_295), 9),
    ("very many columns", field(1, "columns", 4_294_967_295), 6),
    ("a number of very many digits", field(2, "tolerance", "9" * 5_000), 2),
]
NO_NOTE += [(f"cut before line {number}", cut(number), number) for number in range(1, 9)]

# ---- files that disagree

TURNED = "ncols 2\nnrows 3\n" + HEAD.split("\n", 2)[2] + "1 -9999\n1 1\n1 1\n"
DISAGREE = [
    ("another side", line(5, "cellsize 6")),
    ("no side", line(5, "cellsize 0")),
    ("a side out of range", line(5, "cellsize 4294967295")),
    ("a column more", each(line(1, "ncols 4"), rows("1 -9999 1 1\n1 1 1 1\n"))),
    ("a column less", each(line(1, "ncols 2"), rows("1 -9999\n1 1\n"))),
    ("a row more", each(line(2, "nrows 3"), rows("1 -9999 1\n1 1 1\n1 1 1\n"))),
    ("a row less", each(line(2, "nrows 1"), rows("1 -9999 1\n"))),
    ("rows and columns turned", constant(TURNED)),
    ("all squares in one row", each(line(1, "ncols 6"), line(2, "nrows 1"), rows("1 -9999 1 1 1 1\n"))),
    ("no squares, by its columns", each(line(1, "ncols 0"), rows(""))),
    ("no squares, by its rows", each(line(2, "nrows 0"), rows(""))),
    ("the closed square open", square(FIRST_ROW, 1, "1")),
    ("the closed square nought", square(FIRST_ROW, 1, "0")),
    ("an open square closed", square(LAST_ROW, 0, "-9999")),
    ("an exit closed", square(FIRST_ROW, 2, "-9999")),
    ("the last square closed", square(LAST_ROW, 2, "-9999")),
    ("the closed square beside its place", rows("-9999 1 1\n1 1 1\n")),
    ("flipped north to south", rows("1 1 1\n1 -9999 1\n")),
    ("every square closed", rows("-9999 -9999 -9999\n-9999 -9999 -9999\n")),
    ("no square closed", rows("1 1 1\n1 1 1\n")),
]
NOTE_DISAGREES = [
    ("another side", field(1, "side", 6)),
    ("a side out of range", field(1, "side", 101)),
    ("the closed square open", field(4, "mark", "o")),
    ("the closed square an exit", field(4, "mark", "e")),
    ("an open square closed", field(3, "mark", "x")),
    ("an exit closed", field(5, "mark", "x")),
    ("a row less", each(gone(8), gone(7), gone(6), field(1, "rows", 1))),
    ("no squares at all", each(*[gone(3)] * 6, field(1, "rows", 0))),
]

# ---- 1 to 5, where all five agree: the number, what is tried, and the edit of the set
OUT_OF_RANGE = [
    (1, "a side of 0", side(0)),
    (1, "a side of 101 m", side(101)),
    (1, "the largest side", side(4_294_967_295)),
    (1, "65 columns", sized(1, 65)),
    (1, "65 rows", sized(65, 1)),
    (1, "no columns", sized(1, 0)),
    (1, "no rows", sized(0, 1)),
    (1, "no rows and no columns", sized(0, 0)),
    (1, "very many rows of no squares", each(sized(1, 0), of("note", field(1, "rows", 4_294_967_295)), of_grids(line(2, "nrows 4294967295")))),
    (1, "very many columns in no rows", each(sized(0, 1), of("note", field(1, "columns", 4_294_967_295)), of_grids(line(1, "ncols 4294967295")))),
    (2, "a bed of 1,000 m and 1 µm", of("bed", square(8, 1, "1000.000001"))),
    (2, "the highest bed that is a number", of("bed", square(8, 1, "4294.967295"))),
    (2, "a roughness of 0", of("roughness", square(7, 0, "0"))),
    (2, "a roughness of 10,001", of("roughness", square(8, 2, "10001"))),
    (2, "a roughness of 2^32 - 1", of("roughness", square(7, 2, "4294967295"))),
    (2, "a soak rate of 1,000,001", of("rate", square(8, 0, "1000001"))),
    (2, "a soak rate of 2^32 - 1", of("rate", square(7, 0, "4294967295"))),
    (2, "an exit off the rim", each(sized(3, 3), of("note", field(7, "mark", "e")))),
    (3, "a depth of 100 m and 1 µm", of("depth", square(8, 2, "100.000001"))),
    (3, "the deepest that is a number", of("depth", square(7, 0, "4294.967295"))),
    (4, "rain that ends before it begins", of("note", field(9, "from", 151))),
    (4, "rain after a week", of("note", field(9, "to", 604_800_001))),
    (4, "too much rain", of("note", field(9, "rate", 1_000_001))),
    (4, "65 rows of rain", of("note", *[twice(9)] * 64)),
    (4, "65 hatches", of("note", *[twice(10)] * 64)),
    (4, "a hatch on the closed square", of("note", field(10, "row", 0), field(10, "column", 1))),
    (4, "a hatch south of the grid", of("note", field(10, "row", 2))),
    (4, "a hatch east of the grid", of("note", field(10, "column", 3))),
    (4, "a hatch that ends before it begins", of("note", field(10, "from", 102))),
    (4, "too many litres", of("note", field(10, "litres", 100_001))),
    (5, "a tolerance of 10,001", of("note", field(2, "tolerance", 10_001))),
    (5, "a shortest step of 0", of("note", field(2, "shortest", 0))),
    (5, "a shortest step above the longest", of("note", field(2, "shortest", 701))),
    (5, "a longest step of 60,001", of("note", field(2, "longest", 60_001))),
    (5, "an update time of 0", of("note", field(2, "update", 0))),
    (5, "an update time of 3,600,001", of("note", field(2, "update", 3_600_001))),
    (5, "an end that is no multiple", of("note", field(2, "end", 2_001))),
    (5, "an end after a week", of("note", field(2, "end", 604_801_000))),
    (5, "an edge slope of 10,001", of("note", field(2, "edge", 10_001))),
    (5, "edition 0", of("note", field(2, "edition", 0))),
    (5, "edition 4", of("note", field(2, "edition", 4))),
]

# ---- the order: a fault of each kind, in the order in which they are tried; of two together the first is told
ORDER = [
    ("a file that is too long", of("rate", lambda text: text + " " * MOST_FILE), (12, 0)),
    ("the note's text", of("note", changed(10, lambda text: text + " ")), (12, 10)),
    ("the bed's text", of("bed", line(6, "NODATA_value -1")), (12, 6)),
    ("the depth's text", of("depth", line(3, "xllcorner 1")), (12, 3)),
    ("the roughness' text", of("roughness", square(8, 0, "102.0")), (12, 8)),
    ("the rate's text", of("rate", line(4, "yllcorner 1")), (12, 4)),
    ("files that disagree", of("depth", square(7, 1, "0")), (14, 0)),
    ("1", side(101), (1, 0)),
    ("2", of("roughness", square(7, 0, "0")), (2, 0)),
    ("3", of("depth", square(8, 2, "100.000001")), (3, 0)),
    ("4", of("note", field(9, "rate", 1_000_001)), (4, 0)),
    ("5", of("note", field(2, "edition", 4)), (5, 0)),
]

# ---- whole sets that are written otherwise: each comes back as the base's sheet
OTHERWISE = [
    ("as we write it", lambda texts: texts),
    ("two spaces between squares", of_grids(lambda text: text.replace(" ", "  "))),
    ("a hundred spaces between squares", of_grids(lambda text: text.replace(" ", " " * 100))),
    ("more spaces in the header alone", of_grids(changed(1, lambda text: text.replace(" ", "         ")))),
    ("a corner with a decimal", of_grids(line(3, "xllcorner 0.0"))),
    ("corners with six decimals", of_grids(line(3, "xllcorner 0.000000"), line(4, "yllcorner 0.000000"))),
    ("corners with one to five", of_grids(line(3, "xllcorner 0.00"), line(4, "yllcorner 0.00000"))),
    ("the corners of one file alone", of("rate", line(3, "xllcorner   0.000"), line(4, "yllcorner 0.0000"))),
    ("fewer decimals in the beds", of("bed", rows("1.000001 -9999 0.00002\n0.3 4 999.999999\n"))),
    ("fewer decimals in the depths", of("depth", rows("0.00005 -9999 1.000051\n0 2.5 99.999999\n"))),
    ("some decimals that are noughts", of("bed", rows("1.000001  -9999   0.00002\n0.30 4.000 999.999999\n"))),
    ("nought with a decimal", of("depth", rows("0.00005 -9999 1.000051\n0.0 2.50 99.999999\n"))),
]


def sizes():
    """Files of as many bytes as may be, and of one more: what is tried, the edit of the set, and the answer."""
    for part in Set._fields:
        if part in GRIDS:
            yield f"the {part}: as many bytes as may be", longer(part, MOST_FILE), SHEET
            yield f"the {part}: one byte more", longer(part, MOST_FILE + 1), (12, 0)
        yield f"the {part}: as many bytes as may be, and no line", of(part, constant("x" * MOST_FILE)), (12, 1)
        yield f"the {part}: one byte more, and no line", of(part, constant("x" * (MOST_FILE + 1))), (12, 0)
        yield f"the {part}: as many newlines as may be", of(part, constant("\n" * MOST_FILE)), (12, 1)


def table():
    """Every case: a name, what is tried, the set, and the answer: a sheet's text, or a number and a line."""
    found = [("otherwise", words, edit, SHEET) for words, edit in OTHERWISE]
    found += [("note", f"the note: {words}", of("note", edit), (12, number)) for words, edit, number in NO_NOTE]
    for part, kind in GRIDS.items():
        more = NO_WHOLE if kind is WHOLE else NO_METRES
        damages = NO_GRID + [(words, square(FIRST_ROW, 2, text), FIRST_ROW) for words, text in more.items()]
        found += [(part, f"the {part}: {words}", of(part, edit), (12, number)) for words, edit, number in damages]
        found += [(f"{part}-differs", f"the {part} alone: {words}", of(part, edit), (14, 0)) for words, edit in DISAGREE]
    found += [("note-differs", f"the note alone: {words}", of("note", edit), (14, 0)) for words, edit in NOTE_DISAGREES]
    found += [(f"refused-{number}", words, edit, (number, 0)) for number, words, edit in OUT_OF_RANGE]
    for at, (first, edit, answer) in enumerate(ORDER):
        found.append(("order", f"{first} alone", edit, answer))
        found += [("order", f"{first}, and {second}", each(other, edit), answer) for second, other, _ in ORDER[at + 1 :]]
    found += [("size", *size) for size in sizes()]
    return [(f"{kind}-{at}", words, edit(BASE), answer) for at, (kind, words, edit, answer) in enumerate(found)]
