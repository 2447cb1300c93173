"""Boards' texts that are damaged, or that ask for boards that cannot be: for the test of the program, and for that of the words about them."""
from meadow.boards.texts import written
from meadow.boards.watching import MOST_BOARDS
from meadow.sheets.reading import MOST_BYTES

# a board that every sheet takes whose first square is not closed
GOOD = (0, 0, 5)

# lines that cannot be read, between two good ones: 12 with line 2
UNREADABLE = {
    "blank": "",
    "a space alone": " ",
    "a tab alone": "\t",
    "spaces for tabs": "0 0 5",
    "a space for one tab": "0\t0 5",
    "a space after the mark": "0\t0\t5 ",
    "a space before the row": " 0\t0\t5",
    "a tab more at the end": "0\t0\t5\t",
    "a tab more in the middle": "0\t\t0\t5",
    "a tab before the row": "\t0\t0\t5",
    "no mark": "0\t0",
    "no mark and a tab": "0\t0\t",
    "a row alone": "0",
    "a fourth field": "0\t0\t5\t5",
    "a carriage return": "0\t0\t5\r",
    "a needless zero before the row": "00\t0\t5",
    "a needless zero before the column": "0\t00\t5",
    "a needless zero before the mark": "0\t0\t05",
    "a sign before the mark": "0\t0\t-5",
    "a sign before the row": "-1\t0\t5",
    "a plus": "0\t+0\t5",
    "a decimal": "0\t0\t0.5",
    "commas": "0\t0\t100,000",
    "the short form": "0\t0\t1e5",
    "a unit": "0\t0\t5cm",
    "a mark of 2^32": "0\t0\t4294967296",
    "a row of 2^32": "4294967296\t0\t5",
    "a column of 2^32": "0\t4294967296\t5",
    "a mark of 2^64": "0\t0\t18446744073709551616",
    "a row that is 2^64 more than it should be": "18446744073709551616\t0\t5",
    "the word that is printed": "board\t0\t0\t5",
    "a word for the row": "north\t0\t5",
    "a word after the mark": "0\t0\t5\tsluice",
    "a remark": "# the sluice",
    "a dash for the mark": "0\t0\t-",
    "a byte order mark": "\xef\xbb\xbf0\t0\t5",
    "a byte that is no letter": "0\t0\t5\xa0",
    "a nought byte": "0\t0\t5\0",
    "a nought byte alone": "\0",
}
# texts that are damaged as a whole, and the line of their 12
DAMAGED = [
    ("a newline alone", "\n", 1),
    ("a blank line first", "\n" + written([GOOD]), 1),
    ("a blank line last", written([GOOD]) + "\n", 2),
    ("a blank line first and last", "\n" + written([GOOD]) + "\n", 1),
    ("the only line without its newline", written([GOOD])[:-1], 1),
    ("the last line without its newline", written([GOOD, GOOD])[:-1], 2),
    ("a byte and no newline", "0", 1),
    ("newlines as another system has them", written([GOOD, GOOD]).replace("\n", "\r\n"), 1),
    ("carriage returns alone", written([GOOD, GOOD]).replace("\n", "\r"), 1),
    ("UTF-16", written([GOOD]).encode("utf_16").decode("latin-1"), 1),
    ("the answer for the boards", "board\t0\t0\t5\t1000\t0\nsteps\t1\nclock\t1000\n", 1),
    ("a sixteenth line that is none", written([GOOD] * 15) + "x\n", 16),
    ("a seventeenth line that is none", written([GOOD] * 16) + "x\n", 17),
    ("seventeen boards, and then a line that is none", written([GOOD] * 17) + "x\n", 18),
    ("seventeen boards, and the last without its newline", written([GOOD] * 17)[:-1], 17),
]
# the longest text: 10,921 lines of 6 bytes, and one of 10
LONGEST = written([GOOD] * 10_921 + [(0, 0, 10_000)])
assert len(LONGEST) == MOST_BYTES
LONG = [
    ("the longest text, and its last line is none", LONGEST[:-2] + "x\n", (12, 10_922)),
    ("the longest text, without its last newline", LONGEST[:-1] + "0", (12, 10_922)),
    ("the longest text: far too many boards", LONGEST, (13, 0)),
    ("a byte more", LONGEST + "0", (12, 0)),
    ("a byte more, and no line at all", "x" * (MOST_BYTES + 1), (12, 0)),
    ("as many bytes as may be, and no line at all", "x" * MOST_BYTES, (12, 1)),
    ("as many blank lines", "\n" * MOST_BYTES, (12, 1)),
]


def wrong_boards(rows, columns, closed, good):
    """What is tried, and boards that are refused by 13 on a grid of so many rows and columns with a closed square and a good one."""
    board = (*good, 5)
    return [
        ("a row too far south", [(rows, good[1], 5)]),
        ("a column too far east", [(good[0], columns, 5)]),
        ("row and column swapped", [(columns - 1, rows - 1, 5)]),
        ("the largest row", [(4_294_967_295, good[1], 5)]),
        ("the largest column", [(good[0], 4_294_967_295, 5)]),
        ("a row and a column that come round to the first square", [(2_147_483_648, 2_147_483_648, 5)]),
        ("a closed square", [(*closed, 5)]),
        ("a closed square with a mark of 0", [(*closed, 0)]),
        ("a mark one above the deepest", [(*good, 100_000_001)]),
        ("the largest mark", [(*good, 4_294_967_295)]),
        ("the last of sixteen", [board] * 15 + [(*closed, 5)]),
        ("the first of two", [(rows, columns, 5), board]),
        ("one board too many", [board] * (MOST_BOARDS + 1)),
        ("two boards too many", [board] * (MOST_BOARDS + 2)),
        ("one board too many, which is on a closed square", [board] * MOST_BOARDS + [(*closed, 5)]),
    ]
