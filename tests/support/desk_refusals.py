"""Every refusal of the desk as a table: what is tried in words, the lines before it, the line, and number and line of the refusal. Lines are
written with spaces for tabs; a text follows its line."""
from damaged import A_HATCH, A_SHOWER, BASES, after, closed, field, last_gone, square_grid
from meadow.logs.entries import written
from meadow.rule.ranges import LAST_CLOCK
from meadow.sheets.lines import SECOND, Sheet
from plain_desk import HALF, LINES, MOST_GIVEN, MOST_LINE, MOST_START, MOST_TEXT, WITH_TEXT

PUDDLE = BASES["puddle"]


def with_text(word, text):
    """A line and the text that it counts."""
    return written(f"{word} {len(text)}") + text


def sheet(text):
    """A line `sheet` and its text."""
    return with_text("sheet", text)


def lay(text):
    """A line `lay` and its text."""
    return with_text("lay", text)


def saved(steps=1, clock=1_000, length=1_000, opening=0, out=0, soak=0, start=1_000, given=0, hatches=(), squares=("0 1000 0",)):
    """The text of a saved state, of the puddle where nothing else is said."""
    totals = {"out": out, "soak": soak, "start": start, "given": given}
    return written(
        f"stand {steps} {clock} {length} {opening}",
        *("{} {} {}".format(word, *divmod(total, HALF)) for word, total in totals.items()),
        *(f"hatch {hatch}" for hatch in hatches),
        *(f"at {square}" for square in squares),
    )


def walled():
    """Two squares beside a closed one."""
    ground = Sheet(1, 3, 1, tolerance=100, shortest=SECOND, longest=SECOND, update=SECOND)
    for column in (0, 2):
        ground.put((0, column), 0, 100)
    return ground.text(SECOND)


def odd_week():
    """The puddle with an update time of which the last clock is no multiple, and with steps as long."""
    return field(2, "update", 11_000)(field(2, "longest", 11_000)(field(2, "end", 0)(PUDDLE)))


def soaking():
    """The puddle on ground that takes a metre an hour, 277 µm a second."""
    return field(3, "rate", 1_000_000)(PUDDLE)


ON_PUDDLE = sheet(PUDDLE)
NAMED = ON_PUDDLE + written("hatch 1 0 0")
STEPPED = NAMED + written("step 3 604800000 0")
ON_WALLED = sheet(walled())
# 64 rows of inflow have no room for a hatch, 63 for one
ROWS_64, ROWS_63 = (sheet(after(A_HATCH, many)(PUDDLE)) for many in (64, 63))
TOO_DEEP, TOO_MUCH = "0 100000001 0", "1 0 0 100001"

# ---- lines that cannot be read: 12, line 0
UNREADABLE = {
    "an empty line": "",
    "spaces for tabs": "step 1 1000 1",
    "a word in upper case": "Show",
    "a word misspelt": "shows",
    "a field too many": "show\t1",
    "a field too few": "step\t1\t1000",
    "an empty field": "draw\t1\t",
    "two tabs": "draw\t\t1\t5",
    "a tab at the end": "show\t",
    "a tab before the word": "\tshow",
    "a needless zero": "back\t00",
    "a sign": "back\t-1",
    "a fraction": "back\t1.0",
    "2^32": "back\t4294967296",
    "a sheet of 2^32 bytes": "sheet\t4294967296",
    "a sheet without its bytes": "sheet",
    "a saved state without its bytes": "lay",
    "a carriage return": "show\r",
    "a nought byte": "show\0",
    "a byte that is no letter": "show\xa0",
    "a hatch log's line": "1000\t1\t5",
    "a frame": "frame\t0\t0\t1000\t0\t0\t0\t256\t1000\t1000\t0",
    "one byte too long": "9" * MOST_LINE,
    "as long as may be": "9" * (MOST_LINE - 1),
    "a good line with too many bytes after it": "show\t" + "1" * MOST_LINE,
    "far too long": "9" * 70_000,
}

# ---- a line, what came before it, and the refusal
CASES = [
    ("a hatch 0", ON_PUDDLE, "hatch 0 0 0", (12, 0)),
    ("a hatch 10", ON_PUDDLE, "hatch 10 0 0", (12, 0)),
    ("a hatch named twice", NAMED, "hatch 1 0 0", (12, 0)),
    ("a hatch named twice, off the grid", NAMED, "hatch 1 5 5", (12, 0)),
    ("a hatch after a step", STEPPED, "hatch 2 0 0", (12, 0)),
    ("a hatch after the steps were taken back", STEPPED + written("back 3"), "hatch 2 0 0", (12, 0)),
    ("a hatch after a back of none, as in a hatch log", NAMED + written("back 0"), "hatch 2 0 0", (12, 0)),
    ("a hatch saved and named again", ON_PUDDLE + lay(saved(0, 0, opening=1, hatches=("1 0 0 0",))), "hatch 1 0 0", (12, 0)),
    ("a hatch after a saved opening that is over", ON_PUDDLE + lay(saved()), "hatch 1 0 0", (12, 0)),
    ("a draw of no hatch", NAMED, "draw 2 5", (12, 0)),
    ("a draw of hatch 0", NAMED, "draw 0 5", (12, 0)),
    ("a draw of hatch 10", NAMED, "draw 10 5", (12, 0)),
    ("a draw of no hatch, too much", NAMED, "draw 2 100001", (12, 0)),
    ("no step", NAMED, "step 0 604800000 1", (12, 0)),
    ("65 steps", NAMED, "step 65 604800000 1", (12, 0)),
    ("every 2", NAMED, "step 1 604800000 2", (12, 0)),
    ("no step, to an end that is too late", NAMED, "step 0 604800001 1", (12, 0)),
    ("every 2, to an end that is too late", NAMED, "step 1 604800001 2", (12, 0)),
    # a sheet's text, with its line or its number
    ("a sheet of no byte", STEPPED, sheet(""), (12, 1)),
    ("a sheet whose line 3 is cut", STEPPED, sheet(last_gone(3)(PUDDLE)), (12, 3)),
    ("a sheet without its last newline", STEPPED, sheet(PUDDLE[:-1]), (12, 3)),
    ("a sheet with a byte too many", STEPPED, sheet(PUDDLE + "x"), (12, 4)),
    ("a sheet of as many bytes as are taken", STEPPED, sheet("0" * MOST_TEXT), (12, 1)),
    ("a sheet of 65 rows", STEPPED, sheet(field(1, "rows", 65)(PUDDLE)), (1, 0)),
    ("a sheet without a row", STEPPED, sheet(field(1, "rows", 0)(PUDDLE)), (1, 0)),
    ("a sheet with a side of 0", STEPPED, sheet(field(1, "side", 0)(PUDDLE)), (1, 0)),
    ("a sheet with a roughness of 0", STEPPED, sheet(field(3, "roughness", 0)(PUDDLE)), (2, 0)),
    ("a sheet with an exit off the rim", STEPPED, sheet(field(7, "mark", "e")(square_grid(3, 0))), (2, 0)),
    ("a sheet that is too deep", STEPPED, sheet(field(3, "depth", 100_000_001)(PUDDLE)), (3, 0)),
    ("a sheet with too much rain", STEPPED, sheet(field(4, "rate", 1_000_001)(after(A_SHOWER)(PUDDLE))), (4, 0)),
    ("a sheet with 65 showers", STEPPED, sheet(after(A_SHOWER, 65)(PUDDLE)), (4, 0)),
    ("a sheet with inflow on a wall", STEPPED, sheet(closed(3)(after(A_HATCH)(PUDDLE))), (4, 0)),
    ("a sheet with an update time of 0", STEPPED, sheet(field(2, "update", 0)(PUDDLE)), (5, 0)),
    ("a sheet with an end between two updates", STEPPED, sheet(field(2, "end", 1_500)(PUDDLE)), (5, 0)),
    # 3 to 6 of other lines
    ("a draw of too much", NAMED, "draw 1 100001", (4, 0)),
    ("a hatch on a closed square", ON_WALLED, "hatch 1 0 1", (4, 0)),
    ("a hatch south of the grid", ON_WALLED, "hatch 1 1 0", (4, 0)),
    ("a hatch east of the grid", ON_WALLED, "hatch 1 0 3", (4, 0)),
    ("a hatch after 64 rows of inflow", ROWS_64, "hatch 1 0 0", (4, 0)),
    ("a second hatch after 63 rows", ROWS_63 + written("hatch 9 0 0"), "hatch 1 0 0", (4, 0)),
    ("a step to an end that is too late", NAMED, "step 1 604800001 1", (5, 0)),
    ("most to an end that is too late", NAMED, "most 604801000", (5, 0)),
    ("most to an end between two updates", NAMED, "most 1500", (5, 0)),
    # 10
    ("back one beyond kept", STEPPED, "back 4", (10, 0)),
    ("back with none kept", NAMED, "back 1", (10, 0)),
    ("back of 2^32 - 1", STEPPED, "back 4294967295", (10, 0)),
    ("back below what was laid", STEPPED + lay(saved(hatches=("1 0 0 0",))), "back 1", (10, 0)),
    ("arrows with none kept", NAMED, "arrows", (10, 0)),
    ("arrows with all taken back", STEPPED + written("back 3"), "arrows", (10, 0)),
    ("arrows of what was laid", STEPPED + lay(saved()), "arrows", (10, 0)),
    # the step
    ("a step past the last clock", sheet(odd_week()) + lay(saved(clock=LAST_CLOCK - 1)), "step 1 604800000 1", (7, 0)),
    ("a step that gets too deep", NAMED + written("draw 1 100000"), "step 1 604800000 1", (8, 0)),
    ("a step with too much outflow", sheet(BASES["exit"]) + lay(saved(out=10**15, squares=("0 10000 0",))), "step 1 604800000 1", (9, 0)),
    ("a step that soaks too much", sheet(soaking()) + lay(saved(soak=10**15)), "step 1 604800000 1", (15, 0)),
    # a saved state's text
    ("a saved state of no byte", STEPPED, lay(""), (12, 1)),
    ("a saved state of as many bytes as are taken", STEPPED, lay("0" * MOST_TEXT), (12, 1)),
    ("a saved state with an opening of 2", STEPPED, lay(saved(opening=2)), (12, 1)),
    ("a saved state without its outflow", STEPPED, lay(saved().replace("out\t0\t0\n", "")), (12, 2)),
    ("a saved state whose outflow has no low bits", STEPPED, lay(saved().replace("out\t0\t0\n", "out\t0\n")), (12, 2)),
    ("a saved state without soaked", STEPPED, lay(saved().replace("soak\t0\t0\n", "")), (12, 3)),
    ("a saved state without its start", STEPPED, lay(saved().replace("start\t0\t1000\n", "")), (12, 4)),
    ("a saved state without given", STEPPED, lay(saved().replace("given\t0\t0\n", "")), (12, 5)),
    ("a saved state with hatches from 2 down", STEPPED, lay(saved(hatches=("2 0 0 0", "1 0 0 0"))), (12, 7)),
    ("a saved state with a hatch twice", STEPPED, lay(saved(hatches=("1 0 0 0", "1 0 0 0"))), (12, 7)),
    ("a saved state with a hatch 10", STEPPED, lay(saved(hatches=("10 0 0 0",))), (12, 6)),
    ("a saved state with a hatch 0", STEPPED, lay(saved(hatches=("0 0 0 0",))), (12, 6)),
    ("a saved state without its square", STEPPED, lay(saved(squares=())), (12, 6)),
    ("a saved state with a square too many", STEPPED, lay(saved(squares=("0 1000 0", "1 1000 0"))), (12, 7)),
    ("a saved state with another square", STEPPED, lay(saved(squares=("1 1000 0",))), (12, 6)),
    ("a saved state with a closed square", ON_WALLED, lay(saved(squares=("0 0 0", "1 0 0", "2 0 0"))), (12, 7)),
    ("a saved state with its done", STEPPED, lay(saved() + "done\n"), (12, 7)),
    ("a saved state without its last newline", STEPPED, lay(saved()[:-1]), (12, 6)),
    ("a saved state with a hatch and a square that cannot be read", STEPPED, lay(saved(hatches=("3 0 0 0",), squares=("0 1000",))), (12, 7)),
    ("a saved state that is too deep", STEPPED, lay(saved(squares=(TOO_DEEP,))), (3, 0)),
    ("a saved state of which too much left last", STEPPED, lay(saved(squares=("0 0 100000001",))), (3, 0)),
    ("a saved state with too much drawn", STEPPED, lay(saved(hatches=(TOO_MUCH,))), (4, 0)),
    ("a saved state with a hatch off the grid", STEPPED, lay(saved(hatches=("1 0 1 0",))), (4, 0)),
    ("a saved state with a hatch on a wall", ON_WALLED, lay(saved(hatches=("1 0 1 0",), squares=("0 0 0", "2 0 0"))), (4, 0)),
    ("a saved state with a hatch after 64 rows", ROWS_64, lay(saved(hatches=("1 0 0 0",))), (4, 0)),
    ("a saved state after the last clock", STEPPED, lay(saved(clock=LAST_CLOCK + 1)), (6, 0)),
    ("a saved state with a length of 0", STEPPED, lay(saved(length=0)), (6, 0)),
    ("a saved state with a length above a minute", STEPPED, lay(saved(length=60_001)), (6, 0)),
    ("a saved state with too much outflow", STEPPED, lay(saved(out=10**15 + 1)), (6, 0)),
    ("a saved state with too much soaked", STEPPED, lay(saved(soak=10**15 + 1)), (6, 0)),
    ("a saved state with too much at the start", STEPPED, lay(saved(start=MOST_START + 1)), (6, 0)),
    ("a saved state with too much given", STEPPED, lay(saved(given=MOST_GIVEN + 1)), (6, 0)),
    ("a saved state with more steps than ms", STEPPED, lay(saved(steps=1_001)), (6, 0)),
    # the first that applies
    ("a line cut, too deep", STEPPED, lay(saved(squares=(TOO_DEEP, "1"))), (12, 7)),
    ("too deep, too much drawn, no length", STEPPED, lay(saved(length=0, hatches=(TOO_MUCH,), squares=(TOO_DEEP,))), (3, 0)),
    ("too much drawn, no length", STEPPED, lay(saved(length=0, hatches=(TOO_MUCH,))), (4, 0)),
]
# what is just taken
TAKEN = [
    ("the largest saved state", ON_PUDDLE, lay(saved(10**6, LAST_CLOCK, 60_000, 1, 10**15, 10**15, MOST_START, MOST_GIVEN))),
    ("the deepest water", ON_PUDDLE, lay(saved(squares=("0 100000000 100000000",)))),
    ("a hatch as the 64th row", ROWS_63, "hatch 9 0 0"),
    ("a hatch after 63 rows, saved", ROWS_63, lay(saved(hatches=("9 0 0 100000",)))),
    ("a hatch after a saved opening", ON_PUDDLE + lay(saved(0, 0, opening=1, hatches=("1 0 0 3",))), "hatch 2 0 0"),
    ("a hatch after draw, show, stand and most", NAMED + written("draw 1 5", "show", "stand", "most 5000"), "hatch 2 0 0"),
    ("a hatch after a step that was not made", NAMED + written("step 5 0 1"), "hatch 2 0 0"),
    ("64 steps to the last clock", NAMED, "step 64 604800000 0"),
    ("no step before its end, a frame", STEPPED, "step 1 3000 0"),
    ("no step before its end, no frame", STEPPED, "step 1 3000 1"),
    ("most to the last clock", NAMED, "most 604800000"),
    ("most to an end before the clock", STEPPED, "most 1000"),
    ("as many back as are kept", STEPPED, "back 3"),
    ("the most litres", NAMED, "draw 1 100000"),
]


def sent(item):
    """A line of the table as it is sent; one with a text is written already."""
    return item if item.partition("\t")[0] in WITH_TEXT else written(item)


def refused_cases():
    """Words, what comes before, the line, number and line of the refusal: of the table and of lines that cannot be read."""
    for words, before, line, refusal in CASES:
        yield words, before, sent(line), refusal
    for words, line in UNREADABLE.items():
        yield words, STEPPED, line + "\n", (12, 0)


def without_sheet():
    """A line of each kind but `sheet`, each with numbers that it may have."""
    for word, many in LINES.items():
        if word == "lay":
            yield lay(saved())
        elif word != "sheet":
            yield written(" ".join([word, *["1"] * many]))
