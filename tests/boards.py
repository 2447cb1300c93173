"""Level boards: sheets with boards worked by hand; damaged boards' texts; names that cannot be opened; the order of refusals; and random sheets
with random boards, whose highest water and its clock are those that `highest` tells. The built `boards` and document 02 in Python give the same.
What the gate holds the program to is worked anew too.

`bin/test boards --seed N` makes other random boards; `bin/test boards --write` writes the program's stored output, and `--write FOLDER` each
sheet with its boards and its answer there, random ones too, for other tests to read.
"""
import random
import tempfile
from collections import Counter

import damaged
from board_texts import DAMAGED, GOOD, LONG, LONGEST, UNREADABLE, wrong_boards
from damaged import BASES, field, last_gone, sheet_of
from drowned import COLUMNS, EAST, ROWS, SHEETS, WEST, drawn, pools, random_plan, random_sheet, slipped
from highest import late_rain, quick_steps, slow_rain, square_by_square
from meadow.boards.answers import Shown, answered, named
from meadow.boards.texts import Asked, boards_in, written
from meadow.boards.watching import MOST_BOARDS, Board
from meadow.counted import Checks
from meadow.peaks.runs import peaks_over
from meadow.programs import TOP
from meadow.rule.refusals import Refused
from meadow.sheets.lines import SECOND, refused_text
from meadow.sheets.reading import MOST_BYTES, begun, read
from printouts import hold_stored, seed_said, shortened
from two_files import Files, hold_names, hold_rights

NEVER = None
DOCUMENT = BASES["document 01"]

# ---- sheets


def too_full(depth, end):
    """A pool that a hatch of 1 l/s raises by 1,000 µm a second until it would be too deep."""
    return drawn(pools(depth, 7), 60 * SECOND, 1).text(end * SECOND)


MORE_SHEETS = {
    **SHEETS,
    "document 01": DOCUMENT,
    "document 01 twice": field(2, "end", 2 * SECOND)(DOCUMENT),
    "first closed": damaged.closed(3)(DOCUMENT),
    "stays": drawn(pools(6, 50), 3 * SECOND, 2).text(7 * SECOND),
    "slow rain": slow_rain(3),
    "quick steps": quick_steps().text(SECOND),
    "late rain": late_rain(),
    "square by square": square_by_square(),
    # 99,998,000 at the start, then 99,999,000 and 100,000,000; the third second is too much
    "full after two": too_full(99_998_000, 2),
    "too full after two": too_full(99_998_000, 9),
    # refused in line 4, so that its 12 is not that of a boards' text of three lines
    "cut line 4": last_gone(4)(DOCUMENT),
}

# ---- what is printed


def shown(boards, steps=1, clock=None):
    """The answer of boards as (row, column, mark, highest, first); steps of one second are as many as its seconds."""
    return Shown([Board(*board) for board in boards], steps, steps * SECOND if clock is None else clock).text()


def spread(many):
    """So many boards of one pool, each with a mark of its own, in no order of their marks."""
    return [(*WEST, 10_000 + 100 * (7 * at % many)) for at in range(many)]


def spread_shown(many):
    """What they show where the pool has 10,000, 10,723, 11,445, 11,167 and 10,889."""
    clocks = lambda mark: 0 if mark <= 10_000 else 1_000 if mark <= 10_723 else 2_000 if mark <= 11_445 else NEVER
    return [(*board, 11_445, clocks(board[2])) for board in spread(many)]


# ---- the table: a name, a sheet, what is tried, the boards, and what is printed or (number, line) of a refusal
CASES = [
    ("no-boards", "risen", "no board at all: the totals alone", [], shown([], 4)),
    ("every-field", "risen", "each field with its own number", [(*EAST, 60)], shown([(3, 8, 60, 800, 0)], 4)),
    # the starting state is one
    ("at-the-start", "falling", "a mark that the start alone reaches", [(*WEST, 60_600)], shown([(*WEST, 60_600, 60_600, 0)])),
    ("at-the-start-not", "falling", "and one µm above it", [(*WEST, 60_601)], shown([(*WEST, 60_601, 60_600, NEVER)])),
    ("at-the-start-below", "falling", "the start is the highest, whatever the mark", [(*WEST, 60_323)], shown([(*WEST, 60_323, 60_600, 0)])),
    # every state after a step is one
    ("in-the-middle", "risen", "a mark that only the middle of a run reaches", [(*WEST, 11_445)], shown([(*WEST, 11_445, 11_445, 2_000)], 4)),
    ("in-the-middle-not", "risen", "one µm above it", [(*WEST, 11_446)], shown([(*WEST, 11_446, 11_445, NEVER)], 4)),
    ("after-the-first-step", "risen", "reached by the first step", [(*WEST, 10_723)], shown([(*WEST, 10_723, 11_445, 1_000)], 4)),
    ("after-the-second-step", "risen", "just not by the first", [(*WEST, 10_724)], shown([(*WEST, 10_724, 11_445, 2_000)], 4)),
    ("above-the-end", "risen", "the end is below the mark again", [(*WEST, 11_000)], shown([(*WEST, 11_000, 11_445, 2_000)], 4)),
    ("at-the-end", "document 01 twice", "reached by the last step", [(0, 1, 59)], shown([(0, 1, 59, 59, 2_000)], 2)),
    ("at-the-end-not", "document 01 twice", "and not by it", [(0, 1, 60)], shown([(0, 1, 60, 59, NEVER)], 2)),
    (
        "document-01",
        "document 01",
        "the step that document 01 works",
        [(0, 1, 31), (0, 0, 1_000)],
        shown([(0, 1, 31, 31, 1_000), (0, 0, 1_000, 1_000, 0)]),
    ),
    ("stays", "stays", "a height that stays: the first state that had it", [(*WEST, 6_006)], shown([(*WEST, 6_006, 6_006, 3_000)], 7)),
    ("down-and-up", "slow rain", "reached, left and reached again: the first", [(*WEST, 5_000)], shown([(*WEST, 5_000, 5_001, 0)], 3)),
    ("down-and-higher", "slow rain", "and higher than at first", [(*WEST, 5_001)], shown([(*WEST, 5_001, 5_001, 3_000)], 3)),
    ("between-updates", "quick steps", "a clock that is no multiple of the update time", [(*WEST, 400)], shown([(*WEST, 400, 400, 400)], 3, SECOND)),
    ("late", "late rain", "dry until rain comes", [(0, 1, 1), (0, 0, 278)], shown([(0, 1, 1, 555, 5_000), (0, 0, 278, 555, 6_000)], 8)),
    ("exit", "exit", "water that leaves: the start was the highest", [(0, 0, 2_001)], shown([(0, 0, 2_001, 10_000, 0)])),
    ("side-2", "side 2", "squares of 2 m", [(*WEST, 3_100)], shown([(*WEST, 3_100, 3_100, 1_000)])),
    ("edition-3", "edition 3", "another edition", [(*EAST, 3_401)], shown([(*EAST, 3_401, 3_401, 0)], 2)),
    # marks at their ends
    ("mark-0-dry", "dry", "a mark of 0 is reached at the start, dry as it is", [(*WEST, 0)], shown([(*WEST, 0, 0, 0)])),
    ("mark-1-dry", "dry", "a mark of 1 never", [(*WEST, 1)], shown([(*WEST, 1, 0, NEVER)])),
    ("mark-0-rising", "document 01", "a mark of 0 where water comes later", [(0, 1, 0)], shown([(0, 1, 0, 31, 0)])),
    ("mark-most", "low", "the deepest mark", [(*WEST, 100_000_000)], shown([(*WEST, 100_000_000, 1_100, NEVER)])),
    ("mark-most-reached", "full", "and water as deep", [(*WEST, 100_000_000)], shown([(*WEST, 100_000_000, 100_000_000, 0)])),
    ("mark-most-just-not", "full", "and just not", [(*EAST, 100_000_000)], shown([(*EAST, 100_000_000, 99_999_999, NEVER)])),
    ("mark-most-later", "full after two", "and later", [(*WEST, 100_000_000)], shown([(*WEST, 100_000_000, 100_000_000, 2_000)], 2)),
    # a run without a step
    (
        "no-step",
        "at once",
        "the starting state alone",
        [(*WEST, 60_600), (*EAST, 70_701)],
        shown([(*WEST, 60_600, 60_600, 0), (*EAST, 70_701, 70_700, NEVER)], 0),
    ),
    ("no-step-no-boards", "at once", "and no board", [], shown([], 0)),
    # several boards
    (
        "list-order",
        "risen",
        "in the list's order, whatever their squares and marks",
        [(*EAST, 801), (*WEST, 11_446), (*EAST, 800), (*WEST, 9_000)],
        shown([(*EAST, 801, 800, NEVER), (*WEST, 11_446, 11_445, NEVER), (*EAST, 800, 800, 0), (*WEST, 9_000, 11_445, 0)], 4),
    ),
    (
        "one-square",
        "risen",
        "two boards on one square",
        [(*WEST, 10_724), (*WEST, 10_000)],
        shown([(*WEST, 10_724, 11_445, 2_000), (*WEST, 10_000, 11_445, 0)], 4),
    ),
    ("twins", "risen", "two boards alike", [(*WEST, 10_001)] * 2, shown([(*WEST, 10_001, 11_445, 1_000)] * 2, 4)),
    ("fifteen", "risen", "fifteen boards", spread(15), shown(spread_shown(15), 4)),
    ("sixteen", "risen", "as many as may be", spread(16), shown(spread_shown(16), 4)),
    (
        "rows-and-columns",
        "square by square",
        "each square its own number",
        [(1, 0, 7_003), (0, 1, 7_001), (1, 1, 7_003), (0, 0, 7_001)],
        shown([(1, 0, 7_003, 7_002, NEVER), (0, 1, 7_001, 7_001, 0), (1, 1, 7_003, 7_003, 0), (0, 0, 7_001, 7_000, NEVER)], 0),
    ),
    (
        "largest",
        "largest",
        "1,024 squares, and boards in the corners",
        [(31, 31, 5), (0, 31, 6), (31, 0, 5), (0, 0, 6)],
        shown([(31, 31, 5, 5, 0), (0, 31, 6, 5, NEVER), (31, 0, 5, 5, 0), (0, 0, 6, 5, NEVER)]),
    ),
    ("walls", "walls", "every square closed, and no board", [], shown([])),
    # 13
    ("seventeen", "risen", "one board too many", spread(17), (13, 0)),
    ("walls-13", "walls", "every square closed", [(0, 0, 0)], (13, 0)),
    ("first-closed-13", "first closed", "the first square closed", [GOOD], (13, 0)),
    ("largest-13", "largest", "just off the grid of 1,024 squares", [(31, 32, 5)], (13, 0)),
    ("largest-13-south", "largest", "to the south too", [(32, 0, 5)], (13, 0)),
    ("no-step-13", "at once", "13 also where no step is to be made", [(*WEST, 100_000_001)], (13, 0)),
    # a step that is refused
    ("overflowing", "overflowing", "refused in its first step", [(*WEST, 5)], (8, 0)),
    ("overflowing-later", "too full after two", "refused in its third, after a mark was reached", [(*WEST, 99_999_000)], (8, 0)),
    ("overflowing-no-boards", "too full after two", "and without a board", [], (8, 0)),
    # the order of refusals, each with its next
    ("long-sheet-before-text", "longer", "a sheet that is too long, and a boards' text that is none", "x\n", (12, 0)),
    ("long-text-before-sheet", "cut line 4", "a boards' text that is too long, and a sheet that is none", LONGEST + "0", (12, 0)),
    ("sheet-before-text", "cut line 4", "a sheet that is none in line 4, and a boards' text in line 1", "x\n", (12, 4)),
    ("shape-before-text", "1025 squares", "a sheet too large, and a boards' text that is none", "x\n", (1, 0)),
    ("ground-before-text", "rough 0", "a roughness of 0, and a boards' text that is none", "x\n", (2, 0)),
    ("water-before-text", "too deep", "a depth that cannot be, and a boards' text that is none", "x\n", (3, 0)),
    ("table-before-text", "hatch in a wall", "a hatch in a wall, and a boards' text that is none", "x\n", (4, 0)),
    ("rules-before-text", "bad end", "an end that is none, and a boards' text that is none", "x\n", (5, 0)),
    ("rules-before-13", "bad end", "an end that is none, and a board off the grid", [(9, 9, 5)], (5, 0)),
    ("text-before-13", "low", "a board off the grid, and then a line that is none", "9\t9\t5\nx\n", (12, 2)),
    ("text-before-13-many", "low", "too many boards, and then a line that is none", written([(*WEST, 5)] * 17) + "x\n", (12, 18)),
    ("text-before-the-run", "overflowing", "a line that is none, and a run that is refused", "x\n", (12, 1)),
    ("13-before-the-run", "overflowing", "a board on a closed square, and a run that is refused", [(0, 0, 5)], (13, 0)),
    ("13-before-the-run-many", "overflowing", "too many boards, and a run that is refused", [(*WEST, 5)] * 17, (13, 0)),
    # sheets at their longest
    ("longest-sheet", "long", "65,536 bytes and no line", [], (12, 1)),
    ("no-sheet", "nothing", "no sheet at all", [], (12, 1)),
]


def text_of(boards):
    """A boards' text, which may be said as it is."""
    return boards if isinstance(boards, str) else written(boards)


def answer_of(answer):
    """The text of an answer, or of a refusal's number and line."""
    return answer if isinstance(answer, str) else refused_text(*answer)


def texts():
    """What is tried, a boards' text over document 01's sheet, and the answer: lines that cannot be read, damaged texts and long ones."""
    good = written([GOOD])
    for words, line in UNREADABLE.items():
        yield f"line: {words}", good + line + "\n" + good, (12, 2)
        yield f"first line: {words}", line + "\n" + good, (12, 1)
    for words, text, line in DAMAGED:
        yield words, text, (12, line)
    yield from LONG


def table():
    """Every worked case: its name, what is tried, the two texts, and what is printed."""
    for name, sheet, words, boards, answer in CASES:
        yield name, words, MORE_SHEETS[sheet], text_of(boards), answer_of(answer)
    for at, (words, text, answer) in enumerate(texts()):
        yield f"text-{at}", words, DOCUMENT, text, answer_of(answer)
    grids = {"narrow": (damaged.closed(4)(DOCUMENT), (1, 2, (0, 1), (0, 0))), "wide": (SHEETS["low"], (ROWS, COLUMNS, (0, 0), WEST))}
    for kind, (sheet, grid) in grids.items():
        for at, (words, boards) in enumerate(wrong_boards(*grid)):
            yield f"wrong-{kind}-{at}", f"{words} on a {kind} grid", sheet, written(boards), refused_text(13, 0)


def hold_table(checks, files):
    """The program and the Python give each answer."""
    cases = list(table())
    checks.hold(len({name for name, *_ in cases}) == len(cases), "two cases have one name")
    checks.hold((len(LONGEST), MOST_BOARDS) == (MOST_BYTES, 16), f"the longest boards' text has {len(LONGEST)} bytes")
    for name, words, sheet, boards, answer in cases:
        files.put(sheet, boards)
        files.hold(checks, f"{name}, {words}", answer)


def hold_damaged(checks, files):
    """Of each damaged sheet the refusal that `meadow` gives; of those that are whole its steps and its clock."""
    for name, base, words, edits, answer in damaged.CASES:
        files.put(sheet_of(base, edits), "")
        wanted = damaged.answer_of(answer)
        totals = [line for line in wanted.splitlines() if line.startswith(("steps", "clock", "refused"))]
        program = files.told()
        checks.hold(program.splitlines() == totals, f"{name}, {words}: boards prints {shortened(program)}")
        checks.hold(program == files.worked(), f"{name}, {words}: by document 02 it is something else")


# ---- random boards

SEED, RANDOM_BOARDS = 101, 300


def marks_near(chance, peak):
    """A mark near the highest water of a square, or anywhere."""
    near = (peak, peak + 1, max(0, peak - 1), chance.randint(0, peak), chance.randint(0, 2 * peak + 1), 0, 1, 100_000_000)
    return min(100_000_000, chance.choice(near))


def random_boards(chance, sheet, peaks):
    """Boards of a sheet, mostly good ones; now and then a wrong one, or one too many."""
    places = sheet.ground()
    many = chance.choice((0, 1, 2, 3, 5, 15, 16)) if places else 0
    boards = [Asked(*place, marks_near(chance, peaks[place])) for place in (chance.choice(places) for _ in range(many))]
    if chance.random() < 0.08:
        place = chance.randrange(sheet.rows + 1), chance.randrange(sheet.columns + 1)
        boards.insert(chance.randint(0, len(boards)), Asked(*place, chance.choice((0, 5, 100_000_000, 100_000_001))))
    return boards + boards[:1] * (17 - len(boards)) * (chance.random() < 0.04)


def peaks_in(text):
    """The peak of each square of a sheet over its run, as `highest` has it; None where the run is refused."""
    try:
        return peaks_over(*begun(text.encode("ascii")))[0]
    except Refused:
        return None


def random_cases(seed, many):
    """Random sheets with boards: a name, the two texts, and the sheet's peaks."""
    chance = random.Random(seed)
    for turn in range(many):
        text = random_sheet(chance, random_plan(chance))
        sheet, peaks = read(text)[0], peaks_in(text)
        highest = {place: peaks[place].depth if peaks else sheet.depth(place) for place in sheet.ground()}
        boards = written(random_boards(chance, sheet, highest))
        yield f"random-{turn}", text, slipped(chance, boards) if chance.random() < 0.06 else boards, peaks


def first_words(board, clock):
    """Whether a mark was reached at the start, at the end, between them, or never."""
    return "never" if board.first is None else "at the start" if board.first == 0 else "at the end" if board.first == clock else "between"


def hold_random(checks, files, seed, many):
    """Program against Python, and boards against peaks; among them are enough of each kind."""
    kinds = Counter()
    for name, sheet, boards, peaks in random_cases(seed, many):
        files.put(sheet, boards)
        program, worked = files.told(), files.worked()
        if not checks.hold(program == worked, f"{name} of seed {seed}: {sheet!r} and {boards!r}"):
            print(f"boards: it prints {shortened(program)}, and by document 02 it is {shortened(worked)}")
        if worked.startswith("refused"):
            kinds[worked.split("\t")[1]] += 1
            continue
        lines = [line.split("\t")[1:] for line in worked.splitlines() if line.startswith("board")]
        clock = int(worked.splitlines()[-1].split("\t")[1])
        for asked, line in zip(boards_in(boards), lines, strict=True):
            board = Board(*map(int, line[:4]), NEVER if line[4] == "-" else int(line[4]))
            peak = peaks[asked.place]
            right = board[:3] == asked and board.highest == peak.depth and (board.first is None) == (peak.depth < asked.mark)
            checks.hold(right and (asked.mark != peak.depth or board.first == peak.clock), f"{name} of seed {seed}: {line} and {peak}")
            kinds[first_words(board, clock)] += 1
    print(f"boards: of {many} random cases {dict(sorted(kinds.items()))}")
    reached = [kinds[kind] for kind in ("at the start", "between", "at the end", "never")]
    checks.hold(min(reached) >= many // 10, "the random marks are too much of one kind")
    checks.hold(min(kinds[number] for number in ("8", "12", "13")) >= many // 50, "too few random boards are refused by their text, by 13, or in the run")


# ---- what the gate holds the program to


def stored_text():
    """What the program prints in the gate, of the files beside it, worked in Python."""
    crate = TOP / "crates" / "boards"
    names = (crate / "stdin").read_text(encoding="ascii").splitlines()
    return answered(*((crate / "data" / name).read_bytes() for name in names))


def write_cases(folder):
    """Every case as three files."""
    cases = [(name, *three) for name, _, *three in table()]
    for name, *two, _ in random_cases(SEED + 1, 4 * RANDOM_BOARDS):
        cases.append((name, *two, answered(*(text.encode("ascii") for text in two))))
    for name, *three in cases:
        for kind, text in zip(("sheet", "boards", "boards.out"), three):
            (folder / f"{name}.{kind}").write_bytes(text.encode("latin-1"))


def main():
    seed = seed_said("boards", SEED, stored_text, write_cases)
    if seed is None:
        return
    checks = Checks("boards")
    with tempfile.TemporaryDirectory() as folder:
        files = Files(folder, "boards", "boards", answered, named)
        hold_table(checks, files)
        hold_damaged(checks, files)
        for hold, *more in ((hold_names, MORE_SHEETS["cut line 4"]), (hold_rights,)):
            files.put(DOCUMENT, written([(0, 1, 31)]))
            hold(checks, files, shown([(0, 1, 31, 31, 1_000)]), *more)
        hold_random(checks, files, seed, RANDOM_BOARDS)
    hold_stored(checks, "boards", stored_text())
    checks.end()


if __name__ == "__main__":
    main()
