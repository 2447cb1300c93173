"""Document 02, #101: what the program `boards` prints, of the texts of a sheet and of boards and of the two names at its standard input; and the
same read back."""
from typing import NamedTuple

from ..programs import printed_of_named
from ..rule.refusals import Refused, check, refuse_if
from ..sheets.files import both_opened
from ..sheets.lines import ANSWER_LINES, REFUSED, Field, Unreadable, line_of, refused_text
from ..sheets.reading import MOST_BYTES, begun, meadow_of, read
from .texts import Asked, boards_in
from .watching import Board, run_to_boards

# the clock of a mark that was never reached
NEVER = "-"
# a board's line, and those of the totals that are `meadow`'s too
SHOWN_LINES = {
    "board": [Field("row"), Field("column"), Field("mark"), Field("highest"), Field("first", NEVER)],
    **{kind: ANSWER_LINES[kind] for kind in ("steps", "clock")},
}
BOARD, *SHOWN_TOTALS = SHOWN_LINES


class Shown(NamedTuple):
    """What was printed: the boards in their order, the steps made, and the clock."""

    boards: list
    steps: int
    clock: int

    def text(self):
        """The text as it is printed."""
        values = [{name: value for name, value in board._asdict().items() if value is not None} for board in self.boards]
        lines = [line_of(BOARD, board, SHOWN_LINES) for board in values]
        lines += [line_of(kind, self._asdict(), SHOWN_LINES) for kind in SHOWN_TOTALS]
        return "".join(line + "\n" for line in lines)


def answered(sheet_bytes, boards_bytes):
    """What is printed of the bytes of two files; a refused run prints its refusal alone."""
    try:
        if len(sheet_bytes) > MOST_BYTES or len(boards_bytes) > MOST_BYTES:
            raise Refused(12, 0)
        meadow, end = begun(sheet_bytes)
        watched = run_to_boards(meadow, end, boards_in(boards_bytes.decode("latin-1")))
        refuse_if(watched.number != 0, watched.number)
    except Refused as refused:
        return refused_text(refused.number, refused.line)
    return Shown(watched.boards, watched.steps, meadow.clock).text()


def named(given):
    """What is printed of the bytes at the standard input: both files are opened first."""
    texts = both_opened(given)
    return answered(*texts) if texts else refused_text(12, 0)


# ---- read back


def number_in(field, never=False):
    """The number of a field of what was printed, None for a dash where there may be one."""
    if never and field == NEVER:
        return None
    if not field.isdecimal():
        raise Unreadable(f"this is no number of what boards prints: {field}")
    return int(field)


def shown_in(told):
    """What was printed, read back; a refusal is none, nor is a text that is no such answer or a part of one."""
    if told.startswith(REFUSED):
        raise Unreadable(f"boards refuses this: {told.strip()}; tools/why.py SHEET --boards BOARDS says why")
    boards, totals = [], {}
    for line in told.splitlines():
        kind, *fields = line.split("\t")
        if len(fields) != len(SHOWN_LINES.get(kind, [])) or not fields:
            raise Unreadable(f"this is no line of what boards prints: {line}")
        if kind == BOARD:
            boards.append(Board(*map(number_in, fields[:-1]), number_in(fields[-1], never=True)))
        else:
            totals[kind] = number_in(*fields)
    shown = Shown(boards, *(totals.get(kind) for kind in SHOWN_TOTALS))
    if None in (shown.steps, shown.clock) or told != shown.text():
        raise Unreadable("this is not what boards prints: a line is missing, doubled, out of order or not ended")
    return shown


def hold_board(board, clock):
    """What a board shows can be: its mark was reached exactly where the highest says so, and by the clock."""
    if (board.first is not None) != (board.highest >= board.mark) or (board.first or 0) > clock:
        raise Unreadable(f"this is not what boards prints: the board at square {board.row} {board.column} cannot be")


def shown_of(sheet_text, boards_text, told):
    """What was printed of a sheet's text and the boards'; what was printed of others is refused."""
    shown = shown_in(told)
    sheet, end = read(sheet_text)
    check(meadow_of(sheet), end)
    asked = boards_in(boards_text)
    if [Asked(*board[:3]) for board in shown.boards] != asked:
        raise Unreadable("the answer is that of other boards: squares and marks are not those of the boards' text")
    if shown.clock != end:
        raise Unreadable(f"the answer is another sheet's: its clock is {shown.clock}, the sheet's end {end}")
    for board in shown.boards:
        hold_board(board, shown.clock)
    return shown


def told_of(sheet_file, boards_file):
    """What the built program prints of two files."""
    return printed_of_named("boards", sheet_file, boards_file)
