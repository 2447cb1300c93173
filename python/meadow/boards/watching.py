"""Document 02, #101: what boards show over a run to an end. "Highest and first time are those over that run's starting state and every state
after a step. When a step is refused they hold what the states before it gave." """
from typing import NamedTuple, Optional

from ..rule.ranges import fine
from ..rule.refusals import Refused, check, refuse_if
from ..rule.steps import inner_step
from ..rule.world import CLOSED

MOST_BOARDS = 16


class Board(NamedTuple):
    """A board as asked, with the highest depth of its square and the clock of the first state that was as deep as its mark, None where none was."""

    row: int
    column: int
    mark: int
    highest: int
    first: Optional[int]


class Watched(NamedTuple):
    """A run to an end with its boards: the number of the step that was refused, 0 for none, and the steps made."""

    number: int
    steps: int
    boards: list


def board_wrong(m, board):
    """Of 13: "a board off the grid or on a closed square, or a mark depth above 100,000,000"."""
    off = board.row >= m.rows or board.column >= m.columns
    return off or m.marks[board.row * m.columns + board.column] == CLOSED or not fine("depth", board.mark)


def boards_wrong(m, asked):
    """13: "over sixteen boards", or one that is wrong."""
    return len(asked) > MOST_BOARDS or any(board_wrong(m, board) for board in asked)


def shown(board, states):
    """A board over states, each a clock and the depths by place."""
    reached = (clock for clock, depths in states if depths[board.place] >= board.mark)
    return Board(*board, max(depths[board.place] for _, depths in states), next(reached, None))


def run_to_boards(m, end, asked):
    """The run with its boards, where 1 to 6 and then 13 do not refuse it."""
    check(m, end)
    refuse_if(boards_wrong(m, asked), 13)
    places = {board.place for board in asked}

    def state():
        return m.clock, {(row, column): m.depths[row * m.columns + column] for row, column in places}

    states, number = [state()], 0
    while m.clock < end and number == 0:
        try:
            inner_step(m)
            states.append(state())
        except Refused as refused:
            number = refused.number
    return Watched(number, len(states) - 1, [shown(board, states) for board in asked])
