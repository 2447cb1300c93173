"""Document 02, #101: the boards' text, a line a board: its square and its mark depth, in numbers as a sheet has them."""
from typing import NamedTuple

from ..rule.refusals import Refused
from ..sheets.reading import number_well


class Asked(NamedTuple):
    """What a line says: a board's square, and its mark depth in µm."""

    row: int
    column: int
    mark: int

    @property
    def place(self):
        """The square."""
        return self.row, self.column


def written(boards):
    """The text of boards."""
    return "".join("\t".join(map(str, board)) + "\n" for board in boards)


def board_of(line):
    """The board of a line without its newline; None where it cannot be read."""
    fields = line.split("\t")
    if len(fields) != len(Asked._fields) or not all(map(number_well, fields)):
        return None
    return Asked(*map(int, fields))


def boards_in(text):
    """The boards of a text in their order; the first line that is none, or has no newline, is 12 with its number."""
    *lines, rest = text.split("\n")
    boards = [board_of(line) for line in lines] + ([None] if rest else [])
    if None in boards:
        raise Refused(12, boards.index(None) + 1)
    return boards
