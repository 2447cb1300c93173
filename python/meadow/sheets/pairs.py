"""A sheet and what `meadow` answered to it, held together: what was answered to another sheet is refused.

An answer is the sheet's where `meadow` gives it, byte for byte: it is run and compared. Of one that is not it is said why, as far as that shows:
its squares are not those that the sheet has not closed, its clock is not the sheet's end, its water account does not balance, or a depth differs.
"""
from pathlib import Path
from typing import NamedTuple

from ..programs import printed
from ..rule.refusals import check
from .account import account
from .lines import Answer, Sheet, Unreadable
from .reading import MOST_BYTES, meadow_of, read


class Pair(NamedTuple):
    """A sheet, the end of its run, and the answer."""

    sheet: Sheet
    end: int
    answer: Answer

    def account(self):
        """The water account."""
        return account(*self)

    @property
    def taken_back(self):
        """No step of a run to an end is taken back."""
        return 0


def hold_squares(sheet, answer):
    """The answer's squares are exactly the sheet's squares that are not closed."""
    ground = set(sheet.ground())
    for row, column in sorted(ground - answer.depths.keys()):
        raise Unreadable(f"the answer is another sheet's: it has no depth for square {row} {column}, which is not closed")
    for row, column in sorted(answer.depths.keys() - ground):
        why = "closed" if (row, column) in sheet.squares else "off the grid"
        raise Unreadable(f"the answer is another sheet's: it has a depth for square {row} {column}, which is {why}")


def pair_of(sheet, end, answer):
    """The pair of a sheet that `meadow` would take and an answer of its squares and its clock."""
    check(meadow_of(sheet), end)
    hold_squares(sheet, answer)
    if answer.clock != end:
        raise Unreadable(f"the answer is another sheet's: its clock is {answer.clock}, the sheet's end {end}")
    return Pair(sheet, end, answer)


def balanced(pair):
    """The pair, where its account balances."""
    off = pair.account().off()
    if off != 0:
        raise Unreadable(f"the answer is another sheet's, or was changed: its water account is off by {off:,} µm over one square")
    return pair


def bytes_as_text(path):
    """A file's bytes, each as one letter: nothing is mended that `meadow` would refuse."""
    return Path(path).read_bytes().decode("latin-1")


def sheet_text(path):
    """A sheet's bytes likewise, read once, and no more of them than show that they are too many: a pipe will do, and one without an end too."""
    with open(path, "rb") as file:
        return file.read(MOST_BYTES + 1).decode("latin-1")


def hold_same(text, told, given):
    """What is there already, `told`, is what `meadow` gave of a sheet's text."""
    if told == given:
        return
    theirs = balanced(pair_of(*read(text), Answer(told))).answer
    ours = Answer(given)
    for row, column in sorted(place for place, deep in ours.depths.items() if theirs.depths[place] != deep):
        deep = f"{theirs.depths[row, column]:,} µm, and meadow gives this sheet {ours.depths[row, column]:,} µm"
        raise Unreadable(f"the answer is another sheet's, or was changed: square {row} {column} has {deep}")
    raise Unreadable("the answer is another sheet's, or was changed: meadow gives this sheet other totals")


def pair_in(sheet_file, answer_file=None):
    """The pair of a sheet in a file and what `meadow` gives it; where an answer is there already, it must be the same."""
    text = sheet_text(sheet_file)
    given = printed("meadow", text.encode("latin-1")).decode("ascii")
    if answer_file:
        hold_same(text, bytes_as_text(answer_file), given)
    return balanced(pair_of(*read(text), Answer(given)))
