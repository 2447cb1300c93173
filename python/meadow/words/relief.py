"""Ground that is likely none: squares that lie far below or far above all ground beside them, as a house does that was saved as height 0 or in
millimetres. Water drains into such a pit, and the ground below it comes out dry.

A pit or a spike is parted from the meadow on every side by a step: 2 m or more, and more than twice what the middle half of all beds differ by,
so that hills are left alone. It is a quarter of the ground at the most, and a pit with an exit is a channel. A bed of exactly 0, as surveys write
no data, is told from 50 cm on, and up to half of the ground.
"""
from typing import NamedTuple

from ..rule.world import CLOSED
from ..sheets.reading import meadow_of
from .enclosed import pieces

# in µm
LEAST_STEP, LEAST_STEP_OF_ZERO = 2_000_000, 500_000
# a slip is at the most such a part of the ground: a half, a quarter
HALF, QUARTER = 2, 4


class Apart(NamedTuple):
    """A piece of ground: its places, and by how much it lies at least below, or with a sign above, all ground beside it."""

    places: list
    below: int


def step_of(beds):
    """What parts a pit or a spike from its meadow."""
    ordered = sorted(beds)
    return max(LEAST_STEP, 2 * (ordered[3 * len(ordered) // 4] - ordered[len(ordered) // 4]))


def falls_round(m, piece):
    """What all ground beside a piece lies higher by."""
    inside = set(piece)
    beside = [(square, near) for square in piece for near in m.beside(square) if near is not None and near not in inside]
    return [m.beds[near] - m.beds[square] for square, near in beside if m.marks[near] != CLOSED]


def apart(m, step, part):
    """The pieces that a step parts from all ground beside them, each at the most a part of the ground."""
    most = len(m.ground()) // part
    for piece in pieces(m, lambda one, other: abs(m.beds[one] - m.beds[other]) < step):
        falls = falls_round(m, piece)
        if len(piece) <= most and falls and (min(falls) > 0 or max(falls) < 0):
            yield Apart([divmod(square, m.columns) for square in piece], min(falls) if min(falls) > 0 else max(falls))


def zeros(sheet):
    """Pieces whose every bed is exactly 0, in ground that lies higher."""
    found = apart(meadow_of(sheet), LEAST_STEP_OF_ZERO, HALF)
    return [piece for piece in found if piece.below > 0 and not any(sheet.bed(place) for place in piece.places)]


def pits_and_spikes(sheet):
    """Pieces far below all ground beside them that have no exit, and pieces far above it."""
    m = meadow_of(sheet)
    exits = set(sheet.exits())
    found = apart(m, step_of([m.beds[square] for square in m.ground()]), QUARTER) if m.ground() else []
    return [piece for piece in found if piece.below < 0 or not exits.intersection(piece.places)]
