"""Document 02, #114, "at any state of the run": the highest depth of each square, the starting state among the states."""
from typing import NamedTuple

from ..rule.steps import inner_step


class Peak(NamedTuple):
    """The highest depth of a square, in µm, and the clock of the first state that had it."""

    depth: int
    clock: int


def peaks_over(meadow, end):
    """The peak of each square not closed over a fresh run to its end, and the steps made; a step that is refused refuses the run."""
    peaks = {square: Peak(meadow.depths[square], meadow.clock) for square in meadow.ground()}
    steps = 0
    while meadow.clock < end:
        inner_step(meadow)
        steps += 1
        for square in meadow.ground():
            if meadow.depths[square] > peaks[square].depth:
                peaks[square] = Peak(meadow.depths[square], meadow.clock)
    return {divmod(square, meadow.columns): peak for square, peak in peaks.items()}, steps
