"""The course of a run, looked at from time to time: how long the steps were held at the shortest.

Nothing is computed that a program computes. `hatchlog` is given the sheet and a log that names a hatch and never draws it, with a line at each
clock that is looked at, and prints the water and the steps there. A run to a clock is the beginning of a run to a later one, so that the last
answer is that of `meadow`.
"""
from typing import NamedTuple

from ..logs.entries import written
from ..logs.nights import blocks_of
from ..rule.bounds import steps_over
from ..rule.ranges import MOST_ROWS_OF_A_TABLE
from ..rule.step_length import wanted_length
from ..sheets.lines import Sheet, Unreadable
from ..sheets.reading import meadow_of, with_answer

# the most looks at a run, and the most of them from which a wanted step length is worked
MOST_LOOKS, MOST_WORKED = 120, 8
NAMED_HATCH = 1


def looks_at(sheet, end):
    """The clocks of the looks, even multiples of the update time, and the end; none where no log can be laid over the sheet."""
    if not sheet.ground() or len(sheet.inflow) >= MOST_ROWS_OF_A_TABLE or end == 0:
        return []
    update = sheet.run["update"]
    every = steps_over(end // update, MOST_LOOKS) * update
    return [*range(every, end, every), end]


def log_of(sheet, end):
    """The log that turns nothing; empty where there are no looks."""
    row, column = sheet.ground()[0] if sheet.ground() else (0, 0)
    lines = [f"{clock} {NAMED_HATCH} 0" for clock in looks_at(sheet, end)]
    return written(f"hatch {NAMED_HATCH} {row} {column}", *lines) if lines else ""


class Held(NamedTuple):
    """How long steps were held at the shortest, and the shortest step that was wanted in that time, both in ms."""

    time: int
    wanted: int


class Course:
    """The looks at a sheet's run: answers by their clock, in its order."""

    def __init__(self, sheet: Sheet, end, told):
        answers, refused = blocks_of(told)
        clocks = looks_at(sheet, end)
        if refused or [answer.clock for answer in answers] != clocks:
            raise Unreadable("hatchlog does not print the course of this sheet")
        self.sheet, self.answers = sheet, answers
        self.lengths = [clock - before for clock, before in zip(clocks, [0, *clocks])]

    def held_looks(self):
        """The looks before which every step was as short as may be, by their place in the order."""
        shortest, longest, update = (self.sheet.run[name] for name in ("shortest", "longest", "update"))
        most, least = steps_over(update, shortest), steps_over(update, longest)
        made = [answer.steps - before for answer, before in zip(self.answers, [0, *(answer.steps for answer in self.answers)])]
        return [at for at, steps in enumerate(made) if most > least and steps == self.lengths[at] // update * most]

    def wanted_before(self, look):
        """The step length that the water wants where the time before a look begins; None where it wants none."""
        return wanted_length(with_answer(self.sheet, self.answers[look - 1]) if look else meadow_of(self.sheet))

    def held(self):
        """How long the steps were held at the shortest while shorter ones were wanted; None where they were not."""
        looks = self.held_looks()
        some = looks[:: max(1, len(looks) // MOST_WORKED)]
        wanted = [length for length in map(self.wanted_before, some) if length is not None]
        if not wanted or min(wanted) >= self.sheet.run["shortest"]:
            return None
        return Held(sum(self.lengths[look] for look in looks), max(1, min(wanted)))
