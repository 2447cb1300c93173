"""What the program `hours_wet` prints of a sheet: for how long each square was wet, in ms; then the totals as `meadow` prints them.

A square counts as wet for a step at whose end it is 1 cm deep or deeper.
"""
from typing import NamedTuple

from ..rule.refusals import Refused
from ..rule.steps import inner_step
from ..sheets.lines import Answer, Unreadable, answer_text, refused_text
from ..sheets.pairs import pair_of
from ..sheets.reading import begun, read

# the depth from which a square is wet, in µm
WET = 10_000


def times_over(meadow, end):
    """For how long each square not closed is wet over a fresh run to its end, and the steps made; a step that is refused refuses the run."""
    times, steps = dict.fromkeys(meadow.ground(), 0), 0
    while meadow.clock < end:
        before = meadow.clock
        inner_step(meadow)
        steps += 1
        for square in meadow.ground():
            if meadow.depths[square] >= WET:
                times[square] += meadow.clock - before
    return {divmod(square, meadow.columns): time for square, time in times.items()}, steps


def answered(text):
    """What `hours_wet` prints of a text of bytes: an answer's lines, with times for depths."""
    try:
        meadow, end = begun(text)
        times, steps = times_over(meadow, end)
    except Refused as refused:
        return refused_text(refused.number, refused.line)
    return answer_text(times, {"outflow": meadow.outflow, "soaked": meadow.soaked, "steps": steps, "clock": meadow.clock})


class Hours(NamedTuple):
    """What `hours_wet` printed of a sheet, read back: times by place, and the totals by their word."""

    times: dict
    totals: dict

    def wet(self):
        """The times of the squares that were wet at all."""
        return {place: time for place, time in self.times.items() if time > 0}


def hours_of(text, told):
    """What `hours_wet` printed of a sheet's text; what was printed of another sheet is refused."""
    answer = pair_of(*read(text), Answer(told)).answer
    if any(time > answer.clock for time in answer.depths.values()):
        raise Unreadable("this is not what hours_wet prints: a square is wet for longer than the run")
    return Hours(answer.depths, answer.totals)
