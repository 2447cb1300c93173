"""Document 02, #114: a winter's sheets, one after the other as the list has them, and what the program `drowned` prints of them."""
from ..programs import printed
from ..rule.refusals import Refused, refuse_if
from ..sheets.files import opened
from ..sheets.lines import refused_text
from ..sheets.reading import begun
from .lists import list_in
from .runs import peaks_over
from .tally import Tally


def plan_of(meadow):
    """What sheets of one list must have alike: the shape and the marks."""
    return meadow.rows, meadow.columns, meadow.marks


class Winter:
    """The tally of a list with its depth, and the plan of its first accepted sheet."""

    def __init__(self, depth):
        self.depth, self.plan, self.tally = depth, None, Tally()

    def take(self, turn, text):
        """A sheet in its turn: its bytes, None where it cannot be opened. A refused one adds its turn and its number alone."""
        try:
            if text is None:
                raise Refused(12)
            meadow, end = begun(text)
            refuse_if(self.plan not in (None, plan_of(meadow)), 14)
            peaks, _ = peaks_over(meadow, end)
        except Refused as refused:
            self.tally.refused.append((turn, refused.number))
            return
        self.plan = plan_of(meadow)
        self.tally.add(self.depth, turn, peaks)


def answered(given, opens=opened):
    """What `drowned` prints of the bytes at its standard input; `opens` gives the bytes of a name, None where it cannot be opened."""
    try:
        depth, names = list_in(given)
    except Refused as refused:
        return refused_text(refused.number, refused.line)
    winter = Winter(depth)
    for turn, name in enumerate(names, 1):
        winter.take(turn, None if name is None else opens(name))
    return winter.tally.text()


def told_of(given, **how):
    """What the built program prints of the bytes at its standard input."""
    return printed("drowned", given, **how).decode("ascii")
