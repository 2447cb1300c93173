"""Document 02, #114: how often each square drowned, as `drowned` prints it in lines of bare numbers, and read back from them."""
from typing import NamedTuple

from ..sheets.lines import REFUSED, Unreadable


class Drowned(NamedTuple):
    """Of one square: how many sheets had it as deep as was asked, its deepest water in µm, and the turn of the sheet that first gave it, which is
    its place in the list from 1."""

    count: int
    deepest: int
    first: int


class Tally:
    """What the sheets of a list came to: each square not closed, by its place; how many sheets were run; and of each refused one its turn and
    its number."""

    def __init__(self):
        self.squares, self.ran, self.refused = {}, 0, []

    def add(self, depth, turn, peaks):
        """A sheet that ran to its end, with its peaks; of equal depths the earlier sheet's stands."""
        self.ran += 1
        for place, peak in peaks.items():
            count, deepest, first = self.squares.get(place, Drowned(0, -1, 0))
            if peak.depth > deepest:
                deepest, first = peak.depth, turn
            self.squares[place] = Drowned(count + (peak.depth >= depth), deepest, first)

    @property
    def depths(self):
        """The deepest water of each square."""
        return {place: drowned.deepest for place, drowned in self.squares.items()}

    def text(self):
        """The lines as they are printed: a square's, then the two counts, then those of the refused."""
        lines = [(*place, *drowned) for place, drowned in sorted(self.squares.items())]
        lines += [(self.ran, len(self.refused)), *self.refused]
        return "".join("\t".join(map(str, line)) + "\n" for line in lines)


SQUARE_NUMBERS, PAIR_NUMBERS = 5, 2


def tally_of(text):
    """The tally of what was printed; a refusal is none, nor is a text that is no such answer or a part of one."""
    if text.startswith(REFUSED):
        raise Unreadable(f"drowned refused this list: {text.strip()}; tools/why.py --drowned says why")
    tally, pairs = Tally(), []
    for line in text.splitlines():
        fields = line.split("\t")
        if len(fields) not in (SQUARE_NUMBERS, PAIR_NUMBERS) or not all(field.isdecimal() for field in fields):
            raise Unreadable(f"this is no line of what drowned prints: {line}")
        numbers = tuple(map(int, fields))
        if len(numbers) == SQUARE_NUMBERS:
            tally.squares[numbers[:2]] = Drowned(*numbers[2:])
        else:
            pairs.append(numbers)
    if not pairs:
        raise Unreadable("what was printed is cut off: it does not say how many sheets were run")
    (tally.ran, refused), *tally.refused = pairs
    if refused != len(tally.refused) or text != tally.text():
        raise Unreadable("this is not what drowned prints: a line is missing, doubled, out of order or not ended")
    if any(drowned.count > tally.ran or not 1 <= drowned.first <= tally.ran + refused for drowned in tally.squares.values()):
        raise Unreadable("this is not what drowned prints: a square has more sheets than were run")
    return tally
