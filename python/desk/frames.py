"""A state as the engine told it: a line of totals, the hatches' rates, and a line of depths a row."""
from types import SimpleNamespace

CLOSED = "x"
# totals and rates
HEAD_LINES = 2
# a square counts as wet from so many µm, as on the other pages of the museum
WET = 10_000


def numbers_of(line):
    """The numbers of a line after its word."""
    return tuple(map(int, line.split("\t")[1:]))


class Frame:
    """One frame; `poured` is what rain and hatches gave since the trial began, by the server's own account."""

    def __init__(self, lines):
        self.head = lines[0]
        (self.steps, self.clock, self.length, self.out, self.soaked, self.kept, self.room, self.on, self.start, self.given) = numbers_of(lines[0])
        self.rates = numbers_of(lines[1])
        self.rows = lines[HEAD_LINES:]
        self.poured = (0, 0)

    def water(self):
        """What a take-back brings again, as far as a frame tells it."""
        return self.steps, self.clock, self.length, self.out, self.soaked, self.on, self.start, self.given, self.rows

    def depths(self):
        """The depth of each square that is not closed, by its place."""
        return {
            (row, column): int(depth)
            for row, line in enumerate(self.rows)
            for column, depth in enumerate(line.rstrip("\n").split("\t")[1:])
            if depth != CLOSED
        }

    def answer(self):
        """The clock and the depths, as the tools for answers want them."""
        return SimpleNamespace(clock=self.clock, depth=self.depths().__getitem__)

    def wet_squares(self):
        """How many squares are wet."""
        return sum(depth >= WET for depth in self.depths().values())

    def text(self, begun):
        """The frame as the page reads it: the engine's lines, and between them the right side of the account since the trial began."""
        rain, hatches = self.poured
        off = self.on + self.out + self.soaked - self.start - begun.given - rain - hatches
        rates = "\t".join(map(str, self.rates))
        return f"{self.head}rates\t{rates}\naccount\t{begun.given}\t{rain}\t{hatches}\t{off}\n" + "".join(self.rows)


def frames_of(lines, rows):
    """The frames among an answer's lines, each of so many rows, and each as soon as it is whole."""
    found = []
    for line in lines:
        found.append(line)
        if len(found) == HEAD_LINES + rows:
            yield Frame(found)
            found = []
