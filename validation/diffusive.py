"""The diffusive wave along a channel with nothing rounded, each step solved for the levels at its end.

So worked, steps of seconds stay stable. It has the rule's own flow, by the depth and the drop of the square that gives and by the smaller of
Manning's and the critical speed, and stands for what the rule tends to as its steps get short.
"""
import math

GRAVITY = 9.81
# m; smaller drops are taken as this one, so that a level surface has an answer
LEAST_DROP = 1e-6
ROUNDS = 8


def carried(depth, drop, side, n):
    """Flow in m²/s out of water of a depth over a drop to the next square."""
    return depth * min(math.sqrt(GRAVITY * depth), depth ** (2 / 3) * math.sqrt(drop / side) / n)


def solved(below, middle, above, right):
    """The answer of equations that each name a square and the two beside it."""
    first, last = [above[0] / middle[0]], [right[0] / middle[0]]
    for i in range(1, len(middle)):
        rest = middle[i] - below[i] * first[-1]
        first.append(above[i] / rest)
        last.append((right[i] - below[i] * last[-1]) / rest)
    for i in range(len(middle) - 2, -1, -1):
        last[i] -= first[i] * last[i + 1]
    return last


class Channel:
    """A channel of squares with beds in m."""

    def __init__(self, beds, side, n):
        self.beds, self.side, self.n = beds, side, n

    def ease(self, levels):
        """Flow for each metre of drop between each square and the next, at these levels."""
        found = []
        for i in range(len(levels) - 1):
            giver = i if levels[i] > levels[i + 1] else i + 1
            depth, drop = levels[giver] - self.beds[giver], max(abs(levels[i] - levels[i + 1]), LEAST_DROP)
            found.append(carried(depth, drop, self.side, self.n) / drop if depth > 0 else 0.0)
        return found

    def step(self, levels, seconds, left=None, mouth=False):
        """Levels after a step: the first square is held at the level `left`, or has a free fall beyond it, or is closed."""
        share, new, before = seconds / self.side, levels[:], None
        for _ in range(ROUNDS):
            ease = [share * each for each in self.ease(new)]
            ease = [(each + last) / 2 for each, last in zip(ease, before)] if before else ease
            before, deep = ease, new[0] - self.beds[0]
            out = share * carried(deep, deep, self.side, self.n) / deep if mouth and deep > 0 else 0.0
            below, above = [0.0, *(-each for each in ease)], [*(-each for each in ease), 0.0]
            middle, right = [1 - low - high for low, high in zip(below, above)], levels[:]
            middle[0], right[0] = middle[0] + out, right[0] + out * self.beds[0]
            if left is not None:
                middle[0], above[0], right[0] = 1.0, 0.0, left
            new = [max(level, bed) for level, bed in zip(solved(below, middle, above, right), self.beds)]
        return new

    def water(self, levels):
        """All water, in m² along the channel."""
        return self.side * sum(level - bed for level, bed in zip(levels, self.beds))
