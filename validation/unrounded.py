"""The published rule along a channel with nothing rounded (source 000, eqs. 6, 9 to 13 and 17), to see what whole numbers cost."""
import math

GRAVITY = 9.81
# m; thinner water is taken as none, as the answer's whole µm have it
NONE = 1e-6
UPDATE = 60.0


def step_length(depths, side, n):
    """Eq. 17 over all sides that fall, and at most the update time."""
    found = [UPDATE]
    for here, there in zip(depths, depths[1:]):
        deep, drop = max(here, there), abs(here - there)
        if deep > NONE and drop > 0:
            found.append(side**2 / 4 * 2 * n / deep ** (5 / 3) * math.sqrt(drop / side))
    return min(found)


def leaving(depth, east, west, last, seconds, side, n):
    """What leaves a square to the east and to the west, as depth."""
    if depth <= 0 or east <= 0 and west <= 0:
        return 0.0, 0.0
    east, west = max(east, 0.0), max(west, 0.0)
    greatest, least = max(east, west), min(east, west) or max(east, west)
    weights = east + west + least
    speed = min(math.sqrt(GRAVITY * depth), depth ** (2 / 3) * math.sqrt(greatest / side) / n)
    total = min(depth, speed * depth * seconds / side * weights / greatest, least + last)
    return total * east / weights, total * west / weights


def step(depths, lasts, seconds, side, n):
    """Depths after a step; `lasts` becomes what left each square. Nothing is worked beyond the square after the front."""
    new, end = depths[:], len(depths) - 1
    front = next((i for i in range(end, -1, -1) if depths[i] > NONE), 0)
    for i in range(front + 1):
        here = depths[i]
        east, west = leaving(here, here - depths[i + 1] if i < end else 0, here - depths[i - 1] if i else 0, lasts[i], seconds, side, n)
        if east:
            new[i + 1] += east
        if west:
            new[i - 1] += west
        lasts[i] = east + west
        new[i] -= lasts[i]
    return new


def run(squares, side, n, end, brought):
    """Depths at the end in m, the steps made and the least length; `brought` gives the depth poured on the first square by a time."""
    depths, lasts, least, steps = [0.0] * squares, [0.0] * squares, UPDATE, 0
    for update in range(int(end / UPDATE)):
        length = step_length(depths, side, n)
        least, parts = min(least, length), math.ceil(UPDATE / length)
        for part in range(parts):
            clock = update * UPDATE + part * length
            seconds = min(length, (update + 1) * UPDATE - clock)
            depths = step(depths, lasts, seconds, side, n)
            depths[0] += brought(clock + seconds) - brought(clock)
        steps += parts
    return depths, steps, least
