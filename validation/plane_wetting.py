"""The wetting of a horizontal plane: source 002 (P-DWave), section 3.1 and its Table 1, at eight times."""
from analytical_wave import error, fold
from meadow.sheets.lines import HOUR, MINUTE, SECOND, Sheet
from shared import answers_at, claim, limits, table

LENGTH = 5_000
SPEED = 1.0
ROUGHNESS = 100
# eq. 16: with its constant there is water on the first 700 m already at the start
CONSTANT = 0.07
TIMES = (500, 900, 1_400, 1_800, 2_300, 2_700, 3_200, 3_600)
# Table 1, by square: the errors in m at those times
TABLE_1 = {
    25: (0.005, 0.007, 0.009, 0.010, 0.012, 0.013, 0.015, 0.016),
    50: (0.010, 0.013, 0.016, 0.018, 0.022, 0.025, 0.027, 0.030),
    100: (0.019, 0.025, 0.031, 0.034, 0.040, 0.045, 0.050, 0.054),
}
# the least step allowed there, in ms
SHORTEST = {25: 1, 50: 50, 100: 500}
# how far an error over all squares may be above Table 1's, in m
ALLOWED = 0.0025


def growth():
    """Depth to the 7/3 gained per metre behind the front."""
    return 7 / 3 * (ROUGHNESS / 10_000) ** 2 * SPEED**2


def front(t):
    """How far the wave has come, in m."""
    return CONSTANT * 7 / 3 / growth() + SPEED * t


def wave_depth(x, t):
    """The wave's depth in m at x m and t s."""
    return (growth() * max(0.0, front(t) - x)) ** (3 / 7)


def mean_behind(nearest, farthest):
    """The mean depth from one distance behind the front to another: the 3/7th power is summed exactly."""
    summed = lambda behind: growth() ** (3 / 7) * max(0.0, behind) ** (10 / 7) * 7 / 10
    return (summed(farthest) - summed(nearest)) / (farthest - nearest)


def plane(side, **run):
    """The channel with the wave's water of the start, and its inflow on the first square, each minute's mean; and the places in order."""
    places = fold(LENGTH // side)
    sheet = Sheet(places[-1][0] + 1, 1 + max(column for _, column in places), side, **run)
    for at, place in enumerate(places):
        behind = front(0) - at * side
        sheet.put(place, 0, ROUGHNESS, round(1e6 * mean_behind(behind - side, behind)))
    for start in range(0, HOUR, MINUTE):
        mean = mean_behind(front(start / SECOND), front((start + MINUTE) / SECOND))
        sheet.inflow.append((*places[0], start, start + MINUTE, round(SPEED * mean * side * 1_000)))
    return sheet, places


def own_steps(side):
    """Their least step, no tolerance, and a length worked afresh every ten seconds."""
    return limits(0, SHORTEST[side], 60_000, 10 * SECOND)


def answers(side, times=TIMES, **run):
    """The depths along the channel in m at each time, and the steps made by then."""
    sheet, places = plane(side, **{**own_steps(side), **run})
    for answer in answers_at(sheet, [t * SECOND for t in times]):
        yield [answer.depths[place] / 1e6 for place in places], answer.steps


def error_rows(side):
    """A row for each time: over all squares of the channel, as Table 1 may have it, and over those with water."""
    for (found, steps), t, published in zip(answers(side), TIMES, TABLE_1[side]):
        told = [wave_depth((at + 0.5) * side, t) for at in range(len(found))]
        every = error(zip(found, told))
        wet = error(pair for pair in zip(found, told) if max(pair) > 0)
        claim(every <= published + ALLOWED, f"the error {every:.4f} in squares of {side} m at {t} s is above what is allowed")
        ahead = sum(depth > 0 for depth in found) - sum(depth > 0 for depth in told)
        yield (side, t, steps, f"{every:.4f}", f"{published:.3f}", f"{wet:.4f}", ahead)


def figures(long):
    heads = ["D, m", "time, s", "steps", "error, m", "Table 1", "error where there is water", "squares ahead"]
    yield from table(heads, (row for side in (TABLE_1 if long else (50, 100)) for row in error_rows(side)))
