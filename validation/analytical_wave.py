"""The analytical wave of source 000, section 3.1, in a channel folded through closed squares."""
import math

import unrounded
from meadow.programs import meadow
from meadow.rule.step_length import fresh_length
from meadow.sheets.lines import HOUR, MINUTE, SECOND, Sheet
from meadow.sheets.reading import with_answer
from shared import claim, limits, table

SPEED = 1.0
ROUGHNESS = 300
INFLOW_ROWS = 64
LONGEST_ROW = 64
WAVES = {25: 150, 10: 370}
# slope tolerance 0 and whatever step the method asks for
OWN_STEPS = limits(0, 1, 60_000, 60_000)
# source 000, Table 1, by square and update time: error in m, least step in ms
TABLE_1 = {(25, 60): (0.0313, 38), (10, 60): (0.0139, 6), (10, 0.5): (0.0136, 6)}
# how far the error may be above Table 1's
ALLOWED = {25: 1.1, 10: 1.2}


def growth():
    """Depth to the 7/3 gained per metre behind the front: 7/3 n² u²."""
    return 7 / 3 * (ROUGHNESS / 10_000) ** 2 * SPEED**2


def wave_depth(x, t):
    """The wave's depth in m at x m and t s, with C = 0."""
    return (growth() * max(0.0, SPEED * t - x)) ** (3 / 7)


def mean_depth_at_inlet(start, end):
    """The mean of wave_depth(0, t) from one time to another: t to the 3/7 is summed exactly."""
    summed = lambda t: (growth() * SPEED) ** (3 / 7) * t ** (10 / 7) * 7 / 10
    return (summed(end) - summed(start)) / (end - start)


def fold(squares, longest=LONGEST_ROW):
    """The places of the channel in order: it runs east and west along even rows, and one square joins each to the next."""
    places, row, ahead = [], 0, 1
    while len(places) < squares:
        columns = range(longest) if ahead == 1 else range(longest - 1, -1, -1)
        places += [(row, column) for column in columns]
        places.append((row + 1, places[-1][1]))
        row, ahead = row + 2, -ahead
    return places[:squares]


def wave_sheet(side, run=OWN_STEPS):
    """The sheet of the wave, and the channel's places in order."""
    places = fold(WAVES[side])
    return channel(side, places, run), places


def channel(side, places, run=OWN_STEPS):
    """A flat dry channel along the given places, with the wave's inflow on the first."""
    sheet = Sheet(places[-1][0] + 1, 1 + max(column for _, column in places), side, **run)
    for place in places:
        sheet.put(place, 0, ROUGHNESS)
    each = HOUR // INFLOW_ROWS
    for start in range(0, HOUR, each):
        mean = mean_depth_at_inlet(start / SECOND, (start + each) / SECOND)
        sheet.inflow.append((*places[0], start, start + each, round(SPEED * mean * side * 1_000)))
    return sheet


def depths_along(places, end):
    answer = meadow(channel(25, places).text(end))
    return [answer.depths[place] for place in places]


def claim_fold_is_exact():
    """A straight channel and a folded one have the same water, while the wave is still within the longest row."""
    straight, folded = fold(LONGEST_ROW), fold(LONGEST_ROW, 7)
    claim(depths_along(straight, 15 * MINUTE) == depths_along(folded, 15 * MINUTE), "the fold changes the wave")


def compare(answer, places, side):
    """Depths of the answer and of the wave at the squares' centres, in m."""
    found = [answer.depths[place] / 1e6 for place in places]
    told = [wave_depth((i + 0.5) * side, answer.clock / SECOND) for i in range(len(places))]
    return found, told


def error(pairs):
    """Root mean square of the differences."""
    pairs = list(pairs)
    return math.sqrt(sum((found - told) ** 2 for found, told in pairs) / len(pairs))


def errors(found, told):
    """Over squares with water in the answer or the wave, over those with 0.1 m of it, and over the wave's own."""
    pairs = list(zip(found, told))
    return [error(p for p in pairs if max(p) > 0), error(p for p in pairs if max(p) >= 0.1), error(p for p in pairs if p[1] > 0)]


def length_at(sheet, clock):
    """The step length that is worked at a clock, from the depths that a run to it prints."""
    return fresh_length(with_answer(sheet, meadow(sheet.text(clock))))


def error_row(side, run, label):
    sheet, places = wave_sheet(side, run)
    answer = meadow(sheet.text(HOUR))
    claim(answer.water() == sum((end - start) * litres for _, _, start, end, litres in sheet.inflow) // side**2, "the wave lost water")
    found, told = compare(answer, places, side)
    wet, deep, own = errors(found, told)
    ahead = sum(depth > 0 for depth in found) - sum(depth > 0 for depth in told)
    published = TABLE_1.get((side, run["update"] / SECOND)) if run["shortest"] < run["longest"] else None
    beside = (f"{published[0]:.4f}", f"{wet / published[0]:.2f}") if published else ("", "")
    if published:
        claim(wet <= ALLOWED[side] * published[0], f"the error {wet:.4f} at D = {side} is above what is allowed")
    return (side, label, answer.steps, f"{wet:.4f}", *beside, f"{deep:.4f}", f"{own:.4f}", ahead)


def error_rows(long):
    yield error_row(25, OWN_STEPS, "60 s")
    if long:
        for update in (60_000, 500):
            yield error_row(10, limits(0, 1, 60_000, update), f"{update / SECOND:g} s")
        for fixed in (18, 24):
            yield error_row(10, limits(0, fixed, fixed, 60_000), f"60 s, every step {fixed} ms")


def length_rows():
    """The least of the lengths held: at every update clock for D = 25, at some for D = 10."""
    clocks = {25: range(MINUTE, HOUR, MINUTE), 10: [20 * MINUTE, 40 * MINUTE, 59 * MINUTE]}
    for side, at in clocks.items():
        sheet, _ = wave_sheet(side)
        lengths = [length_at(sheet, clock) for clock in at]
        claim(lengths == sorted(lengths, reverse=True), f"the step length does not only fall at D = {side}")
        yield (side, len(at), f"{at[-1] // MINUTE} min", lengths[-1], TABLE_1[side, 60][1])


def unrounded_row(side):
    """The published rule with nothing rounded, fed by the same rows of inflow."""
    rows = wave_sheet(side)[0].inflow
    poured = lambda clock: sum(litres * max(0, min(clock, end / SECOND) - start / SECOND) for _, _, start, end, litres in rows)
    brought = lambda clock: poured(clock) / 1_000 / side**2
    depths, steps, least = unrounded.run(WAVES[side], side, ROUGHNESS / 10_000, HOUR / SECOND, brought)
    told = [wave_depth((i + 0.5) * side, HOUR / SECOND) for i in range(WAVES[side])]
    wet = error(pair for pair in zip(depths, told) if max(pair) > unrounded.NONE)
    published = TABLE_1[side, 60]
    return (side, steps, f"{wet:.4f}", f"{published[0]:.4f}", f"{wet / published[0]:.2f}", f"{1_000 * least:.1f}", published[1])


def figures(long):
    claim_fold_is_exact()
    heads = ["D, m", "update time", "steps", "error, m", "Table 1", "ratio"]
    heads += ["error where 0.1 m deep", "error on the wave's own squares", "squares ahead"]
    yield from table(heads, error_rows(long))
    if long:
        yield ""
        yield from table(["D, m", "update clocks looked at", "last of them", "least step, ms", "Table 1, ms"], length_rows())
        yield ""
        yield "The published rule with nothing rounded:"
        yield ""
        yield from table(["D, m", "steps", "error, m", "Table 1", "ratio", "least step, ms", "Table 1, ms"], [unrounded_row(25)])
