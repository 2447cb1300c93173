"""A planar beach under a rising sea: source 002 (P-DWave), section 3.2 and its Table 2; and its ebb by an exit."""
import math

from analytical_wave import error, fold
from diffusive import Channel
from meadow.rule.weighing import EDITIONS
from meadow.sheets.lines import SECOND, Sheet
from shared import answers_at, claim, limits, table

SQUARES, SIDE, SLOPE = 100, 50, 0.001
HIGHEST, HALF_PERIOD = 4.0, 3_000
# s: how long one step of the unrounded flood is, and by roughness the times of Table 2 at which water still comes in
EACH = 2
TIMES = {100: (400, 1_100), 200: (400, 1_100), 400: (400, 1_100), 800: (400, 1_100, 1_900)}
# with the log's own hatch 64 rows of inflow
INFLOW_ROWS = 63
# the shortest steps tried in ms, against the shortest there is
TRIED, TRUE = (1_000, 100, 10), 1
# Table 2, by roughness and time: errors in m with shortest steps of 1 s, 0.1 s and 0.01 s
TABLE_2 = {
    (100, 400): (0.245, 0.000, 0.000),
    (200, 400): (0.016, 0.000, 0.000),
    (400, 400): (0.002, 0.000, 0.000),
    (800, 400): (0.000, 0.000, 0.000),
    (100, 1_100): (1.357, 0.515, 0.000),
    (200, 1_100): (1.009, 0.004, 0.000),
    (400, 1_100): (0.552, 0.000, 0.000),
    (800, 1_100): (0.017, 0.000, 0.000),
    (800, 1_900): (0.328, 0.000, 0.000),
}
# the ebb: a level sea on the beach, and when it is looked at, in s
EBB_TIMES = (60, 300, 1_500)
EBB_LINES = {
    "usual": {},
    "shortest 100, update 1 s": limits(1, 100, 10_000, SECOND),
    "shortest 10, update 1 s": limits(0, 10, 10_000, SECOND),
    "shortest 1, update 60 s": limits(0, 1, 60_000, 60 * SECOND),
}


def beds():
    """In m, rising inland from the first square."""
    return [SLOPE * SIDE * at for at in range(SQUARES)]


def sea(t):
    """Eq. 17: the level at the left in m after t s."""
    return HIGHEST * math.sin(math.pi * t / HALF_PERIOD)


def followed(roughness, times):
    """The unrounded flood under the sea's level, by time: levels along the beach, and the flow into the first square in m²/s."""
    channel = Channel(beds(), SIDE, roughness / 10_000)
    levels, found = beds(), {0: (beds(), 0.0)}
    for t in range(EACH, times[-1] + EACH, EACH):
        before, levels = levels, channel.step(levels, EACH, left=sea(t))
        found[t] = levels, (channel.water(levels) - channel.water(before)) / EACH
    return found


def nested_rows(place, flows):
    """Inflow that rises and falls once, as rows of equal litres nested in one another; `flows` are in m²/s by time in s."""
    each = max(flows.values()) / INFLOW_ROWS
    for row in range(INFLOW_ROWS):
        over = [t for t, flow in flows.items() if flow >= (row + 0.5) * each]
        yield (*place, (over[0] - EACH // 2) * SECOND, (over[-1] + EACH // 2) * SECOND, round(1_000 * SIDE * each))


def places():
    """The channel's places, folded; the first has one side at the rim."""
    return [(row + 1, column) for row, column in fold(SQUARES)]


def beach(roughness, run, level=0.0, mark="o"):
    """The beach, dry or under water of a level in m; `mark` is the first square's."""
    along = places()
    sheet = Sheet(along[-1][0] + 1, 1 + max(column for _, column in along), SIDE, **run)
    for at, (place, bed) in enumerate(zip(along, beds())):
        sheet.put(place, round(1e6 * bed), roughness, round(1e6 * max(0.0, level - bed)), "o" if at else mark)
    return sheet


def flooded(roughness, flood, shortest, times):
    """Depths along the beach in m at each time, and the steps made, by the proved program."""
    sheet = beach(roughness, limits(0, shortest, SECOND, SECOND))
    sheet.inflow += nested_rows(places()[0], {t: flow for t, (_, flow) in flood.items()})
    for answer in answers_at(sheet, [t * SECOND for t in times]):
        yield [answer.depths[place] / 1e6 for place in places()], answer.steps


def flood_rows(roughness, times):
    """A row for each time and shortest step: the error against the shortest step there is, theirs, and how far the unrounded flood is."""
    flood = followed(roughness, times)
    found = {shortest: list(flooded(roughness, flood, shortest, times)) for shortest in (*TRIED, TRUE)}
    for at, t in enumerate(times):
        unrounded = [level - bed for level, bed in zip(flood[t][0], beds())]
        true, _ = found[TRUE][at]
        claim(error(zip(true, unrounded)) < 0.02, f"the flood is off the unrounded one at {t} s, n {roughness}")
        claim(abs(true[0] - sea(t)) < 0.01, f"the left does not follow the sea at {t} s, n {roughness}")
        for shortest, published in zip((*TRIED, TRUE), (*TABLE_2[roughness, t], "")):
            depths, steps = found[shortest][at]
            theirs = f"{published:.3f}" if published != "" else ""
            off = (f"{error(zip(depths, true)):.3f}", theirs, f"{error(zip(depths, unrounded)):.3f}")
            yield (f"{roughness / 10_000:g}", t, shortest, steps, *off, f"{depths[0]:.3f}", f"{sea(t):.3f}")


def ebbed(roughness):
    """The unrounded share of the sea's water that has gone at each time, by a free fall at the left."""
    channel = Channel(beds(), SIDE, roughness / 10_000)
    levels = [max(HIGHEST, bed) for bed in beds()]
    whole, shares = channel.water(levels), []
    for t in range(EACH, EBB_TIMES[-1] + EACH, EACH):
        levels = channel.step(levels, EACH, mouth=True)
        shares += [1 - channel.water(levels) / whole] if t in EBB_TIMES else []
    return shares


def percents(shares):
    return [f"{100 * share:.1f} %" for share in shares]


def ebb_row(roughness, name, edition):
    """The level sea let go by an exit at the left."""
    sheet = beach(roughness, {**EBB_LINES[name], "edition": edition}, HIGHEST, "e")
    whole = sum(sheet.depth(place) for place in sheet.ground())
    answers = answers_at(sheet, [t * SECOND for t in EBB_TIMES])
    return (f"{roughness / 10_000:g}", name, edition, answers[-1].steps, *percents(answer.out / whole for answer in answers))


def ebb_rows(long):
    """Each line of the table by each edition, beside the unrounded ebb."""
    for roughness in (100, 800) if long else (100,):
        if long:
            yield (f"{roughness / 10_000:g}", "unrounded", "", "", *percents(ebbed(roughness)))
        for name in EBB_LINES if long else ("usual", "shortest 100, update 1 s"):
            yield from (ebb_row(roughness, name, edition) for edition in (EDITIONS if long else (1,)))


def figures(long):
    heads = ["n", "time, s", "shortest, ms", "steps", "error, m", "Table 2", "off the unrounded, m", "at the left, m", "the sea, m"]
    tried = TIMES if long else {800: TIMES[800][:2]}
    yield from table(heads, (row for roughness, times in tried.items() for row in flood_rows(roughness, times)))
    yield ""
    yield "The ebb, by an exit at the left:"
    yield ""
    heads = ["n", "steps of", "edition", "steps", *(f"gone in {t:,} s" for t in EBB_TIMES)]
    yield from table(heads, ebb_rows(long))
