"""Thin water: amounts in whole µm keep it where it is."""
from meadow.programs import meadow
from meadow.rule.ranges import MOST_DEPTH
from meadow.rule.weighing import speed, weigh
from meadow.sheets.lines import HOUR, MINUTE, Sheet
from shared import USUAL, claim, limits, table

SIDE = 10
SLOPES = (100, 1_000, 10_000)
ROUGHNESSES = (300, 3_500)
STEPS = (100, 500, 10_000, 60_000)
SQUARES = 40


def fall(slope):
    """The drop in µm from one square to the next on a slope of 1 in so many."""
    return SIDE * 1_000_000 // slope


def strip(squares, slope, roughness, depth, run):
    """A strip that falls to an exit at its east end, between closed rows."""
    sheet = Sheet(3, squares, SIDE, **run)
    for column in range(squares):
        mark = "e" if column == squares - 1 else "o"
        sheet.put((1, column), 1_000_000 + fall(slope) * (squares - 1 - column), roughness, depth, mark)
    return sheet


def still_up_to(moves):
    """The greatest depth in µm at which nothing moves."""
    still, moving = 0, MOST_DEPTH
    while moving - still > 1:
        middle = (still + moving) // 2
        still, moving = (still, middle) if moves(middle) else (middle, moving)
    return still


def moves_in(slope, roughness, ms):
    return lambda depth: any(weigh(SIDE, depth, 0, roughness, ms, [0, fall(slope), 0, 0]))


def found_still(slope, roughness, ms):
    """The greatest still depth for a step, worked from the rule and then tried: `meadow` moves nothing there, and moves 1 µm more."""
    depth = still_up_to(moves_in(slope, roughness, ms))
    for tried, moved in ((depth, False), (depth + 1, True)):
        answer = meadow(strip(3, slope, roughness, tried, limits(0, ms, ms, ms)).text(ms))
        claim((answer.depths[1, 0] != tried) == moved, f"{tried} µm on 1 in {slope} in {ms} ms is not as worked")
    return depth


def still_rows():
    for slope in SLOPES:
        for roughness in ROUGHNESSES:
            claim(speed(SIDE, 1, roughness, fall(slope)) > 0, f"the thinnest water has no speed on 1 in {slope}")
            yield (f"1 in {slope:,}", roughness / 10_000, *(found_still(slope, roughness, ms) for ms in STEPS))


def kinematic_share(slope, roughness, rate):
    """The share of an hour's rain that leaves a plane within that hour by the kinematic wave, before it is in balance."""
    n, rain, length = roughness / 10_000, rate / 1e6 / 3_600, SQUARES * SIDE
    gain = slope**-0.5 / n
    claim((length / (gain * rain ** (2 / 3))) ** 0.6 > 3_600, "the plane is in balance within the hour")
    return gain * rain ** (5 / 3) * 3_600 ** (8 / 3) * 3 / 8 / (rain * 3_600 * length)


def rain_rows(long):
    slope, roughness = 100, 1_000
    runs = [("usual", USUAL), ("all 10,000 ms", limits(0, 10_000, 10_000, MINUTE)), ("all 500 ms", limits(0, 500, 500, MINUTE))]
    runs += [("all 100 ms", limits(0, 100, 100, MINUTE))] if long else []
    for rate in (20_000, 5_000):
        for name, run in runs:
            sheet = strip(SQUARES, slope, roughness, 0, run)
            sheet.rain.append((0, HOUR, rate))
            share = [f"{100 * meadow(sheet.text(end)).out / (rate * SQUARES):.2f} %" for end in (HOUR, 3 * HOUR)]
            yield (f"{rate // 1_000} mm/h", name, *share, f"{100 * kinematic_share(slope, roughness, rate):.2f} %")


def figures(long):
    yield from table(["slope", "n", *(f"still in {ms:,} ms up to" for ms in STEPS)], still_rows())
    yield ""
    heads = ["rain for an hour", "steps", "out after 1 h", "out after 3 h", "kinematic wave, 1 h"]
    yield from table(heads, rain_rows(long))
