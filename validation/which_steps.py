"""Which run line suits which meadow: ditches and ponds let go by usual steps, by the shortest there are, and by steps that suit them."""
import math
from functools import partial

import drained_plane
import pond
from diffusive import Channel
from long_step import level_meadow
from meadow.programs import meadow
from meadow.sheets.grounds import HELD_MOUTH, POND_ROUGHNESS, drowned_meadow, opened_pond
from meadow.sheets.lines import HOUR, MINUTE, SECOND, Sheet
from meadow.words.run_lines import suited
from shared import USUAL, answers_at, claim, limits, table

# a level ditch: squares, n in ten-thousandths, and the sides in m with how long each is let go, in s
SQUARES, ROUGHNESS = 30, 350
SIDES = {2: 60, 5: 180, 10: 300, 20: 600, 50: 1_500, 100: 3_000}
DEEP = (100_000, 500_000, 2_000_000)
OWN, ALL_SHORT = limits(0, 1, MINUTE, MINUTE), limits(0, 1, 1, MINUTE)
# s: beyond this the shortest steps take too long to be run
PATIENCE = 600
UNROUNDED_STEPS = 300


def ditch(side, depth, run):
    """A level ditch of one depth in µm, with an exit at its west end that drains like a cliff."""
    sheet = Sheet(3, SQUARES, side, **run)
    for column in range(SQUARES):
        sheet.put((1, column), 1_000_000, ROUGHNESS, depth, "o" if column else "e")
    return sheet


def unrounded(side, depth, seconds):
    """The share that leaves such a ditch with nothing rounded and nothing limited."""
    channel = Channel([0.0] * SQUARES, side, ROUGHNESS / 10_000)
    levels = [depth / 1e6] * SQUARES
    whole = channel.water(levels)
    for _ in range(UNROUNDED_STEPS):
        levels = channel.step(levels, seconds / UNROUNDED_STEPS, mouth=True)
    return 1 - channel.water(levels) / whole


def ditch_row(side, depth):
    """The share that leaves a ditch by each run line, and the steps of three of them; the suited one is near the unrounded share."""
    seconds, fields = SIDES[side], suited(side, ROUGHNESS, depth)
    true = unrounded(side, depth, seconds)
    shares, steps = [], []
    for run in (USUAL, OWN, ALL_SHORT, fields):
        if run == ALL_SHORT and seconds > PATIENCE:
            shares.append(None)
            continue
        answer = meadow(ditch(side, depth, run).text(seconds * SECOND))
        shares.append(answer.out / (SQUARES * depth))
        steps.append(answer.steps)
    claim(abs(shares[-1] - true) < 0.02, f"the steps that suit {depth} µm in squares of {side} m are off the unrounded share")
    said = ["" if share is None else f"{100 * share:.1f} %" for share in (true, *shares)]
    return (side, f"{depth / 1e6:g}", seconds, *said, fields["shortest"], steps[0], steps[1], steps[-1])


def ditch_rows(long):
    for side in SIDES if long else (10, 20):
        for depth in DEEP if long else DEEP[::2]:
            yield ditch_row(side, depth)


def level_pond(**run):
    """The pond of section (f) put level and opened at a mouth that held it when it was not."""
    sheet = opened_pond(pond.made_level(pond.settled()), HELD_MOUTH)
    sheet.run.update(run)
    return sheet


# name: what makes the sheet of a run line, its side, roughness and depth, and the fixed steps in ms that stand for short ones
PONDS = {
    "pond, 5 m": (level_pond, 5, POND_ROUGHNESS, 670_000, 5),
    "plane, 20 m": (partial(drained_plane.plane, 20), 20, drained_plane.ROUGHNESS, drained_plane.DEEP, 10),
    "plane, 10 m": (partial(drained_plane.plane, 10), 10, drained_plane.ROUGHNESS, drained_plane.DEEP, 10),
}
ENDS = (MINUTE, 10 * MINUTE, HOUR)


def pond_row(name, made, steps, run, edition, ends=ENDS):
    """What has gone at each end, and what stands at the last."""
    sheet = made(**run, edition=edition)
    whole = sum(sheet.depth(place) for place in sheet.ground())
    answers = answers_at(sheet, ends)
    steep, share = drained_plane.held(sheet, answers[-1])
    gone = [f"{100 * answer.out / whole:.1f} %" for answer in answers] + [""] * (len(ENDS) - len(ends))
    return (name, steps, edition, answers[-1].steps, *gone, steep, f"{100 * share:.0f} %")


def pond_rows(long):
    for name, (made, side, roughness, depth, fixed) in PONDS.items() if long else [("plane, 20 m", PONDS["plane, 20 m"])]:
        fields = suited(side, roughness, depth)
        if long:
            yield pond_row(name, made, f"all {fixed} ms, to 10 min", limits(0, fixed, fixed, MINUTE), 3, ENDS[:2])
        for steps, run in (("usual", USUAL), (f"suited, shortest {fields['shortest']} ms", fields)):
            yield from (pond_row(name, made, steps, run, edition) for edition in (1, 3))


def hatched(name, run):
    """The answer of a meadow with hatches, by a run line."""
    if name == "level meadow, 30 min":
        return meadow(level_meadow(run).text(30 * MINUTE))
    return meadow(drowned_meadow(**run).text(3 * MINUTE))


# name: the roughness and the depth that the suited line is chosen by; the squares are of 10 m
HATCHED = {"walled-meadow, 3 min": (300, 450_000), "level meadow, 30 min": (350, 140_000)}


def hatch_rows(long):
    """How far each run line is off a tolerance of 0, steps from 1 ms and an update time of 1 s, which is right where hatches are drawn."""
    for name in HATCHED if long else list(HATCHED)[:1]:
        first = hatched(name, limits(0, 1, MINUTE, SECOND))
        lines = {"usual": USUAL, "usual, update time 1 s": {"update": SECOND}, "suited": suited(10, *HATCHED[name])}
        for steps, run in lines.items():
            answer = hatched(name, run)
            off = [abs(depth - first.depths[place]) for place, depth in answer.depths.items()]
            mean = math.sqrt(sum(each**2 for each in off) / len(off))
            yield (name, steps, answer.steps, first.steps, f"{max(off) / 1_000:.1f}", f"{mean / 1_000:.2f}")


def figures(long):
    heads = ["D, m", "depth, m", "seconds", "unrounded", "usual", "tolerance 0, from 1 ms", "all 1 ms", "suited", "its shortest, ms"]
    heads += ["steps, usual", "tolerance 0", "suited"]
    yield from table(heads, ditch_rows(long))
    yield ""
    yield "Ponds, by editions 1 and 3:"
    yield ""
    heads = ["pond", "steps of", "edition", "steps", "gone in 1 min", "10 min", "1 h", "steep standing squares", "water in them"]
    yield from table(heads, pond_rows(long))
    yield ""
    yield "Meadows with hatches:"
    yield ""
    heads = ["meadow", "steps of", "steps", "tolerance 0, from 1 ms", "off it by at most, mm", "root mean square, mm"]
    yield from table(heads, hatch_rows(long))
