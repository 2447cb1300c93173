"""A long fixed step: the flood is heaped up at the hatch and comes too late, then stands in a chequered pattern."""
import math

from ditch_mouth import FLOW, SQUARES, along, ditch, normal_depth
from meadow.programs import meadow
from meadow.sheets.lines import HOUR, MINUTE, Sheet
from shared import USUAL, claim, limits, table

SIZE = 16
HATCH = (0, 0)
UNEVEN_BY = 1_000
# the method's own step lengths; usual limits; two fixed steps
RUNS = {
    "the method's own": limits(0, 1, 60_000, 60_000),
    "usual": USUAL,
    "all 10 s": limits(0, 10_000, 10_000, 60_000),
    "all 60 s": limits(0, 60_000, 60_000, 60_000),
}


def level_meadow(run):
    """A level meadow without an exit; a hatch in its corner is open for half an hour."""
    sheet = Sheet(SIZE, SIZE, 10, **run)
    for place in sheet.squares:
        sheet.put(place, 1_000_000, 350)
    sheet.inflow.append((*HATCH, 0, 30 * MINUTE, 1_000))
    return sheet


def beside(depths, place):
    row, column = place
    near = [(row - 1, column), (row, column + 1), (row + 1, column), (row, column - 1)]
    return [depths[other] for other in near if other in depths]


def lone(depths):
    """Squares more than 1 mm above all squares beside them, or below all."""
    found = 0
    for place, depth in depths.items():
        near = beside(depths, place)
        found += depth > max(near) + UNEVEN_BY or depth < min(near) - UNEVEN_BY
    return found


def run_rows(end):
    first = None
    for name, run in RUNS.items():
        answer = meadow(level_meadow(run).text(end))
        depths = answer.depths
        first = first or depths
        off = math.sqrt(sum((depths[place] - first[place]) ** 2 for place in depths) / len(depths))
        steepest = max(abs(depth - near) for place, depth in depths.items() for near in beside(depths, place))
        wet = sum(depth > 0 for depth in depths.values())
        yield (end // MINUTE, name, answer.steps, wet, max(depths.values()), round(off), steepest, lone(depths))


def hatch_row(name):
    ends = range(30 * MINUTE, 37 * MINUTE, MINUTE)
    return (name, *(meadow(level_meadow(RUNS[name]).text(end)).depths[HATCH] for end in ends))


def ditch_row(ms):
    depths = along(meadow(ditch(2, limits(0, ms, ms, 60_000), flow=FLOW, further=SQUARES).text(HOUR)))
    return (ms, normal_depth(), min(depths), max(depths))


def figures(long):
    heads = ["minutes", "steps of", "steps", "wet squares", "deepest, µm", "off the first by, µm", "greatest drop, µm", "lone squares"]
    rows = [row for end in ([20, 30, 60] if long else [20, 30]) for row in run_rows(end * MINUTE)]
    claim(rows[7][3] < rows[4][3] and rows[7][4] > 2 * rows[4][4], "the long step does no harm after half an hour")
    yield from table(heads, rows)
    yield ""
    yield "Depth at the hatch in µm, minute by minute after it is shut:"
    yield ""
    yield from table(["steps of", *(f"{minute} min" for minute in range(30, 37))], [hatch_row("usual"), hatch_row("all 60 s")])
    yield ""
    yield "The ditch that goes on, in squares of 2 m, after an hour of steady flow, depths in µm:"
    yield ""
    yield from table(["step, ms", "normal depth", "least", "greatest"], (ditch_row(ms) for ms in ((50, 100, 200, 500) if long else (500,))))
