"""The ditch mouth: how near an exit comes to a ditch that goes on, as a cliff and at edge slopes about that of the bed."""
from meadow.programs import meadow
from meadow.sheets.lines import HOUR, MINUTE, SECOND, Sheet
from shared import USUAL, claim, limits, table

SQUARES = 32
SLOPE = 1_000
ROUGHNESS = 350
FULL = 300_000
# litres per second for each metre of width
FLOW = 20
# edge slopes: the steepest, which drains like a cliff; twice, once and half that of the bed
BED_EDGE = 10_000 // SLOPE
EDGES = (10_000, 2 * BED_EDGE, BED_EDGE, BED_EDGE // 2)
# usual steps, but for a slope tolerance below all of these
BELOW_EDGE = {"tolerance": 4}


def ditch(side, run=USUAL, depth=0, flow=0, further=0):
    """A ditch one square wide that falls to an exit; `further` squares follow on the same slope before it."""
    squares = SQUARES + further
    sheet = Sheet(3, squares, side, **run)
    for column in range(squares):
        mark = "e" if column == squares - 1 else "o"
        sheet.put((1, column), 2_000_000 - side * 1_000_000 // SLOPE * column, ROUGHNESS, depth, mark)
    sheet.inflow += [(1, 0, 0, 6 * HOUR, flow * side)] if flow else []
    return sheet


def along(answer):
    return [answer.depths[1, column] for column in range(SQUARES)]


def normal_depth():
    """Manning's depth in µm of the ditch's flow, uniform on its slope."""
    return round((FLOW / 1_000 * ROUGHNESS / 10_000 * SLOPE**0.5) ** 0.6 * 1e6)


def normal_flow():
    """Manning's flow in m²/s of the full ditch, uniform on its slope."""
    return (FULL / 1e6) ** (5 / 3) * SLOPE**-0.5 / (ROUGHNESS / 10_000)


def flowing(side, run=USUAL, further=0, end=3 * HOUR):
    """The answer for the ditch in a steady flow."""
    return meadow(ditch(side, run, flow=FLOW, further=further).text(end))


def profile(*ditch, **more):
    """Depths along the ditch in a steady flow."""
    return along(flowing(*ditch, **more))


def first_flow(side, run=USUAL):
    """The flow out of the full ditch in its first second, in m²/s."""
    return meadow(ditch(side, {**run, **limits(0, SECOND, SECOND, SECOND)}, FULL).text(SECOND)).out * side / 1e6


def share(amount):
    """An amount as a share of the full ditch's water."""
    return f"{100 * amount / (SQUARES * FULL):.1f} %"


def gone(side, run, end):
    """The share that has left the full ditch by its exit."""
    return share(meadow(ditch(side, run, FULL).text(end)).out)


def passed(side, run, end):
    """The share that has gone on down a ditch without an exit there."""
    return share(SQUARES * FULL - sum(along(meadow(ditch(side, run, FULL, further=SQUARES).text(end)))))


def steady_row(side):
    cliff, goes_on = profile(side), profile(side, further=SQUARES)
    claim(abs(goes_on[-1] / normal_depth() - 1) < 0.02, f"the ditch that goes on is not at normal depth at D = {side}")
    low = sum(depth < 0.95 * normal_depth() for depth in cliff)
    return (side, normal_depth(), goes_on[-1], cliff[-1], cliff[-2], low, low * side)


def emptying_row(side):
    first = first_flow(side)
    row = [side, f"{first:.3f}", f"{normal_flow():.3f}", f"{first / normal_flow():.2f}"]
    for end in (5 * MINUTE, 30 * MINUTE):
        row += [gone(side, USUAL, end), passed(side, USUAL, end)]
    return row


def edge_steady_rows(side):
    """The exit at each edge slope: at the bed's it is as the ditch that goes on, at twice and at half of it not."""
    goes_on = profile(side, BELOW_EDGE, SQUARES)[-1]
    for edge in EDGES:
        answer = flowing(side, {**BELOW_EDGE, "edge": edge})
        depths = along(answer)
        low = sum(depth < 0.95 * normal_depth() for depth in depths)
        high = sum(depth > 1.05 * normal_depth() for depth in depths)
        claim((low == high == 0) == (edge == BED_EDGE), f"the bed's edge slope is not the one that suits at D = {side}")
        yield (side, edge, normal_depth(), goes_on, depths[-1], depths[-2], low, high, (low + high) * side, answer.steps)


def edge_emptying_rows(side):
    ends = (MINUTE, 5 * MINUTE, 30 * MINUTE)
    for edge in EDGES:
        run = {**BELOW_EDGE, "edge": edge}
        yield (side, edge, f"{first_flow(side, run) / normal_flow():.2f}", *(gone(side, run, end) for end in ends))
    yield (side, "goes on", "", *(passed(side, BELOW_EDGE, end) for end in ends))


def choked_rows(side):
    """Edge slopes that are not above the slope tolerance: the exit asks for no step length, and lets out one drop a step."""
    for edge in EDGES[2:]:
        for run in (USUAL, BELOW_EDGE):
            run = {**run, "edge": edge}
            depths = [profile(side, run, end=hours * HOUR)[-1] for hours in (1, 3, 6)]
            if edge < BED_EDGE:
                claim((depths[2] > 1.2 * depths[1]) == ("tolerance" not in run), f"the exit is not choked as told at D = {side}")
            yield (side, edge, run.get("tolerance", 10), *depths, gone(side, run, 5 * MINUTE), gone(side, run, 30 * MINUTE))


def each(rows, sides):
    """The rows of each side in turn."""
    return (row for side in sides for row in rows(side))


def figures(long):
    sides = (5, 10, 20) if long else (10, 20)
    yield "In a steady flow of 20 l/s for each metre of width, depths in µm:"
    yield ""
    heads = ["D, m", "normal depth", "ditch that goes on", "at the exit", "one square before", "squares 5 % too shallow", "that is, m"]
    yield from table(heads, (steady_row(side) for side in sides))
    yield ""
    yield "Emptying a ditch 0.3 m full, flow in m²/s and the share of its water that has gone:"
    yield ""
    heads = ["D, m", "flow in the first second", "normal flow", "ratio", "5 min, exit", "5 min, goes on", "30 min, exit", "30 min, goes on"]
    yield from table(heads, (emptying_row(side) for side in sides))
    yield ""
    yield "At edge slopes e, in the same steady flow, with a slope tolerance of 4:"
    yield ""
    heads = ["D, m", "e", "normal depth", "ditch that goes on", "at the exit", "one square before", "5 % too shallow", "too deep", "that is, m", "steps"]
    yield from table(heads, each(edge_steady_rows, sides))
    yield ""
    yield "Emptying the full ditch at edge slopes e:"
    yield ""
    yield from table(["D, m", "e", "first second, of normal flow", "1 min", "5 min", "30 min"], each(edge_emptying_rows, sides))
    yield ""
    yield "A slope tolerance q that is not below e:"
    yield ""
    heads = ["D, m", "e", "q", "at the exit, 1 h", "3 h", "6 h", "emptied in 5 min", "in 30 min"]
    yield from table(heads, each(choked_rows, (10, 20) if long else (20,)))
