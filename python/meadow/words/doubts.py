"""What is likely a slip in a sheet that `meadow` takes: numbers that are in range and still hardly meant.

The bounds are those of docs/VALIDATION.md where it has them: water within about 60 m of an exit at the steepest edge slope is too shallow,
and a fixed step is long from about 100 ms for each metre of a square's side.
"""
from math import hypot

from ..rule.ranges import RANGES
from ..rule.weighing import WEIGHTED
from ..sheets.lines import INFLOW, RAIN
from .enclosed import walled_in
from .faults import RUN_LINE, rows_with_lines
from .hatches import hatches_of
from .holes import gaps, lone_squares
from .relief import pits_and_spikes, zeros
from .run_lines import run_line_faults
from .units import area, height, rain_rate, roughness, square, time

# rain in µm an hour, roughness in ten-thousandths, distance in m, ms for each metre
HARDLY_RAIN, HARDLY_MORE = 100, 300_000
SMOOTHEST, ROUGHEST = 100, 10_000
NEAR_AN_EXIT = 60
LONG_FOR_A_METRE = 100


def rain_doubts(sheet, _end):
    """Rain that is hardly rain, or more than falls."""
    for line, values in rows_with_lines(sheet, RAIN):
        if 0 < values["rate"] < HARDLY_RAIN or values["rate"] > HARDLY_MORE:
            much = "hardly rain" if values["rate"] < HARDLY_RAIN else "more than falls"
            yield f"line {line}: {rain_rate(values['rate'])} is {much}: the number is mm an hour times 1,000"


def never_doubts(sheet, end):
    """Rows of a table that give nothing before the end."""
    for kind in (RAIN, INFLOW):
        for line, values in rows_with_lines(sheet, kind):
            if values["from"] >= min(values["to"], end):
                yield f"line {line}: this {kind} gives nothing in a run to {time(end)}: times are in ms, minutes times 60,000"


def roughness_doubts(sheet, _end):
    """Ground that is smoother or rougher than ground is."""
    odd = [place for place in sheet.ground() if not SMOOTHEST <= sheet.squares[place]["roughness"] <= ROUGHEST]
    if odd:
        more = f" and {len(odd) - 1} other squares" if len(odd) > 1 else ""
        n = roughness(sheet.squares[odd[0]]["roughness"])
        yield f"n is {n} at {square(odd[0])}{more}, outside 0.01 to 1: the number is n times 10,000"


def flat_doubts(sheet, _end):
    """Ground all at one height."""
    beds = {sheet.bed(place) for place in sheet.ground()}
    if len(beds) == 1 and len(sheet.ground()) > 1:
        yield f"the ground is all flat, at {height(*beds)} m: beds are in µm, metres times 1,000,000"


def end_doubts(sheet, end):
    """A run that is over before a step is."""
    if end < sheet.run["longest"]:
        yield f"line {RUN_LINE}: the run to {time(end)} is shorter than its longest step, {time(sheet.run['longest'])}: the end is in ms"


def step_doubts(sheet, _end):
    """Steps that cannot be shorter than they are, and are long."""
    shortest, longest = (min(sheet.run[name], sheet.run["update"]) for name in ("shortest", "longest"))
    most = LONG_FOR_A_METRE * sheet.side
    if shortest == longest > most:
        said = f"line {RUN_LINE}: every step lasts {time(shortest)}, long for squares of {sheet.side} m"
        yield f"{said}: let the shortest be {most} ms or less, and the longest more than it"


def away_from(exits, place, side):
    """How far a square is from the nearest exit, from middle to middle in m, and that exit."""
    return min((side * hypot(place[0] - mouth[0], place[1] - mouth[1]), mouth) for mouth in exits)


def cliff_doubts(sheet):
    """Ground near an exit at the steepest edge slope."""
    exits = sheet.exits()
    near = [place for place in sheet.ground() if away_from(exits, place, sheet.side)[0] <= NEAR_AN_EXIT]
    hatches = [f"hatch {row},{column}" for row, column in (hatch.place for hatch in hatches_of(sheet)) if (row, column) in near]
    among = f", {', '.join(hatches)} among them" if hatches else ""
    said = f"{area(len(near), sheet.side)} of ground lie within {NEAR_AN_EXIT} m of an exit{among}, and the edge slope is {sheet.run['edge']:,}"
    yield f"{said}: such an exit drains like a cliff, and the water near it is too shallow: give the slope of the ditch's bed, 10 for 1 in 1,000"


def exit_doubts(sheet, _end):
    """Ground near an exit, where the water follows the edge slope more than the ground: all of it at the steepest, else that of a hatch."""
    edge = sheet.run["edge"]
    if edge == 0 or not sheet.exits():
        return
    if edge == RANGES["edge"][1]:
        yield from cliff_doubts(sheet)
        return
    for hatch in hatches_of(sheet):
        away, nearest = away_from(sheet.exits(), hatch.place, sheet.side)
        if away <= NEAR_AN_EXIT:
            row, column = hatch.place
            yield f"hatch {row},{column} is {away:.0f} m from the exit at {square(nearest)}: the edge slope {edge} decides the water there"


def rule_doubts(sheet, _end):
    """A tolerance that keeps exits from asking for short steps, and an edition that is there to be compared."""
    tolerance, edge, edition = (sheet.run[name] for name in ("tolerance", "edge", "edition"))
    if 0 < edge <= tolerance and sheet.exits():
        yield f"line {RUN_LINE}: the slope tolerance {tolerance} is not below the edge slope {edge}: exits then ask for no short steps"
    if edition != WEIGHTED:
        yield f"line {RUN_LINE}: edition {edition} is there to be compared with edition 1: its water does not come to rest"


def piece_words(sheet, places):
    """A piece of ground by its first square, with its area."""
    more = f" and {len(places) - 1} more square{'' if len(places) == 2 else 's'}" if len(places) > 1 else ""
    return f"{square(places[0])}{more}, {area(len(places), sheet.side)}"


def relief_doubts(sheet, _end):
    """Beds that are likely no heights: 0 in ground that lies elsewhere, pits and spikes."""
    nothing = zeros(sheet)
    for piece in nothing:
        said = f"bed 0 at {piece_words(sheet, piece.places)}, {height(piece.below)} m or more below all ground beside it: surveys write no data so"
        yield f"{said}, and water drains into it as into a pit; close it if it is a house, or give its height"
    told = {place for piece in nothing for place in piece.places}
    for piece in pits_and_spikes(sheet):
        where = f"{piece_words(sheet, piece.places)}, {height(abs(piece.below))} m or more"
        if piece.below < 0:
            yield f"a spike at {where} above all ground beside it: mend its bed"
        elif not told.issuperset(piece.places):
            yield f"a pit at {where} below all ground beside it, and water drains into it; close it if it is a house, or mend its bed"


def run_line_doubts(sheet, _end):
    """A run line that does not suit the squares, the ground or the ponds."""
    return [f"line {RUN_LINE}: {fault}" for fault in run_line_faults(sheet)]


def wall_doubts(sheet, _end):
    """Ground that is walled in on all sides, and what wets it."""
    for piece in walled_in(sheet):
        rained = any(rate for _, _, rate in sheet.rain)
        why = "rain wets a house that is walled only in outline" if rained else "no water comes or goes there over the ground"
        yield f"walled in on all sides: {piece_words(sheet, piece)}: {why}; close them if they are a house"


def hole_doubts(sheet, _end):
    """A closed square that is likely a hole in the survey, and an open one that is likely a gap in a wall."""
    lone, open_in_line = lone_squares(sheet), gaps(sheet)
    if lone:
        said = f"closed alone amid open ground: {piece_words(sheet, lone)}: a hole in a survey becomes a wall"
        yield f"{said}; if it is no house, give its height, or ? for its bed, which repair guesses"
    if open_in_line:
        said = f"open alone in a line of closed squares: {piece_words(sheet, open_in_line)}"
        yield f"{said}: water goes through as by a door; close it if the wall has none"


def odd_places(sheet):
    """The squares whose bed or mark is likely a slip."""
    odd = {place for piece in (*zeros(sheet), *pits_and_spikes(sheet)) for place in piece.places}
    return sorted(odd.union(lone_squares(sheet), gaps(sheet)))


OF_THE_GROUND = (relief_doubts, wall_doubts, hole_doubts, roughness_doubts, flat_doubts)
OF_THE_RUN = (rain_doubts, never_doubts, end_doubts, step_doubts, exit_doubts, rule_doubts, run_line_doubts)
DOUBTS = (*OF_THE_GROUND, *OF_THE_RUN)


def doubts(sheet, end):
    """Everything about a sheet that is likely a slip."""
    return [doubt for find in DOUBTS for doubt in find(sheet, end)]
