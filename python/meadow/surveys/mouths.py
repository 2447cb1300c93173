"""The edge slope of a sheet's exits, taken from the ditch's own bed: the mean fall of the lowest way to an exit over its last 60 m.

One edge slope holds for all exits of a sheet. Of several ditches the gentlest is taken, since too gentle a slope shows too much water and not too
little (docs/VALIDATION.md, g). The slope tolerance is then half of it at the most.
"""
from ..rule.ranges import RANGES
from ..sheets.holes import UNSEEN
from ..sheets.lines import USUAL_RUN, Unreadable
from ..words.units import square

# how far up a ditch is looked at, in m, and a fall of 1 in 10,000 over a metre, in µm
FAR, TEN_THOUSANDTH = 60, 100
ASK = "give --run edge: 10 for a ditch that falls 1 in 1,000, 10000 where the water falls freely"


def away(one, other):
    """How far two places are apart, squared and in squares."""
    return (one[0] - other[0]) ** 2 + (one[1] - other[1]) ** 2


def way_up(sheet, exit_place):
    """The beds of the lowest way up from an exit, each square farther from it than the one before, as far as it is looked at."""
    ground, way = set(sheet.ground()), [exit_place]
    while len(way) * sheet.side <= FAR:
        row, column = way[-1]
        beside = {(row - 1, column), (row, column + 1), (row + 1, column), (row, column - 1)} & ground
        farther = [place for place in beside if away(place, exit_place) > away(way[-1], exit_place)]
        if UNSEEN in map(sheet.bed, (exit_place, *farther)):
            raise Unreadable(f"the survey did not see the ground before the exit at {square(exit_place)}, nor its edge slope: {ASK}; or give --repair")
        if not farther:
            break
        way.append(min(farther, key=lambda place: (sheet.bed(place), place)))
    return [sheet.bed(place) for place in way]


def slope_to(sheet, exit_place):
    """How the ground falls to an exit, in ten-thousandths; an exit to which it does not fall is asked about."""
    beds = way_up(sheet, exit_place)
    if len(beds) < 2 or beds[-1] <= beds[0]:
        raise Unreadable(f"the ground does not fall to the exit at {square(exit_place)}, and its edge slope is not known: {ASK}")
    slope = round((beds[-1] - beds[0]) / ((len(beds) - 1) * sheet.side * TEN_THOUSANDTH))
    return max(1, min(RANGES["edge"][1], slope))


def mouth_rules(sheet, said):
    """The edge slope and the slope tolerance of a sheet whose run line does not say the first, and a line about them; nothing where there is no
    exit, or it is said."""
    if not sheet.exits() or "edge" in said:
        return {}, []
    slopes = {exit_place: slope_to(sheet, exit_place) for exit_place in sheet.exits()}
    gentlest = min(slopes, key=slopes.get)
    edge = slopes[gentlest]
    tolerance = said.get("tolerance", min(USUAL_RUN["tolerance"], edge // 2))
    others = f"; others fall by up to {max(slopes.values())}" if max(slopes.values()) > 2 * edge else ""
    told = f"edge slope {edge}, as the ground falls to the exit at {square(gentlest)} (1 in {10_000 / edge:,.0f}){others}; slope tolerance {tolerance}"
    return {"edge": edge, "tolerance": tolerance}, [told]
