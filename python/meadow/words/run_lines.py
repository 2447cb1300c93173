"""Which run line suits which meadow, and what is wrong with one that does not: what docs/FIGURES.md (n) found by figures, in one place.

Two things go wrong. A shortest step that is long for the depth lets a pond empty too slowly, and looks calm. Steps of a few ms keep thin
water where it is, since amounts are in whole µm; at a slope tolerance of 0 water that is nearly at rest asks for the shortest steps for ever.
"""
from .units import depth as depth_in_words
from .units import time

# the run line that suits ponds, ditches and hatches, but for its shortest step; the usual one suits rain
SUITED = {"tolerance": 1, "longest": 10_000, "update": 1_000}
SHORTEST = (1, 2, 5, 10, 20, 50, 100, 200, 500)
# ms for each m² of a square and ten-thousandth of n under 1 m of water: found by trial
FOR_A_METRE = 1 / 160
# how many times as long as that a shortest step may be before it is told
LONG = 2
# µm of water that may stand still on a slope of 1 in 1,000 before it is told, and s of part 4.2 on that slope
THIN, GENTLE_ROOT = 10_000, 316


def longest_shortest(side, roughness, deepest):
    """The longest that a shortest step in ms may be, for squares of a side in m, the least roughness, and the deepest water in µm."""
    return FOR_A_METRE * side**2 * roughness / (deepest / 1_000_000) ** (5 / 3)


def suited(side, roughness, deepest):
    """The run line's fields for ponds, ditches and hatches: of round numbers the longest shortest step that is not too long."""
    most = longest_shortest(side, roughness, deepest) if deepest else SHORTEST[-1]
    return {**SUITED, "shortest": max([ms for ms in SHORTEST if ms <= most], default=SHORTEST[0])}


def pond_line(sheet):
    """The fields of the run line that suit the water of a sheet's start; none where its own shortest step is short enough for it."""
    deepest = max((sheet.depth(place) for place in sheet.ground()), default=0)
    better = suited(sheet.side, least_roughness(sheet), deepest) if deepest else sheet.run
    return better if better["shortest"] < sheet.run["shortest"] else {}


def still_up_to(side, roughness, ms):
    """How deep water may be, in µm, that does not move in steps of so many ms on a slope of 1 in 1,000: less than 1 µm passes."""
    return (side * 10**9 * roughness / (100 * GENTLE_ROOT * ms)) ** (3 / 5)


def least_roughness(sheet):
    """The smoothest ground, which asks for the shortest steps; None where every square is closed."""
    return min((sheet.squares[place]["roughness"] for place in sheet.ground()), default=None)


def pond_faults(sheet, roughness):
    """A shortest step that is long for the water of the start."""
    deepest = max(sheet.depth(place) for place in sheet.ground())
    shortest = min(sheet.run[name] for name in ("shortest", "longest", "update"))
    if deepest and shortest > LONG * longest_shortest(sheet.side, roughness, deepest):
        better = suited(sheet.side, roughness, deepest)
        said = f"a shortest step of {time(shortest)} is long for {depth_in_words(deepest)} of water in squares of {sheet.side} m"
        yield f"{said}: a pond empties too slowly by it; write {better['shortest']}, with an update time of {better['update']}"


def thin_faults(sheet, roughness):
    """Steps so short that thin water stands still in them: all of them, or those of water that is nearly at rest."""
    longest = min(sheet.run["longest"], sheet.run["update"])
    shortest = min(sheet.run["shortest"], longest)
    if still_up_to(sheet.side, roughness, longest) >= THIN:
        still = depth_in_words(round(still_up_to(sheet.side, roughness, longest)))
        yield f"every step is at most {time(longest)}: on a slope of 1 in 1,000 water up to {still} deep never moves in it; let the longest be 10000"
    elif sheet.run["tolerance"] == 0 and still_up_to(sheet.side, roughness, shortest) >= THIN:
        still = depth_in_words(round(still_up_to(sheet.side, roughness, shortest)))
        said = f"with a slope tolerance of 0 water nearly at rest goes by the shortest step, {time(shortest)}"
        yield f"{said}, in which up to {still} of it does not move on a slope of 1 in 1,000: write a tolerance of 1"


def run_line_faults(sheet):
    """What is wrong with the run line of a sheet for its squares, its ground and its ponds, each in a sentence."""
    roughness = least_roughness(sheet)
    return [] if roughness is None else [*pond_faults(sheet, roughness), *thin_faults(sheet, roughness)]
