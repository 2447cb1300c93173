"""The square that docs/METHOD.md works by hand: 25 cm of water, two neighbours lower, one higher, one closed."""
from .step_length import candidates
from .steps import soak_by
from .weighing import DIRECTED, UNLIMITED, height, most_through, slope, speed, weigh

SIDE, ROUGHNESS, DEPTH, LAST, LASTS, TOLERANCE = 10, 300, 250_000, 15_000, 1_000, 10
# a loam, in µm an hour, and the clock at which the step begins
RATE, CLOCK = 10_000, 60_000
# north, east, south, west
DROPS = (40_000, 10_000, 0, 0)


def worked():
    """Each quantity by its name on the page, in the page's order."""
    least, greatest = min(drop for drop in DROPS if drop), max(DROPS)
    weights = sum(DROPS) + least
    m = most_through(SIDE, DEPTH, ROUGHNESS, LASTS, greatest)
    square = SIDE, DEPTH, LAST, ROUGHNESS, LASTS, DROPS
    leaves, directed, unlimited = weigh(*square), weigh(*square, DIRECTED), weigh(*square, UNLIMITED)
    due = soak_by(RATE, CLOCK + LASTS) - soak_by(RATE, CLOCK)
    (candidate,) = candidates(SIDE, TOLERANCE, DEPTH, ROUGHNESS, DROPS)
    return {
        "Vmin": least,
        "VM": greatest,
        "T": weights,
        "h": height(DEPTH),
        "s": slope(SIDE, greatest),
        "v": speed(SIDE, DEPTH, ROUGHNESS, greatest),
        "m": m,
        "m·T / VM": m * weights // greatest,
        "Vmin + P": least + LAST,
        "north": leaves[0],
        "east": leaves[1],
        "P after": sum(leaves),
        "due": due,
        "soaks": min(due, DEPTH - sum(leaves)),
        "candidate": candidate,
        "edition 2, north": directed[0],
        "edition 2, east": directed[1],
        "edition 3, north": unlimited[0],
        "edition 3, east": unlimited[1],
    }


AMOUNTS = worked()
