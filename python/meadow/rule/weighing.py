"""Document 01, "The step", with request #102's edge slope, #105's speeds in µm/s and #113's editions: the drops of one square, and what
leaves it through its four sides."""
import math

from .world import CLOSED, EXIT

# the editions of the rule: document 01's own; Manning's formula in each direction; document 01's without the limit Vmin + P
WEIGHTED, DIRECTED, UNLIMITED = 1, 2, 3


def level(m, square):
    """Bed and depth."""
    return m.beds[square] + m.depths[square]


def drop_off(m, square):
    """The drop off the grid: from an exit the smaller of d and e·100·D, from any other square none."""
    return min(m.depths[square], m.rules["edge"] * 100 * m.rules["side"]) if m.marks[square] == EXIT else 0


def drop_to(m, square, near):
    """The drop towards a neighbour: none towards a closed one, or towards one that is no lower."""
    return 0 if m.marks[near] == CLOSED else max(0, level(m, square) - level(m, near))


def drops(m, square):
    """V for north, east, south and west."""
    return [drop_off(m, square) if near is None else drop_to(m, square, near) for near in m.beside(square)]


def height(depth):
    """h: the largest whole number with h³ ≤ d²."""
    h = round((depth * depth) ** (1 / 3))
    while h**3 > depth * depth:
        h -= 1
    while (h + 1) ** 3 <= depth * depth:
        h += 1
    return h


def slope(side, drop):
    """s: the largest whole number with s² ≤ 100·V / D, rounded down."""
    return math.isqrt(100 * drop // side)


def speed(side, depth, roughness, drop):
    """v in µm/s: the smaller of the critical speed, the largest c with c² ≤ 9,810,000·d, and Manning's, 100·h·s / k."""
    critical = math.isqrt(9_810_000 * depth)
    manning = 100 * height(depth) * slope(side, drop) // roughness
    return min(critical, manning)


def most_through(side, depth, roughness, ms, drop):
    """v·Δt·d / (D·1,000,000,000), with v from a drop: with the greatest it is m, the most through the steepest side."""
    return speed(side, depth, roughness, drop) * ms * depth // (side * 1_000_000_000)


def by_weights(total, drops):
    """A total parted among the sides, total·V / T each."""
    weights = sum(drops) + min(drop for drop in drops if drop > 0)
    return [total * drop // weights for drop in drops]


def by_speed(side, depth, roughness, ms, drops):
    """The smaller of d and m·T / VM."""
    greatest, weights = max(drops), sum(drops) + min(drop for drop in drops if drop > 0)
    return min(depth, most_through(side, depth, roughness, ms, greatest) * weights // greatest)


def weighted(side, depth, last, roughness, ms, drops):
    """Edition 1, document 01's: the total is also at most Vmin + P."""
    least = min(drop for drop in drops if drop > 0)
    return by_weights(min(by_speed(side, depth, roughness, ms, drops), least + last), drops)


def directed(side, depth, _last, roughness, ms, drops):
    """Edition 2, the older way: each side by its own drop; where the four come to more than d, each is cut down by d over their sum."""
    amounts = [min(depth, most_through(side, depth, roughness, ms, drop)) if drop > 0 else 0 for drop in drops]
    return amounts if sum(amounts) <= depth else [amount * depth // sum(amounts) for amount in amounts]


def unlimited(side, depth, _last, roughness, ms, drops):
    """Edition 3: document 01's rule without the limit Vmin + P."""
    return by_weights(by_speed(side, depth, roughness, ms, drops), drops)


EDITIONS = {WEIGHTED: weighted, DIRECTED: directed, UNLIMITED: unlimited}


def weigh(side, depth, last, roughness, ms, drops, edition=WEIGHTED):
    """The four amounts that leave a square in a step of so many ms, by an edition of the rule."""
    if depth == 0 or max(drops) == 0:
        return [0, 0, 0, 0]
    return EDITIONS[edition](side, depth, last, roughness, ms, drops)


def leaving(m, square, ms):
    """What leaves a square of a meadow."""
    rules = m.rules
    return weigh(rules["side"], m.depths[square], m.lasts[square], m.roughness[square], ms, drops(m, square), rules["edition"])
