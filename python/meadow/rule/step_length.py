"""Document 01, "Step length": worked afresh at multiples of U, and held between."""
from .weighing import drops, height, slope


def candidates(side, tolerance, depth, roughness, drops):
    """The lengths that a square's sides ask for, one for each drop above the tolerance."""
    if depth == 0:
        return []
    steep = [drop for drop in drops if drop > tolerance * 100 * side]
    return [50_000 * side * side * roughness * slope(side, drop) // (depth * height(depth)) for drop in steep]


def wanted_length(m):
    """The least candidate of all squares; None if there is none."""
    side, tolerance = m.rules["side"], m.rules["tolerance"]
    return min((c for i in m.ground() for c in candidates(side, tolerance, m.depths[i], m.roughness[i], drops(m, i))), default=None)


def fresh_length(m):
    """The least candidate, held between shortest and longest; the longest if there is none."""
    wanted = wanted_length(m)
    return m.rules["longest"] if wanted is None else max(m.rules["shortest"], min(m.rules["longest"], wanted))


def length(m):
    """The length that the next step holds."""
    return fresh_length(m) if m.clock % m.rules["update"] == 0 else m.length


def lasts_for(m, length):
    """How long the next step lasts: its length, but not past the next multiple of U."""
    return min(length, m.rules["update"] - m.clock % m.rules["update"])
