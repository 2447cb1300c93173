"""What a constant soak rate leaves out: dry ground drinks faster, by the formula of Green and Ampt."""
import math

from meadow.programs import meadow
from meadow.sheets.lines import HOUR, Sheet
from shared import claim, table

# rates in µm an hour, by order of magnitude
GROUNDS = {"clay": 1_000, "loam": 10_000, "sand": 100_000}
# suction times the room for water in the ground, in mm, by order of magnitude
PULL = 30
HALF_HOURS = (1, 2, 12, 48)


def flooded(rate, end):
    """What soaks, in mm, by the program, from one square that does not run dry."""
    sheet = Sheet(1, 1, 10)
    sheet.put((0, 0), 0, 300, 10_000_000, rate=rate)
    return meadow(sheet.text(end)).soaked / 1_000


def front(rate, pull, hours):
    """Water that a wetting front has taken in, in mm: the F with F − S·ln(1 + F/S) = K·t, rate and pull being K and S."""
    low, high = rate * hours, rate * hours + 100 * pull
    while high - low > 1e-6:
        middle = (low + high) / 2
        low, high = (middle, high) if middle - pull * math.log(1 + middle / pull) < rate * hours else (low, middle)
    return high


def rows():
    for name, rate in GROUNDS.items():
        for half_hours in HALF_HOURS:
            constant, wetted = flooded(rate, half_hours * HOUR // 2), front(rate / 1_000, PULL, half_hours / 2)
            claim(constant == rate * half_hours // 2 / 1_000, f"{name} does not soak at its rate")
            yield (name, f"{half_hours / 2:g}", f"{constant:,g}", f"{wetted:,.0f}", f"{wetted / constant:.1f}")


def figures(_long):
    yield from table(["ground", "hours", "the program, mm", "a wetting front, mm", "ratio"], rows())
