"""Amounts in the units that people use: metres, millimetres an hour, litres, cubic metres, hours and minutes.

Nothing that there is is said to be nothing: what is too little for its last digit is said to be under it.
"""
from ..sheets.lines import HOUR, MINUTE, SECOND

MICROMETRES = 1_000_000
# least amount of a scale, in the amount's own unit, with its divisor, decimals and name
DEPTHS = [
    (1_000_000, 1_000_000, 2, "m"),
    (100_000, 10_000, 0, "cm"),
    (10_000, 10_000, 1, "cm"),
    (100, 1_000, 1, "mm"),
]
VOLUMES = [(100, 1, 0, "m³"), (0.1, 1, 1, "m³"), (0.001, 1, 3, "m³")]
AREAS = [(0, 1, 0, "m²")]
RAIN = [(100, 1_000, 1, "mm")]


def scaled(amount, scales):
    """An amount on the first scale that it reaches."""
    for least, divisor, decimals, name in scales:
        if amount >= least:
            return f"{amount / divisor:,.{decimals}f} {name}"
    least, divisor, decimals, name = scales[-1]
    return f"0 {name}" if amount == 0 else f"under {least / divisor:.{decimals}f} {name}"


def depth(amount):
    """A depth in µm: 45 cm, 3.6 mm."""
    return scaled(amount, DEPTHS)


def graduation(amount):
    """A round depth in µm, as a staff has it: 2 m, 50 cm, 5 mm, 200 µm."""
    for divisor, name in ((1_000_000, "m"), (10_000, "cm"), (1_000, "mm")):
        if amount >= divisor:
            return f"{amount / divisor:g} {name}"
    return f"{amount:g} µm" if amount else "0"


def volume(amount):
    """A volume in m³: 1,364 m³, 0.4 m³."""
    return scaled(amount, VOLUMES)


def area(squares, side):
    """So many squares of a side in m."""
    return scaled(squares * side**2, AREAS)


def height(bed):
    """A bed in µm, to the centimetre."""
    return f"{bed / MICROMETRES:.2f}"


def rain_depth(amount):
    """Rain in µm, which people count in mm however much it is."""
    return scaled(amount, RAIN)


def millimetres(rate):
    """µm per hour in mm."""
    return f"{rate / 1_000:,.6g}"


def rain_rate(rate):
    """µm per hour as mm an hour."""
    return f"{millimetres(rate)} mm/h"


def roughness(index):
    """Ten-thousandths as Manning's n."""
    return f"{index / 10_000:g}"


def parts_of(ms):
    """A time as its hours, minutes and seconds, each with its name, those that are 0 left out."""
    hours, rest = divmod(ms, HOUR)
    minutes, rest = divmod(rest, MINUTE)
    named = ((f"{hours:,}", "h", hours), (str(minutes), "min", minutes), (f"{rest / SECOND:g}", "s", rest))
    return [(number, name) for number, name, amount in named if amount] or [("0", "min")]


def time(ms):
    """A time: 3 min, 1 h 10 min, 1 min 30 s."""
    return " ".join(f"{number} {name}" for number, name in parts_of(ms))


def span(start, end):
    """From one time to another; a unit that both have alone is said once: 1 to 5 min."""
    first, last = parts_of(start), parts_of(end)
    alike = start == 0 or len(first) == len(last) == 1 and first[0][1] == last[0][1]
    return f"{first[0][0] if alike else time(start)} to {time(end)}"


def steps(count):
    """So many steps."""
    return f"{count:,} step{'' if count == 1 else 's'}"


def squares(count):
    """So many squares."""
    return f"{count:,} square{'' if count == 1 else 's'}"


def square(place):
    """A square by its place."""
    return f"row {place[0]}, column {place[1]}"
