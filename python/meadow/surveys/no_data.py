"""Numbers by which surveys say that they have no height, and a bed that a sheet cannot have: which of the two it is, and what to do."""
from decimal import ROUND_FLOOR, Decimal

from ..rule.ranges import RANGES
from ..words.units import square

# in metres, as map programs and surveyors write them
LIKE_NO_DATA = {Decimal(number) for number in (0, -99, -999, -9999, -99999, -32767, -32768, 9999, 99999)}
# no height on earth
BEYOND = Decimal(20_000)


def like_no_data(value):
    """Whether a number is one by which surveys say that they have none."""
    return value in LIKE_NO_DATA or abs(value) > BEYOND


def heights_of(beds):
    """The beds that are heights by all signs."""
    return [value for row in beds.rows for value in row if value is not None and not like_no_data(value)]


def is_no_data(beds, value):
    """Whether a bed is likely none: it is written as surveys write no data, and lies apart from all others."""
    others = heights_of(beds)
    return like_no_data(value) and bool(others) and not min(others) <= value <= max(others)


def no_data_words(beds, place):
    """What to do about a number that stands for no height, and that the file does not say stands for none."""
    value, others = beds.at(place), heights_of(beds)
    many = sum(value == other for row in beds.rows for other in row)
    more = f" and {many - 1} more square{'' if many == 2 else 's'}" if many > 1 else ""
    said = f"{square(place)}{more}: a bed of {value} m, and the others lie from {min(others)} to {max(others)} m: it is likely no height"
    do = f"write NODATA_value {value} in the grid's head" if beds.corner else "leave its field empty"
    return f"{said}, and the file does not say so: {do}, and the square is closed"


def off_words(beds, place, datum):
    """Why a bed is none that a sheet can have: no height at all, or one that wants another datum, where one fits."""
    if is_no_data(beds, beds.at(place)):
        return no_data_words(beds, place)
    highest = RANGES["bed"][1] // 1_000_000
    said = f"{square(place)}: a bed of {beds.at(place)} m is not 0 to {highest:,} m above {datum} m"
    heights = heights_of(beds) or [value for row in beds.rows for value in row if value is not None]
    least = min(heights).to_integral_value(ROUND_FLOOR)
    if max(heights) - least > highest:
        return f"{said}; the lowest bed is {min(heights)} m and the highest {max(heights)} m, and no datum takes both: mend the wrong one"
    return f"{said}: give --datum {least}, or a little less"
