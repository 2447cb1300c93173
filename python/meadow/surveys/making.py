"""A sheet made from what people have: beds in metres, a plan of letters, n, mm/h, l/s, and times as h:min.

Heights are rounded to the micrometre, roughness to ten-thousandths, rates to µm an hour; a hatch is in whole litres a second and never
rounded. A square is closed where the plan says x or, where there is no plan, where the bed has no number. A bed that is `?`, or that has no
number where a plan does not close it, was not seen: it stays `?` in the sheet, for `repair` to give.
"""
import re
from decimal import ROUND_HALF_UP, Decimal, InvalidOperation
from pathlib import Path

from ..rule.ranges import fine
from ..sheets.holes import UNSEEN
from ..sheets.lines import CLOSED, HOUR, MARKS, MINUTE, SECOND, USUAL_RUN, Sheet, Unreadable
from ..sheets.reading import MOST_SQUARES
from ..words.units import square
from .grids import Grid, grid_in, hold_metres, number
from .no_data import off_words

# the sheet's units in a person's: µm in a metre, ten-thousandths, µm an hour in a mm an hour
METRE, MANNING, MILLIMETRE_AN_HOUR = 1_000_000, 10_000, 1_000
# 20 ms in squares of 5 m, in ms for each square metre
SUITS_A_SQUARE_METRE = 4, 5
CLOCK = re.compile(r"(\d+):([0-5]\d)(?::([0-5]\d))?")


def clock(text):
    """A time as h:min or h:min:s, in ms."""
    found = CLOCK.fullmatch(text)
    if not found:
        seconds = f"; {text} seconds are {int(text) // 3600}:{int(text) // 60 % 60:02d}:{int(text) % 60:02d}" if re.fullmatch(r"\d{1,6}", text) else ""
        raise Unreadable(f"{text!r} is no time: write hours and minutes, as 0:10, or also seconds, as 0:01:30{seconds}")
    hours, minutes, seconds = (int(part or 0) for part in found.groups())
    return hours * HOUR + minutes * MINUTE + seconds * SECOND


def whole(value, times):
    """A person's number in the sheet's unit, rounded to the nearest."""
    return int((value * times).to_integral_value(ROUND_HALF_UP))


def litres(text):
    """Litres a second, which are whole."""
    value = number(text, "a hatch's inflow")
    if value != value.to_integral_value():
        raise Unreadable(f"a hatch gives whole litres a second, and {text} is between {int(value)} and {int(value) + 1}")
    return int(value)


def index(text, what):
    """A row or a column."""
    if not re.fullmatch("0|[1-9][0-9]*", text):
        raise Unreadable(f"{text!r} is no {what}: they are counted from 0")
    return int(text)


def plan_in(path, shape):
    """The marks of a plan of letters, row by row; what parts the letters does not matter."""
    name = Path(path).name
    lines = [re.sub(r"[\s,;]", "", line) for line in Path(path).read_text(encoding="utf-8-sig").splitlines()]
    rows = [line for line in lines if line]
    for at, row in enumerate(rows, 1):
        odd = next((letter for letter in row if letter not in MARKS), None)
        if odd:
            raise Unreadable(f"{name}, row {at}: {odd!r} is no mark: write x (closed), o (open) or e (exit)")
        if len(row) != shape[1]:
            raise Unreadable(f"{name}, row {at}: it has {len(row)} letters, and the beds have {shape[1]} columns")
    if len(rows) != shape[0]:
        raise Unreadable(f"{name}: it has {len(rows)} rows, and the beds have {shape[0]}")
    return {(row, column): mark for row, marks in enumerate(rows) for column, mark in enumerate(marks)}


def marks_by_beds(beds):
    """The mark of each square where there is no plan: closed where it has no bed, but for those that the survey could not see."""
    places = [(row, column) for row in range(beds.shape()[0]) for column in range(beds.shape()[1])]
    return {place: CLOSED if beds.at(place) is None and place not in beds.unseen else "o" for place in places}


def marks_of(beds, plan, exits):
    """The mark of each square, by a plan or by the beds, with exits put by hand."""
    marks = plan or marks_by_beds(beds)
    for place in exits:
        if place not in marks:
            raise Unreadable(f"the exit at {square(place)} is off the grid")
        if marks[place] == CLOSED and beds.at(place) is None:
            do = f"open it in a plan, or without one write {UNSEEN} for a bed that was not seen"
            raise Unreadable(f"the exit at {square(place)} is on a closed square without a bed: {do}")
        marks = {**marks, place: "e"}
    return marks


def spread(text, shape):
    """A number for every square, or the grid of a file of that name."""
    try:
        value = Decimal(text)
        return Grid([[value] * shape[1] for _ in range(shape[0])])
    except InvalidOperation:
        found = grid_in(text)
    if found.shape() != shape:
        raise Unreadable(f"{Path(text).name}: it has {found.shape()[0]} rows of {found.shape()[1]}, and the beds {shape[0]} of {shape[1]}")
    return found


def value_at(grid, place, times, what):
    """A square's value in the sheet's unit; it must have one."""
    if grid.at(place) is None:
        raise Unreadable(f"{square(place)} is not closed, and its {what} has no number")
    return whole(grid.at(place), times)


def bed_at(beds, place, datum):
    """A square's bed over the datum, in the range that a sheet has."""
    bed = whole(beds.at(place) - datum, METRE)
    if not fine("bed", bed):
        raise Unreadable(off_words(beds, place, datum))
    return bed


def hold_shape(beds, side, most_squares=MOST_SQUARES):
    """The shape and the side are those that `meadow` takes, or a set of so many squares."""
    rows, columns = beds.shape()
    if not (fine("rows", rows) and fine("columns", columns)) or rows * columns > most_squares:
        raise Unreadable(f"{rows} rows of {columns} are too many: 64 each and {most_squares:,} squares at most; cut the grid, or take larger squares")
    hold_metres(beds)
    if side is None:
        raise Unreadable("a CSV does not say how large its squares are: give --side")
    if side != side.to_integral_value() or not fine("side", int(side)):
        raise Unreadable(f"squares of {side} m: a side is 1 to 100 whole metres")


def suiting_shortest(side):
    """The shortest step in ms that suits squares of a side in m: the rule's own goes with the square of the side (docs/VALIDATION.md, g)."""
    return min(USUAL_RUN["shortest"], max(1, SUITS_A_SQUARE_METRE[0] * side * side // SUITS_A_SQUARE_METRE[1]))


def sheet_of(beds, side, marks, datum, roughness, depth, soak, run):
    """The sheet of grids, without rain and hatches."""
    sheet = Sheet(*beds.shape(), int(side), **run)
    for place, mark in marks.items():
        if mark != CLOSED:
            index_of_n, deep = value_at(roughness, place, MANNING, "roughness"), value_at(depth, place, METRE, "depth")
            rate = value_at(soak, place, MILLIMETRE_AN_HOUR, "soak rate")
            bed = UNSEEN if beds.at(place) is None else bed_at(beds, place, datum)
            sheet.put(place, bed, index_of_n, deep, mark, rate=rate)
    return sheet
