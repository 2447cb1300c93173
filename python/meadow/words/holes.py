"""Closed squares that are likely none, and open ones that are likely closed: a hole in a survey becomes a wall, and a gap in a wall a door.

A lone closed square has open ground on all eight sides. A gap is one open square in a straight line of closed ones, with ground before and behind
it: the line is three closed squares long or longer, and no thicker than the gap, so that a lane between two houses is none. An exit is none.
"""
from ..sheets.lines import CLOSED

# the closed squares of a line that has a gap, at the least
LEAST_LINE = 3
# along a line, and across it
WAYS = [((0, 1), (1, 0)), ((1, 0), (0, 1))]


def moved(place, way, times=1):
    """A place so many squares along a way."""
    return place[0] + times * way[0], place[1] + times * way[1]


def closed_at(sheet, place):
    """Whether a square of the grid is closed."""
    return sheet.squares.get(place, {}).get("mark") == CLOSED


def open_at(sheet, place):
    """Whether a square of the grid is not closed."""
    return place in sheet.squares and not closed_at(sheet, place)


def closed_run(sheet, place, way):
    """How many closed squares follow one another along a way, after a place."""
    long = 0
    while closed_at(sheet, moved(place, way, long + 1)):
        long += 1
    return long


def between(sheet, place, along):
    """Whether closed squares stand on both sides of a square, along a line."""
    return all(closed_at(sheet, moved(place, along, times)) for times in (-1, 1))


def is_gap(sheet, place, along, across):
    """Whether a square is the one that is open in a line of closed ones."""
    sides = [moved(place, across, times) for times in (-1, 1)]
    line = sum(closed_run(sheet, place, (times * along[0], times * along[1])) for times in (-1, 1))
    passes = all(open_at(sheet, side) and not between(sheet, side, along) for side in sides)
    return between(sheet, place, along) and passes and line >= LEAST_LINE


def gaps(sheet):
    """The open squares that are a gap in a line of closed ones."""
    ground = [place for place in sheet.ground() if sheet.squares[place]["mark"] == "o"]
    return [place for place in ground if any(is_gap(sheet, place, *ways) for ways in WAYS)]


def lone_squares(sheet):
    """The closed squares that stand alone amid open ground; one that a gap parts from its line does not."""
    round_it = [(row, column) for row in (-1, 0, 1) for column in (-1, 0, 1) if (row, column) != (0, 0)]
    in_line = {moved(place, way) for place in gaps(sheet) for way in round_it}
    closed = [place for place in sorted(sheet.squares) if closed_at(sheet, place) and place not in in_line]
    return [place for place in closed if all(open_at(sheet, moved(place, way)) for way in round_it)]
