"""Document 01, "Flow arrows and wet rows": what is seen of a meadow after its newest step."""
from .ranges import fine
from .refusals import depths_wrong, marks_wrong, refuse_if, run_wrong, shape_wrong, side_wrong
from .take_back import times_wrong
from .world import CLOSED, HEAD_WORDS, SIDES, WORDS_A_SQUARE, across


def left(m, square, side):
    """What the newest record says that a square sent through a side."""
    return m.newest_record()[HEAD_WORDS + WORDS_A_SQUARE * square + side]


def net(m, square, side):
    """Own leaving less what the neighbour sent back; off the grid own leaving; towards a closed square 0."""
    near = m.beside(square)[side]
    if near is None:
        return left(m, square, side)
    if m.marks[near] == CLOSED:
        return 0
    return left(m, square, side) - left(m, near, across(side))


def speed_outwards(m, square, side):
    """In m/s: one quotient of two whole numbers, rounded once, negated where net is negative."""
    through = net(m, square, side)
    if through == 0:
        return 0.0
    near = m.beside(square)[side]
    other = m.depths[square] if near is None else m.depths[near]
    lasted = m.newest_record()[1]
    outwards = 2000 * abs(through) * m.rules["side"] / ((m.depths[square] + other) * lasted)
    return -outwards if through < 0 else outwards


def check_arrow(m, row, column):
    """The refusals of an arrow."""
    refuse_if(side_wrong(m) or shape_wrong(m, [m.marks, m.depths]) or row >= m.rows or column >= m.columns, 1)
    refuse_if(marks_wrong(m), 2)
    refuse_if(depths_wrong(m), 3)
    refuse_if(run_wrong(m), 6)
    refuse_if(m.kept == 0, 10)
    refuse_if(times_wrong(*m.newest_record()[:HEAD_WORDS]), 11)


def seen(m, square):
    """What is seen of a square where nothing is refused: its kind, and for a moving one the speeds east and north."""
    if m.marks[square] == CLOSED:
        return "closed", None
    if m.depths[square] == 0:
        return "dry", None
    if all(net(m, square, side) == 0 for side in SIDES):
        return "still", None
    north, east, south, west = (speed_outwards(m, square, side) for side in SIDES)
    return "moving", (east - west, north - south)


def arrow(m, row, column):
    """What is seen of a square, or a refusal."""
    check_arrow(m, row, column)
    return seen(m, row * m.columns + column)


def wet_rows(m, wet_depth, rows):
    """Fills a list with one number a row, bit c for column c; the wet count."""
    refuse_if(shape_wrong(m, [m.marks, m.depths]) or len(rows) != m.rows, 1)
    refuse_if(marks_wrong(m), 2)
    refuse_if(depths_wrong(m), 3)
    refuse_if(not fine("depth", wet_depth), 5)
    wet = [m.marks[square] != CLOSED and m.depths[square] >= wet_depth for square in range(m.squares())]
    for row in range(m.rows):
        rows[row] = sum(wet[row * m.columns + column] << column for column in range(m.columns))
    return sum(wet)
