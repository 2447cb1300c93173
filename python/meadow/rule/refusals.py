"""Document 01's table of refusals, with what requests of document 02 add: a test for each reason, tried in the table's order by the calls."""
from .ranges import LAST_CLOCK, MOST_ROWS_OF_A_TABLE, fine
from .world import CLOSED, EXIT, INFLOW_NUMBERS, RAIN_NUMBERS, rows_of


class Refused(Exception):
    """A call refused, with the table's number and, for 12, the sheet's line."""

    def __init__(self, number, line=0):
        super().__init__(number, line)
        self.number, self.line = number, line


def refuse_if(bad, number):
    """Refuses with a number where a test says so."""
    if bad:
        raise Refused(number)


def side_wrong(m):
    """Of 1: D out of range."""
    return not fine("side", m.rules["side"])


def shape_wrong(m, slices):
    """Of 1: the shape out of range, or a slice that has not one number a square."""
    return not (fine("rows", m.rows) and fine("columns", m.columns)) or any(len(s) != m.squares() for s in slices)


def marks_wrong(m):
    """Of 2: a mark above 2, or an exit off the rim."""
    return any(not fine("mark", mark) or mark == EXIT and None not in m.beside(square) for square, mark in enumerate(m.marks))


def ground_wrong(m):
    """Of 2: bed, roughness or soak rate of a square not closed out of range."""
    lent = (("bed", m.beds), ("roughness", m.roughness), ("soak rate", m.rates))
    return any(not fine(name, numbers[square]) for square in m.ground() for name, numbers in lent)


def depths_wrong(m):
    """Of 3: a depth of a square not closed out of range."""
    return any(not fine("depth", m.depths[square]) for square in m.ground())


def lasts_wrong(m):
    """Of 3: a last leaving of a square not closed out of range."""
    return any(not fine("last", m.lasts[square]) for square in m.ground())


def rows_wrong(table, numbers):
    """Of 4: an odd length, or over 64 rows."""
    return len(table) % numbers != 0 or len(table) > MOST_ROWS_OF_A_TABLE * numbers


def rain_wrong(m):
    """4 of rain."""
    if rows_wrong(m.rain, RAIN_NUMBERS):
        return True
    return any(start > end or not (fine("to", end) and fine("rate", rate)) for start, end, rate in rows_of(m.rain, RAIN_NUMBERS))


def inflow_wrong(m):
    """4 of inflow: its numbers, and a closed or missing square."""
    if rows_wrong(m.inflow, INFLOW_NUMBERS):
        return True
    for row, column, start, end, litres in rows_of(m.inflow, INFLOW_NUMBERS):
        if start > end or not (fine("to", end) and fine("litres", litres)):
            return True
        if row >= m.rows or column >= m.columns or m.marks[row * m.columns + column] == CLOSED:
            return True
    return False


def rules_wrong(m):
    """Of 5: tolerance, step limits, update time, edge slope or edition out of range."""
    named = all(fine(name, m.rules[name]) for name in ("tolerance", "shortest", "longest", "update", "edge", "edition"))
    return not named or m.rules["shortest"] > m.rules["longest"]


def end_wrong(m, end):
    """Of 5: an end that is no multiple of U, or out of range."""
    return not fine("end", end) or end % m.rules["update"] != 0


def run_wrong(m):
    """6: K = 0, or a run value out of range."""
    slots = m.slots()
    in_ring = slots > 0 and m.kept <= slots and m.newest < slots
    return not in_ring or any(not fine(name, getattr(m, name)) for name in ("clock", "length", "outflow", "soaked"))


def check(m, end=None):
    """1 to 6 of a step, or of a run to an end."""
    refuse_if(side_wrong(m) or shape_wrong(m, [m.marks, m.beds, m.roughness, m.rates, m.depths, m.lasts]), 1)
    refuse_if(marks_wrong(m) or ground_wrong(m), 2)
    refuse_if(depths_wrong(m) or lasts_wrong(m), 3)
    refuse_if(rain_wrong(m) or inflow_wrong(m), 4)
    refuse_if(rules_wrong(m) or end is not None and end_wrong(m, end), 5)
    refuse_if(run_wrong(m), 6)


def check_after(clock, depths, outflow, soaked):
    """7 to 9 and 15 of a step, from the clock, the depths, the outflow and the total soaked that it would leave."""
    refuse_if(clock > LAST_CLOCK, 7)
    refuse_if(any(not fine("depth", depth) for depth in depths), 8)
    refuse_if(not fine("outflow", outflow), 9)
    refuse_if(not fine("soaked", soaked), 15)
