"""Document 01, with request #106's soaking: a fresh run, the step with its record, and a run to an end."""
from .refusals import Refused, check, check_after, marks_wrong, refuse_if, rules_wrong, shape_wrong, side_wrong
from .step_length import lasts_for, length
from .weighing import leaving
from .world import INFLOW_NUMBERS, RAIN_NUMBERS, WORDS_A_SQUARE, rows_of


def ran(start, end, clock):
    """How long a table's row has run by a clock."""
    return max(0, min(clock, end) - start)


def rain_by(m, clock):
    """Rain by a clock, rounded down once for all rows."""
    return sum(rate * ran(start, end, clock) for start, end, rate in rows_of(m.rain, RAIN_NUMBERS)) // 3_600_000


def inflow_by(m, square, clock):
    """Inflow on a square by a clock, rounded down once for all its rows."""
    place = divmod(square, m.columns)
    rows = [row for row in rows_of(m.inflow, INFLOW_NUMBERS) if tuple(row[:2]) == place]
    return sum(litres * ran(start, end, clock) for _, _, start, end, litres in rows) // m.rules["side"] ** 2


def added(m, start, end):
    """What a step from one clock to another adds to each square not closed: rain to all, inflow to those that have a row."""
    rain = rain_by(m, end) - rain_by(m, start)
    hatches = {row * m.columns + column for row, column, *_ in rows_of(m.inflow, INFLOW_NUMBERS)}
    poured = {square: inflow_by(m, square, end) - inflow_by(m, square, start) for square in hatches}
    return {square: rain + poured.get(square, 0) for square in m.ground()}


def soak_by(rate, clock):
    """What is due to soak by a clock, rounded down."""
    return rate * clock // 3_600_000


def soaked(m, leaves, start, end):
    """What soaks into each square not closed in a step from one clock to another: the smaller of what is due and what its sides leave."""
    due = {square: soak_by(m.rates[square], end) - soak_by(m.rates[square], start) for square in m.ground()}
    return {square: min(due[square], m.depths[square] - sum(leaves[square])) for square in m.ground()}


def write_record(m, lasted, leaves, came_in, sank):
    """The step's record in the slot after the newest."""
    record = [m.length, lasted]
    for square in range(m.squares()):
        if square in leaves:
            record += leaves[square] + [m.lasts[square], came_in[square], sank[square]]
        else:
            record += [0] * WORDS_A_SQUARE
    m.newest = (m.newest + 1) % m.slots()
    at = m.newest * m.record_size()
    m.records[at : at + m.record_size()] = record
    m.kept = min(m.kept + 1, m.slots())


def inner_step(m):
    """A step where 1 to 6 have passed: all is worked from the water before it, and refused or written as a whole."""
    held = length(m)
    lasted = lasts_for(m, held)
    end = m.clock + lasted
    leaves = {square: leaving(m, square, lasted) for square in m.ground()}
    came_in = added(m, m.clock, end)
    sank = soaked(m, leaves, m.clock, end)
    remains = {square: m.depths[square] - sum(leaves[square]) - sank[square] for square in m.ground()}
    depths = {square: remains[square] + m.came(leaves, square) + came_in[square] for square in m.ground()}
    outflow = m.outflow + m.off(leaves)
    total_soaked = m.soaked + sum(sank.values())
    check_after(end, depths.values(), outflow, total_soaked)
    write_record(m, lasted, leaves, came_in, sank)
    for square in m.ground():
        m.depths[square], m.lasts[square] = depths[square], sum(leaves[square])
    m.clock, m.length, m.outflow, m.soaked = end, held, outflow, total_soaked


def fresh(m):
    """A fresh run: clock 0, the longest step, no outflow, nothing kept, nothing soaked, P 0 on squares not closed."""
    refuse_if(side_wrong(m) or shape_wrong(m, [m.marks, m.lasts]), 1)
    refuse_if(marks_wrong(m), 2)
    refuse_if(rules_wrong(m), 5)
    refuse_if(m.slots() == 0, 6)
    m.clock, m.length, m.outflow, m.kept, m.newest, m.soaked = 0, m.rules["longest"], 0, 0, m.slots() - 1, 0
    for square in m.ground():
        m.lasts[square] = 0


def step(m):
    """One step, or a refusal with everything as it was."""
    check(m)
    inner_step(m)


def run_to(m, end):
    """The number of the refusal, 0 for none, and the steps made."""
    try:
        check(m, end)
    except Refused as refused:
        return refused.number, 0
    made = 0
    while m.clock < end:
        try:
            inner_step(m)
        except Refused as refused:
            return refused.number, made
        made += 1
    return 0, made
