"""The calls of document 01 on values as a program's source has them: structs by name, slices written in place."""
import struct

from meadow.rule import bounds, sights
from meadow.rule.refusals import Refused
from meadow.rule.steps import fresh, run_to, step
from meadow.rule.take_back import take_back
from meadow.rule.world import Meadow
from sources import Struct

RUN = ("clock", "length", "outflow", "kept", "newest", "soaked")


def meadow(shape, rules, run, marks, beds, roughness, rates, rain, inflow, depths, lasts, records):
    """The meadow that a call is lent; `run` None is a run that the call does not look at."""
    named = {"side" if name == "square_side" else name: value for name, value in vars(rules).items()}
    lent = Meadow(shape.rows, shape.columns, named, marks, beds, roughness, rates, rain, inflow, depths, lasts, records)
    for name in RUN if run else ():
        setattr(lent, name, getattr(run, name))
    return lent


def run_of(m):
    """The run value of a meadow."""
    return Struct(**{name: getattr(m, name) for name in RUN})


def answer(call, m):
    """A call's answer: the run, or a refusal's number."""
    try:
        call(m)
    except Refused as refused:
        return refused.number
    return run_of(m)


def number_of(answer):
    """0 for none."""
    return answer if isinstance(answer, int) else 0


def run_after(answer, before):
    """The run that a call leaves."""
    return before if isinstance(answer, int) else answer


def freshens(shape, rules, marks, lasts, records):
    """A fresh run."""
    return answer(fresh, meadow(shape, rules, None, marks, [], [], [], [], [], [], lasts, records))


def steps(*parts):
    """One step."""
    return answer(step, meadow(*parts))


def steps_by(_walk, *parts):
    """One step by a walk, of which document 01 knows nothing."""
    return steps(*parts)


def runs_to(shape, rules, run, end, *slices):
    """A run to an end."""
    m = meadow(shape, rules, run, *slices)
    number, made = run_to(m, end)
    return Struct(refused=number, steps=made, run=run_of(m))


NO_SHAPE = Struct(rows=0, columns=0)


def fresh_run(rules, slots):
    """The run value of a fresh run in a record room with so many slots."""
    m = meadow(NO_SHAPE, rules, None, [], [], [], [], [], [], [], [], [])
    m.newest = slots - 1
    return run_of(m)


def step_bounds(rules, clock, end):
    """The most and the least steps of a run, in the program's words."""
    m = meadow(NO_SHAPE, rules, None, [], [], [], [], [], [], [], [], [])
    m.clock = clock
    try:
        figures = bounds.step_bounds(m, end)
    except Refused as refused:
        return f"refused {refused.number}"
    return "none" if figures is None else f"most {figures[0]} least {figures[1]}"


NO_RULES = Struct(square_side=1, longest=1)


def takes_back(shape, run, marks, depths, lasts, records):
    """A take-back."""
    return answer(take_back, meadow(shape, NO_RULES, run, marks, [], [], [], [], [], depths, lasts, records))


def bits(speed):
    """A speed's bit pattern."""
    return struct.pack(">d", speed).hex()


def arrow(shape, side, run, marks, depths, records, row, column):
    """What is seen of a square, in the program's words."""
    m = meadow(shape, Struct(square_side=side, longest=1), run, marks, [], [], [], [], [], depths, [], records)
    try:
        kind, speeds = sights.arrow(m, row, column)
    except Refused as refused:
        return f"refused {refused.number}"
    return kind if speeds is None else f"moving east {bits(speeds[0])} north {bits(speeds[1])}"


def wet_rows(shape, marks, depths, wet_depth, rows):
    """The wet count in the program's words; the rows are written."""
    m = meadow(shape, NO_RULES, None, marks, [], [], [], [], [], depths, [], [])
    try:
        return f"wet {sights.wet_rows(m, wet_depth, rows)}"
    except Refused as refused:
        return f"wet refused {refused.number}"
