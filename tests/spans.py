"""Document 02, #112, in plain Python: random runs from a multiple of U make no more steps than the most that is told before, and unless
they are refused no fewer than the least; each figure is met, also where rounding tells; and the figures of a few runs by hand."""
import random

from meadow.counted import Checks
from meadow.rule.bounds import step_bounds, steps_over
from meadow.rule.refusals import Refused
from meadow.rule.steps import run_to
from meadow.rule.world import Meadow

RUNS = 300
RULES = {"side": 1, "tolerance": 100, "shortest": 300, "longest": 700, "update": 1000, "edge": 10_000, "edition": 1}
# what is changed of these rules, the clock, the end, and the answer: both figures, None, or a refusal's number
BY_HAND = [
    ({}, 0, 3000, (12, 6)),
    ({}, 604_799_000, 604_800_000, (4, 2)),
    ({"shortest": 500, "longest": 500}, 0, 3000, (6, 6)),
    ({"shortest": 1, "longest": 60_000}, 0, 3000, (3000, 3)),
    ({}, 2000, 2000, (0, 0)),
    ({}, 2000, 1000, None),
    ({}, 1999, 3000, None),
    ({}, 604_800_001, 604_800_000, 6),
    ({}, 604_800_001, 604_801_000, 5),
    ({}, 0, 1500, 5),
    ({"update": 0}, 0, 0, 5),
    ({"shortest": 701}, 0, 0, 5),
    ({"side": 101, "update": 0}, 604_800_001, 1, 1),
]


def meadow(rules, depths, clock, length):
    """A row of open squares on flat ground, with room for one record."""
    squares = len(depths)
    m = Meadow(1, squares, rules, [1] * squares, [0] * squares, [100] * squares, [0] * squares, [], [], depths, [0] * squares, [])
    m.records = [0] * m.record_size()
    m.clock, m.length = clock, length
    return m


def told(m, end):
    """The answer: both figures, None, or a refusal's number."""
    try:
        return step_bounds(m, end)
    except Refused as refused:
        return refused.number


def random_run(chance):
    """A meadow at a multiple of U, dry or not, that holds any length, and an end some spans on."""
    update = chance.randint(1, 2000)
    longest = chance.randint(max(1, update // 9), 2 * update)
    shortest = chance.randint(max(1, min(longest, update // 9)), longest)
    rules = {**RULES, "tolerance": chance.choice([0, 100]), "shortest": shortest, "longest": longest, "update": update}
    depths = [chance.choice([0, 1000, 3_000_000]) for _ in range(3)]
    clock = update * chance.randint(0, 1000)
    return meadow(rules, depths, clock, chance.randint(1, 60_000)), clock + update * chance.randint(0, 4)


def hold_runs(checks):
    chance, met = random.Random(112), [0, 0]
    for _ in range(RUNS):
        m, end = random_run(chance)
        most, least = step_bounds(m, end)
        number, made = run_to(m, end)
        checks.hold(made <= most and (number != 0 or least <= made), f"{made} steps where {least} to {most} are told: {m.rules}")
        uneven = [m.rules["update"] % m.rules[length] != 0 for length in ("shortest", "longest")]
        met[0] += uneven[0] and least < made == most
        met[1] += uneven[1] and made == least < most
    checks.hold(all(met), f"a figure is never met where rounding tells: {met}")


def hold_by_hand(checks):
    for changed, clock, end, answer in BY_HAND:
        found = told(meadow({**RULES, **changed}, [0], clock, 700), end)
        checks.hold(found == answer, f"{changed} from {clock} to {end}: {found} where {answer} is worked by hand")
    for time, length, steps in [(1000, 300, 4), (900, 300, 3), (901, 300, 4), (1, 60_000, 1), (0, 300, 0)]:
        checks.hold(steps_over(time, length) == steps, f"{time} / {length}")


if __name__ == "__main__":
    tally = Checks("spans")
    hold_by_hand(tally)
    hold_runs(tally)
    tally.end()
