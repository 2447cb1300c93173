"""Document 02, #112: the most and the least steps of a run, told before it is made."""
from .ranges import fine
from .refusals import end_wrong, refuse_if, rules_wrong, side_wrong


def steps_over(time, length):
    """The least whole number not below time / length."""
    return -(-time // length)


def step_bounds(m, end):
    """The most and the least steps from a meadow's clock to an end; None where the clock is no multiple of U, or after the end."""
    refuse_if(side_wrong(m), 1)
    refuse_if(rules_wrong(m) or end_wrong(m, end), 5)
    refuse_if(not fine("clock", m.clock), 6)
    update = m.rules["update"]
    if m.clock % update != 0 or m.clock > end:
        return None
    spans = (end - m.clock) // update
    return spans * steps_over(update, m.rules["shortest"]), spans * steps_over(update, m.rules["longest"])
