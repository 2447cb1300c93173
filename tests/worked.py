"""The cases of the program `worked`, read from its source and worked by document 01 in Python, held to crates/worked/stdout.

`bin/test worked --write` writes that file instead.
"""

import lent
from sources import Printer, program
from stored import hold

STATE = ("depths", "lasts")
RUN_BUT_KEPT = ("clock", "length", "outflow", "newest", "soaked")


def in_room(call, records_at):
    """A call whose last word is how many numbers of its records are lent."""

    def lends(*parts):
        *parts, room = parts
        whole = parts[records_at]
        parts[records_at] = whole[:room]
        gave = call(*parts)
        whole[:room] = parts[records_at]
        return gave

    return lends


def same_state(a, b):
    """The same run, depths and last leavings, but for the records kept."""
    runs = all(getattr(a.run, name) == getattr(b.run, name) for name in RUN_BUT_KEPT)
    return runs and all(getattr(a, name) == getattr(b, name) for name in STATE)


def as_it_was(a, b):
    """All that a call could write is as it was."""
    return same_state(a, b) and a.run.kept == b.run.kept and a.records == b.records


def tell(rt, call, refused, same):
    rt.print(f"{call.decode('ascii')} {refused}, {'as it was' if same else 'changed'}\n")


def tell_answer(rt, answer):
    rt.print(f"bounds {answer}\n")


def tell_same(rt, a, b):
    rt.print("the same but for kept\n" if same_state(a, b) else "not the same\n")


GIVEN = {
    "fresh_run": lent.fresh_run,
    "step": lent.steps_by,
    "number_of": lent.number_of,
    "run_after": lent.run_after,
    "fresh_in": in_room(lent.freshens, -1),
    "step_in": in_room(lent.steps, -1),
    "run_in": in_room(lent.runs_to, -1),
    "take_back_in": in_room(lent.takes_back, -1),
    "same_state": same_state,
    "as_it_was": as_it_was,
    "tell": tell,
    "tell_same": tell_same,
    "step_bounds": lent.step_bounds,
    "tell_answer": tell_answer,
}


if __name__ == "__main__":
    told = Printer()
    program("worked", GIVEN)["main"](told)
    hold("worked", told.printed())
