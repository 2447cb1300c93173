"""How long a run may take, before it begins and while it goes on."""
from ..rule.bounds import step_bounds
from ..sheets.lines import SECOND
from ..sheets.reading import meadow_of, read
from .units import squares, steps, time

# so many squares are worked in a second, all of them wet, with four programs on two cores of an x86-64 machine
SQUARES_A_SECOND = 4_000_000


def seconds(amount):
    """A time in seconds, in words; to the second."""
    return "under a second" if amount < 1 else time(round(amount) * SECOND)


def before_words(sheet, end):
    """The most steps of a run, and how long they may take."""
    most, _ = step_bounds(meadow_of(sheet), end)
    work = most * len(sheet.ground()) / SQUARES_A_SECOND
    long = "under a second" if work < 1 else f"up to some {seconds(work)}"
    return f"run to {time(end)}: at most {steps(most)} on {squares(len(sheet.ground()))}, {long}"


def life_words(text, reached, lasted):
    """How far a run has come in so many seconds, and how long is left, as far as it is known."""
    if reached is None:
        return f"{seconds(lasted)} so far"
    made, clock = reached
    _, end = read(text)
    left = f"some {seconds(lasted * (end - clock) / clock)} left" if clock < end else "nearly done"
    return f"at {time(clock)} of {time(end)}, {steps(made)}; {seconds(lasted)} so far, {left}"
