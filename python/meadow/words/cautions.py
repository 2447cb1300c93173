"""What a reader of an answer must mind, found by the run itself: steps that were held at the shortest, and squares that stand. Line of sense, map
and account all read it here."""
from ..rule.bounds import step_bounds
from ..rule.weighing import WEIGHTED
from ..sheets.reading import meadow_of
from ..sheets.standing import STEEP, standing_squares
from .units import square, squares, steps, time

# of the most steps of a run
NEARLY_ALL = 0.9


def standing_words(standing):
    """What standing squares mean for a reader."""
    if not standing:
        return "no square stands"
    steep = sum(found[4] >= STEEP for found in standing)
    which = f"; {square(standing[0][:2])} is the steepest" if steep else ""
    one = len(standing) == 1
    return f"{squares(len(standing))} stand{'s' if one else ''}, {steep} steep{which}: the rule holds {'its' if one else 'their'} water, not the ground"


def mostly_held(pair):
    """Whether nearly all steps were as short as may be, by their count alone."""
    most, least = step_bounds(meadow_of(pair.sheet), pair.end)
    return most > least and pair.answer.steps >= NEARLY_ALL * most


def held_words(whole):
    """Steps that were held at the shortest while shorter ones were wanted; nothing where they were not. Where the run was not looked at, the
    count of its steps tells."""
    pair, shortest = whole.pair, f"{whole.pair.sheet.run['shortest']} ms"
    misleads = "too little flows on, and what is shown misleads: run with a shorter one"
    if whole.course is None:
        most, _ = step_bounds(meadow_of(pair.sheet), pair.end)
        said = f"likely held at the shortest, {shortest}: {steps(pair.answer.steps)} of at most {most:,}"
        return f"{said}: {misleads}" if mostly_held(pair) else ""
    held = whole.course.held()
    if held is None:
        return ""
    return f"held at the shortest, {shortest}, for {time(held.time)} of {time(pair.end)}, and the water asks for {held.wanted} ms: {misleads}"


def cautions(whole):
    """Everything about a run that is seen whole that a reader must mind."""
    pair = whole.pair
    standing = standing_squares(pair.sheet, pair.answer) if pair.sheet.run["edition"] == WEIGHTED else []
    return list(filter(None, [held_words(whole), standing_words(standing) if standing else ""]))
