"""Standing squares: those from which water does not leave only because one neighbour is a few micrometres lower.

A square stands where it has water and a drop, the speed alone (edition 3) would let water through in the next step, but Vmin + P with
P = 0 (edition 1) lets none. The next step's length is worked from the answer's depths, as document 01 has it at the end of a run. An
answer does not say P: where P is 0 the square stands indeed, where water left it a moment ago it may still flow, so the count is never
too small. Editions 2 and 3 have no such limit: no square of their sheets stands.
"""
from ..rule.step_length import fresh_length, lasts_for
from ..rule.weighing import UNLIMITED, WEIGHTED, drops, weigh
from .reading import with_answer

# a standing square that falls by so much, in µm, on some side is called steep
STEEP = 1_000


def held(m, square, ms):
    """Whether only the limit Vmin + P, with P = 0, keeps all water in a square for a step."""
    lent = m.rules["side"], m.depths[square], 0, m.roughness[square], ms, drops(m, square)
    return m.rules["edition"] == WEIGHTED and any(weigh(*lent, UNLIMITED)) and not any(weigh(*lent, WEIGHTED))


def standing_squares(sheet, answer):
    """(row, column, depth, least drop, greatest drop) of each standing square, the steepest first."""
    m = with_answer(sheet, answer)
    ms = lasts_for(m, fresh_length(m))
    found = []
    for square in m.ground():
        if held(m, square, ms):
            falls = [drop for drop in drops(m, square) if drop > 0]
            found.append((*divmod(square, m.columns), m.depths[square], min(falls), max(falls)))
    return sorted(found, key=lambda square: (-square[4], square[:2]))
