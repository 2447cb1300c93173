"""Ground that was guessed, on a map: a question mark in the corner of its square, which leaves what else stands there to be seen."""
from ..words.units import area
from .shades import INK
from .signs import words

# how high the letter is, and how far it stays from the square's south-east corner
HIGH, EDGE = 11, 1


def guess_sign(right, bottom, more=""):
    """The mark of one square, by its south-east corner: dark on a white edge, so that it shows on deep water and in grey."""
    letter = f' font-size="{HIGH}" font-weight="bold" text-anchor="end" fill="{INK}" pointer-events="none"'
    look = letter + ' stroke="#ffffff" stroke-width="3" paint-order="stroke"'
    return words(f"{right - EDGE:g}", f"{bottom - EDGE:g}", "?", look + more)


def guess_signs(paper):
    """The mark of each square that was guessed."""
    corners = (paper.corner(place) for place in sorted(paper.guesses))
    return [guess_sign(x + paper.size, y + paper.size, ' class="guessed"') for x, y in corners]


def say_guesses(column, guesses, side):
    """What the mark means, and how much ground has it; nothing where nothing was guessed."""
    if guesses:
        column.entry(lambda x, y: [guess_sign(x + 5, y + 5)], "ground guessed, not surveyed", area(len(guesses), side))
