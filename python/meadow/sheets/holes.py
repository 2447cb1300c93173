"""Document 02, #111: beds that the survey could not see, filled in rounds, and what the program `repair` prints of a sheet.

A `?` is such a bed where it is the whole bed of a line that begins as the line of an open square or an exit must; anywhere else it stays,
and the reader of sheets refuses it. A text's letters are its bytes.
"""
from typing import NamedTuple

from ..rule.refusals import Refused, check
from .lines import CLOSED, GRID, MARKS, SQUARE, place_of, refused_text
from .reading import MOST_BYTES, MOST_SQUARES, Lines, meadow_of, read

UNSEEN, NOT_GIVEN = "?", "-"
# what the reader of sheets is given for a bed that was not seen
PLUG = "0"
FIRST_SQUARE, BED = 2, place_of(SQUARE, "bed")
NOT_CLOSED = [mark for mark in MARKS if mark != CLOSED]


class Guess(NamedTuple):
    """A square whose bed was `?`: the bed given, and the round that gave it; None and None where it cannot be reached."""

    place: tuple
    bed: int = None
    round: int = None

    def line(self):
        """Its line in the list: "row, column, bed given, round (from 1)"."""
        given = (NOT_GIVEN, NOT_GIVEN) if self.bed is None else (self.bed, self.round)
        return "\t".join(map(str, (*self.place, *given)))


# ---- where a `?` stands


def places_said(text):
    """The squares that line 1 says, in their order; none where it cannot be read or says more than `meadow` takes."""
    try:
        grid = Lines(text).take(GRID)
    except Refused:
        return []
    squares = grid["rows"] * grid["columns"]
    return [divmod(square, grid["columns"]) for square in range(squares if squares <= MOST_SQUARES else 0)]


def is_hole(line, place):
    """Whether a line is that of a square not closed, up to a bed that is `?`."""
    fields = line.split("\t")
    heads = [[SQUARE, *map(str, place), mark] for mark in NOT_CLOSED]
    return fields[:BED] in heads and fields[BED : BED + 1] == [UNSEEN]


def holes_in(text):
    """The squares whose bed is `?`, in their order."""
    squares = zip(places_said(text), text.split("\n")[FIRST_SQUARE:])
    return [place for place, line in squares if is_hole(line, place)]


def with_beds(text, beds):
    """The text with another bed, as a text, at each of some squares; nothing else changes."""
    lines = text.split("\n")
    for at, place in enumerate(places_said(text), FIRST_SQUARE):
        if place in beds:
            fields = lines[at].split("\t")
            lines[at] = "\t".join([*fields[:BED], beds[place], *fields[BED + 1 :]])
    return "\n".join(lines)


def plugged(text):
    """What goes to the ordinary reader, which gives 12 for every `?` itself."""
    return with_beds(text, dict.fromkeys(holes_in(text), PLUG))


# ---- rounds


def beside(place):
    """The squares to the north, east, south and west, on the grid or off it."""
    row, column = place
    return [(row - 1, column), (row, column + 1), (row + 1, column), (row, column - 1)]


def one_round(known, unknown):
    """What a round gives: "every unknown square that has a known, not closed neighbour takes the lowest of those neighbours' beds as they were
    before the round". `known` has beds of squares that are not closed alone."""
    near = {place: [known[other] for other in beside(place) if other in known] for place in unknown}
    return {place: min(beds) for place, beds in near.items() if beds}


def guesses_of(known, unknown):
    """A guess for each unknown square, in square order: "It stops when a round fills nothing"."""
    found, many = {}, 0
    while given := one_round(known, unknown - found.keys()):
        many += 1
        found |= {place: Guess(place, bed, many) for place, bed in given.items()}
        known = known | given
    return [found.get(place, Guess(place)) for place in sorted(unknown)]


# ---- the program


def list_text(guesses):
    """The list that follows the sheet: "for each `?` in square order a tab-parted line"."""
    return "".join(guess.line() + "\n" for guess in guesses)


def judged(text):
    """The sheet that the ordinary reader makes of a text of bytes with `?`, within `meadow`'s limits; or its refusal."""
    if len(text) > MOST_BYTES:
        raise Refused(12, 0)
    sheet, end = read(plugged(text.decode("latin-1")))
    check(meadow_of(sheet), end)
    return sheet


def repaired(text):
    """What `repair` prints of a text of bytes."""
    try:
        sheet = judged(text)
    except Refused as refused:
        return refused_text(refused.number, refused.line)
    letters = text.decode("latin-1")
    holes = set(holes_in(letters))
    guesses = guesses_of({place: sheet.bed(place) for place in sheet.ground() if place not in holes}, holes)
    return with_beds(letters, {guess.place: str(guess.bed) for guess in guesses if guess.bed is not None}) + list_text(guesses)
