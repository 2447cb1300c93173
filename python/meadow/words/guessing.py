"""Beds that `repair` gave, in words: each with the neighbours that it was taken from. Nothing is guessed here."""
from pathlib import Path

from ..sheets.guesses import repaired_by_program
from ..sheets.holes import beside, holes_in
from ..sheets.lines import Unreadable
from .units import height, square

# the order in which the neighbours of a square are named
SIDES = ("north", "east", "south", "west")
# the most squares that are told one by one
MOST_TOLD = 20


def beds(many):
    """So many beds."""
    return f"{many:,} bed{'' if many == 1 else 's'}"


def given_words(many, last):
    """So many beds, the last of them in some round."""
    return f"{beds(many)} guessed in {last} round{'' if last == 1 else 's'}"


def givers(sheet, rounds, guess):
    """The sides that a bed came from: neighbours that were known before its round and are as low. `rounds` has those of all guesses by place."""
    for side, place in zip(SIDES, beside(guess.place)):
        if rounds.get(place, 0) < guess.round and sheet.squares.get(place, {}).get("bed") == guess.bed:
            yield side, place


def guess_words(sheet, rounds, guess):
    """A square that was guessed, its bed, and where that came from."""
    sides = [f"{side} ({square(place)}{', itself guessed' if place in rounds else ''})" for side, place in givers(sheet, rounds, guess)]
    origin = f"the bed to the {' and the '.join(sides)}" if sides else "which no neighbour has any more"
    return f"{square(guess.place)}: guessed {height(guess.bed)} m, {origin}"


def guesses_words(sheet, guesses, list_name):
    """Every guess in words, in square order; of very many the rest stand in the list's file."""
    if not guesses:
        return
    rounds = {guess.place: guess.round for guess in guesses}
    yield f"{given_words(len(guesses), max(rounds.values()))}, each the lowest beside it: look at them before you trust the water"
    yield from (guess_words(sheet, rounds, guess) for guess in guesses[:MOST_TOLD])
    if len(guesses) > MOST_TOLD:
        yield f"and {len(guesses) - MOST_TOLD} more: {list_name} lists them"


def places_words(places):
    """Some squares, the first of them by their places."""
    told = "; ".join(square(place) for place in places[:MOST_TOLD])
    return told + (f"; and {len(places) - MOST_TOLD} more" if len(places) > MOST_TOLD else "")


def unreached_words(places):
    """Squares that keep their `?`, and what to do."""
    return f"{beds(len(places))} cannot be guessed, since no open way leads to a known one: {places_words(places)}: measure or close them"


def unseen_words(holes, sheet_file):
    """A sheet made with `?` in it: the squares, and how they are given a bed."""
    yield f"{beds(len(holes))} not seen, ? in the sheet: {places_words(holes)}"
    yield "meadow refuses such a sheet; this gives each the lowest bed beside it, round by round, and says from where:"
    mended = Path(sheet_file).with_stem(f"{Path(sheet_file).stem}-mended")
    yield f"    python3 tools/repair.py {sheet_file} {mended}"
    yield "or make the sheet again with --repair --replace; or measure them, or close them in a plan"


def whole_by_program(text):
    """What `repair` makes of a sheet's text, where it gives every `?` a bed."""
    repaired = repaired_by_program(text)
    if repaired.unreached():
        raise Unreadable(unreached_words(repaired.unreached()))
    return repaired


def repair_sense(text, repaired):
    """One line about what `repair` printed of a sheet's text."""
    holes, unreached = holes_in(text), repaired.unreached()
    if not holes:
        return "every bed is known: the sheet is printed as it is"
    rounds = [guess.round for guess in repaired.guesses if guess.round]
    said = f"{given_words(len(rounds), max(rounds))}, listed after the sheet" if rounds else "no bed guessed"
    return f"{said}; " + (unreached_words(unreached) if unreached else "tools/repair.py says from which neighbours")
