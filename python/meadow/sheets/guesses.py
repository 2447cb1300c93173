"""What `repair` printed of a sheet, held to that sheet; and the side file of a sheet whose beds were given so, which has the lines of its list.

The side file has the sheet's whole name and `.guessed` at its end. A line of it says the bed that the sheet has there: one that says another
is another sheet's, or is no guess any more.
"""
import re
from pathlib import Path
from typing import NamedTuple

from ..programs import printed
from .holes import NOT_GIVEN, UNSEEN, Guess, holes_in, list_text, with_beds
from .lines import REFUSED, Unreadable

SUFFIX = ".guessed"
GIVEN = re.compile(rf"(\d+)\t(\d+)\t(?:(\d+)\t(\d+)|{NOT_GIVEN}\t{NOT_GIVEN})")


class Repaired(NamedTuple):
    """The sheet's text with the beds given, and a guess for each `?`."""

    text: str
    guesses: list

    def unreached(self):
        """The squares that keep their `?`."""
        return [guess.place for guess in self.guesses if guess.bed is None]


def guesses_in(lines, name):
    """The guesses of a list's lines; `name` says in words where they stand."""
    found = []
    for at, line in enumerate(lines, 1):
        said = GIVEN.fullmatch(line)
        if not said:
            raise Unreadable(f"{name}, line {at}: {line!r} is no line of repair's list")
        row, column, bed, many = (None if text is None else int(text) for text in said.groups())
        found.append(Guess((row, column), bed, many))
    return found


def repaired_of(text, told):
    """What `repair` printed of a sheet's text; what was printed of another one, and a refusal, is an error."""
    if told.startswith(REFUSED):
        raise Unreadable(f"repair refused this sheet: {told.strip()}")
    lines, holes = told.splitlines(True), holes_in(text)
    first = len(text.splitlines())
    sheet, guesses = "".join(lines[:first]), guesses_in("".join(lines[first:]).splitlines(), "the list")
    given = {guess.place: UNSEEN if guess.bed is None else str(guess.bed) for guess in guesses}
    if [guess.place for guess in guesses] != holes or sheet != with_beds(text, given):
        raise Unreadable("this is not what repair prints of this sheet")
    return Repaired(sheet, guesses)


def repaired_by_program(text):
    """What the program makes of a sheet's text."""
    return repaired_of(text, printed("repair", text.encode("latin-1")).decode("ascii"))


def guesses_file(sheet_file):
    """The side file of a sheet with guessed ground."""
    return Path(f"{sheet_file}{SUFFIX}")


def hold_no_list(sheet_file, guesses, replace):
    """No other list is there under that name, or it may be written over."""
    path = guesses_file(sheet_file)
    if path.exists() and not replace and path.read_text(encoding="ascii") != list_text(guesses):
        raise Unreadable(f"{path} is there already: take another name, or give --replace")


def put_guesses(sheet_file, guesses):
    """Writes the side file; where nothing was guessed, one of an older sheet of that name goes."""
    path = guesses_file(sheet_file)
    if guesses:
        path.write_text(list_text(guesses), encoding="ascii")
    else:
        path.unlink(missing_ok=True)


def guesses_beside(sheet_file, sheet):
    """The guesses of a sheet by its side file; none where there is no such file."""
    path = guesses_file(sheet_file)
    guesses = guesses_in(path.read_text(encoding="ascii").splitlines(), path.name) if path.exists() else []
    for guess in guesses:
        bed = sheet.squares.get(guess.place, {}).get("bed")
        if bed is None or bed != guess.bed:
            told, said = ("no bed" if number is None else f"a bed of {number}" for number in (guess.bed, bed))
            where = f"square {guess.place[0]} {guess.place[1]}"
            raise Unreadable(f"{path.name} has {told} for {where}, and the sheet {said}: take out that line, or the whole file")
    return guesses
