"""The season: a folder with its sheet, its hatch log, names for its hatches where somebody gave them and, written by the keeper's run alone,
where it stands. Here it is only read."""
from pathlib import Path

from meadow.rule.refusals import Refused, check
from meadow.sheets.reading import meadow_of
from meadow.sheets.reading import read as read_sheet
from meadow.words.reasons import reasons

from . import logs, stands
from .engine import MOST_HATCHES
from .files import TooLarge, bytes_of, name_of

SHEET, LOG, NAMES, STAND = "season.sheet", "season.log", "season.names", "stand"
# the program `desk` takes more squares than `meadow`
MOST_SQUARES = 4_096
LONGEST_NAME = 40


class NoSeason(Exception):
    """A folder that is no season, in words."""


def names_in(text):
    """The hatches' names by number: lines of a number, a tab and a name; what is none is left out."""
    names = {}
    for line in text.decode("utf-8", "replace").splitlines():
        number, _, name = line.partition("\t")
        if number.isdecimal() and 1 <= int(number) <= MOST_HATCHES and name.strip().isprintable() and name.strip():
            names[int(number)] = name.strip()[:LONGEST_NAME]
    return names


class Season:
    """What the season's folder holds, as it was when read."""

    def __init__(self, folder):
        self.folder = Path(folder).resolve()
        if not (self.folder / SHEET).exists():
            raise NoSeason(f"{folder} is no season: it has no file {SHEET}")
        self.sheet_text, self.log_text = self.part(SHEET), self.part(LOG)
        self.sheet, self.end = self.read()
        try:
            self.log = logs.read(self.log_text, self.sheet)
        except logs.NoLog as why:
            raise NoSeason(f"{self.folder / LOG}: {why}") from None
        self.names = names_in(self.part(NAMES))

    def read(self):
        """The sheet and its end; words where it is refused."""
        text = self.sheet_text.decode("latin-1")
        try:
            sheet, end = read_sheet(text, MOST_SQUARES)
            check(meadow_of(sheet), end)
        except Refused as refused:
            why = "; ".join(reasons(text, refused.number, refused.line, MOST_SQUARES))
            raise NoSeason(f"{self.folder / SHEET} is refused by {refused.number}: {why}") from None
        return sheet, end

    def part(self, name):
        """The bytes of a file of the folder; none where there is no such file."""
        try:
            return bytes_of(self.folder / name)
        except FileNotFoundError:
            return b""
        except TooLarge as why:
            raise NoSeason(str(why)) from None

    def stand(self):
        """Where the keeper's run stands now; None before its first slice, and where the stand is of another sheet."""
        found = stands.read(self.folder / STAND)
        return found if found and found.told.get("sheet") == name_of(self.sheet_text) else None

    def fingerprint(self):
        """A name for the bytes of each file of the season that is there."""
        return {name: name_of(self.part(name)) for name in (SHEET, LOG, STAND) if (self.folder / name).exists()}
