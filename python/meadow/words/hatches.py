"""The hatches of a sheet: the squares with inflow, numbered from 1 in square order, each with its rows of the table. Where there is a log,
its hatches have their own numbers, and the sheet's have letters."""
from typing import NamedTuple

from ..logs.nights import Night
from ..rule.steps import ran
from ..sheets.lines import INFLOW, SHEET_LINES
from .units import span

# where a table's row has a field
ROW, COLUMN, FROM, TO, LITRES = range(len(SHEET_LINES[INFLOW]))


class Hatch(NamedTuple):
    """A hatch's number, its square, and (from, to, litres per second) of each of its rows."""

    number: object
    place: tuple
    rows: list

    def runs_at(self, end):
        """Whether it gives water up to an end: in the last millisecond before it."""
        return any(start < end <= stop and litres > 0 for start, stop, litres in self.rows)

    def cubic_metres(self, clock):
        """What it has given by a clock."""
        return sum(litres * ran(start, stop, clock) for start, stop, litres in self.rows) / 1_000_000

    def openings(self):
        """Each of its rows in words."""
        return ", ".join(f"{litres:,} l/s from {span(start, stop)}" for start, stop, litres in self.rows) or "shut all the time"


def hatches_of(sheet):
    """Every hatch of a sheet."""
    rows = {}
    for row in sheet.inflow:
        rows.setdefault((row[ROW], row[COLUMN]), []).append((row[FROM], row[TO], row[LITRES]))
    return [Hatch(number, place, rows[place]) for number, place in enumerate(sorted(rows), 1)]


def letter(number):
    """a for 1, b for 2 and so on, aa after z."""
    before, last = divmod(number - 1, 26)
    return (letter(before) if before else "") + chr(ord("a") + last)


def hatches_in(pair):
    """The hatches of a sheet and its answer; or, of a night, the log's with the rates that stand, and then the sheet's own."""
    own = hatches_of(pair.sheet)
    if not isinstance(pair, Night):
        return own
    named = [Hatch(number, place, pair.rates(number)) for number, (_, place) in sorted(pair.places.items())]
    return named + [hatch._replace(number=letter(hatch.number)) for hatch in own]
