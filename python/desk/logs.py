"""A season's hatch log: hatches named first, then clocks, hatches and litres. It takes no step back: what was tried does not stand in it."""
from typing import NamedTuple

from meadow.logs.entries import BACK, HATCH, entries_in
from meadow.rule.ranges import LAST_CLOCK, MOST_ROWS_OF_A_TABLE, fine

from .engine import MOST_HATCHES


class NoLog(Exception):
    """A text that is no log of this season, in words."""


class Log(NamedTuple):
    """The hatches' places by number, and (clock, number, litres) of each line, in order."""

    hatches: dict
    lines: list

    def text(self, used=None):
        """The log as text, with all its lines or the first so many."""
        named = ["\t".join(map(str, (HATCH, number, *place))) for number, place in self.hatches.items()]
        return "".join(line + "\n" for line in [*named, *("\t".join(map(str, line)) for line in self.lines[:used])]).encode("ascii")

    def end(self, sheets_end):
        """The clock that its last line comes to; the sheet's end where it has none."""
        return self.lines[-1][0] if self.lines else sheets_end


def hold_hatch(sheet, line, hatches, begun, number, row, column):
    """A hatch can be named so."""
    if begun:
        raise NoLog(f"line {line}: hatches are named before the first clock")
    if not 1 <= number <= MOST_HATCHES or number in hatches:
        raise NoLog(f"line {line}: hatches have the numbers 1 to {MOST_HATCHES}, each once")
    if (row, column) not in sheet.ground():
        raise NoLog(f"line {line}: row {row}, column {column} is closed, or not there")
    if len(sheet.inflow) + len(hatches) >= MOST_ROWS_OF_A_TABLE:
        raise NoLog(f"line {line}: with this hatch and the sheet's inflow there are more than {MOST_ROWS_OF_A_TABLE} rows of inflow")


def hold_rate(sheet, line, hatches, last, clock, number, litres):
    """A hatch can be drawn so."""
    update = sheet.run["update"]
    if number not in hatches:
        raise NoLog(f"line {line}: hatch {number} is not named")
    if clock < last or clock > LAST_CLOCK or clock % update:
        raise NoLog(f"line {line}: the clock {clock} is below the one before, after a week, or no multiple of the update time, {update} ms")
    if not fine("litres", litres):
        raise NoLog(f"line {line}: {litres} litres a second are out of range")


def read(text, sheet):
    """The log of a text for a sheet; words where it is none."""
    hatches, lines = {}, []
    for line, entry in entries_in(text.decode("latin-1")):
        if entry is None:
            raise NoLog(f"line {line} cannot be read: it is hatch, number, row, column or clock, hatch, litres, parted by tabs")
        if entry.kind == BACK:
            raise NoLog(f"line {line} takes steps back, and a season's log has only what stands")
        if entry.kind == HATCH:
            hold_hatch(sheet, line, hatches, lines, *entry.numbers)
            hatches[entry.numbers[0]] = entry.numbers[1:]
        else:
            hold_rate(sheet, line, hatches, lines[-1][0] if lines else 0, *entry.numbers)
            lines.append(entry.numbers)
    return Log(hatches, lines)
