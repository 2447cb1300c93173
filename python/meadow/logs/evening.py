"""Document 02, #107: an evening by the log, line by line.

Nothing is kept in rings but what document 01 keeps so, the records: of each step that stands the rates are noted at which it was made.
"""
from ..rule.ranges import LAST_CLOCK, MOST_ROWS_OF_A_TABLE, fine
from ..rule.refusals import Refused, refuse_if
from ..rule.steps import fresh, run_to
from ..rule.take_back import take_back
from ..rule.world import CLOSED, HEAD_WORDS, INFLOW_NUMBERS, WORDS_A_SQUARE
from ..sheets.lines import answer_text
from ..sheets.reading import meadow_of
from .entries import BACK, HATCH

MOST_HATCHES = 9
MOST_NUMBERS, MOST_RECORDS = 16_384, 64


def records_kept(squares):
    """K: as many records as 16,384 numbers hold, at most 64."""
    return min(MOST_RECORDS, MOST_NUMBERS // (HEAD_WORDS + WORDS_A_SQUARE * squares))


class Evening:
    """A fresh run of a sheet, whose end is not used, and what a log's lines change: the hatches named, each with its square; the rate of each;
    and of every step that stands the rates when it began."""

    def __init__(self, sheet, records=records_kept):
        self.meadow = meadow_of(sheet, records(sheet.rows * sheet.columns))
        fresh(self.meadow)
        self.sheets_rows = self.meadow.inflow
        self.opening, self.places, self.litres, self.began = True, {}, {}, []

    def table(self):
        """A step's inflow: the sheet's rows and, for each hatch, one row from 0 to 604,800,000 at the rate it has now."""
        return [*self.sheets_rows, *(n for h, place in self.places.items() for n in (*place, 0, LAST_CLOCK, self.litres[h]))]

    def text(self):
        """What `meadow` would print now, `steps` being the steps that stand."""
        m = self.meadow
        depths = {divmod(square, m.columns): m.depths[square] for square in m.ground()}
        return answer_text(depths, {"outflow": m.outflow, "soaked": m.soaked, "steps": len(self.began), "clock": m.clock})

    def take(self, line, entry):
        """A line of the log: what is printed of it. A refusal leaves its steps made, if it came to any."""
        if entry is None:
            raise Refused(12, line)
        if entry.kind == HATCH:
            self.name(line, *entry.numbers)
            return ""
        if entry.kind == BACK:
            self.go_back(*entry.numbers)
        else:
            self.write(line, *entry.numbers)
        return self.text()

    def name(self, line, number, row, column):
        """A line `hatch`, at the log's opening alone."""
        if not self.opening or not 1 <= number <= MOST_HATCHES or number in self.places:
            raise Refused(12, line)
        m = self.meadow
        refuse_if(row >= m.rows or column >= m.columns or m.marks[row * m.columns + column] == CLOSED, 4)
        refuse_if(len(self.table()) // INFLOW_NUMBERS + 1 > MOST_ROWS_OF_A_TABLE, 4)
        self.places[number], self.litres[number] = (row, column), 0

    def write(self, line, clock, number, litres):
        """A line of clock, hatch and litres: the steps to its clock at the rates before it, and then its rate."""
        m = self.meadow
        if number not in self.places or clock % m.rules["update"] != 0 or not fine("clock", clock) or clock < m.clock:
            raise Refused(12, line)
        refuse_if(not fine("litres", litres), 4)
        self.opening = False
        m.inflow = self.table()
        refused, made = run_to(m, clock)
        self.began += [self.litres] * made
        refuse_if(refused != 0, refused)
        self.litres = {**self.litres, number: litres}

    def go_back(self, count):
        """A line `back`: none of the steps is taken back where fewer are kept; else the rates are those when the earliest of them began."""
        refuse_if(count > self.meadow.kept, 10)
        self.opening = False
        for _ in range(count):
            take_back(self.meadow)
        if count > 0:
            self.litres = self.began[-count]
            del self.began[-count:]
