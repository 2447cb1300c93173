"""A sheet, a log and what `hatchlog` printed of them, held together: what was printed of another sheet or log is refused.

Nothing is computed that the program computes. What is printed of each line says how far the run has come and how many steps stand; with the
log's lines that tells which rates stood when, which steps are kept, and the water account.
"""
import tempfile
from pathlib import Path
from typing import NamedTuple

from ..programs import printed_of_named
from ..rule.ranges import LAST_CLOCK
from ..rule.steps import inflow_by
from ..sheets.account import Account, account
from ..sheets.lines import ANSWER_LINES, REFUSED, TOTALS, Answer, Unreadable, values_of
from ..sheets.pairs import balanced, bytes_as_text, hold_squares
from ..sheets.reading import meadow_of, read
from .entries import BACK, HATCH, entries_in
from .evening import records_kept


REFUSES = "hatchlog refuses this: number {}, line {}; tools/why.py SHEET --log LOG says why"


class Span(NamedTuple):
    """A time that stands, and the rate of each hatch in it."""

    start: int
    end: int
    litres: dict


def blocks_of(text):
    """What was printed, answer by answer, and the number and the line of the refusal that ends it, if one does."""
    found, block = [], ""
    for line in text.splitlines(True):
        block += line
        kind, *fields = line.removesuffix("\n").split("\t")
        if kind == TOTALS[-1]:
            found.append(Answer(block))
            block = ""
        elif kind == REFUSED and block == line and len(fields) == len(ANSWER_LINES[REFUSED]):
            values = values_of(REFUSED, fields, ANSWER_LINES)
            if not text.endswith("\n" + line) and text != line:
                raise Unreadable("this is not what hatchlog prints: something follows a refusal")
            return found, (values["number"], values["line"])
    if block:
        raise Unreadable("what was printed is cut off: it ends inside an answer")
    return found, None


class Night:
    """An evening as far as it was printed. `end` and `answer` are those of the last line that was; `refused` has the number and the line of
    the refusal, and `stopped` the number of the line that it is about, where a line of the log should have printed and did not."""

    def __init__(self, sheet, log_text, told):
        self.sheet, self.places, self.spans, self.litres = sheet, {}, [], {}
        self.answers, self.refused = blocks_of(told)
        self.end = self.steps = self.kept = self.taken_back = 0
        self.answer, self.stopped, self.moved = None, None, {}
        left = list(self.answers)
        for line, entry in entries_in(log_text):
            if self.refused and (entry is None or line == self.refused[1]):
                self.stopped = line
            elif entry is None:
                raise Unreadable(f"this was not printed of this log: its line {line} cannot be read")
            elif entry.kind == HATCH:
                self.places[entry.numbers[0]], self.litres[entry.numbers[0]] = (line, entry.numbers[1:]), 0
            elif left:
                self.follow(line, entry, left.pop(0))
            else:
                self.stopped = line
            if self.stopped:
                break
        if left or self.stopped and not self.refused:
            raise Unreadable(f"this was not printed of this log: it has {len(self.answers)} answers, and the log asks for another number")

    def slots(self):
        """K, the most steps that are kept."""
        return records_kept(self.sheet.rows * self.sheet.columns)

    def follow(self, line, entry, answer):
        """One answer more, of a line of the log."""
        hold_squares(self.sheet, answer)
        if entry.kind == BACK:
            self.go_back(line, entry.numbers[0], answer)
        else:
            self.go_on(line, *entry.numbers, answer)
        self.end, self.steps, self.answer = answer.clock, answer.steps, answer

    def go_on(self, line, clock, number, litres, answer):
        """The steps to a line's clock, at the rates before it."""
        if answer.clock != clock or answer.steps < self.steps:
            raise Unreadable(f"this was not printed of this log: line {line} has the clock {clock}, the answer {answer.clock}")
        if clock > self.end:
            self.spans.append(Span(self.end, clock, self.litres))
        self.kept = min(self.slots(), self.kept + answer.steps - self.steps)
        self.litres = {**self.litres, number: litres}

    def go_back(self, line, count, answer):
        """Steps taken back: the time after them stands no more, and the rates are those of the time in which the earliest of them began."""
        if answer.steps != self.steps - count or (answer.clock < self.end) != (count > 0):
            raise Unreadable(f"this was not printed of this log: line {line} takes {count} steps back, the answer another number")
        self.kept -= count
        self.taken_back += count
        self.moved[line] = answer.clock
        if count > 0:
            (self.litres,) = (span.litres for span in self.spans if span.start <= answer.clock < span.end)
            self.spans = [span._replace(end=min(span.end, answer.clock)) for span in self.spans if span.start < answer.clock]

    def rates(self, number):
        """(from, to, litres per second) of each time in which a hatch stood at one rate."""
        rows = []
        for start, end, litres in self.spans:
            rate = litres.get(number, 0)
            if rows and rows[-1][1:] == (start, rate):
                rows[-1] = (rows[-1][0], end, rate)
            else:
                rows.append((start, end, rate))
        return [row for row in rows if row[2] > 0]

    def hatches_gave(self):
        """What the hatches of the log gave in the steps that stand, each by its own row from 0 on, in µm over one square; with the sheet's
        own inflow, since rows on one square are summed before the one division."""
        meadow, given = meadow_of(self.sheet), 0
        sheets_rows = meadow.inflow
        for start, end, litres in self.spans:
            meadow.inflow = [*sheets_rows, *(n for h, (_, place) in self.places.items() for n in (*place, 0, LAST_CLOCK, litres.get(h, 0)))]
            given += sum(inflow_by(meadow, square, end) - inflow_by(meadow, square, start) for square in meadow.ground())
        return given

    def account(self):
        """The water account of the last answer: of each time that stands, what the tables of its own steps gave."""
        return Account(**{**account(self.sheet, self.end, self.answer)._asdict(), "hatches": self.hatches_gave()})

    def whole(self):
        """The night, where the log came to its end and something was printed."""
        if self.refused:
            raise Unreadable(REFUSES.format(*self.refused))
        if self.answer is None:
            raise Unreadable("nothing is printed of this log: it has no line with a clock, and none that takes steps back")
        return self


def night_in(sheet_file, log_file, told_file=None):
    """The night in files, as `hatchlog` prints it; where something is there already, it must be the same."""
    given = told_of(sheet_file, log_file)
    told = bytes_as_text(told_file) if told_file else given
    answers, refused = blocks_of(told)
    if refused and not answers:
        raise Unreadable(REFUSES.format(*refused))
    night = Night(read(bytes_as_text(sheet_file))[0], bytes_as_text(log_file), told)
    if told != given:
        balanced(night.whole())
        raise Unreadable("this was printed of another sheet or another log, or was changed: hatchlog prints something else of these two")
    return night


def told_of(sheet_file, log_file):
    """What the program prints of two files."""
    return printed_of_named("hatchlog", sheet_file, log_file)


def told_of_texts(sheet_text, log_text):
    """What the program prints of two texts, a byte for each letter."""
    with tempfile.TemporaryDirectory() as folder:
        files = Path(folder) / "sheet", Path(folder) / "log"
        for path, text in zip(files, (sheet_text, log_text)):
            path.write_bytes(text.encode("latin-1"))
        return told_of(*files)
