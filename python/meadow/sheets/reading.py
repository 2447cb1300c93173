"""Document 01, "The sheet and its program": a sheet's text judged, and what the program `meadow` answers to it."""
import re

from ..rule.ranges import fine
from ..rule.refusals import Refused, check, refuse_if
from ..rule.steps import fresh, run_to
from ..rule.world import Meadow
from .lines import CLOSED, GRID, INFLOW, MARKS, RAIN, RUN, SHEET_LINES, SQUARE, Sheet, answer_text, place_of, refused_text, values_of

MOST_BYTES = 65_536
MOST_SQUARES = 1_024
MOST_NUMBER = 4_294_967_295
NUMBER = re.compile("0|[1-9][0-9]{0,9}")
# names of a run's rules; the end is none of them
RULES = [field.name for field in SHEET_LINES[RUN] if field.name != "end"]


def number_well(text):
    """Whether a field is a number as document 01 writes it."""
    return NUMBER.fullmatch(text) is not None and int(text) <= MOST_NUMBER


def fields_well(kind, fields):
    """Whether a line's fields are those of its kind: each a number but the mark, and as many as the kind has."""
    mark = place_of(kind, "mark") - 1 if kind == SQUARE else None
    most = len(SHEET_LINES[kind])
    if kind == SQUARE:
        if len(fields) <= mark or fields[mark] not in MARKS:
            return False
        most = mark + 1 if fields[mark] == CLOSED else most
    return len(fields) == most and all(at == mark or number_well(text) for at, text in enumerate(fields))


class Lines:
    """A sheet's lines, read one after the other."""

    def __init__(self, text):
        *self.lines, self.rest = text.split("\n")
        self.at = 0

    def ended(self):
        """Whether every byte has been read."""
        return self.at == len(self.lines) and self.rest == ""

    def next(self):
        """The next line; one that is missing is empty."""
        return self.lines[self.at] if self.at < len(self.lines) else ""

    def next_is(self, kind):
        """Whether the next line has the word of a kind."""
        return self.next().split("\t")[0] == kind

    def take(self, kind):
        """The values of the next line, which must be of a kind; else 12 with its number."""
        if not self.next_is(kind):
            raise Refused(12, self.at + 1)
        fields = self.next().split("\t")[1:]
        if not fields_well(kind, fields):
            raise Refused(12, self.at + 1)
        self.at += 1
        return values_of(kind, fields)

    def take_tables(self):
        """The rows of rain and of inflow, with which the text must end; else 12 with the line's number."""
        tables = []
        for kind in (RAIN, INFLOW):
            tables.append([])
            while self.next_is(kind):
                tables[-1].append(tuple(self.take(kind).values()))
        if not self.ended():
            raise Refused(12, self.at + 1)
        return tables


def read(text, most_squares=MOST_SQUARES):
    """The sheet of a text and the end of its run; a text that is none is refused by 12 or 1. Ranges below line 1 are not looked at."""
    lines = Lines(text)
    grid = lines.take(GRID)
    refuse_if(not all(fine(name, value) for name, value in grid.items()) or grid["rows"] * grid["columns"] > most_squares, 1)
    run = lines.take(RUN)
    end = run.pop("end")
    sheet = Sheet(grid["rows"], grid["columns"], grid["side"], **run)
    for place in sorted(sheet.squares):
        values = lines.take(SQUARE)
        if (values.pop("row"), values.pop("column")) != place:
            raise Refused(12, lines.at)
        sheet.squares[place] = values
    sheet.rain, sheet.inflow = lines.take_tables()
    return sheet, end


def meadow_of(sheet, records=1):
    """The meadow of a sheet, with room for so many records and a fresh run's values; nothing is checked."""
    squares = [sheet.squares[place] for place in sorted(sheet.squares)]
    marks = [MARKS[square["mark"]] for square in squares]
    beds, roughness, rates, depths = ([square.get(name, 0) for square in squares] for name in ("bed", "roughness", "rate", "depth"))
    flat = [[number for row in rows for number in row] for rows in (sheet.rain, sheet.inflow)]
    rules = {"side": sheet.side, **{name: sheet.run[name] for name in RULES}}
    meadow = Meadow(sheet.rows, sheet.columns, rules, marks, beds, roughness, rates, *flat, depths, [0] * len(squares), [])
    meadow.records = [0] * (records * meadow.record_size())
    return meadow


def with_answer(sheet, answer):
    """The meadow of a sheet with an answer's water in it."""
    meadow = meadow_of(sheet)
    meadow.clock = answer.clock
    for square in meadow.ground():
        meadow.depths[square] = answer.depth(divmod(square, meadow.columns))
    return meadow


def begun(text):
    """The fresh run of a sheet's bytes, and the end that it is to come to; or a refusal, before any step."""
    if len(text) > MOST_BYTES:
        raise Refused(12, 0)
    sheet, end = read(text.decode("latin-1"))
    meadow = meadow_of(sheet)
    check(meadow, end)
    fresh(meadow)
    return meadow, end


def answered(text):
    """What `meadow` prints of a text of bytes."""
    try:
        meadow, end = begun(text)
        number, steps = run_to(meadow, end)
        refuse_if(number != 0, number)
    except Refused as refused:
        return refused_text(refused.number, refused.line)
    depths = {divmod(square, meadow.columns): meadow.depths[square] for square in meadow.ground()}
    return answer_text(depths, {"outflow": meadow.outflow, "soaked": meadow.soaked, "steps": steps, "clock": meadow.clock})
