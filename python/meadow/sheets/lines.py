"""Sheets and answers as text: the fields of each kind of line stand here, in one table, and nowhere else.

A field that is added to the table is written, with what it usually is where a sheet does not say, and read by its name.
"""
from typing import NamedTuple

SECOND, MINUTE, HOUR, DAY = 1_000, 60_000, 3_600_000, 86_400_000


class Field(NamedTuple):
    """A field by its name, and what it is where a sheet under construction does not say; None: it must say."""

    name: str
    usual: object = None


# kind of line: its fields, in their order after the kind's own word
SHEET_LINES = {
    "grid": [Field("rows"), Field("columns"), Field("side")],
    "run": [
        Field("tolerance", 10),
        Field("shortest", 500),
        Field("longest", 10_000),
        Field("update", 60_000),
        Field("end"),
        Field("edge", 10_000),
        Field("edition", 1),
    ],
    "cell": [Field("row"), Field("column"), Field("mark", "o"), Field("bed"), Field("roughness"), Field("depth", 0), Field("rate", 0)],
    "rain": [Field("from"), Field("to"), Field("rate")],
    "inflow": [Field("row"), Field("column"), Field("from"), Field("to"), Field("litres")],
}
ANSWER_LINES = {
    "cell": [Field("row"), Field("column"), Field("depth")],
    "out": [Field("outflow")],
    "soak": [Field("soaked")],
    "steps": [Field("steps")],
    "clock": [Field("clock")],
    "refused": [Field("number"), Field("line")],
}
GRID, RUN, SQUARE, RAIN, INFLOW = SHEET_LINES
DEPTH, *TOTALS, REFUSED = ANSWER_LINES
# how a mark is written; the line of a closed square ends after it
MARKS = {"x": 0, "o": 1, "e": 2}
CLOSED = "x"
# what a sheet has where it does not say
USUAL_RUN = {field.name: field.usual for field in SHEET_LINES[RUN] if field.usual is not None}
USUAL_SQUARE = {field.name: field.usual for field in SHEET_LINES[SQUARE] if field.usual is not None}


class Unreadable(Exception):
    """A text that is no answer, or no answer to this sheet."""


def place_of(kind, name, lines=SHEET_LINES):
    """Where a field stands in a line parted by tabs, the kind's word being at 0."""
    return 1 + [field.name for field in lines[kind]].index(name)


def line_of(kind, values, lines=SHEET_LINES):
    """A line without its newline; `values` are by name."""
    fields = lines[kind]
    if values.get("mark") == CLOSED:
        fields = fields[: place_of(kind, "mark", lines)]
    return "\t".join([kind, *(said(field, values) for field in fields)])


def said(field, values):
    """A field's text: what is said, or what it usually is."""
    value = values.get(field.name, field.usual)
    if value is None:
        raise ValueError(f"nobody says the {field.name}")
    return str(value)


def values_of(kind, fields, lines=SHEET_LINES):
    """Numbers by name, of a line's fields after its word; a mark stays as it is."""
    names = [field.name for field in lines[kind]]
    return {name: text if name == "mark" else int(text) for name, text in zip(names, fields)}


class Sheet:
    """A sheet, under construction or read. `run` has the fields of the `run` line by name, but for the end; a square has those of its
    line by name, without row and column. Every square begins closed."""

    def __init__(self, rows, columns, side, **run):
        if run.keys() - USUAL_RUN.keys():
            raise ValueError(f"a run line has no {', '.join(sorted(run.keys() - USUAL_RUN.keys()))}")
        self.rows, self.columns, self.side = rows, columns, side
        self.run = {**USUAL_RUN, **run}
        self.squares = {(row, column): {"mark": CLOSED} for row in range(rows) for column in range(columns)}
        self.rain, self.inflow = [], []

    def put(self, place, bed, roughness, depth=0, mark="o", **more):
        """A square that is not closed; `more` has fields that are seldom said."""
        self.squares[place] = {**USUAL_SQUARE, "mark": mark, "bed": bed, "roughness": roughness, "depth": depth, **more}

    def ground(self):
        """The places that are not closed, in square order."""
        return [place for place in sorted(self.squares) if self.squares[place]["mark"] != CLOSED]

    def exits(self):
        """The places of exits, in square order."""
        return [place for place in self.ground() if self.squares[place]["mark"] == "e"]

    def bed(self, place):
        """The bed of a square that is not closed."""
        return self.squares[place]["bed"]

    def depth(self, place):
        """The water at the start of a square that is not closed."""
        return self.squares[place]["depth"]

    def text(self, end):
        """The sheet of a run to an end. Rows of rain and inflow are tuples in their fields' order."""
        lines = [line_of(GRID, {"rows": self.rows, "columns": self.columns, "side": self.side}), line_of(RUN, {**self.run, "end": end})]
        lines += [line_of(SQUARE, {"row": row, "column": column, **self.squares[row, column]}) for row, column in sorted(self.squares)]
        for kind, rows in ((RAIN, self.rain), (INFLOW, self.inflow)):
            lines += ["\t".join([kind, *map(str, row)]) for row in rows]
        return "".join(line + "\n" for line in lines)


def total_of(kind, words):
    """A property of an answer: the number on its line of a kind."""
    return property(lambda answer: answer.totals[kind], doc=words)


class Answer:
    """What `meadow` printed of a sheet: depths by place, and the totals by their word. A refusal is no answer, nor is a part of one."""

    def __init__(self, text):
        self.text, self.depths, self.totals = text, {}, {}
        for line in text.splitlines():
            kind, *fields = line.split("\t")
            if len(fields) != len(ANSWER_LINES.get(kind, [])) or not all(field.isdecimal() for field in fields):
                raise Unreadable(f"this is no line of an answer: {line}")
            values = values_of(kind, fields, ANSWER_LINES)
            if kind == REFUSED:
                raise Unreadable(f"meadow refused this sheet: number {values['number']}, line {values['line']}; tools/why.py says why")
            if kind == DEPTH:
                self.depths[values["row"], values["column"]] = values["depth"]
            else:
                (self.totals[kind],) = values.values()
        self.hold_whole()

    def hold_whole(self):
        """Every total is there, and the text is what its values are written as: nothing is doubled, out of order or cut off."""
        for kind in TOTALS:
            if kind not in self.totals:
                raise Unreadable(f"the answer is cut off: it has no line {kind}")
        totals = {ANSWER_LINES[kind][0].name: total for kind, total in self.totals.items()}
        if self.text != answer_text(self.depths, totals):
            raise Unreadable("this is no answer of meadow: a line is doubled, out of order or not ended")

    out = total_of("out", "What left by the exits, in µm over one square.")
    soaked = total_of("soak", "What soaked into the ground, in µm over one square.")
    steps = total_of("steps", "How many steps were made.")
    clock = total_of("clock", "Where the run came to, in ms.")

    def depth(self, place):
        """The depth of a square, which the answer must have."""
        if place not in self.depths:
            raise Unreadable(f"the answer has no depth for square {place[0]} {place[1]}")
        return self.depths[place]

    def water(self):
        """All water on the ground, in µm over one square."""
        return sum(self.depths.values())


def answer_text(depths, totals):
    """An answer's text, of depths by place and totals by name."""
    lines = [line_of(DEPTH, {"row": row, "column": column, "depth": depth}, ANSWER_LINES) for (row, column), depth in sorted(depths.items())]
    lines += [line_of(kind, totals, ANSWER_LINES) for kind in TOTALS]
    return "".join(line + "\n" for line in lines)


def refused_text(number, line):
    """The text of a refusal."""
    return line_of(REFUSED, {"number": number, "line": line}, ANSWER_LINES) + "\n"
