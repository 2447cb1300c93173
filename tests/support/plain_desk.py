"""The desk's lines in plain Python, over document 01's rule and the hatch log's evening: bytes in, the text of every answer out.

Rooms and records are document 01's; what a line does, and when it is refused, is written from the desk's protocol alone.
"""
import struct

from meadow.logs.evening import MOST_HATCHES, Evening
from meadow.rule.bounds import step_bounds
from meadow.rule.ranges import LAST_CLOCK, fine
from meadow.rule.refusals import Refused, check, depths_wrong, inflow_wrong, lasts_wrong, refuse_if
from meadow.rule.sights import check_arrow, seen
from meadow.rule.steps import added, fresh, step
from meadow.rule.world import CLOSED, HEAD_WORDS, WORDS_A_SQUARE
from meadow.sheets.lines import refused_text
from meadow.sheets.reading import meadow_of, number_well, read

MOST_LINE, MOST_TEXT, MOST_SQUARES = 127, 262_144, 4_096
MOST_NUMBERS, MOST_RECORDS = 1_572_864, 256
MOST_STEPS = 64
MOST_START, MOST_GIVEN = 409_600_000_000, 9_007_199_254_740_991
HALF = 2**32
DONE = "done\n"
# word of a line: how many numbers it has
LINES = {"sheet": 1, "hatch": 3, "draw": 2, "step": 3, "back": 1, "show": 0, "arrows": 0, "most": 1, "stand": 0, "lay": 1}
# those that a text follows
WITH_TEXT = ("sheet", "lay")
# the lines of a saved state before its hatches
TOTALS = ("out", "soak", "start", "given")


def line_of(word, *numbers):
    """A line with its newline."""
    return "\t".join([word, *map(str, numbers)]) + "\n"


def bits(speed):
    """The 64 bits of an f64 as a number."""
    return struct.unpack("<Q", struct.pack("<d", speed))[0]


def records_kept(squares):
    """As many records as the room's numbers hold, at most 256."""
    return min(MOST_RECORDS, MOST_NUMBERS // (HEAD_WORDS + WORDS_A_SQUARE * squares))


def numbers_of(line, word, many):
    """The numbers of a line without its newline; None where it is no line of that word with so many."""
    first, *fields = line.split("\t")
    return list(map(int, fields)) if first == word and len(fields) == many and all(map(number_well, fields)) else None


class SavedLines:
    """The lines of a saved state, read one after the other."""

    def __init__(self, text):
        *self.lines, self.rest = text.split("\n")
        self.at = 0

    def next(self, word, many):
        """The numbers of the next line, where it is such a one: then it is passed."""
        found = numbers_of(self.lines[self.at], word, many) if self.at < len(self.lines) else None
        self.at += found is not None
        return found

    def take(self, word, many, *first):
        """The same of a line that must be there, with these numbers first; else 12 with its number."""
        found = self.next(word, many)
        if found is None or found[: len(first)] != list(first):
            raise Refused(12, self.at + (found is None))
        return found

    def end(self):
        """Nothing more may come."""
        if self.at < len(self.lines) or self.rest:
            raise Refused(12, self.at + 1)


class Trial(Evening):
    """A fresh run of a sheet on the desk. Beside what a hatch log's evening holds: the water at the start, what was given, of every step made
    since the start or the laying what was given before it, and how many steps had been made when the state was saved."""

    def __init__(self, sheet):
        super().__init__(sheet, records_kept)
        self.start, self.given, self.given_before, self.earlier = self.on(), 0, [], 0
        self.laid = None

    def on(self):
        """The water on squares not closed."""
        return sum(self.meadow.depths[square] for square in self.meadow.ground())

    def steps(self):
        """How many stand."""
        return self.earlier + len(self.began)

    def frame(self):
        """The text of what stands."""
        m = self.meadow
        figures = (self.steps(), m.clock, m.length, m.outflow, m.soaked, m.kept, m.slots(), self.on(), self.start, self.given)
        squares = ["x" if m.marks[square] == CLOSED else m.depths[square] for square in range(m.squares())]
        rows = [line_of("row", *squares[at : at + m.columns]) for at in range(0, m.squares(), m.columns)]
        rates = [self.litres.get(number, 0) for number in range(1, MOST_HATCHES + 1)]
        return line_of("frame", *figures) + line_of("rates", *rates) + "".join(rows)

    # ---- what changes

    def hatch(self, number, row, column):
        """A hatch named, as at a hatch log's opening."""
        self.name(0, number, row, column)
        return ""

    def draw(self, number, litres):
        """A hatch's rate from now on."""
        refuse_if(number not in self.places, 12)
        refuse_if(not fine("litres", litres), 4)
        self.litres = {**self.litres, number: litres}
        return ""

    def make_one(self):
        """One step at the rates that stand."""
        m = self.meadow
        m.inflow, before = self.table(), m.clock
        refuse_if(self.given > MOST_GIVEN, 6)
        step(m)
        self.given_before.append(self.given)
        self.given += sum(added(m, before, m.clock).values())
        self.began.append(self.litres)
        self.opening = False

    def back(self, count):
        """Steps taken back, and what they were given."""
        self.go_back(count)
        if count > 0:
            self.given = self.given_before[-count]
            del self.given_before[-count:]
        return self.frame()

    # ---- what looks

    def show(self):
        """A frame."""
        return self.frame()

    def arrows(self):
        """A line for each moving square."""
        m = self.meadow
        check_arrow(m, 0, 0)
        sights = ((divmod(square, m.columns), seen(m, square)) for square in range(m.squares()))
        return "".join(line_of("arrow", *place, *map(bits, speeds)) for place, (kind, speeds) in sights if kind == "moving")

    def most(self, end):
        """The most and the least steps to an end."""
        bounds = step_bounds(self.meadow, end)
        return "unbounded\n" if bounds is None else line_of("most", *bounds)

    def stand(self):
        """The saved state."""
        m = self.meadow
        totals = zip(TOTALS, (m.outflow, m.soaked, self.start, self.given))
        lines = [line_of("stand", self.steps(), m.clock, m.length, int(self.opening))]
        lines += [line_of(word, *divmod(total, HALF)) for word, total in totals]
        lines += [line_of("hatch", number, *self.places[number], self.litres[number]) for number in sorted(self.places)]
        lines += [line_of("at", square, m.depths[square], m.lasts[square]) for square in m.ground()]
        return "".join(lines)

    # ---- a saved state

    def lay(self, text):
        """A saved state's text in this one's place: its lines first, then 3, 4 and 6."""
        lines = SavedLines(text)
        steps, clock, length, opening = lines.take("stand", 4)
        if opening > 1:
            raise Refused(12, 1)
        totals = {word: high * HALF + low for word in TOTALS for high, low in [lines.take(word, 2)]}
        hatches = self.saved_hatches(lines)
        waters = {square: lines.take("at", 3, square)[1:] for square in self.meadow.ground()}
        lines.end()
        self.judge(waters, hatches)
        in_range = all(fine(*pair) for pair in (("clock", clock), ("length", length), ("outflow", totals["out"]), ("soaked", totals["soak"])))
        refuse_if(not in_range or steps > clock or totals["start"] > MOST_START or totals["given"] > MOST_GIVEN, 6)
        m = self.meadow
        fresh(m)
        m.clock, m.length, m.outflow, m.soaked = clock, length, totals["out"], totals["soak"]
        for square, water in waters.items():
            m.depths[square], m.lasts[square] = water
        self.places = {number: tuple(place) for number, (*place, _) in hatches.items()}
        self.litres = {number: litres for number, (*_, litres) in hatches.items()}
        self.start, self.given, self.earlier, self.opening = totals["start"], totals["given"], steps, opening == 1
        self.began, self.given_before, self.laid = [], [], text
        return self.frame()

    @staticmethod
    def saved_hatches(lines):
        """Row, column and litres of each hatch saved; they come by number."""
        hatches = {}
        for number in range(1, MOST_HATCHES + 1):
            at = lines.at
            found = lines.next("hatch", 4)
            if found and found[0] == number:
                hatches[number] = found[1:]
            else:
                lines.at = at
        return hatches

    def judge(self, waters, hatches):
        """3 and 4 of a saved state."""
        judged = meadow_like(self.meadow)
        for square, water in waters.items():
            judged.depths[square], judged.lasts[square] = water
        refuse_if(depths_wrong(judged) or lasts_wrong(judged), 3)
        judged.inflow = [*self.sheets_rows, *(n for row, column, litres in hatches.values() for n in (row, column, 0, LAST_CLOCK, litres))]
        refuse_if(inflow_wrong(judged), 4)


def meadow_like(m):
    """A meadow of the same ground with water of its own and no records."""
    return type(m)(m.rows, m.columns, m.rules, m.marks, m.beds, m.roughness, m.rates, m.rain, m.inflow, m.depths[:], m.lasts[:], [])


class PlainDesk:
    """A desk: no sheet at first, and then a trial."""

    def __init__(self):
        self.trial, self.sheet_text = None, None

    def take(self, line, text=""):
        """The answer to a line with its newline, and the text that came after it."""
        order = order_of(line)
        try:
            refuse_if(order is None, 12)
            word, numbers = order
            if word == "sheet":
                return self.sheet(text) + DONE
            refuse_if(self.trial is None, 12)
            if word == "step":
                return self.series(*numbers)
            return (self.trial.lay(text) if word == "lay" else getattr(self.trial, word)(*numbers)) + DONE
        except Refused as refused:
            return refused_text(refused.number, refused.line)

    def sheet(self, text):
        """A sheet's text, and a fresh run of it."""
        sheet, end = read(text, MOST_SQUARES)
        check(meadow_of(sheet), end)
        self.trial, self.sheet_text = Trial(sheet), text
        return self.trial.frame()

    def series(self, count, end, every):
        """The frames of a line `step` and its ending: of each step, or of what stands at the end."""
        refuse_if(not 1 <= count <= MOST_STEPS or every > 1, 12)
        refuse_if(not fine("end", end), 5)
        told, ending, trial = "", DONE, self.trial
        try:
            while count > 0 and trial.meadow.clock < end:
                trial.make_one()
                told += trial.frame() if every else ""
                count -= 1
        except Refused as refused:
            ending = refused_text(refused.number, refused.line)
        return told + ("" if every else trial.frame()) + ending


def order_of(line):
    """The word and the numbers of a line with its newline; None where it cannot be read."""
    word = line.removesuffix("\n").split("\t")[0]
    if word not in LINES or not line.endswith("\n") or len(line) > MOST_LINE:
        return None
    numbers = numbers_of(line[:-1], word, LINES[word])
    return None if numbers is None else (word, numbers)


def worked(given):
    """All that is answered to these bytes at the standard input."""
    desk, told, rest = PlainDesk(), [], given.decode("latin-1")
    while rest:
        end = rest.find("\n") + 1 or len(rest)
        line, rest = rest[:end], rest[end:]
        order = order_of(line)
        bytes_said = order[1][0] if order and order[0] in WITH_TEXT else 0
        if bytes_said > min(MOST_TEXT, len(rest)):
            return "".join(told) + refused_text(12, 0)
        told.append(desk.take(line, rest[:bytes_said]))
        rest = rest[bytes_said:]
    return "".join(told)
