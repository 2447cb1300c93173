"""The flood program of the mill museum in a notebook: a meadow stepped, run to an end, taken back and looked at, by the proved library
libflood.so (x86-64 alone). Nothing here computes a depth. A trial taken back was never made.

    import flood
    meadow = flood.Meadow.open("samples/walled-evening.sheet")
    meadow.run_to(600_000)
    meadow.depths

Depths are µm, clocks ms, totals µm over one square. What goes by squares comes as rows: a 2-D numpy array where numpy is there, else a list of
array.array. It is a copy, so that what was looked at stays, and nothing written to it reaches the meadow. A refused call raises Refused."""
from array import array
from collections import namedtuple

from . import declared
from .declared import VERSION as __version__
from .library import NoLibrary, call

try:
    import numpy
except ImportError:
    numpy = None

__all__ = ["Inflow", "Meadow", "NoLibrary", "Rain", "Refused", "Wet", "__version__", "printed"]

MOST_SQUARES = 64 * 64
# the places of a run
CLOCK, OUTFLOW, KEPT, SOAKED = 0, 2, 3, 5
NONE_KEPT = 10

Rain = namedtuple("Rain", "start end rate")
Inflow = namedtuple("Inflow", "row column start end litres")
# a number for each row of the grid, whose bit c is set where the square in column c is wet; and how many squares are
Wet = namedtuple("Wet", "rows count")


class Refused(Exception):
    """A refused call: its number, the sheet's line where a sheet was read, and the steps that were made before the one refused."""

    def __init__(self, number, line=0, steps=0):
        at = f" at line {line}" if line else ""
        after = f" after {steps} steps" if steps else ""
        super().__init__(f"refused by {number}{at}{after}: {declared.REFUSALS.get(number, 'README.md has the numbers')}")
        self.number, self.line, self.steps = number, line, steps


def held(number, **more):
    """Raises a refusal, where there is one."""
    if number:
        raise Refused(number, **more)


def zeros(letter, length):
    """An array of so many zeros."""
    return array(letter, bytes(array(letter).itemsize * length))


def copied(numbers):
    """Numbers for a reader."""
    return numpy.array(numbers) if numpy else array(numbers.typecode, numbers)


def bytes_of(text):
    """A sheet's bytes; letters that no sheet has are refused by the library."""
    return array("B", text.encode("utf-8", "surrogateescape") if isinstance(text, str) else text)


def printed(text):
    """What the program `meadow` prints of a sheet's text."""
    out = zeros("B", declared.OUT_ROOM)
    return out[: call("flood_meadow", text=bytes_of(text), out=out)].tobytes().decode("ascii")


def table_of(rows, width, kind):
    """A table as its numbers, row after row; each row has as many as its kind."""
    for row in rows:
        if len(row) != width:
            raise ValueError(f"a row of {kind.__name__} has {width} numbers, {', '.join(kind._fields)}, and this one {len(row)}")
    return array("I", (number for row in rows for number in row))


def rows_of(table, width, kind):
    """The rows of a table."""
    return [kind(*table[at : at + width]) for at in range(0, len(table), width)]


class Meadow:
    """One meadow with its run, fresh from a sheet's text. Up to `kept` steps can be taken back."""

    def __init__(self, sheet, kept=64):
        rooms = {name: zeros("I", MOST_SQUARES) for name in ("beds", "roughness", "rates", "depths")}
        rooms |= {"marks": zeros("B", MOST_SQUARES), "rain": zeros("I", declared.RAIN_ROOM), "inflow": zeros("I", declared.INFLOW_ROOM)}
        heading, line = zeros("Q", declared.HEADING_NUMBERS), zeros("Q", declared.LINE_NUMBERS)
        number = call("flood_read_sheet", text=bytes_of(sheet), heading=heading, line=line, **rooms)
        held(number, line=line[0])
        self.rows, self.columns = heading[0], heading[1]
        self.end = heading[declared.HEADING_END]
        squares = self.rows * self.columns
        lengths = {"rain": declared.RAIN_WIDTH * heading[declared.HEADING_RAIN_ROWS], "inflow": declared.INFLOW_WIDTH * heading[declared.HEADING_INFLOW_ROWS]}
        self._lent = {name: room[: lengths.get(name, squares)] for name, room in rooms.items()}
        self._lent["rules"] = heading[declared.HEADING_RULES : declared.HEADING_END]
        self._lent["lasts"] = zeros("I", squares)
        self._lent["records"] = zeros("I", kept * (declared.RECORD_HEAD + declared.RECORD_SQUARE * squares))
        self._lent["run"] = zeros("Q", declared.RUN_NUMBERS)
        self._lent |= {"rows": self.rows, "columns": self.columns}
        held(self._call("flood_fresh"))

    @classmethod
    def open(cls, path, kept=64):
        """The meadow of a sheet's file."""
        with open(path, "rb") as file:
            return cls(file.read(), kept)

    def _call(self, function, **more):
        """A call with what this meadow lends."""
        return call(function, **{**self._lent, **more})

    def step(self, count=1):
        """So many steps."""
        for made in range(count):
            held(self._call("flood_step_wet"), steps=made)

    def run_to(self, end):
        """Steps to an end of the clock, a multiple of the update time; how many they were."""
        steps = zeros("Q", declared.STEPS_NUMBERS)
        held(self._call("flood_run_to_wet", end=end, steps=steps), steps=steps[0])
        return steps[0]

    def back(self, count=1):
        """So many steps taken back, as if they had never been made: all of them, or none where fewer are kept."""
        if count > self.kept:
            raise Refused(NONE_KEPT)
        for _ in range(count):
            held(self._call("flood_take_back"))

    def arrow(self, row, column):
        """The speeds of a square's water to the east and to the north, in m/s, after the newest step kept; else 'closed', 'dry' or 'still'."""
        speeds = zeros("d", declared.SPEED_NUMBERS)
        number = self._call("flood_arrow", square_side=self._lent["rules"][0], row=row, column=column, speeds=speeds)
        words = {declared.CLOSED: "closed", declared.DRY: "dry", declared.STILL: "still"}
        if number in words:
            return words[number]
        held(number)
        return tuple(speeds)

    def wet_rows(self, depth):
        """The squares that are at least so deep."""
        wet, count = zeros("Q", self.rows), zeros("Q", declared.COUNT_NUMBERS)
        held(self._call("flood_wet_rows", wet_depth=depth, wet=wet, count=count))
        return Wet(copied(wet), count[0])

    def bounds(self, end):
        """The most and the least steps of a run from here to an end; None where no figures hold."""
        bounds = zeros("Q", declared.BOUNDS_NUMBERS)
        number = self._call("flood_step_bounds", clock=self.clock, end=end, bounds=bounds)
        if number == declared.NOT_BOUNDED:
            return None
        held(number)
        return tuple(bounds)

    def _as_rows(self, name):
        """What goes by squares, as rows. Numbers have a sign in numpy, so that a difference may be below 0."""
        numbers = self._lent[name]
        if numpy:
            return numpy.array(numbers, dtype="int64").reshape(self.rows, self.columns)
        return [numbers[at : at + self.columns] for at in range(0, len(numbers), self.columns)]

    depths = property(lambda self: self._as_rows("depths"), doc="How deep each square is, in µm.")
    beds = property(lambda self: self._as_rows("beds"), doc="How high each square's ground is, in µm.")
    marks = property(lambda self: self._as_rows("marks"), doc="0 closed, 1 open, 2 exit.")
    clock = property(lambda self: self._lent["run"][CLOCK])
    outflow = property(lambda self: self._lent["run"][OUTFLOW], doc="What has left by the exits.")
    soaked = property(lambda self: self._lent["run"][SOAKED], doc="What has soaked into the ground.")
    kept = property(lambda self: self._lent["run"][KEPT], doc="How many steps can be taken back.")

    @property
    def rain(self):
        """The rain rows: from and to in ms, µm per hour. They can be set; a wrong row is refused by 4 at the next step."""
        return rows_of(self._lent["rain"], declared.RAIN_WIDTH, Rain)

    @rain.setter
    def rain(self, rows):
        self._lent["rain"] = table_of(rows, declared.RAIN_WIDTH, Rain)

    @property
    def inflow(self):
        """The inflow rows: a square, from and to in ms, litres per second. They can be set; a wrong row is refused by 4 at the next step."""
        return rows_of(self._lent["inflow"], declared.INFLOW_WIDTH, Inflow)

    @inflow.setter
    def inflow(self, rows):
        self._lent["inflow"] = table_of(rows, declared.INFLOW_WIDTH, Inflow)
