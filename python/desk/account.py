"""What rain and hatches gave between two clocks, from tables and clocks alone. The program tells its own sum in each frame; this is the second
witness, and the two do not know each other."""
from meadow.rule.ranges import LAST_CLOCK
from meadow.rule.steps import ran
from meadow.sheets.lines import HOUR


class Tables:
    """The sheet's rain and inflow, and the hatches, each a row of its own at the rate it has."""

    def __init__(self, sheet, hatches):
        self.sheet, self.hatches = sheet, hatches
        self.ground = len(sheet.ground())

    def rain_by(self, clock):
        """Rain on one square by a clock."""
        return sum(rate * ran(start, end, clock) for start, end, rate in self.sheet.rain) // HOUR

    def inflow_by(self, rates, clock):
        """Inflow of all squares by a clock, each square's rows summed before the one division."""
        squares = {}
        rows = [*self.sheet.inflow, *((*place, 0, LAST_CLOCK, rates[number - 1]) for number, place in self.hatches.items())]
        for row, column, start, end, litres in rows:
            squares[row, column] = squares.get((row, column), 0) + litres * ran(start, end, clock)
        return sum(amount // self.sheet.side**2 for amount in squares.values())

    def between(self, rates, start, end):
        """What rain and inflow gave a step between two clocks, at its rates, in µm over one square."""
        return self.ground * (self.rain_by(end) - self.rain_by(start)), self.inflow_by(rates, end) - self.inflow_by(rates, start)
