"""Document 02, #108: the water account of what `meadow` answered to a sheet.

On the left the water that there is: on the ground, gone by the exits, soaked. On the right where it came from: the water of the start, and
what the tables of rain and inflow give by the clock. Both are in µm over one square, and equal to the micrometre.
"""
from typing import NamedTuple

from ..rule.steps import inflow_by, rain_by
from .reading import meadow_of


class Account(NamedTuple):
    """The parts of the account, in µm over one square, and the side of a square in m."""

    ground: int
    exits: int
    soaked: int
    start: int
    rain: int
    hatches: int
    side: int

    def there_is(self):
        """The left side, from the answer."""
        return self.ground + self.exits + self.soaked

    def came(self):
        """The right side, from the sheet's tables and the answer's clock."""
        return self.start + self.rain + self.hatches

    def off(self):
        """By how much the two sides differ; 0 for every answer that is the sheet's own."""
        return self.there_is() - self.came()

    def cubic_metres(self, amount):
        """An amount over one square, in m³."""
        return amount * self.side**2 / 1_000_000


def account(sheet, end, answer):
    """The account of a sheet's run to its end, with an answer of its squares."""
    meadow = meadow_of(sheet)
    places = sheet.ground()
    return Account(
        ground=answer.water(),
        exits=answer.out,
        soaked=answer.soaked,
        start=sum(sheet.depth(place) for place in places),
        rain=len(places) * rain_by(meadow, end),
        hatches=sum(inflow_by(meadow, square, end) for square in meadow.ground()),
        side=sheet.side,
    )


def lines_of(told):
    """The account as a person reads it, line by line."""
    rows = [
        ("on the meadow", told.ground),
        ("gone by exits", told.exits),
        ("soaked", told.soaked),
        ("there is", told.there_is()),
        ("at the start", told.start),
        ("rain", told.rain),
        ("hatches", told.hatches),
        ("came", told.came()),
    ]
    for name, amount in rows:
        yield f"{name:<14}{told.cubic_metres(amount):>18,.3f} m³{amount:>24,} µm over one square"
    off = told.off()
    yield "balanced to the micrometre" if off == 0 else f"NOT BALANCED: off by {off:,} µm over one square"
