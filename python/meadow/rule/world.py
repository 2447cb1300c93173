"""All that the calls of document 01 are lent, by value, and the grid that it stands on."""

# marks; an open square has the one between
CLOSED, EXIT = 0, 2
# north, east, south, west; the side across from one is two further on
SIDES = range(4)
# the numbers of one square in a record: four leaving, P before, amount added, amount soaked
LAST_WORD, ADDED_WORD, SOAKED_WORD, WORDS_A_SQUARE = 4, 5, 6, 7
HEAD_WORDS = 2
RAIN_NUMBERS, INFLOW_NUMBERS = 3, 5


def across(side):
    """The side across from a side."""
    return (side + 2) % 4


class Meadow:
    """Shape, rules (side, tolerance, shortest, longest, update, edge, edition) and slices as they are lent, and the run value."""

    def __init__(self, rows, columns, rules, marks, beds, roughness, rates, rain, inflow, depths, lasts, records):
        self.rows, self.columns, self.rules = rows, columns, rules
        self.marks, self.beds, self.roughness, self.rates = marks, beds, roughness, rates
        self.rain, self.inflow = rain, inflow
        self.depths, self.lasts, self.records = depths, lasts, records
        self.clock, self.length, self.outflow, self.kept, self.newest, self.soaked = 0, rules["longest"], 0, 0, 0, 0

    def squares(self):
        """How many squares the grid has."""
        return self.rows * self.columns

    def record_size(self):
        """How many numbers one record has."""
        return HEAD_WORDS + WORDS_A_SQUARE * self.squares()

    def slots(self):
        """K, the records that the room holds."""
        return len(self.records) // self.record_size()

    def beside(self, square):
        """The squares north, east, south and west of one; None off the grid."""
        row, column = divmod(square, self.columns)
        places = [(row - 1, column), (row, column + 1), (row + 1, column), (row, column - 1)]
        return [r * self.columns + c if 0 <= r < self.rows and 0 <= c < self.columns else None for r, c in places]

    def ground(self):
        """The squares that are not closed."""
        return [square for square in range(self.squares()) if self.marks[square] != CLOSED]

    def newest_record(self):
        """The numbers of the newest slot."""
        at = self.newest * self.record_size()
        return self.records[at : at + self.record_size()]

    def came(self, leaves, square):
        """What the neighbours of a square send it, each through its side towards it; `leaves` has no closed square."""
        return sum(leaves[near][across(side)] for side, near in enumerate(self.beside(square)) if near in leaves)

    def off(self, leaves):
        """What the squares in `leaves` send off the grid."""
        return sum(leaves[square][side] for square in leaves for side, near in enumerate(self.beside(square)) if near is None)


def rows_of(table, numbers):
    """The rows of a flat table, each of so many numbers."""
    return [table[at : at + numbers] for at in range(0, len(table), numbers)]
