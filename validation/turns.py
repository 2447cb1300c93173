"""Mirror images and quarter turns of a sheet give mirrored and turned answers."""
from meadow.programs import meadow
from meadow.sheets.lines import MINUTE, Sheet
from shared import claim, table, uneven

ROWS, COLUMNS = 9, 13
END = 10 * MINUTE
EXITS = {(4, 12), (8, 3)}
CLOSED = {(3, 5), (3, 6), (4, 5), (0, 9)}
# where a square goes in each image, of a grid with these rows and columns
IMAGES = {
    "as it stands": lambda row, column: (row, column),
    "mirrored east to west": lambda row, column: (row, COLUMNS - 1 - column),
    "mirrored north to south": lambda row, column: (ROWS - 1 - row, column),
    "half a turn": lambda row, column: (ROWS - 1 - row, COLUMNS - 1 - column),
    "mirrored about the falling diagonal": lambda row, column: (column, row),
    "mirrored about the rising diagonal": lambda row, column: (COLUMNS - 1 - column, ROWS - 1 - row),
    "a quarter turn right": lambda row, column: (column, ROWS - 1 - row),
    "a quarter turn left": lambda row, column: (COLUMNS - 1 - column, row),
}


def image(place_of):
    """The sheet with each square, and each inflow, at its place in the image."""
    rows, columns = max(place_of(row, column) for row in (0, ROWS - 1) for column in (0, COLUMNS - 1))
    sheet = Sheet(rows + 1, columns + 1, 5)
    for row in range(ROWS):
        for column in range(COLUMNS):
            here = row, column
            if here not in CLOSED:
                depth = uneven(here, 400_000) * (column < 5)
                sheet.put(place_of(*here), uneven(here, 300_000), 150 + uneven(here, 200), depth, "e" if here in EXITS else "o")
    sheet.rain.append((0, 5 * MINUTE, 30_000))
    sheet.inflow += [(*place_of(1, 1), 0, 4 * MINUTE, 300), (*place_of(7, 8), MINUTE, 9 * MINUTE, 150)]
    return sheet


def figures(_long):
    first, rows = None, []
    for name, place_of in IMAGES.items():
        answer = meadow(image(place_of).text(END))
        first = first or answer
        differ = sum(answer.depths[place_of(*place)] != depth for place, depth in first.depths.items())
        rows.append((name, answer.steps, answer.out, differ))
        claim((differ, answer.steps, answer.out) == (0, first.steps, first.out), f"{name}: the answer is not the image of the first")
    yield from table(["image", "steps", "out, µm", "squares that differ"], rows)
