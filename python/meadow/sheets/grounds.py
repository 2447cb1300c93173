"""The grounds that samples and validation share: the walled meadow, and the pond behind a bank."""
from .lines import HOUR, MINUTE, SECOND, Answer, Sheet
from .reading import answered

MILLIMETRE = 1_000
# the walled meadow: 30 by 30 squares that fall to the south and to a hollow in the middle
SIZE, MIDDLE = 30, 15
# a leat runs south along one column, and from it a ditch east along one row to the exit
LEAT, DITCH = 4, 27
MOUTH = (DITCH, SIZE - 1)
WHEEL_HOUSE = {(row, column) for row in range(12, 17) for column in range(18, 24)}
MEADOW_ROUGHNESS, CHANNEL_ROUGHNESS = 350, 300
NINE_HATCHES = [(2 + 2 * i, LEAT, 10 * i * SECOND, (90 + 10 * i) * SECOND, 400 + 40 * i) for i in range(9)]
# the same meadow in squares of 40 m
COARSE_ROWS, COARSE_COLUMNS, COARSE_LEAT, COARSE_DITCH = 8, 7, 1, 6
COARSE_WHEEL_HOUSE = {(3, 5), (4, 5)}
# the pond: 6 by 6 squares behind a closed bank
POND, POND_SIDE, POND_ROUGHNESS, POND_MOUTH_BED = 6, 5, 300, 300 * MILLIMETRE
# a mouth in its bank that lets nothing out
HELD_MOUTH = (3, POND + 1)


def walled_bed(row, column):
    """The meadow's bed in µm: 4 mm a metre to the south, 0.6 mm a metre to the middle, the leat 25 cm and the ditch 20 cm deep."""
    fall = 2_000 + 40 * (SIZE - 1 - row) + 6 * abs(column - MIDDLE)
    dug = 250 * (column == LEAT) + 200 * (row == DITCH and column >= LEAT)
    return (fall - dug) * MILLIMETRE


def walled_meadow(leat_depth, **run):
    """The meadow with its walled wheel house, and so much water in the leat."""
    sheet = Sheet(SIZE, SIZE, 10, **run)
    for row, column in sheet.squares:
        if (row, column) not in WHEEL_HOUSE:
            channel = column == LEAT or row == DITCH and column >= LEAT
            mark = "e" if (row, column) == MOUTH else "o"
            roughness = CHANNEL_ROUGHNESS if channel else MEADOW_ROUGHNESS
            sheet.put((row, column), walled_bed(row, column), roughness, leat_depth * (column == LEAT), mark)
    return sheet


def drowned_meadow(**run):
    """The walled meadow with all nine hatches drawn one after the other, under rain."""
    sheet = walled_meadow(120 * MILLIMETRE, **run)
    sheet.rain += [(0, 90 * SECOND, 200_000), (MINUTE, 2 * MINUTE, 80_000)]
    sheet.inflow += NINE_HATCHES
    return sheet


def coarse_meadow(leat_depth, **run):
    """The same meadow in 8 by 7 squares of 40 m, few enough that forty steps can be taken back: the leat along column 1, the ditch along row
    6 to the exit in the east, the wheel house two squares."""
    sheet = Sheet(COARSE_ROWS, COARSE_COLUMNS, 40, **run)
    for row, column in sheet.squares:
        leat, ditch = column == COARSE_LEAT, row == COARSE_DITCH and column >= COARSE_LEAT
        bed = 2_000 + 160 * (COARSE_ROWS - 1 - row) + 24 * abs(column - COARSE_COLUMNS // 2) - 250 * leat - 200 * ditch
        mark = "e" if ditch and column == COARSE_COLUMNS - 1 else "o"
        roughness = CHANNEL_ROUGHNESS if leat or ditch else MEADOW_ROUGHNESS
        if (row, column) not in COARSE_WHEEL_HOUSE:
            sheet.put((row, column), bed * MILLIMETRE, roughness, leat_depth * leat, mark)
    return sheet


def pond_bed(row, column):
    """The pond's bed in µm, uneven by 4.2 cm."""
    return (500 + 7 * ((3 * row + 5 * column) % 7)) * MILLIMETRE


def pond_squares():
    """The places inside the bank."""
    return [(row, column) for row in range(1, POND + 1) for column in range(1, POND + 1)]


def filling_pond(roughness=POND_ROUGHNESS):
    """An empty pond behind a closed bank, filled by a hatch for ten minutes."""
    sheet = Sheet(POND + 2, POND + 2, POND_SIDE)
    for place in pond_squares():
        sheet.put(place, pond_bed(*place), roughness)
    sheet.inflow.append((1, 1, 0, 10 * MINUTE, 1_000))
    return sheet


def opened_pond(water, mouth, roughness=POND_ROUGHNESS, rain=0):
    """The pond with the given water in it and a mouth opened in its bank."""
    sheet = Sheet(POND + 2, POND + 2, POND_SIDE)
    for place, depth in water.items():
        sheet.put(place, pond_bed(*place), roughness, depth)
    sheet.put(mouth, POND_MOUTH_BED, roughness, 0, "e")
    sheet.rain += [(0, HOUR, rain)] if rain else []
    return sheet


def worked(text):
    """The answer to a sheet by document 01 in Python."""
    return Answer(answered(text.encode()))
