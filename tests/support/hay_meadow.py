"""A hay meadow of 18 by 24 squares of 5 m, 52 m up, for what can mislead a warden: a house in its midst, a hatch in the north-west, and a ditch
along the south that falls 1 in 500 to an exit in the east. As a sheet, and as the survey that it comes from."""
from meadow.sheets.lines import MINUTE, Sheet

ROWS, COLUMNS, SIDE = 18, 24, 5
HATCH, MOUTH = (1, 2), (16, 23)
HOUSE = {(row, column) for row in range(7, 11) for column in range(9, 14)}
MEADOW_N, DITCH_N = 350, 300
MILLIMETRE = 1_000


def bed(row, column):
    """In µm: the meadow falls 1 in 100 to the south and 1 in 1,000 to the east, and the ditch lies 40 cm below it."""
    if row == MOUTH[0]:
        return (51_600 + 10 * (COLUMNS - 1 - column)) * MILLIMETRE
    return (52_000 + 50 * (ROWS - 1 - row) + 5 * (COLUMNS - 1 - column)) * MILLIMETRE


def hay_meadow(house=None, litres=900, **run):
    """The sheet: the house is closed, or has a bed in µm; the hatch is drawn for half an hour."""
    sheet = Sheet(ROWS, COLUMNS, SIDE, **{"shortest": 20, "edge": 20, "tolerance": 10, **run})
    for place in sheet.squares:
        ditch = place[0] == MOUTH[0]
        if place not in HOUSE:
            sheet.put(place, bed(*place), DITCH_N if ditch else MEADOW_N, mark="e" if place == MOUTH else "o")
        elif house is not None:
            sheet.put(place, house, MEADOW_N)
    sheet.inflow = [(*HATCH, 0, 30 * MINUTE, litres)]
    return sheet


def survey(house="-9999", head_no_data="-9999"):
    """The beds as an ESRI grid in metres, with what stands where the house is."""
    head = f"ncols {COLUMNS}\nnrows {ROWS}\nxllcorner 432100\nyllcorner 215000\ncellsize {SIDE}\nNODATA_value {head_no_data}\n"
    rows = [[house if (row, column) in HOUSE else f"{bed(row, column) / 1e6:.3f}" for column in range(COLUMNS)] for row in range(ROWS)]
    return head + "".join(" ".join(row) + "\n" for row in rows)
