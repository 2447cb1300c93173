"""An answer as a map takes it back: depths in metres as an ESRI grid, or a CSV with a line for each square that is not closed."""
from decimal import Decimal

from .grids import esri_text, plain

COLUMNS = ("row", "column", "east_m", "north_m", "ground_m", "depth_m", "level_m")


def metres(micrometres, datum=0):
    """Micrometres over a datum as metres, exactly, with six decimals."""
    return f"{Decimal(micrometres).scaleb(-6) + datum:.6f}"


def esri_of(pair, place):
    """The depths as an ESRI grid with the sheet's corner; closed squares are NODATA."""
    sheet, depths = pair.sheet, pair.answer.depths
    rows = [[metres(depths[row, column]) if (row, column) in depths else None for column in range(sheet.columns)] for row in range(sheet.rows)]
    return esri_text(rows, sheet.side, place.corner)


def csv_of(pair, place):
    """Each square that is not closed: its place, its middle on the map, its ground, depth and level, heights as the survey counted them."""
    lines = [",".join(COLUMNS)]
    for (row, column), depth in sorted(pair.answer.depths.items()):
        bed = pair.sheet.bed((row, column))
        east, north = place.middle(pair.sheet, (row, column))
        heights = metres(bed, place.datum), metres(depth), metres(bed + depth, place.datum)
        lines.append(",".join([str(row), str(column), plain(east), plain(north), *heights]))
    return "".join(line + "\n" for line in lines)
