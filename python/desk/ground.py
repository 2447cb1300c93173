"""What the page draws below the water, by the same shades, contours and signs as the museum's maps, and what in the sheet is likely a slip."""
from meadow.maps.contours import contours, gap_of, heights_of
from meadow.maps.shades import CLASSES, FILM_NAME
from meadow.rule.step_length import wanted_length
from meadow.rule.weighing import WEIGHTED
from meadow.sheets.reading import with_answer
from meadow.sheets.standing import STEEP, standing_squares
from meadow.words.doubts import doubts, odd_places

from .files import name_of


def ground_of(season):
    """The season's ground for the page."""
    sheet = season.sheet
    squares = [sheet.squares[place] for place in sorted(sheet.squares)]
    lowest, highest = heights_of(sheet)
    return {
        "name": season.folder.name,
        "sheet": name_of(season.sheet_text),
        "rows": sheet.rows,
        "columns": sheet.columns,
        "side": sheet.side,
        "run": sheet.run,
        "end": season.end,
        "marks": "".join(square["mark"] for square in squares),
        "beds": [square.get("bed", 0) for square in squares],
        "lowest": lowest,
        "highest": highest,
        "gap": gap_of(sheet),
        "contours": [[bed, [[*place, *near] for place, near in sides]] for bed, sides in sorted(contours(sheet).items())],
        "hatches": {number: {"place": place, "name": season.names.get(number, "")} for number, place in sorted(season.log.hatches.items())},
        "classes": CLASSES,
        "film": FILM_NAME,
        "slips": doubts(sheet, season.end),
        "odd": odd_places(sheet),
    }


def cautions_of(sheet, frame):
    """What a reader of a state must mind: squares that stand, as (row, column, whether steep), and the step length that the water wants where it is
    below the shortest."""
    answer = frame.answer()
    standing = standing_squares(sheet, answer) if sheet.run["edition"] == WEIGHTED else []
    wanted = wanted_length(with_answer(sheet, answer))
    held = wanted is not None and wanted < sheet.run["shortest"] < sheet.run["longest"]
    return {"standing": [[row, column, fall >= STEEP] for row, column, _, _, fall in standing], "wanted": max(1, wanted) if held else None}
