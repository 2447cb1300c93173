"""A lake at rest over a hump: exactly nothing moves."""
from meadow.programs import meadow
from meadow.sheets.lines import DAY, HOUR, Sheet
from shared import claim, table, uneven

LEVEL = 50_000_000
SIZE = 31


def lake(peak):
    """A lake with its level at 50 m over a hump of the given height in µm, inside a closed rim."""
    sheet = Sheet(SIZE, SIZE, 10)
    for row in range(1, SIZE - 1):
        for column in range(1, SIZE - 1):
            away = (row - SIZE // 2) ** 2 + (column - SIZE // 2) ** 2
            bed = max(0, peak - 400_003 * away)
            sheet.put((row, column), bed, 100 + uneven((row, column), 900), max(0, LEVEL - bed))
    return sheet


def at_rest(name, sheet, end):
    before = {place: sheet.depth(place) for place in sheet.ground()}
    answer = meadow(sheet.text(end))
    changed = sum(answer.depths[place] != before[place] for place in before)
    return (name, sum(depth > 0 for depth in before.values()), end // HOUR, answer.steps, changed, answer.out)


def figures(long):
    rows = [at_rest("hump of 40 m, all under water", lake(40_000_000), HOUR), at_rest("hump of 60 m, an island", lake(60_000_000), HOUR)]
    if long:
        rows.append(at_rest("hump of 60 m, an island", lake(60_000_000), 7 * DAY))
    for row in rows:
        claim(row[4] == 0 and row[5] == 0, f"the lake moved: {row}")
    # the same lake does move where it should
    disturbed = lake(40_000_000)
    disturbed.squares[5, 5]["depth"] += 1_000
    rows.append(at_rest("hump of 40 m, one square 1 mm too high", disturbed, HOUR))
    claim(rows[-1][4] > 0, "a lake that is not level stands still")
    yield from table(["lake", "squares with water", "hours", "steps", "squares changed", "out, µm"], rows)
