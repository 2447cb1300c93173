"""A horizontal plane drained at a corner: source 004 (Dottori and Todini), case 2 and its Table 3, by each edition."""
from meadow.rule.weighing import EDITIONS, WEIGHTED
from meadow.sheets.lines import MINUTE, Sheet
from meadow.sheets.standing import STEEP, standing_squares
from shared import answers_at, claim, limits, table

ACROSS, DEEP = 200, 3_000_000
# the text gives no roughness for this case; that of its case 1
ROUGHNESS = 500
# when the wobble is looked at, and when what has gone and what stands
EARLY, LATE = 5 * MINUTE, 30 * MINUTE
# Table 3, by square and step in ms: whether their surface was free of wobble; not tried: ""
TABLE_3 = {
    10: {10: "Y", 20: "N", 50: "", 100: "", 200: ""},
    20: {10: "Y", 20: "Y", 50: "Y", 100: "N", 200: "N"},
}
# m: so near the corner the surface is bent by the outflow itself
NEAR_CORNER = 50
# mm: a mean bend below this is called calm
CALM = 10


def plane(side, **run):
    """The plane under level water, with an exit in its south-eastern corner that drains like a cliff."""
    size = ACROSS // side
    sheet = Sheet(size, size, side, **run)
    for place in sheet.squares:
        sheet.put(place, 1_000_000, ROUGHNESS, DEEP, "e" if place == (size - 1, size - 1) else "o")
    return sheet


def bends(sheet, answer):
    """The second differences of the depth along rows and columns, in µm, away from the corner."""
    size, depths = sheet.rows, answer.depths
    for row, column in depths:
        if max(size - 1 - row, size - 1 - column) * sheet.side < NEAR_CORNER:
            continue
        for before, after in (((row - 1, column), (row + 1, column)), ((row, column - 1), (row, column + 1))):
            if before in depths and after in depths:
                yield abs(depths[before] - 2 * depths[row, column] + depths[after])


def held(sheet, answer):
    """How many squares stand steeply, and the share of the water that is left in them."""
    steep = [square for square in standing_squares(sheet, answer) if square[4] >= STEEP]
    return len(steep), sum(square[2] for square in steep) / answer.water()


def row(side, step, edition):
    """The wobble early on, what has gone, and what stands late."""
    sheet = plane(side, **limits(0, step, step, MINUTE), edition=edition)
    early, late = answers_at(sheet, (EARLY, LATE))
    bent = list(bends(sheet, early))
    steep, share = held(sheet, late)
    gone = (f"{100 * answer.out / (len(answer.depths) * DEEP):.1f} %" for answer in (early, late))
    wobble = (f"{sum(bent) / len(bent) / 1_000:.1f}", f"{max(bent) / 1_000:.1f}")
    return (side, step, TABLE_3[side][step], edition, *wobble, *gone, steep, f"{100 * share:.0f} %")


def rows(long):
    """Each step by each edition; edition 2, which is their way, follows Table 3."""
    for side, steps in (TABLE_3 if long else {20: (50, 100)}).items():
        for step in steps:
            found = [row(side, step, edition) for edition in EDITIONS]
            older, theirs = float(found[1][4]), TABLE_3[side][step]
            claim(theirs == "" or (older < CALM) == (theirs == "Y"), f"edition 2 is not as Table 3 at {side} m and {step} ms")
            claim(all(each[8] == 0 for each in found if each[3] != WEIGHTED), "a square stands by edition 2 or 3")
            yield from found


def figures(long):
    heads = ["D, m", "step, ms", "Table 3", "edition", "mean bend, mm", "greatest, mm", "gone in 5 min", "in 30 min"]
    heads += ["steep standing squares", "water in them"]
    yield from table(heads, rows(long))
