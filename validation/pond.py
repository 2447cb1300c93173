"""Standing squares: a pond that has settled does not empty when a mouth is opened beside it."""
from meadow.programs import TOP, meadow
from meadow.sheets.grounds import HELD_MOUTH, POND, filling_pond, opened_pond
from meadow.sheets.lines import HOUR, MINUTE
from meadow.sheets.standing import STEEP, standing_squares
from shared import claim, table

SAMPLE = TOP / "samples" / "held-pond.sheet"
# a mouth that lets a part of the pond out
PART_MOUTH = (2, POND + 1)


def bank():
    """The closed squares where a mouth may be opened."""
    along = range(1, POND + 1)
    return [(0, i) for i in along] + [(i, POND + 1) for i in along] + [(POND + 1, i) for i in along] + [(i, 0) for i in along]


def settled(**ground):
    """The water of a pond that was filled for ten minutes and left alone for the rest of an hour."""
    return meadow(filling_pond(**ground).text(HOUR)).depths


def made_level(water):
    """The same water with one level everywhere, less what does not divide evenly."""
    sheet = filling_pond()
    level = sum(sheet.bed(place) + depth for place, depth in water.items()) // len(water)
    return {place: level - sheet.bed(place) for place in water}


def counts(sheet, ends):
    for end in ends:
        answer = meadow(sheet.text(end))
        found = standing_squares(sheet, answer)
        greatest = found[0][4] if found else 0
        yield (end // MINUTE, answer.steps, len(found), sum(square[4] >= STEEP for square in found), greatest, answer.out)


def share_gone(water, mouth, rain=0, **opening):
    """How much of the pond's water has gone through a mouth in an hour; rain that fell on the mouth itself is none of it."""
    after = meadow(opened_pond(water, mouth, rain=rain, **opening).text(HOUR)).depths
    return sum(depth + rain - after[place] for place, depth in water.items()) / sum(water.values())


def mouths(name, water, **opening):
    """How many of the mouths let nothing out in an hour, and the least and the most that the others let out."""
    shares = [share_gone(water, mouth, **opening) for mouth in bank()]
    flowing = [share for share in shares if share > 0]
    return (name, len(shares), len(shares) - len(flowing), f"{100 * min(flowing):.1f} %", f"{100 * max(flowing):.1f} %")


def mouth_rows(water, long):
    yield mouths("as the settled run left it", water)
    yield mouths("put level by hand", made_level(water))
    if long:
        yield mouths("as settled; roughness 0.0301 once opened", water, roughness=301)
        yield mouths("as settled; roughness 0.04 once opened", water, roughness=400)
        yield mouths("as settled; rain of 1 mm/h once opened", water, rain=1_000)
        yield mouths("as settled; rain of 20 mm/h once opened", water, rain=20_000)
        yield mouths("settled with roughness 0.0301", settled(roughness=301))


def figures(long):
    heads = ["minutes", "steps", "standing squares", "of them steep", "greatest drop, µm", "out, µm"]
    yield "The pond fills for ten minutes and settles:"
    yield ""
    rows = list(counts(filling_pond(), [5 * MINUTE, 10 * MINUTE, 15 * MINUTE, 20 * MINUTE, HOUR] + ([6 * HOUR] if long else [])))
    claim(rows[4][2] > 0 and rows[4][3] == 0, "the settled pond has no standing squares, or steep ones")
    yield from table(heads, rows)
    water = settled()
    for mouth, name in ((HELD_MOUTH, "a mouth that lets nothing out"), (PART_MOUTH, "a mouth that lets a part of it out")):
        yield ""
        yield f"Opened at row {mouth[0]}, column {mouth[1]}, {name}:"
        yield ""
        rows = list(counts(opened_pond(water, mouth), [0, MINUTE, 10 * MINUTE, HOUR]))
        claim(rows[-1][3] > 0, "no steep square stands")
        yield from table(heads, rows)
    claim(SAMPLE.read_text() == opened_pond(water, HELD_MOUTH).text(10 * MINUTE), "samples/held-pond.sheet is not this pond")
    yield ""
    yield "Each mouth in turn, an hour after it is opened:"
    yield ""
    rows = list(mouth_rows(water, long))
    claim(rows[0][2] > 0 and rows[1][2] == 0, "settled water is not held, or level water is")
    yield from table(["water at the start", "mouths", "let nothing out", "least of the others", "most"], rows)
