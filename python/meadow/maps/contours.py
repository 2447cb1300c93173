"""Contours of a sheet's ground, along the sides between squares: a line where two neighbours lie on both sides of a round height."""

# the distances that contours may have, in µm, and the most contours that a map can bear
GAPS = [k * 10**power for power in range(3, 9) for k in (1, 2, 5)]
MOST = 12


def heights_of(sheet):
    """The lowest and the highest bed."""
    beds = [sheet.bed(place) for place in sheet.ground()] or [0]
    return min(beds), max(beds)


def gap_of(sheet):
    """The least round distance that gives no more contours than a map can bear."""
    lowest, highest = heights_of(sheet)
    return next(gap for gap in GAPS if (highest - lowest) // gap <= MOST)


def neighbours(sheet):
    """Each two squares side by side that are not closed, as (place, place to the east or south)."""
    ground = set(sheet.ground())
    for row, column in sheet.ground():
        for near in ((row, column + 1), (row + 1, column)):
            if near in ground:
                yield (row, column), near


def contours(sheet):
    """Of each height the sides that its contour runs along, each the two squares that it parts; of several heights the upper is drawn."""
    found, gap = {}, gap_of(sheet)
    for place, near in neighbours(sheet):
        lower, upper = sorted((sheet.bed(place), sheet.bed(near)))
        if lower // gap != upper // gap:
            found.setdefault(upper // gap * gap, []).append((place, near))
    return found
