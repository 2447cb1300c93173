"""A map of how often each square drowned in a winter's sheets, by what `drowned` printed of their list, as SVG, to be read in colour and in black
and white.

In each square stands how many sheets had it as deep as was asked; the more of them, the darker the square. A square that never drowned is nearly
white and has no number. Closed squares are hatched, and a thick line at the rim is an exit, which leaves the number to be seen. Ground that was
guessed has a question mark. Nothing is counted that the answer does not say.
"""
from ..sheets.lines import CLOSED, Unreadable
from ..sheets.pairs import hold_squares
from ..words.drownings import deepest_of_all, most_often_words, sheets
from ..words.units import area, depth, height, square
from .contours import heights_of
from .drawing import UNTOUCHED, Paper, beside_it, framed, outline
from .guessed import guess_signs, say_guesses
from .legend import LEGEND, SMALL, Column, swatch
from .shades import CLASSES, EXIT, INK, LINES, ground
from .signs import box, north_arrow, words

# of how many of the sheets drown a square: the shade, that of the number on it, and the words; the last is all of them
SHARES = [
    (CLASSES[0][1], INK, "a quarter of the sheets or fewer"),
    (CLASSES[1][1], INK, "up to half of them"),
    (CLASSES[2][1], INK, "up to three quarters"),
    (CLASSES[3][1], "#ffffff", "more, but not all"),
    (CLASSES[4][1], "#ffffff", "every sheet"),
]
# how high the letters of a number are, at the least and at the most
LEAST_NUMBER, MOST_NUMBER = 9, 18
# the most refused sheets that are listed one by one
MOST_LISTED = 8


def share_of(count, ran):
    """The place of a count's share in the list; None where the square never drowned."""
    if count == 0:
        return None
    return len(SHARES) - 1 if count == ran else (4 * count - 1) // ran


def hold_depth(tally, wet_depth):
    """The answer is one of this depth: squares so deep are counted, and no others."""
    for place, drowned in sorted(tally.squares.items()):
        if (drowned.deepest >= wet_depth) != (drowned.count > 0):
            often = f"was {depth(drowned.deepest)} deep and is counted {drowned.count} times"
            raise Unreadable(f"this was not printed for a depth of {wet_depth} µm: {square(place)} {often}")


def hold_pair(sheet, tally, wet_depth):
    """The answer is one of the sheet's squares, with a sheet that was run; and of this depth, where it is said."""
    if tally.ran == 0:
        raise Unreadable("no sheet of this list was run: there is nothing to draw")
    hold_squares(sheet, tally)
    if wet_depth is not None:
        hold_depth(tally, wet_depth)


def told(paper, place, tally):
    """What a square says to a pointer that rests on it."""
    values = paper.sheet.squares[place]
    if values["mark"] == CLOSED:
        return f"{square(place)}: closed"
    drowned = tally.squares[place]
    often = f"drowned in {drowned.count} of {sheets(tally.ran)}" if drowned.count else "never drowned"
    water = f"deepest {depth(drowned.deepest)}, by sheet {drowned.first}" if drowned.deepest else "always dry"
    return f"{square(place)}: {often}; {water}; ground {height(values['bed'])} m" + (", guessed" if place in paper.guesses else "")


def square_at(paper, place, tally, ends):
    """A square with its number; `ends` are the lowest and the highest bed."""
    values = paper.sheet.squares[place]
    said = told(paper, place, tally)
    if values["mark"] == CLOSED:
        return box(*paper.corner(place), paper.size, paper.size, "url(#wall)", ' class="wall"', said)
    count = tally.squares[place].count
    share = share_of(count, tally.ran)
    if share is None:
        return box(*paper.corner(place), paper.size, paper.size, ground(values["bed"], *ends), ' class="never"', said)
    fill, ink, _ = SHARES[share]
    x, y = paper.middle(place)
    size = max(LEAST_NUMBER, min(MOST_NUMBER, paper.size // 3 + 3 - len(str(count))))
    number = f' font-size="{size}" font-weight="bold" text-anchor="middle" fill="{ink}" stroke="none" pointer-events="none" class="count"'
    return box(*paper.corner(place), paper.size, paper.size, fill, ' class="drowned"', said) + words(f"{x:g}", f"{y + size * 0.36:g}", count, number)


def exit_line(path, more=""):
    """An exit: a thick line along its open sides, on a white edge."""
    edge = f'<path d="{path}" fill="none" stroke="#ffffff" stroke-width="7"/>'
    return f'{edge}<path d="{path}" fill="none" stroke="{EXIT}" stroke-width="5"{more}/>'


def open_sides(paper, place):
    """The sides of an exit that lie off the grid, as a path."""
    row, column = place
    off = {paper.north(place): row == 0, paper.west(place): column == 0}
    off |= {paper.north((row + 1, column)): row == paper.sheet.rows - 1, paper.west((row, column + 1)): column == paper.sheet.columns - 1}
    return "".join(side for side, is_off in off.items() if is_off)


def squares_drawn(paper, tally):
    """The map itself: squares with their numbers, exits and walls."""
    ends = heights_of(paper.sheet)
    yield f'<g stroke="{LINES}" stroke-width="0.5">'
    yield from (square_at(paper, place, tally, ends) for place in sorted(paper.sheet.squares))
    yield "</g>" + UNTOUCHED
    yield from (exit_line(open_sides(paper, place), ' class="exit"') for place in paper.sheet.exits())
    yield from (outline(paper), *guess_signs(paper))
    yield "</g>"


def say_shares(column, tally, side):
    """Each share with the area that it covers."""
    found = [share_of(drowned.count, tally.ran) for drowned in tally.squares.values()]
    column.say("drowned in so many sheets, and the area", ' font-weight="bold"', gap=-4)
    column.entry(swatch(ground(0, 0, 1)), "none: it never drowned", area(found.count(None), side))
    for at, (colour, _, name) in enumerate(SHARES):
        column.entry(swatch(colour), name, area(found.count(at), side))


def say_list(column, tally):
    """How many sheets were run, and which were refused."""
    column.say(f"{sheets(tally.ran)} run, {len(tally.refused)} refused", gap=6)
    for turn, number in tally.refused[:MOST_LISTED]:
        column.say(f"sheet {turn} of the list refused by {number}", size=SMALL, gap=-2)
    if len(tally.refused) > MOST_LISTED:
        column.say(f"and {len(tally.refused) - MOST_LISTED} more", size=SMALL, gap=-2)


def legend(x, y, sheet, tally, deep_words, guesses):
    """The legend's parts, and how far down it reaches."""
    column = Column(x, y)
    say_shares(column, tally, sheet.side)
    column.y += 6
    column.entry(swatch("url(#wall)"), "closed: no water enters")
    column.entry(lambda x, y: [exit_line(f"M{x - 9:g} {y:g}h18")], "exit, at the rim")
    say_guesses(column, guesses, sheet.side)
    column.say(f"the number in a square: how many of the {sheets(tally.ran)} had it {deep_words} at any time of their run", gap=8)
    column.say(most_often_words(tally), gap=6)
    deepest = deepest_of_all(tally)
    if deepest and deepest[1].deepest:
        place, drowned = deepest
        column.say(f"deepest of all: {depth(drowned.deepest)} at {square(place)}, by sheet {drowned.first} of the list")
    column.say(f"a square is {sheet.side} m by {sheet.side} m")
    say_list(column, tally)
    return [north_arrow(x + LEGEND - 20, y + 6), *column.drawn], column.y


def often_svg(sheet, tally, name, wet_depth=None, guesses=()):
    """The map's text, of a sheet of the winter and the tally of its list; `name` stands in its title, and so does the depth where it is said.
    `guesses` are of the sheet's ground."""
    hold_pair(sheet, tally, wet_depth)
    paper = Paper(sheet, guesses)
    deep_words = "as deep as was asked" if wet_depth is None else f"{depth(wet_depth)} deep or deeper"
    beside, needed = legend(*beside_it(paper), sheet, tally, deep_words, guesses)
    return framed(paper, f"{name}: how often each square was {deep_words}", squares_drawn(paper, tally), beside, needed)
