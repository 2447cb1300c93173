"""A map of a sheet and of what `meadow` answered to it, as SVG, to be read in colour and in black and white.

Water is blue by classes of depth, the deeper the darker; a film under 1 mm is a dot on its ground; dry ground is nearly white, with
contours; closed squares are hatched; exits have an arrow. A hatch has its number, filled where it gives water up to the end's clock.
Standing squares have a diamond, filled where the square falls by 1 mm or more on some side. A square that was wet at some time of the run and is
not at its end has a wave, one whose bed or mark is likely a slip a triangle; ground that was guessed has a question mark. Each square says its depth
to a pointer that rests on it, how high it ever stood, and for how long it was wet. No depth is computed: those that the programs print are drawn.
"""
from html import escape

from ..sheets.lines import CLOSED
from ..sheets.standing import STEEP, standing_squares
from ..words.hatches import hatches_in
from ..words.units import depth, height, square, time
from .cautions import caution_signs, run_told
from .contours import contours, heights_of
from .guessed import guess_signs
from .legend import LEGEND, legend
from .shades import CLASSES, CONTOUR, CONTOUR_NAME, INK, LINES, PALE, WALL_PAPER, WALL_STROKE, class_of, ground
from .signs import box, diamond, exit_sign, film_dot, hatch_sign, words

# the size of a square on paper at the least and at the most, and that of a map that is to be filled by fewer squares
LEAST_SQUARE, MOST_SQUARE, FILLED = 22, 60, 480
LEFT, TOP, FOOT, GAP = 34, 56, 40, 24
# in small squares only every so many rows and columns have room for their numbers
EVERY = 5
DEFINITIONS = (
    '<defs><pattern id="wall" width="6" height="6" patternUnits="userSpaceOnUse" patternTransform="rotate(45)">'
    f'<rect width="6" height="6" fill="{WALL_PAPER}"/><rect width="1.6" height="6" fill="{WALL_STROKE}"/></pattern></defs>'
)
# signs that a pointer goes through, to the square below
UNTOUCHED = '<g pointer-events="none">'
# the lengths that a scale bar may have, in m
BARS = [k * 10**power for power in range(4) for k in (1, 2, 5)]


class Paper:
    """A sheet on paper: how large a square is drawn, and where it lies. The fewer squares, the larger they are. `guesses` are of its ground."""

    def __init__(self, sheet, guesses=()):
        self.sheet, self.guesses = sheet, {guess.place: guess for guess in guesses}
        self.size = max(LEAST_SQUARE, min(MOST_SQUARE, FILLED // max(sheet.rows, sheet.columns)))

    def corner(self, place):
        """Where a square's north-west corner lies."""
        return LEFT + place[1] * self.size, TOP + place[0] * self.size

    def middle(self, place):
        """Where a square's middle lies."""
        x, y = self.corner(place)
        return x + self.size / 2, y + self.size / 2

    def north(self, place):
        """A square's north side as a path."""
        x, y = self.corner(place)
        return f"M{x} {y}h{self.size}"

    def west(self, place):
        """A square's west side as a path."""
        x, y = self.corner(place)
        return f"M{x} {y}v{self.size}"


def told(paper, place, deep):
    """What a square says to a pointer that rests on it."""
    values = paper.sheet.squares[place]
    if values["mark"] == CLOSED:
        return f"{square(place)}: closed"
    water = f"{depth(deep)} deep" if deep > 0 else "dry"
    return f"{square(place)}: {water}, ground {height(values['bed'])} m" + (", guessed" if place in paper.guesses else "")


def square_at(paper, place, deep, ends, more=""):
    """A square of the sheet with the answer's water; `ends` are the lowest and the highest bed, and `more` is told to a pointer too."""
    values = paper.sheet.squares[place]
    if values["mark"] == CLOSED:
        kind, fill = "wall", "url(#wall)"
    elif class_of(deep) is not None:
        kind, fill = "wet", CLASSES[class_of(deep)][1]
    else:
        kind, fill = "film" if deep > 0 else "dry", ground(values["bed"], *ends)
    drawn = box(*paper.corner(place), paper.size, paper.size, fill, f' class="{kind}"', told(paper, place, deep) + more)
    return drawn + film_dot(*paper.middle(place)) if kind == "film" else drawn


def outline(paper):
    """A line round every closed square where it meets one that is not, or the rim."""
    path, squares = "", paper.sheet.squares
    for row, column in sorted(squares.keys() - set(paper.sheet.ground())):
        sides = {(row - 1, column): paper.north((row, column)), (row + 1, column): paper.north((row + 1, column))}
        sides |= {(row, column - 1): paper.west((row, column)), (row, column + 1): paper.west((row, column + 1))}
        path += "".join(side for near, side in sides.items() if squares.get(near, {}).get("mark") != CLOSED)
    return f'<path d="{path}" fill="none" stroke="{INK}" stroke-width="1.6" class="outline"/>'


def contour_lines(paper):
    """The contours, each with its height once, at its west end."""
    lines, names = "", []
    for bed, sides in sorted(contours(paper.sheet).items()):
        lines += "".join(paper.west(near) if near[0] == place[0] else paper.north(near) for place, near in sides)
        x, y = paper.corner(min((near for _, near in sides), key=lambda near: (near[1], near[0])))
        halo = f' font-size="10" fill="{CONTOUR_NAME}" stroke="#ffffff" stroke-width="3" paint-order="stroke" class="contour"'
        names.append(words(x + 2, y + 3, height(bed), halo))
    return [f'<path d="{lines}" fill="none" stroke="{CONTOUR}" stroke-width="1" class="contours"/>', *names]


def numbers(paper):
    """Rows and columns by their numbers in the sheet."""
    every = EVERY if paper.size == LEAST_SQUARE else 1
    across = f' font-size="10" fill="{PALE}" text-anchor="middle"'
    drawn = [words(f"{paper.middle((0, column))[0]:g}", TOP - 6, column, across) for column in range(0, paper.sheet.columns, every)]
    down = across.replace("middle", "end")
    return drawn + [words(LEFT - 6, f"{paper.middle((row, 0))[1] + 4:g}", row, down) for row in range(0, paper.sheet.rows, every)]


def scale_bar(paper):
    """A bar of a round length, up to a third of the map's width."""
    sheet = paper.sheet
    length = max(bar for bar in BARS if bar <= max(1, sheet.columns * sheet.side / 3))
    x, y = paper.corner((sheet.rows, 0))
    wide = length / sheet.side * paper.size
    bar = f'<path d="M{x} {y + 12}v6h{wide:g}v-6" fill="none" stroke="{INK}" class="scale"/>'
    return [bar, words(f"{x + wide + 6:g}", y + 20, f"{length} m")]


def way_out(sheet, place):
    """Which way an exit lies open, in quarter turns from east; of several, the first of east, west, south and north."""
    row, column = place
    off = {0: column == sheet.columns - 1, 2: column == 0, 1: row == sheet.rows - 1, 3: row == 0}
    return next(quarters for quarters, open_there in off.items() if open_there)


def squares_signs(paper, standing):
    """Exits and standing squares, over the water."""
    sheet = paper.sheet
    drawn = [exit_sign(*paper.middle(place), way_out(sheet, place), ' class="exit"') for place in sheet.exits()]
    return drawn + [diamond(*paper.middle(found[:2]), found[4] >= STEEP, ' class="standing"') for found in standing]


def hatch_signs(paper, pair, whole):
    """The hatches, each with its square's depth and its own openings for a pointer that rests on it; those of one square have one sign."""
    hatches = hatches_in(pair)
    for place in sorted({hatch.place for hatch in hatches}):
        here = [hatch for hatch in hatches if hatch.place == place]
        below = told(paper, place, pair.answer.depths[place]) + (run_told(place, whole) if whole else "")
        said = "; ".join([*(f"hatch {hatch.number}: {hatch.openings()}" for hatch in here), below])
        yield hatch_sign(*paper.middle(place), "+".join(str(hatch.number) for hatch in here), any(hatch.runs_at(pair.end) for hatch in here), said)


def squares_drawn(paper, pair, whole):
    """Each square with its water, and what it tells of the whole run."""
    ends, depths = heights_of(pair.sheet), pair.answer.depths
    for place in sorted(pair.sheet.squares):
        more = run_told(place, whole) if whole and place in depths else ""
        yield square_at(paper, place, depths.get(place, 0), ends, more)


def ground_and_water(paper, pair, standing, whole):
    """The map itself: squares, contours, walls, exits, standing squares, what must be minded, and hatches."""
    yield f'<g stroke="{LINES}" stroke-width="0.5">'
    yield from squares_drawn(paper, pair, whole)
    yield "</g>" + UNTOUCHED
    yield from (*contour_lines(paper), outline(paper), *caution_signs(paper, pair, whole), *squares_signs(paper, standing))
    yield "</g>"
    yield from (*hatch_signs(paper, pair, whole), *guess_signs(paper))


def beside_it(paper):
    """Where the legend begins, right of the map."""
    return paper.corner((0, paper.sheet.columns))[0] + GAP, TOP


def framed(paper, title, drawn, beside, needed):
    """The text of a map: its title, what is drawn on the grid, the grid's numbers, a scale, and the legend, which reaches down so far."""
    right, bottom = paper.corner((paper.sheet.rows, paper.sheet.columns))
    width, tall = right + GAP + LEGEND, max(bottom + FOOT, needed + FOOT // 2)
    shape = f'width="{width}" height="{tall}" viewBox="0 0 {width} {tall}"'
    parts = [f'<svg xmlns="http://www.w3.org/2000/svg" {shape} font-family="sans-serif" font-size="12">', DEFINITIONS]
    parts += [box(0, 0, width, tall, "#ffffff"), words(LEFT, 22, escape(title), ' font-size="16" font-weight="bold"')]
    parts += [*drawn, *numbers(paper), *scale_bar(paper), *beside, "</svg>"]
    return "\n".join(parts) + "\n"


def svg(pair, name, whole=None, guesses=()):
    """The map's text; `name` stands in its title. Where the run is seen whole, the map tells of all of it; `guesses` are of the sheet's ground."""
    paper, standing = Paper(pair.sheet, guesses), standing_squares(pair.sheet, pair.answer)
    beside, needed = legend(*beside_it(paper), pair, standing, whole, guesses)
    return framed(paper, f"{name}: water after {time(pair.end)}", ground_and_water(paper, pair, standing, whole), beside, needed)
