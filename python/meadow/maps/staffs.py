"""The display panel of level boards, as SVG: a graduated staff for each board, to be read from two metres and in black and white.

The water at the run's end fills the staff; a thick line that ends in a flag is the mark; a hollow pointer is the highest water of the run. The
figures below say the three of them, and then when the mark was first reached. A board that stands at its mark or above it at the end has a dark
head. Nothing is computed: highest and first are those that `boards` printed, the water at the end is `meadow`'s.
"""
from html import escape

from ..sheets.lines import Unreadable
from ..words.levels import boards_many, first_words, level
from ..words.units import graduation, square, time
from .shades import CLASSES, INK, PALE
from .signs import box, words

# as many staffs beside one another as a wide screen takes, two rows of them, and the size of one with its figures
ACROSS, WIDE, TALL = 8, 240, 470
# above and below the staffs
TITLE, FOOT = 64, 16
# a staff within its place: its left edge, its top, its width with the graduation, its height; how high its head is
LEFT, TOP, GRADED, WATER_WIDE, HIGH, HEAD = 92, 66, 26, 60, 226, 44
# letters; a figure's digits are some 1 in 75 of the width of a panel of eight: a centimetre where it is 75 cm wide, which is read from two metres
FIGURE, LABEL = 34, 24
# how wide a letter is at the most, in parts of its height, bold and plain; and how far letters stay from the edge of a staff's place
BOLD, PLAIN, EDGE = 0.66, 0.58, 10
PAPER, WATER = "#ffffff", CLASSES[3][1]
# the tops that a graduation may have, in µm
TOPS = [k * 10**power for power in range(9) for k in (1, 2, 5)]
PARTS = 10


def top_of(amounts):
    """The least round height that all amounts stay clearly below."""
    return next(top for top in TOPS if 20 * top >= 21 * max(amounts))


def fitted(text, size, room):
    """The size of letters in which a text is no wider than its room."""
    return min(size, int(room / (BOLD * len(text))))


def letters(x, y, text, size, kind, anchor="middle", fill=INK, bold=True):
    """A text of a size."""
    weight = ' font-weight="bold"' if bold else ""
    return words(f"{x:g}", f"{y:g}", escape(text), f' font-size="{size}"{weight} text-anchor="{anchor}" fill="{fill}" class="{kind}"')


class Staff:
    """A board with the water of its square at the end, and where it stands on the panel."""

    def __init__(self, board, now, x, y):
        self.board, self.now, self.x, self.y = board, now, x, y
        self.top = top_of((board.mark, board.highest, now))

    def height(self, amount):
        """Where a depth lies on the staff."""
        return self.y + TOP + HIGH * (1 - amount / self.top)

    @property
    def middle(self):
        """The middle of its place."""
        return self.x + WIDE / 2

    @property
    def over(self):
        """Whether its water stands at the mark or above it at the end."""
        return self.now >= self.board.mark

    def told(self, number):
        """What it says to a pointer that rests on it."""
        board = self.board
        mark = f"mark {level(board.mark)}, first reached: {first_words(board)}"
        return f"board {number}, {square(board[:2])}: now {level(self.now)}, highest {level(board.highest)}, {mark}"


def head(staff):
    """The square, dark where the water stands at the mark or above it."""
    fill, ink = (INK, PAPER) if staff.over else (PAPER, INK)
    shape = box(f"{staff.x + 8:g}", staff.y + 8, WIDE - 16, HEAD, fill, f' stroke="{INK}" stroke-width="3" class="{"over" if staff.over else "under"}"')
    return shape + letters(staff.middle, staff.y + 8 + 33, f"{staff.board.row}, {staff.board.column}", FIGURE, "square", fill=ink)


def graduated(staff):
    """The staff: dark and light parts as on a surveyor's, its top and its middle in figures, and the room for the water."""
    x, y, part = staff.x + LEFT, staff.y + TOP, HIGH / PARTS
    drawn = [box(f"{x:g}", f"{y:g}", GRADED + WATER_WIDE, HIGH, PAPER, f' stroke="{INK}" stroke-width="3"')]
    drawn += [box(f"{x:g}", f"{y + part * at:g}", GRADED, f"{part:g}", INK) for at in range(0, PARTS, 2)]
    for share, amount in ((0, staff.top), (0.5, staff.top / 2), (1, 0)):
        drawn.append(letters(x - 8, y + HIGH * share + 8, graduation(amount), LABEL, "scale", "end", bold=False))
    return drawn


def water(staff):
    """The water at the end, filled."""
    x, y = staff.x + LEFT + GRADED, staff.height(staff.now)
    return box(f"{x:g}", f"{y:.1f}", WATER_WIDE, f"{staff.y + TOP + HIGH - y:.1f}", WATER, ' class="water"')


def mark(staff):
    """The mark: a thick line across the water, and a flag at its end."""
    x, y = staff.x + LEFT + GRADED, staff.height(staff.board.mark)
    line = f'<path d="M{x:g} {y:.1f}h{WATER_WIDE + 34}" stroke="{INK}" stroke-width="6" class="mark"/>'
    return line + f'<path d="M{x + WATER_WIDE + 34:g} {y:.1f}l0 -17l22 10l-22 10z" fill="{INK}"/>'


def highest(staff):
    """The highest water: a pointer from the right."""
    x, y = staff.x + LEFT + GRADED + WATER_WIDE + 3, staff.height(staff.board.highest)
    return f'<path d="M{x:g} {y:.1f}l26 -14v28z" fill="{PAPER}" stroke="{INK}" stroke-width="4" class="highest"/>'


def row(staff, y, name, figure):
    """A name at the left, and its figure at the right in what is left of the room."""
    left, right = staff.x + EDGE, staff.x + WIDE - EDGE
    size = fitted(figure, FIGURE, right - left - PLAIN * LABEL * len(name))
    return letters(left, y, name, LABEL, "name", "start", bold=False) + letters(right, y, figure, size, f"{name}-figure", "end")


def figures(staff):
    """The three depths, and when the mark was first reached."""
    board, y = staff.board, staff.y + TOP + HIGH
    first = first_words(board)
    return [
        row(staff, y + 46, "now", level(staff.now) if staff.now else "dry"),
        row(staff, y + 84, "highest", level(board.highest)),
        row(staff, y + 122, "mark", level(board.mark)),
        letters(staff.middle, y + 158, first, fitted(first, FIGURE, WIDE - 2 * EDGE), "first"),
    ]


def staff_drawn(staff, number):
    """One board."""
    parts = [head(staff), *graduated(staff), water(staff), highest(staff), mark(staff), *figures(staff)]
    return f'<g class="staff"><title>{staff.told(number)}</title>{"".join(parts)}</g>'


LEGEND = [
    "head: row, column",
    "dark: at its mark or above it now",
    "filled: the water now",
    "line with a flag: the mark",
    "pointer: the highest",
    "last: when the mark was first reached",
]


def legend(wide, y):
    """What the signs mean, in as few lines as the panel is wide enough for."""
    lines, most = LEGEND[:1], int((wide - 32) / (PLAIN * LABEL))
    for text in LEGEND[1:]:
        longer = f"{lines[-1]} · {text}"
        lines = [*lines[:-1], longer] if len(longer) <= most else [*lines, text]
    return [letters(16, y + (LABEL + 6) * at, line, LABEL, "legend", "start", PALE, bold=False) for at, line in enumerate(lines, 1)]


def hold_pair(shown, pair):
    """What `boards` and what `meadow` printed are of one run: as many steps, and no water now above the highest."""
    if (shown.steps, shown.clock) != (pair.answer.steps, pair.answer.clock):
        raise Unreadable("the boards and the answer are not of one run: their steps or clocks differ")
    for board in shown.boards:
        if pair.answer.depth(board[:2]) > board.highest:
            raise Unreadable(f"the boards and the answer are not of one run: square {board.row} {board.column} ends above its highest")


def staffs_svg(shown, pair, name):
    """The panel's text, of what `boards` printed and of a sheet with `meadow`'s answer; `name` stands in its title."""
    hold_pair(shown, pair)
    many = len(shown.boards)
    across, rows = max(3, min(ACROSS, many)), -(-many // ACROSS)
    wide = across * WIDE
    below = legend(wide, TITLE + rows * TALL)
    tall = TITLE + rows * TALL + (LABEL + 6) * len(below) + FOOT
    shape = f'width="{wide}" height="{tall}" viewBox="0 0 {wide} {tall}"'
    title = f"{name}: {boards_many(many)} after {time(shown.clock)}"
    parts = [f'<svg xmlns="http://www.w3.org/2000/svg" {shape} font-family="sans-serif">', box(0, 0, wide, tall, PAPER)]
    parts.append(letters(16, 46, title, fitted(title, FIGURE + 6, wide - 32), "title", "start"))
    for at, board in enumerate(shown.boards):
        place = at % ACROSS * WIDE, TITLE + at // ACROSS * TALL
        parts.append(staff_drawn(Staff(board, pair.answer.depth(board[:2]), *place), at + 1))
    return "\n".join([*parts, *below, "</svg>"]) + "\n"
