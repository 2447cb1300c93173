"""The legend of a map: what its shades and signs mean, how large each class of depth is, and the answer in words."""
from textwrap import wrap

from ..logs.nights import Night
from ..rule.weighing import WEIGHTED
from ..sheets.standing import STEEP
from ..words.cautions import standing_words
from ..words.hatches import hatches_in
from ..words.sense import deepest_words, volumes
from ..words.units import area, height, rain_rate, span, steps, time, volume
from .cautions import say_caution_signs, say_doubts, say_whole, wall_words
from .contours import gap_of, heights_of
from .guessed import say_guesses
from .shades import CLASSES, FILM_NAME, HATCH, PALE, class_of, ground
from .signs import box, diamond, exit_sign, film_dot, hatch_circle, north_arrow, words

LEGEND = 350
LINE = 19
USUAL, SMALL = 12, 11
# how wide a letter is at the most, in parts of its height, and a bold one
LETTER, BOLD_LETTER = 0.55, 0.68
# the most hatches and showers that are listed one by one
MOST_LISTED = 12


class Column:
    """Lines of the legend, put one below the other."""

    def __init__(self, x, y):
        self.x, self.y, self.drawn = x, y, []

    def say(self, text, more="", size=USUAL, gap=0):
        """Letters of a size, on as many lines as they need."""
        self.y += gap
        for line in wrap(text, int(LEGEND / ((BOLD_LETTER if "bold" in more else LETTER) * size))):
            self.y += size + 6
            self.drawn.append(words(self.x, self.y, line, f' font-size="{size}"{more}'))

    def entry(self, sign, text, amount=None):
        """A sign, what it means and, on the right, an amount; the sign is drawn about its middle."""
        self.y += LINE
        self.drawn += [*sign(self.x + 10, self.y - 4), words(self.x + 28, self.y, text)]
        if amount:
            self.drawn.append(words(self.x + LEGEND - 40, self.y, amount, f' text-anchor="end" fill="{PALE}" class="area"'))


def swatch(fill):
    """A small box of a shade."""
    return lambda x, y: [box(x - 9, y - 7, 18, 14, fill, f' stroke="{PALE}" stroke-width="0.5"')]


def film_swatch(fill):
    """A small box of ground with a film's dot."""
    return lambda x, y: [*swatch(fill)(x, y), film_dot(x, y)]


def say_depths(column, pair):
    """Each class of depth with the area that it covers."""
    depths, side = list(pair.answer.depths.values()), pair.sheet.side
    low = ground(0, 0, 1)
    column.say("depth of water, and its area", ' font-weight="bold"', gap=-4)
    dry, film = sum(deep == 0 for deep in depths), sum(0 < deep < CLASSES[0][0] for deep in depths)
    column.entry(swatch(low), "dry ground", area(dry, side))
    column.entry(film_swatch(low), FILM_NAME, area(film, side))
    for at, (_, colour, name) in enumerate(CLASSES):
        column.entry(swatch(colour), name, area(sum(class_of(deep) == at for deep in depths), side))


def say_signs(column, pair, standing):
    """Walls, exits, hatches, and standing squares as signs."""
    edition = pair.sheet.run["edition"]
    column.y += 6
    column.entry(swatch("url(#wall)"), wall_words(pair))
    column.entry(lambda x, y: [exit_sign(x, y)], "exit")
    for runs, name in ((True, "hatch, drawn at this clock"), (False, "hatch, shut at this clock")):
        column.entry(lambda x, y: [hatch_circle(x, y, 7, runs)], name)
    if edition != WEIGHTED:
        column.say(f"edition {edition} of the rule: no square stands", ' class="edition"')
        return
    for steep, name in ((True, "standing, falls by 1 mm or more"), (False, "standing, falls by less")):
        count = sum((found[4] >= STEEP) == steep for found in standing)
        column.entry(lambda x, y: [diamond(x, y, steep)], f"{name}: {count}")


def say_totals(column, pair, standing):
    """The answer in words and volumes."""
    sheet, answer = pair.sheet, pair.answer
    ends = heights_of(sheet)
    contours = f"contours every {gap_of(sheet) / 10_000:g} cm" if ends[0] != ends[1] else "all flat"
    column.say(f"ground {height(ends[0])} to {height(ends[1])} m, {contours}", gap=8)
    column.say(f"a square is {sheet.side} m by {sheet.side} m")
    for name, amount in volumes(pair.account()).items():
        column.say(f"{name}: {volume(amount)}", ' class="volume"')
    column.say(deepest_words(answer))
    back = f"; {pair.taken_back:,} taken back" if pair.taken_back else ""
    column.say(f"clock {time(answer.clock)}, after {steps(answer.steps)}{back}")
    if sheet.run["edition"] == WEIGHTED:
        column.say(standing_words(standing))


def say_tables(column, pair):
    """What rain and hatches gave, line by line."""
    column.y += 6
    lines = [f"rain {rain_rate(rate)} from {span(start, stop)}" for start, stop, rate in pair.sheet.rain]
    lines += [f"hatch {hatch.number} at {hatch.place[0]},{hatch.place[1]}: {hatch.openings()}" for hatch in hatches_in(pair)]
    for line in lines[:MOST_LISTED]:
        column.say(line, f' fill="{HATCH}"' if line.startswith("hatch") else "", SMALL, gap=-2)
    if len(lines) > MOST_LISTED:
        where = "the sheet and the log list them" if isinstance(pair, Night) else "tools/tell.py lists them"
        column.say(f"and {len(lines) - MOST_LISTED} more: {where}", "", SMALL, gap=-2)


def legend(x, y, pair, standing, whole, guesses=()):
    """The legend's parts, and how far down it reaches."""
    column = Column(x, y)
    say_depths(column, pair)
    say_caution_signs(column, pair, whole)
    say_signs(column, pair, standing)
    say_guesses(column, guesses, pair.sheet.side)
    say_totals(column, pair, standing)
    say_whole(column, pair, whole)
    say_tables(column, pair)
    say_doubts(column, pair)
    return [north_arrow(x + LEGEND - 20, y + 6), *column.drawn], column.y
