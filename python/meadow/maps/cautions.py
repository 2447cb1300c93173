"""What a map warns of: squares that were wet and are dry now, beds and marks that are likely slips, water inside a walled outline, steps held at the
shortest, and whatever in the sheet is likely a slip. Words and places are those that the other tools tell."""
from ..peaks.hours import WET
from ..words.cautions import held_words
from ..words.doubts import doubts, odd_places
from ..words.drownings import about
from ..words.enclosed import walled_in
from ..words.sense import ever_wet, highest_words, wet_words
from ..words.units import area, depth, graduation, squares
from .signs import doubt_sign, wave

# the most slips that a legend has room for
MOST_SLIPS = 4
WARNED = ' font-weight="bold" class="caution"'


def dried(whole):
    """The places that were wet at some time of a run and are not at its end."""
    ever, now = ever_wet(whole)
    return sorted(ever - now)


def caution_signs(paper, pair, whole):
    """A wave where it was wet and is not now, and a sign where bed or mark are likely a slip."""
    drawn = [wave(*paper.middle(place), ' class="dried"') for place in dried(whole)] if whole else []
    return drawn + [doubt_sign(*paper.middle(place), ' class="odd"') for place in odd_places(pair.sheet)]


def run_told(place, whole):
    """What a square says of the whole run to a pointer that rests on it, its course being asked for once."""
    peak = whole.heights.peaks[place]
    if peak.depth == 0:
        return "; dry all the time"
    when = f"after {about(peak.clock)}" if peak.clock else "at the start"
    wet = whole.hours.times[place]
    return f"; highest {depth(peak.depth)} {when}" + (f"; {graduation(WET)} deep or deeper for {about(wet)}" if wet else "")


def say_caution_signs(column, pair, whole):
    """What the signs mean, where there are any."""
    side = pair.sheet.side
    if whole and dried(whole):
        column.entry(lambda x, y: [wave(x, y)], f"was {graduation(WET)} deep, is not now", area(len(dried(whole)), side))
    if odd_places(pair.sheet):
        column.entry(lambda x, y: [doubt_sign(x, y)], "likely a slip of the survey", area(len(odd_places(pair.sheet)), side))


def wet_inside(pair):
    """The squares that are walled in on all sides and have water."""
    return [place for piece in walled_in(pair.sheet) for place in piece if pair.answer.depths[place] > 0]


def wall_words(pair):
    """What hatched squares are; that no water enters is said of them alone, and not of ground inside an outline that has some."""
    return "closed: no water enters" if not wet_inside(pair) else "closed: no water enters these squares"


def say_whole(column, pair, whole):
    """How high the water ever stood, how long squares were wet, and what must be minded."""
    inside = wet_inside(pair)
    if inside:
        column.say(f"{squares(len(inside))} inside walls on all sides have water: close them if they are a house", WARNED)
    if whole is None:
        return
    for words in filter(None, (highest_words(whole), wet_words(whole))):
        column.say(words, ' class="highest"')
    if words := held_words(whole):
        column.say(words, WARNED)


def say_doubts(column, pair):
    """What in the sheet is likely a slip."""
    found = doubts(pair.sheet, pair.end)
    for doubt in found[:MOST_SLIPS]:
        column.say(f"likely a slip: {doubt}", WARNED, gap=2)
    if len(found) > MOST_SLIPS:
        column.say(f"and {len(found) - MOST_SLIPS} more: tools/tell.py lists them", WARNED)
