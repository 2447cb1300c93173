"""One line of sense about a winter's sheets, and one about how high the water of one sheet ever stood."""
from ..sheets.lines import MINUTE, SECOND
from .units import depth, square, steps, time


def sheets(count):
    """So many sheets."""
    return f"{count:,} sheet{'' if count == 1 else 's'}"


def most_often(tally):
    """The place and the numbers of the square that drowned most often, the first of several; None where no square ever did."""
    places = [place for place in sorted(tally.squares) if tally.squares[place].count > 0]
    place = max(places, key=lambda place: tally.squares[place].count, default=None)
    return None if place is None else (place, tally.squares[place])


def deepest_of_all(tally):
    """The place and the numbers of the square with the deepest water, the first of several; None where every square is closed."""
    place = max(sorted(tally.squares), key=lambda place: tally.squares[place].deepest, default=None)
    return None if place is None else (place, tally.squares[place])


def most_often_words(tally):
    """The square that drowned most often, in words."""
    found = most_often(tally)
    if found is None:
        return "no square in any sheet"
    place, drowned = found
    others = sum(other.count == drowned.count for other in tally.squares.values()) - 1
    more = f", and {others:,} other{'' if others == 1 else 's'} as often" if others else ""
    return f"most often at {square(place)}, in {drowned.count} of {sheets(tally.ran)}{more}"


def tally_sense(tally, wet_depth):
    """The line about a list."""
    refused = f"{len(tally.refused):,} refused" if tally.refused else "none refused"
    drowned = f"; {depth(wet_depth)} deep or deeper: {most_often_words(tally)}" if tally.ran else ""
    return f"{sheets(tally.ran)} run, {refused}{drowned}"


def about(clock):
    """A time, to the second where it has minutes."""
    return time(round(clock / SECOND) * SECOND if clock >= MINUTE else clock)


def heights_sense(heights):
    """The line about one sheet."""
    clock, made = heights.totals["clock"], steps(heights.totals["steps"])
    place = max(sorted(heights.peaks), key=lambda place: heights.peaks[place].depth, default=None)
    if place is None:
        return f"every square closed, until {time(clock)}; {made}"
    peak = heights.peaks[place]
    if peak.depth == 0:
        return f"all dry from the start until {time(clock)}; {made}"
    when = f"after {about(peak.clock)}" if peak.clock else "at the start"
    return f"deepest {depth(peak.depth)} at {square(place)}, {when}, of a run of {time(clock)}; {made}"
