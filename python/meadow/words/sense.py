"""One line of sense about an answer: how much water is where, the deepest place, the clock and the steps; of a run that is seen whole also how
high the water ever stood, and how long squares were wet."""
from ..peaks.hours import WET
from .drownings import about
from .units import depth, graduation, square, squares, steps, time, volume


def deepest(answer):
    """The place and the depth of the deepest square, the first of several; None where every square is closed."""
    places = sorted(answer.depths)
    return max(((place, answer.depths[place]) for place in places), key=lambda found: found[1], default=None)


def deepest_words(answer):
    """The deepest place in words."""
    found = deepest(answer)
    if found is None:
        return "every square closed"
    place, deep = found
    return f"deepest {depth(deep)} at {square(place)}" if deep > 0 else "all dry"


def volumes(told):
    """On the meadow, gone by exits and soaked, of an account, each by its name in m³."""
    amounts = (("on the meadow", told.ground), ("gone by exits", told.exits), ("soaked", told.soaked))
    return {name: told.cubic_metres(amount) for name, amount in amounts}


def highest(heights):
    """The place and the peak of the highest water, the first of several; None where every square is closed, or dry all the time."""
    place = max(sorted(heights.peaks), key=lambda place: heights.peaks[place].depth, default=None)
    return None if place is None or heights.peaks[place].depth == 0 else (place, heights.peaks[place])


def highest_words(whole):
    """The highest water of a run in words, and when it was; nothing where there never was any."""
    found = highest(whole.heights)
    if found is None:
        return ""
    place, peak = found
    when = f"after {about(peak.clock)}" if peak.clock else "at the start"
    return f"highest {depth(peak.depth)} at {square(place)}, {when}"


def ever_wet(whole):
    """The places that were wet at some time of a run, and those that are at its end."""
    ever, now = ({place for place, deep in depths.items() if deep >= WET} for depths in (whole.heights.depths, whole.pair.answer.depths))
    return ever, now


def wet_words(whole):
    """How many squares were wet at some time, how many are now, and the longest time; nothing where none was."""
    ever, now = ever_wet(whole)
    if not ever:
        return ""
    times = whole.hours.wet().values()
    long = f", the longest for {about(max(times))}" if times else ""
    return f"{graduation(WET)} deep or deeper: {squares(len(ever))} at some time, {len(now) or 'none'} at the end{long}"


def whole_sense(whole):
    """The line about a run that is seen whole."""
    said, rest = sense(whole.pair).rsplit("; ", 1)
    if highest(whole.heights):
        said = said.replace("all dry", "dry now")
    return "; ".join(filter(None, [said, highest_words(whole), wet_words(whole), rest]))


def sense(pair):
    """The line; what soaked is left out where nothing did, and so are steps taken back."""
    told = volumes(pair.account())
    said = [f"{volume(amount)} {name}" for name, amount in told.items() if name != "soaked" or amount > 0]
    back = f" stand{'s' if pair.answer.steps == 1 else ''}, {pair.taken_back:,} taken back" if pair.taken_back else ""
    return f"{', '.join([*said, deepest_words(pair.answer)])}, after {time(pair.end)}; {steps(pair.answer.steps)}{back}"


def hours_sense(hours):
    """The line about what `hours_wet` printed: how many squares were wet, and the first of those that were for longest."""
    wet = hours.wet()
    run = f"of a run of {time(hours.totals['clock'])}; {steps(hours.totals['steps'])}"
    if not wet:
        return f"{graduation(WET)} deep or deeper: {'no square' if hours.times else 'every square closed'}, {run}"
    place = max(sorted(wet), key=lambda place: wet[place])
    return f"{graduation(WET)} deep or deeper: {squares(len(wet))}, the longest for {about(wet[place])} at {square(place)}, {run}"


def night_sense(night):
    """The line about an evening by the log; of one of which nothing was printed, that."""
    return sense(night) if night.answer else "nothing is printed of this log: it has no line with a clock, and none that takes steps back"
