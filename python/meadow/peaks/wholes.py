"""A sheet's run seen whole: the water at its end by `meadow`, how high it ever stood by `highest`, for how long squares were wet by `hours_wet`, and
its course by `hatchlog`. The four run side by side, and are held to one another."""
import tempfile
from contextlib import contextmanager
from pathlib import Path
from typing import NamedTuple

from ..programs import built, side_by_side
from ..rule.refusals import Refused
from ..sheets.lines import Answer, Unreadable
from ..sheets.pairs import Pair, balanced, bytes_as_text, hold_same, pair_of, sheet_text
from ..sheets.reading import read
from .courses import Course, log_of
from .heights import Heights, heights_of
from .hours import WET, Hours, hours_of

END, HIGHEST, WET_TIMES, COURSE = "meadow", "highest", "hours_wet", "hatchlog"


class Whole(NamedTuple):
    """A sheet with its answer; how high the water stood; for how long each square was wet; and the course of the run, None where no log can be
    laid over the sheet."""

    pair: Pair
    heights: Heights
    hours: Hours
    course: Course


def log_text(text):
    """The log that watches a sheet's run; empty where there is none, or no sheet."""
    try:
        return log_of(*read(text))
    except Refused:
        return ""


@contextmanager
def runs_of(text):
    """The programs under way on a sheet's text, by name."""
    log = log_text(text)
    names = (END, HIGHEST, WET_TIMES, *([COURSE] if log else []))
    built(*names)
    with tempfile.TemporaryDirectory() as folder:
        files = Path(folder) / "sheet", Path(folder) / "log"
        for path, of in zip(files, (text, log)):
            path.write_bytes(of.encode("latin-1"))
        named = "".join(f"{path}\n" for path in files).encode()
        with side_by_side({name: named if name == COURSE else text.encode("latin-1") for name in names}) as runs:
            yield runs


def whole_of(text, told):
    """A run seen whole, by what each program printed of a sheet's text."""
    pair = balanced(pair_of(*read(text), Answer(told[END])))
    heights, hours = heights_of(text, told[HIGHEST]), hours_of(text, told[WET_TIMES])
    answer = pair.answer
    if tuple(heights.totals.values()) != tuple(answer.totals.values()) or any(deep > heights.depths[place] for place, deep in answer.depths.items()):
        raise Unreadable("meadow and highest have not made one run")
    if hours.totals != answer.totals or any(heights.depths[place] < WET for place in hours.wet()):
        raise Unreadable("meadow and hours_wet have not made one run")
    course = Course(pair.sheet, pair.end, told[COURSE]) if COURSE in told else None
    if course and course.answers[-1].text != answer.text:
        raise Unreadable("meadow and hatchlog have not made one run")
    return Whole(pair, heights, hours, course)


def whole_in(sheet_file, answer_file=None):
    """The run of a sheet in a file; where an answer is there already, it must be what `meadow` prints."""
    text = sheet_text(sheet_file)
    with runs_of(text) as runs:
        told = {name: run.whole().decode("ascii") for name, run in runs.items()}
    if answer_file:
        hold_same(text, bytes_as_text(answer_file), told[END])
    return whole_of(text, told)
