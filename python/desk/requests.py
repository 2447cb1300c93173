"""What a request may ask for: bodies are small JSON objects, numbers are whole and in range, names have no control letters."""
import json

from meadow.rule.ranges import LAST_CLOCK, RANGES

from .engine import MOST_HATCHES, MOST_STEPS
from .evening import LONGEST_NAME
from .trials import MOST_STANDING, Fault

MOST_BODY = 4_096
NOT_OURS = "this is no request of the desk's page"


def body_of(headers, file):
    """The JSON object of a request's body, read no further than its length says."""
    length = headers.get("Content-Length", "")
    if not (length.isascii() and length.isdigit()) or int(length) > MOST_BODY or headers.get("Content-Type") != "application/json":
        raise Fault(NOT_OURS)
    try:
        value = json.loads(file.read(int(length)))
    except (ValueError, RecursionError):
        raise Fault(NOT_OURS) from None
    if not isinstance(value, dict):
        raise Fault(NOT_OURS)
    return value


def whole(asked, name, least, most, usual=None):
    """A whole number of a body within its range; true is none."""
    value = asked.get(name, usual)
    if type(value) is not int or not least <= value <= most:
        raise Fault(f"{name} is not a whole number from {least:,} to {most:,}")
    return value


def name_in(asked):
    """A name of a body."""
    name = asked.get("name")
    if not isinstance(name, str) or not name.isprintable() or not 1 <= len(name) <= LONGEST_NAME:
        raise Fault(f"a name has 1 to {LONGEST_NAME} letters")
    return name


# a change of a trial, and the words of its journal line
CHANGES = {
    "draw": lambda asked: (whole(asked, "hatch", 1, MOST_HATCHES), whole(asked, "litres", *RANGES["litres"])),
    "step": lambda asked: (whole(asked, "count", 1, MOST_STEPS), whole(asked, "end", 0, LAST_CLOCK, LAST_CLOCK)),
    "back": lambda asked: (whole(asked, "count", 0, MOST_STANDING),),
    "mark": lambda asked: (name_in(asked),),
    "name": lambda asked: (name_in(asked),),
}
