"""Why `meadow` refused a sheet, in words: its number and line, the place that they are about, and what to do there.

Nothing is decided here. Where no place is found that fits the number, that is said.
"""
from ..programs import printed
from ..rule.refusals import Refused, check
from ..sheets.lines import ANSWER_LINES, INFLOW, REFUSED, Answer, values_of
from ..sheets.reading import MOST_SQUARES, meadow_of, read
from .faults import faults
from .misplaced import lines_in, slips_at, wanted
from .sense import deepest
from .slips import shown
from .units import depth, square, time

NOT_FOUND = "no place was found that fits it: please show the sheet to those who look after the program"
# of the run itself: what came to be too much, and what to do
IN_THE_RUN = {
    8: ("a square would be more than 100 m deep", "let less in, or give it an exit"),
    9: ("more water would have left than can be counted", "end the run earlier"),
}
# the most places that are told one by one
MOST_TOLD = 5


def refusal(answer):
    """The number and the line of a refusal; None for any other text."""
    kind, *fields = answer.removesuffix("\n").split("\t")
    if kind != REFUSED or len(fields) != len(ANSWER_LINES[REFUSED]) or not all(field.isdecimal() for field in fields):
        return None
    values = values_of(REFUSED, fields, ANSWER_LINES)
    return values["number"], values["line"]


def by_end(sheet, end):
    """What `meadow` answers to a sheet that ends at another clock; None where it is refused."""
    told = printed("meadow", sheet.text(end).encode("ascii")).decode("ascii")
    return None if refusal(told) else Answer(told)


def last_good(sheet, end):
    """The last multiple of the update time that the run comes to, with its answer: a run to an end is the beginning of one to a later."""
    update = sheet.run["update"]
    good, refused = 0, end // update
    while refused - good > 1:
        middle = (good + refused) // 2
        if by_end(sheet, middle * update):
            good = middle
        else:
            refused = middle
    return good * update, by_end(sheet, good * update)


def run_reasons(text, number):
    """How far the run comes before it is refused, and where the water is deepest then."""
    sheet, end = read(text)
    clock, answer = last_good(sheet, end)
    what, do = IN_THE_RUN[number]
    place, deep = deepest(answer)
    yield f"{what} between {time(clock)} and {time(clock + sheet.run['update'])}: {do}"
    yield f"at {time(clock)} the deepest is {square(place)}, with {depth(deep)}"


def text_reasons(text, line):
    """What the refused line is, what it must be, and its likely slips."""
    if line == 0:
        yield from slips_at(text, line)
        return
    for slip in slips_at(text, line) or [NOT_FOUND]:
        yield f"line {line}: {slip}"
    every, due = lines_in(text), wanted(text, line)
    if line <= len(every):
        yield f"line {line} is {shown(every[line - 1]) or 'blank'}"
    forms = [*due.forms(), *(["the sheet's end"] if INFLOW in due.kinds else [])]
    yield f"line {line} may be {', or '.join(forms)}"


def first_told(found):
    """The places that are told one by one, and how many more there are; that none was found, where there are none."""
    more = [f"and {len(found) - MOST_TOLD} more places"] if len(found) > MOST_TOLD else []
    return found[:MOST_TOLD] + more or [NOT_FOUND]


def reasons(text, number, line, most_squares=MOST_SQUARES):
    """Why a text was refused, line by line, the likeliest first."""
    if number == 12:
        return list(text_reasons(text, line))
    if number in IN_THE_RUN:
        return list(run_reasons(text, number))
    return first_told([str(fault) for fault in faults(number, text, most_squares)] if number <= 5 else [])


def why_not(text):
    """Why `meadow` would refuse a text before any step of it; nothing where it would take it."""
    try:
        sheet, end = read(text)
        check(meadow_of(sheet), end)
    except Refused as refused:
        return reasons(text, refused.number, refused.line)
    return []
