"""Document 02, #114: the list at the standard input of `drowned`, a depth on its first line and then sheets' names, one a line."""
from ..rule.ranges import fine
from ..rule.refusals import Refused, refuse_if
from ..sheets.reading import MOST_BYTES, number_well

MOST_SHEETS = 200


def listed(depth, *names):
    """The bytes of a list."""
    return b"".join(line + b"\n" for line in (str(depth).encode("ascii"), *names))


def list_in(given):
    """The depth of a list and its names in their turn, None for a last one without its newline; or a refusal."""
    if len(given) > MOST_BYTES:
        raise Refused(12, 0)
    first, newline, rest = given.partition(b"\n")
    depth = first.decode("latin-1")
    if not newline or not number_well(depth):
        raise Refused(12, 1)
    refuse_if(not fine("depth", int(depth)), 5)
    *names, unended = rest.split(b"\n")
    names += [None] if unended else []
    refuse_if(len(names) > MOST_SHEETS, 16)
    return int(depth), names
