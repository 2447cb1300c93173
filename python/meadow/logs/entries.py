"""Document 02, #107: a log's lines, with the fields of each kind in one table.

A line `hatch` names a hatch, a line `back` takes steps back, and a line without a word writes a hatch's rate at a clock.
"""
from typing import NamedTuple

from ..sheets.lines import Field
from ..sheets.reading import number_well

# kind of line: its fields, in their order after the kind's own word; a rate has no word
LOG_LINES = {
    "hatch": [Field("number"), Field("row"), Field("column")],
    "back": [Field("count")],
    "": [Field("clock"), Field("number"), Field("litres")],
}
HATCH, BACK, RATE = LOG_LINES


class Entry(NamedTuple):
    """What a line says: its kind, and its numbers in their order."""

    kind: str
    numbers: tuple


def written(*lines):
    """A log of lines that are written with spaces for tabs, as people read them."""
    return "".join(line.replace(" ", "\t") + "\n" for line in lines)


def parted(line):
    """The kind of a line, by its first field, and the fields after the kind's word."""
    fields = line.split("\t")
    return (fields[0], fields[1:]) if fields[0] in (HATCH, BACK) else (RATE, fields)


def entry_of(line):
    """What a line without its newline says; None where it cannot be read."""
    kind, fields = parted(line)
    if len(fields) != len(LOG_LINES[kind]) or not all(map(number_well, fields)):
        return None
    return Entry(kind, tuple(map(int, fields)))


def entries_in(text):
    """The number of each line, from 1, and what it says; a last line without its newline cannot be read."""
    *lines, rest = text.split("\n")
    yield from ((number, entry_of(line)) for number, line in enumerate(lines, 1))
    if rest:
        yield len(lines) + 1, None
