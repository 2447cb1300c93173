"""A saved state: one line of JSON that says what it is of, then the text that the program's `stand` printed. One file, so that no power cut can
part the two."""
import json
from typing import NamedTuple

from .files import TooLarge, bytes_of, name_of

# the lines of a state's text that are not of the water: what hatches run at, and whether more may be named
RATES, HEAD = b"hatch\t", b"stand\t"


class Stand(NamedTuple):
    """What is known of a state, by name, and the state's text. `sheet` names the sheet, `log` has the log's lines that were used, `state` names
    the text, and the keeper's run says how far it has come."""

    told: dict
    text: bytes

    def bytes(self):
        """The file's bytes."""
        return json.dumps(self.told).encode("ascii") + b"\n" + self.text


def stand_of(text, sheet, log, **told):
    """A stand of a state's text, of a sheet's bytes and of the log's lines that were used."""
    return Stand({"sheet": name_of(sheet), "log": log.decode("ascii"), "state": name_of(text), **told}, text)


def read(path):
    """The stand in a file; None where there is none, or it is not whole."""
    try:
        first, text = bytes_of(path).split(b"\n", 1)
        told = json.loads(first)
    except (FileNotFoundError, ValueError, TooLarge):
        return None
    right = isinstance(told, dict) and told.get("state") == name_of(text) and isinstance(told.get("log"), str)
    return Stand(told, text) if right else None


def water_of(text):
    """The name of the water alone: depths, last leaving, steps, clock, length, what left, soaked and was given; not what hatches run at."""
    lines = [line for line in text.splitlines(True) if not line.startswith(RATES)]
    return name_of(b"".join(line.rsplit(b"\t", 1)[0] + b"\n" if line.startswith(HEAD) else line for line in lines))
