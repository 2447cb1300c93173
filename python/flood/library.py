"""libflood.so, found and loaded at the first call, and its functions called with arrays of Python's module `array`."""
import ctypes
import functools
import os
import platform
import re
from array import array
from pathlib import Path

from .declared import FUNCTIONS

TOP = Path(__file__).resolve().parent.parent.parent
# in a release, and where bin/release builds it
PLACES = (TOP / "lib" / "libflood.so", TOP / "target" / "flood" / "libflood.so")
MACHINE = "x86_64"

KINDS = {"u32": ctypes.c_uint32, "u64": ctypes.c_uint64, "usize": ctypes.c_size_t}
# the letter of an array of such numbers
LETTERS = {"u8": "B", "u32": "I", "u64": "Q", "f64": "d"}
ARRAY = re.compile(r"&(?:mut )?\[(\w+)\]")
# where an array without a number points, since no pointer may be null
NOWHERE = array("Q", [0])


class NoLibrary(ImportError):
    """libflood.so cannot be loaded here; the words say what to do instead."""


def path():
    """Where libflood.so lies: as FLOOD_LIBRARY says, else in the release, else where it was built."""
    said = os.environ.get("FLOOD_LIBRARY")
    for place in [Path(said)] if said else PLACES:
        if place.exists():
            return place
    raise NoLibrary(f"there is no {said or PLACES[0]}: a release has it, and bin/release --library builds it; bin/meadow SHEET needs no library")


@functools.cache
def functions():
    """Each function of the library, ready to be called."""
    if platform.machine() != MACHINE:
        raise NoLibrary(f"libflood.so is for {MACHINE}, and this machine is {platform.machine()}: run the program instead, bin/meadow SHEET or bin/run meadow < SHEET")
    library = ctypes.CDLL(os.fspath(path()))
    found = {}
    for name, (result, *parameters) in FUNCTIONS.items():
        found[name] = getattr(library, name)
        found[name].restype = KINDS[result]
        found[name].argtypes = [kind for _, written in parameters for kind in passed_as(written)]
    return found


def passed_as(kind):
    """The types that a parameter of a kind is passed as: an array as a pointer and how many numbers it has."""
    return (ctypes.c_void_p, ctypes.c_size_t) if ARRAY.fullmatch(kind) else (KINDS[kind],)


def passed(name, kind, value):
    """What is passed for a parameter; an array has numbers of its kind."""
    letter = ARRAY.fullmatch(kind)
    if not letter:
        # ctypes would pass the lowest bits of any other number
        if not 0 <= value < 1 << 8 * ctypes.sizeof(KINDS[kind]):
            raise OverflowError(f"{name} is {value}, which no {kind} is")
        return (value,)
    if value.typecode != LETTERS[letter[1]]:
        raise TypeError(f"{name} is an array of {value.typecode}, and {LETTERS[letter[1]]} is wanted")
    start, length = value.buffer_info()
    return (start if length else NOWHERE.buffer_info()[0], length)


def call(function, **given):
    """What a function gives; each of its parameters is given by its name."""
    _, *parameters = FUNCTIONS[function]
    return functions()[function](*(part for name, kind in parameters for part in passed(name, kind, given[name])))
