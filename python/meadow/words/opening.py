"""Files that programs take by their names: why one cannot be opened, and whether a refusal is the sheet's own."""
import os
from pathlib import Path

from ..rule.refusals import Refused, check
from ..sheets.pairs import bytes_as_text
from ..sheets.reading import MOST_BYTES, meadow_of, read


def unopened(path):
    """Why a file cannot be opened or read; None where it can."""
    try:
        str(path).encode("utf-8", "surrogateescape").decode("utf-8")
        Path(path).read_bytes()
    except UnicodeDecodeError:
        return "its name is not UTF-8"
    except (OSError, ValueError) as fault:
        return getattr(fault, "strerror", None) or str(fault)
    return None


def texts_of(files):
    """The texts of files, nothing for one that cannot be opened."""
    return ["" if unopened(path) else bytes_as_text(path) for path in files]


def file_faults(other, sheet_file, other_file):
    """Of 12 with line 0: of a sheet and another file, called so, those that cannot be opened and those that are too long."""
    return named_faults({"sheet": sheet_file, other: other_file}, MOST_BYTES)


def named_faults(files, most):
    """The same of files by what they are called, and so many bytes."""
    for kind, path in files.items():
        why = unopened(path)
        if why:
            yield f"the {kind} {path} cannot be opened: {why}"
        elif os.path.getsize(path) > most:
            yield f"the {kind} {path} has {os.path.getsize(path):,} bytes, and at most {most:,} are read"
        if "\n" in str(path):
            yield f"the name of the {kind} has a newline in it: give it another name"


def is_the_sheets(sheet_text, refused):
    """Whether a refusal is the sheet's own, which a program reads as `meadow` does, before anything of the other file."""
    try:
        sheet, end = read(sheet_text)
        check(meadow_of(sheet), end)
    except Refused as found:
        return (found.number, found.line) == tuple(refused)
    return False
