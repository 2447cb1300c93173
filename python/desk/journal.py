"""A trial's lines on the disk, each there before the engine has it. A last line without its newline was never made."""
import os
from pathlib import Path

from .files import written


class Full(Exception):
    """The disk takes no more."""


class Journal:
    """The journal in a file. What a torn write left behind its last newline is cut off, so that no later line is joined to it."""

    def __init__(self, path):
        self.path = Path(path)
        text = self.path.read_bytes()
        whole = text[: text.rfind(b"\n") + 1]
        if whole != text:
            os.truncate(self.path, len(whole))
        self.size = len(whole)
        self.head, *self.lines = [line.split("\t") for line in whole.decode("utf-8").splitlines()] or [[]]

    @classmethod
    def begun(cls, path, head):
        """A new journal with its first line."""
        written(path, "\t".join(head).encode("utf-8") + b"\n")
        return cls(path)

    def append(self, words):
        """One line more, on the disk when this returns; or nothing of it."""
        line = "\t".join(map(str, words)).encode("utf-8") + b"\n"
        try:
            with open(self.path, "ab") as file:
                file.write(line)
                file.flush()
                os.fsync(file.fileno())
        except OSError as fault:
            os.truncate(self.path, self.size)
            raise Full(fault.strerror) from None
        self.size += len(line)
        self.lines.append(list(map(str, words)))
