"""Files: one written whole or not at all, one read within a size, and one that only one program holds."""
import fcntl
import hashlib
import os
from contextlib import contextmanager
from pathlib import Path

MOST_FILE = 1 << 20


class Held(Exception):
    """Another program holds a file; what it wrote there."""


class TooLarge(Exception):
    """A file with more bytes than anything here has."""


def bytes_of(path):
    """A file's bytes, of which there are not too many; it is opened for reading."""
    with open(path, "rb") as file:
        data = file.read(MOST_FILE + 1)
    if len(data) > MOST_FILE:
        raise TooLarge(f"{path} has more than {MOST_FILE:,} bytes")
    return data


def name_of(data):
    """The name of bytes: their SHA-256."""
    return hashlib.sha256(data).hexdigest()


def on_disk(folder):
    """Waits until the names of a folder are on the disk."""
    opened = os.open(folder, os.O_RDONLY)
    try:
        os.fsync(opened)
    finally:
        os.close(opened)


def written(path, data):
    """Writes a file whole or not at all: beside it first, then in its place."""
    path = Path(path)
    new = path.with_name(path.name + ".new")
    try:
        with open(new, "wb") as file:
            file.write(data)
            file.flush()
            os.fsync(file.fileno())
        os.replace(new, path)
    except OSError:
        new.unlink(missing_ok=True)
        raise
    on_disk(path.parent)


@contextmanager
def held(path):
    """A file that no other program holds meanwhile, opened to write a word in it for those who come after."""
    with open(path, "a+", encoding="utf-8") as file:
        try:
            fcntl.flock(file, fcntl.LOCK_EX | fcntl.LOCK_NB)
        except BlockingIOError:
            file.seek(0)
            raise Held(file.read(MOST_FILE)) from None
        file.truncate(0)
        yield file
