"""A sheet and the five files of its set in a folder, moved by the built programs `to_survey` and `from_survey`, which take them by their names at the
standard input; and what stands in a folder, to see that nothing was written."""
import os
import pwd
from pathlib import Path

from meadow.programs import printed_often
from meadow.surveys.sets import ENDINGS, Set

# who may read and write nothing that is not everybody's; root may all
NOBODY = {"user": pwd.getpwnam("nobody").pw_uid} if os.geteuid() == 0 else {}


def given_of(*paths):
    """The names of files as a program takes them, one a line."""
    return b"".join(os.fsencode(path) + b"\n" for path in paths)


def standing(folder):
    """All that stands in a folder: its bytes, when it was written, and which file it is."""
    found = sorted(path for path in Path(folder).rglob("*") if path.is_file())
    return {path: (path.read_bytes(), path.stat().st_mtime_ns, path.stat().st_ino) for path in found}


class SetFiles:
    """The files of a name in a folder that everybody may read."""

    def __init__(self, folder, name="a"):
        self.folder = Path(folder)
        self.folder.chmod(0o755)
        self.paths = {kind: self.folder / f"{name}{ending}" for kind, ending in {"sheet": ".sheet", **ENDINGS}.items()}

    def put_sheet(self, text):
        """The sheet, a byte for each letter."""
        self.paths["sheet"].write_bytes(text.encode("latin-1"))

    def put_set(self, texts):
        """The five files of a set."""
        for kind, text in texts._asdict().items():
            self.paths[kind].write_bytes(text.encode("latin-1"))

    def cleared(self):
        """No file of a set is there."""
        for kind in Set._fields:
            self.paths[kind].unlink(missing_ok=True)

    def set_there(self):
        """The set whose files stand there; None where one is missing."""
        paths = [self.paths[kind] for kind in Set._fields]
        return Set(*(path.read_bytes().decode("latin-1") for path in paths)) if all(path.exists() for path in paths) else None

    def names(self, **others):
        """The six paths in their order, some of them others."""
        return list((self.paths | others).values())

    def moved_out(self, given=None, **how):
        """What `to_survey` prints of names, those of these files where none are said."""
        return printed_often("to_survey", given_of(*self.names()) if given is None else given, **how).decode("ascii")

    def moved_back(self, given=None, **how):
        """What `from_survey` prints likewise."""
        return printed_often("from_survey", given_of(*self.names()[1:]) if given is None else given, **how).decode("latin-1")
