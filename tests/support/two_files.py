"""Programs that take two files by their names at the standard input, a sheet and another one: the two in a folder, names that cannot be opened,
and files that nobody may read."""
import os
import pwd
import subprocess
from pathlib import Path

from meadow.programs import printed
from meadow.sheets.lines import refused_text
from printouts import hold_both


class Files:
    """A sheet and a file of another kind in a folder that everybody may read; and what is printed of them by the program, by document 02 in
    Python of their bytes (`answered`), and by it of the bytes at the standard input (`named`)."""

    def __init__(self, folder, program, kind, answered, named):
        self.folder, self.program, self.answered, self.named = Path(folder), program, answered, named
        self.folder.chmod(0o755)
        self.sheet, self.other = self.folder / "a.sheet", self.folder / f"a.{kind}"

    def put(self, sheet, other):
        """Their texts, a byte for each letter."""
        self.sheet.write_bytes(sheet.encode("latin-1"))
        self.other.write_bytes(other.encode("latin-1"))

    def given(self):
        """Their names, one a line."""
        return b"%s\n%s\n" % (os.fsencode(self.sheet), os.fsencode(self.other))

    def told(self, **how):
        """What the built program prints of them."""
        return printed(self.program, self.given(), **how).decode("ascii")

    def worked(self):
        """What document 02 gives of them."""
        return self.answered(self.sheet.read_bytes(), self.other.read_bytes())

    def hold(self, checks, words, answer):
        """The program and the Python give the answer."""
        hold_both(checks, words, self.told(), self.worked(), answer)

    def hold_given(self, checks, words, given, answer):
        """The same of any bytes at the standard input."""
        hold_both(checks, words, printed(self.program, given).decode("ascii"), self.named(given), answer)


def names_of(files, good):
    """What is tried, the bytes at standard input, and what is printed; `good` is what is printed of the files themselves."""
    sheet, other = os.fsencode(files.sheet), os.fsencode(files.other)
    folder, none, name = os.fsencode(files.folder), os.fsencode(files.folder / "none"), os.fsencode(files.other.name)
    long_name, long_path = folder + b"/" + b"n" * 256, folder + b"/." * 2_048 + b"/" + name
    slashes = 4_095 - len(folder) - len(name)
    refused = refused_text(12, 0)
    return [
        ("two names", sheet + b"\n" + other + b"\n", good),
        ("a longest path", sheet + b"\n" + folder + b"/" * slashes + name + b"\n", good),
        ("a path one byte longer", sheet + b"\n" + folder + b"/" * (slashes + 1) + name + b"\n", refused),
        ("a path far too long", sheet + b"\n" + long_path + b"\n", refused),
        ("a name too long for a folder", sheet + b"\n" + long_name + b"\n", refused),
        ("no such second file", sheet + b"\n" + none + b"\n", refused),
        ("no such sheet", none + b"\n" + other + b"\n", refused),
        ("neither is there", none + b"\n" + none + b"\n", refused),
        ("a folder for the sheet", folder + b"\n" + other + b"\n", refused),
        ("a folder for the second file", sheet + b"\n" + folder + b"\n", refused),
        ("a file that opens and cannot be read", sheet + b"\n/proc/self/mem\n", refused),
        ("a file in a file", sheet + b"\n" + other + b"/a\n", refused),
        ("nothing", b"", refused),
        ("a newline", b"\n", refused),
        ("two blank names", b"\n\n", refused),
        ("a blank sheet", b"\n" + other + b"\n", refused),
        ("a blank second name", sheet + b"\n\n", refused),
        ("one name", sheet + b"\n", refused),
        ("one name without a newline", sheet, refused),
        ("a second name without a newline after it", sheet + b"\n" + other, refused),
        ("three names", sheet + b"\n" + other + b"\n" + other + b"\n", refused),
        ("two names and a letter", sheet + b"\n" + other + b"\nx", refused),
        ("two names and a blank line", sheet + b"\n" + other + b"\n\n", refused),
        ("two names and very much more", sheet + b"\n" + other + b"\n" + b"x" * 70_000, refused),
        ("a tab for a newline", sheet + b"\t" + other + b"\n", refused),
        ("a carriage return after a name", sheet + b"\r\n" + other + b"\r\n", refused),
        ("a space before a name", b" " + sheet + b"\n" + other + b"\n", refused),
        ("a nought in a name", sheet + b"\0\n" + other + b"\n", refused),
    ]


def hold_names(checks, files, good, refused_sheet):
    """Names that cannot be opened are 12, line 0, before the sheet is read; the files are good ones, and the last sheet is refused."""
    for words, given, answer in names_of(files, good):
        files.hold_given(checks, words, given, answer)
    files.put(refused_sheet, "")
    given = b"%s\n%s\n" % (os.fsencode(files.sheet), os.fsencode(files.folder / "none"))
    files.hold_given(checks, "no such second file, and a sheet that is refused", given, refused_text(12, 0))


def hold_rights(checks, files, good):
    """A file that nobody may read is 12, line 0; root may read all, so that there the program is started as nobody."""
    how = {"user": pwd.getpwnam("nobody").pw_uid} if os.geteuid() == 0 else {}
    try:
        whole = files.told(**how)
    except (subprocess.CalledProcessError, OSError) as fault:
        checks.skip("a file that nobody may read", f"{files.program} cannot be started by nobody: {fault}")
        return
    checks.hold(whole == good, f"as nobody: {whole!r}")
    for path in (files.sheet, files.other):
        path.chmod(0)
        program = files.told(**how)
        path.chmod(0o644)
        checks.hold(program == refused_text(12, 0), f"no right to read {path.name}: {program!r}")
