#!/usr/bin/env python3
"""release.py FOLDER: packs flood-VERSION.tar.gz into FOLDER from what is built; bin/release builds it first. The same commit gives the same bytes:
names are sorted, every file has the time of the commit and no owner, and nothing else of this machine comes in."""
import gzip
import hashlib
import io
import os
import re
import subprocess
import sys
import tarfile
from pathlib import Path

from begin import ended

TOP = Path(__file__).resolve().parent.parent
# folders that come in whole, under their own names
WHOLE = ("bin", "docs", "examples", "python", "rust", "samples", "tools", "validation")
# what is of no use without the sources, or is packed elsewhere
LEFT_OUT = {"docs/RELEASE.md", "docs/PORT.md", "docs/DESIGN-PASS.md", "docs/LOOK-BACK.md", "docs/design-left.patch", "docs/man", "python/rattle"}
LEFT_OUT |= {f"bin/{name}" for name in ("release", "setup", "speed", "test")}
LEFT_OUT |= {
    f"tools/{name}.py"
    for name in ("architecture", "believed", "dev", "edits", "forms", "header", "manual", "pictures", "places", "program_speed", "release", "spelling", "speed", "unused", "walks")
}
# what stands elsewhere in the archive: its folder there, and the files here
MOVED = {
    "include": ("crates/exports/flood.h", "crates/display_exports/display.h"),
    "lib": ("target/flood/libflood.a", "target/flood/libflood.so"),
    ".": ("LICENCE", "VERSION"),
}
# the archive's README is docs/RELEASE.md with these sections of README.md
SECTIONS = ("Write your first sheet", "What it is", "A sheet", "The answer", "Tools round it")
PKG_CONFIG = """\
prefix=${{pcfiledir}}/../..
libdir=${{prefix}}/lib
includedir=${{prefix}}/include

Name: flood
Description: The flood program of the mill museum: a meadow stepped, run and taken back
Version: {version}
Cflags: -I${{includedir}}
Libs: -L${{libdir}} -Wl,-rpath,${{libdir}} -lflood
"""
SUMS = "SHA256SUMS"


def version():
    """The release."""
    return (TOP / "VERSION").read_text().strip()


def packed_time():
    """The commit's time in seconds, or what SOURCE_DATE_EPOCH says."""
    said = os.environ.get("SOURCE_DATE_EPOCH")
    return int(said) if said else int(git("log", "-1", "--format=%ct"))


def git(*words):
    """What git says of this folder, whoever owns it."""
    told = subprocess.run(["git", "-c", f"safe.directory={TOP}", *words], cwd=TOP, capture_output=True, text=True)
    if told.returncode != 0:
        raise OSError(f"git does not know the commit, whose time the files get: {told.stderr.strip()}; SOURCE_DATE_EPOCH says it instead")
    return told.stdout


def is_left_out(name):
    """Whether a file or a folder that it stands in is left out."""
    return any(name == out or name.startswith(f"{out}/") for out in LEFT_OUT) or {"__pycache__", "target"}.intersection(name.split("/"))


def readme():
    """The archive's first page."""
    sections = re.split(r"^## ", (TOP / "README.md").read_text(encoding="utf-8"), flags=re.M)
    named = {section.split("\n", 1)[0]: section for section in sections}
    return (TOP / "docs" / "RELEASE.md").read_text(encoding="utf-8") + "".join("\n## " + named[name].rstrip("\n") + "\n" for name in SECTIONS)


def programs():
    """The names of the programs, as the sources have them."""
    return [path.parent.parent.name for path in (TOP / "crates").glob("*/src/main.rt")]


def contents():
    """Every file of the archive but the sums: its bytes, and whether it can be run."""
    paths = {}
    for folder in WHOLE:
        names = (path.relative_to(TOP).as_posix() for path in (TOP / folder).rglob("*") if path.is_file())
        paths |= {name: TOP / name for name in names if not is_left_out(name)}
    for folder, names in MOVED.items():
        paths |= {os.path.normpath(f"{folder}/{Path(name).name}"): TOP / name for name in names}
    paths |= {f"programs/{name}": TOP / "crates" / name / "out" / name for name in programs()}
    paths |= {f"man/man1/{path.name}": path for path in (TOP / "docs" / "man").glob("*.1")}
    found = {name: (path.read_bytes(), os.access(path, os.X_OK)) for name, path in paths.items()}
    found["README.md"] = (readme().encode("utf-8"), False)
    found["lib/pkgconfig/flood.pc"] = (PKG_CONFIG.format(version=version()).encode("ascii"), False)
    return found


def packed(files, time):
    """The archive's bytes."""
    out = io.BytesIO()
    with gzip.GzipFile(filename="", mode="wb", fileobj=out, mtime=0) as zipped, tarfile.open(fileobj=zipped, mode="w", format=tarfile.USTAR_FORMAT) as tar:
        for name, (data, runs) in sorted(files.items()):
            entry = tarfile.TarInfo(f"flood-{version()}/{name}")
            entry.size, entry.mtime, entry.mode = len(data), time, 0o755 if runs else 0o644
            tar.addfile(entry, io.BytesIO(data))
    return out.getvalue()


def main():
    if len(sys.argv) != 2:
        print("usage: release.py FOLDER", file=sys.stderr)
        return 2
    time = packed_time()
    if not os.environ.get("SOURCE_DATE_EPOCH") and git("status", "--porcelain"):
        print("bin/release: mind: this folder has changes that are in no commit, and so has the archive", file=sys.stderr)
    files = contents()
    sums = "".join(f"{hashlib.sha256(data).hexdigest()}  {name}\n" for name, (data, _) in sorted(files.items()))
    files[SUMS] = (sums.encode("ascii"), False)
    archive = Path(sys.argv[1]) / f"flood-{version()}.tar.gz"
    archive.parent.mkdir(parents=True, exist_ok=True)
    data = packed(files, time)
    archive.write_bytes(data)
    print(f"{hashlib.sha256(data).hexdigest()}  {archive}")
    return 0


if __name__ == "__main__":
    ended(main, "bin/release")
