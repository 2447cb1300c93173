"""Every Rattle source has the layout of `rt fmt`, and Debian's shellcheck and pyflakes3 find nothing in the shell scripts and in the Python.
The gate runs this first, since it needs nothing that is built. A linter that is not here is skipped."""
import re
import shutil
import subprocess
import tempfile
from pathlib import Path

from meadow.counted import Checks
from meadow.programs import TOP

FOLDERS = (".ci", "bin", "examples", "python", "samples", "tests", "tools", "validation")
# what is read from another file is looked up there
SHELLCHECK, PYFLAKES = ["shellcheck", "-x", "-f", "gcc"], ["pyflakes3"]
PARTS = ("src", "specs", "proofs")
LAID_OUT = re.compile(r"^rt: formatted (\w+)/(\w+)/(.*)$", re.M)
FINDING = re.compile(r"(.*?):\d+:\d+:? .*")


def scripts():
    """The shell scripts and the Python files, by their first line or their name, from the project's root."""
    shell, python = [], []
    for path in (path for folder in FOLDERS for path in sorted((TOP / folder).rglob("*")) if path.is_file()):
        if path.suffix == ".py":
            python.append(path.relative_to(TOP).as_posix())
        elif path.suffix == ".sh" or path.read_bytes().startswith(b"#!/usr/bin/env bash\n"):
            shell.append(path.relative_to(TOP).as_posix())
    return shell, python


def hold_layout(checks):
    """One check of all sources: `rt fmt` would lay none of them out otherwise. It only writes, so it is given copies, all as one crate's."""
    if not shutil.which("rt"):
        checks.skip("the layout of the Rattle sources", "no rt on the path")
        return
    with tempfile.TemporaryDirectory() as folder:
        for part in (part for kind in PARTS for part in sorted((TOP / "crates").glob(f"*/{kind}"))):
            shutil.copytree(part, Path(folder) / part.name / part.parent.name)
        told = subprocess.run(["rt", "fmt"], cwd=folder, stdout=subprocess.PIPE, stderr=subprocess.STDOUT, text=True)
    other = "".join(f"  crates/{crate}/{kind}/{rest}\n" for kind, crate, rest in LAID_OUT.findall(told.stdout))
    checks.hold(told.returncode == 0 and not other, f"rt fmt ends with {told.returncode}, and lays out otherwise:\n{other or told.stdout}")


def hold_clean(checks, linter, files):
    """A check for each file: the linter has nothing to say of it."""
    if not shutil.which(linter[0]):
        checks.skip(f"{linter[0]} over {len(files)} files", f"no {linter[0]} here; bin/setup installs it")
        return
    told = subprocess.run([*linter, *files], cwd=TOP, stdout=subprocess.PIPE, stderr=subprocess.STDOUT, text=True)
    lines = told.stdout.splitlines()
    for file in files:
        found = [line for line in lines if (finding := FINDING.match(line)) and finding[1] == file]
        checks.hold(not found, "\n".join([f"{linter[0]} of {file}:", *found]))
    checks.hold((told.returncode == 0) == (lines == []), f"{linter[0]} ends with {told.returncode}:\n{told.stdout}")


def main():
    checks = Checks("linters")
    shell, python = scripts()
    checks.hold(shell and python, "there is no script, or no Python")
    hold_layout(checks)
    hold_clean(checks, SHELLCHECK, shell)
    hold_clean(checks, PYFLAKES, python)
    checks.end()


if __name__ == "__main__":
    main()
