"""The project's own scripts: each Python file says what it is for, the packages look only at those below them, the fields of a sheet's
lines are listed in one file alone, nothing but bin/setup installs, a tool whose output nobody reads any more ends quietly, and what it
prints is UTF-8 everywhere."""
import ast
import os
import re
import subprocess
import sys

from meadow.counted import Checks
from meadow.programs import TOP
from meadow.sheets.lines import SQUARE

# the lowest first
PACKAGES = ("rule", "sheets", "logs", "peaks", "boards", "words", "surveys", "maps")
FOLDERS = ("examples", "python", "samples", "tests", "tools", "validation")
SAMPLE = [TOP / "samples" / f"walled-meadow.{kind}" for kind in ("sheet", "out")]
WITH_BOARDS = [TOP / "samples" / "winter" / f"3-christmas.{kind}" for kind in ("sheet", "boards")]
# a tool, and words with which it prints
TOOLS = {f"tools/{name}.py": SAMPLE for name in ("map", "standing", "tell")} | {"tools/why.py": SAMPLE[:1], "tools/header.py": []}
TOOLS |= {"tools/boards.py": WITH_BOARDS}
INSTALLS = re.compile(r"\b(apt|apt-get|pip|dpkg)\b.*(install|--add-architecture)")


def hold_docstrings(checks, files):
    for path in files:
        checks.hold(ast.get_docstring(ast.parse(path.read_text(encoding="utf-8"))), f"{path.relative_to(TOP)} does not say what it is for")


def hold_packages(checks):
    """A package of python/meadow imports only from those before it."""
    for at, package in enumerate(PACKAGES):
        for path in sorted((TOP / "python" / "meadow" / package).glob("*.py")):
            above = set(re.findall(r"^from \.\.(\w+)\.", path.read_text(encoding="utf-8"), re.M)) - set(PACKAGES[:at])
            checks.hold(not above, f"{path.relative_to(TOP)} looks at {above}")


def hold_one_table(checks, files):
    """The word of a square's line stands as a text in the table of fields only."""
    word = re.compile(rf"""["']{SQUARE}["']|{SQUARE}\\t""")
    places = [path.relative_to(TOP).as_posix() for path in files if word.search(path.read_text(encoding="utf-8"))]
    checks.hold(places == ["python/meadow/sheets/lines.py"], f"the fields of a square's line are listed in {places}")


def hold_installers(checks):
    found = [path for folder in (".ci", "bin", "tests") for path in sorted((TOP / folder).rglob("*"))]
    scripts = [path for path in found if path.is_file() and path.suffix in ("", ".sh")]
    checks.hold(TOP / "bin" / "setup" in scripts, "there is no bin/setup")
    for path in scripts:
        lines = [line for line in path.read_text(encoding="utf-8").splitlines() if not line.lstrip().startswith("#")]
        installs = any(INSTALLS.search(line) for line in lines)
        checks.hold(installs == (path.name == "setup"), f"{path.relative_to(TOP)} installs, or bin/setup does not")


def hold_quiet(checks):
    for name, words in TOOLS.items():
        tool = subprocess.Popen([sys.executable, TOP / name, *words], stdout=subprocess.PIPE, stderr=subprocess.PIPE)
        tool.stdout.close()
        checks.hold(tool.stderr.read() == b"", f"{name} complains of a broken pipe")
        tool.wait()


def hold_letters(checks):
    """What a tool prints does not depend on the letters that a machine has."""
    for name, words in TOOLS.items():
        printed = [
            subprocess.run([sys.executable, TOP / name, *words], env={**os.environ, "PYTHONIOENCODING": letters}, capture_output=True).stdout
            for letters in ("ascii", "utf-8")
        ]
        checks.hold(printed[0] == printed[1] != b"", f"{name} prints something else where there are only ASCII letters")


def main():
    checks = Checks("scripts")
    files = [path for folder in FOLDERS for path in sorted((TOP / folder).rglob("*.py"))]
    checks.hold(files != [], "there is no Python file")
    hold_docstrings(checks, files)
    hold_packages(checks)
    hold_one_table(checks, files)
    hold_installers(checks)
    hold_quiet(checks)
    hold_letters(checks)
    checks.end()


if __name__ == "__main__":
    main()
