#!/usr/bin/env python3
"""edits.py: the table of the edits that the check must refuse, from the edits themselves: `fact:` says what fails, `where:` the function or
the file of laws where it fails first. The kit passes over both lines.

    python3 tools/edits.py            prints the table
    python3 tools/edits.py --write    puts it into docs/CONTRACTS.md
"""
import re
import sys
from pathlib import Path
from typing import NamedTuple

from begin import ended
from rattle import crates

TOP = Path(__file__).resolve().parent.parent
PAGE = TOP / "docs" / "CONTRACTS.md"
HEAD = "| edit | the fact that fails | where |\n|---|---|---|\n"
TABLE = re.compile(re.escape(HEAD) + r"(?:\|.*\n)*")


class Edit(NamedTuple):
    """One edit of a crate, with what it says of itself; empty where it does not say it."""

    crate: str
    name: str
    fact: str
    where: str


def edits():
    """Those of each crate, the lowest crate first."""
    for crate in crates(TOP):
        for path in sorted((TOP / "crates" / crate / "must-fail").glob("*.edit")):
            text = path.read_text(encoding="utf-8")
            said = [re.search(rf"^{word}: (.+)$", text, re.M) for word in ("fact", "where")]
            yield Edit(crate, path.stem, *(found[1] if found else "" for found in said))


def table():
    """A row for each edit; a place that is one name stands in backticks."""
    rows = [(f"`{edit.crate}/{edit.name}`", edit.fact, re.sub(r"^\S+$", r"`\g<0>`", edit.where)) for edit in edits()]
    return HEAD + "".join(f"| {' | '.join(row)} |\n" for row in rows)


def page():
    """docs/CONTRACTS.md with the table as it is made."""
    return TABLE.sub(lambda _: table(), PAGE.read_text(encoding="utf-8"))


def main():
    if sys.argv[1:] == ["--write"]:
        PAGE.write_text(page(), encoding="utf-8")
    else:
        print(table(), end="")
    return 0


if __name__ == "__main__":
    ended(main, "edits")
