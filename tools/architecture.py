#!/usr/bin/env python3
"""architecture.py: what the pages say of the crates, made from the sources: the picture and the table of docs/ARCHITECTURE.md, from
crates.txt and the first sentence of each crate's root, and the table of crates in docs/METHOD.md, from the functions that the page cites.

    python3 tools/architecture.py            prints both pages
    python3 tools/architecture.py --write    writes them
"""
import re
import sys
from collections import defaultdict
from pathlib import Path

from begin import ended
from rattle import crates

TOP = Path(__file__).resolve().parent.parent
ARCHITECTURE, METHOD = TOP / "docs" / "ARCHITECTURE.md", TOP / "docs" / "METHOD.md"
PICTURE = re.compile(r"(?<=```mermaid\n).*?(?=```\n)", re.S)
CRATES, PARTS = "| crate | in its own words |", "| crate | has of this page |"
# a part's heading in docs/METHOD.md, and a row that cites: its part and its function
HEADING = re.compile(r"## (\d+) ")
CITES = re.compile(r"\| (.*?) \| .*?\.antt`.*? \| `(\w+)::[\w:]+` \| ")


def root(crate):
    """The source that a crate begins with."""
    sources = TOP / "crates" / crate / "src"
    return sources / "main.rt" if (sources / "main.rt").exists() else sources / "lib.rt"


def is_program(crate):
    return root(crate).name == "main.rt"


def picture():
    """Each crate and program with those that it may look at, as Mermaid; what follows from another arrow is left out."""
    listed = crates(TOP)
    lines = ["graph TD"]
    for name, others in listed.items():
        lines.append(f"  {name}([{name}])" if is_program(name) else f"  {name}[{name}]")
        below = [other for other in others if other in listed]
        lines += [f"  {name} --> {other}" for other in below if not any(other in listed[via] for via in below)]
    return "".join(line + "\n" for line in lines)


def own_words(crate):
    """The first sentence of the comment that a crate's root begins with."""
    comment = re.match(r"(?:// \S.*\n)+", root(crate).read_text(encoding="utf-8"))
    words = " ".join(line.removeprefix("// ") for line in comment[0].splitlines()) if comment else ""
    return re.match(r".*?(?:\.(?=\s|$)|$)", words)[0]


def described():
    """A row for each crate that is no program, the lowest first."""
    return [(f"`{name}`", own_words(name)) for name in crates(TOP) if not is_program(name)]


def parts():
    """Of each crate the parts of docs/METHOD.md that cite a function of it, by the number of the heading."""
    number, found = "", defaultdict(lambda: defaultdict(list))
    for line in METHOD.read_text(encoding="utf-8").splitlines():
        if heading := HEADING.match(line):
            number = heading[1]
        elif cited := CITES.match(line):
            found[cited[2]][number].append(cited[1])
    said = {name: "; ".join(f"{number}: {', '.join(names)}" for number, names in each.items()) for name, each in found.items()}
    return [(f"`{name}`", said[name]) for name in crates(TOP) if name in said]


def with_table(text, head, rows):
    """A page with the table that has this head made of these rows."""
    made = "".join(f"| {' | '.join(row)} |\n" for row in rows)
    return re.sub(rf"(?<={re.escape(head)}\n\|---\|---\|\n)(?:\|.*\n)*", lambda _: made, text)


def pages():
    """{page: its text with the picture and the tables as they are made}"""
    text = PICTURE.sub(lambda _: picture(), ARCHITECTURE.read_text(encoding="utf-8"))
    return {ARCHITECTURE: with_table(text, CRATES, described()), METHOD: with_table(METHOD.read_text(encoding="utf-8"), PARTS, parts())}


def main():
    for page, text in pages().items():
        if sys.argv[1:] == ["--write"]:
            page.write_text(text, encoding="utf-8")
        else:
            print(text)
    return 0


if __name__ == "__main__":
    ended(main, "architecture")
