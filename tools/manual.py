#!/usr/bin/env python3
"""manual.py: the programs' man pages, docs/man/NAME.1, made from what stands elsewhere: README's table of programs and of refusals, and the words at
the head of a program's own script.

    python3 tools/manual.py            prints them all
    python3 tools/manual.py --write    writes them, and takes away those of programs that have gone
"""
import re
import sys
from pathlib import Path

from begin import ended

TOP = Path(__file__).resolve().parent.parent
FOLDER = TOP / "docs" / "man"
README = TOP / "README.md"
PROGRAMS, REFUSALS = "| program | shows |", "| refused | in plain words | what to do |"
ALONE = "Runs the program alone: what it reads comes from standard input, and its status is 0 also where it refuses."
REFUSED = """\
A refusal is one line: the word refused, a number, and a line of the text that was read, or 0. tools/why.py says in words what to write.
README.md and docs/TOOLS.md have the numbers that are not of a sheet: of hatch logs, lists, boards and sets."""
# the comment at a script's head: its usage, up to a colon, and what it does
HEAD = re.compile(r"#!.*\n((?:#.*\n)+)")
USAGE = re.compile(r"(bin/\w+(?: [^\s:]+)*): (.*)", re.S)


def table(head):
    """The rows of the table of README that has this head."""
    after = README.read_text(encoding="utf-8").split(head + "\n", 1)[1].splitlines()[1:]
    rows = []
    for line in after:
        if not line.startswith("|"):
            break
        rows.append([cell.strip() for cell in line.strip("|").split(" | ")])
    return rows


def shows():
    """What README says of each program."""
    return {name.strip("` "): words for name, words in table(PROGRAMS)}


def usages(name):
    """The ways to call a program by its own script, where it has one, each with what is said of it there."""
    script = TOP / "bin" / name
    comment = HEAD.match(script.read_text(encoding="utf-8")) if script.exists() else None
    # a line that begins with a usage begins a part of its own
    parts = re.split(r"\n(?=# bin/)", comment[1].strip()) if comment else []
    said = [" ".join(line.removeprefix("#").strip() for line in part.splitlines()) for part in parts]
    return [USAGE.fullmatch(words).groups() for words in said if USAGE.fullmatch(words)]


def in_roff(text):
    """Words of a page as a man page has them: what stands in backticks is bold."""
    text = text.replace("\\", "\\e").replace("-", "\\-").replace("**", "")
    text = re.sub(r"`([^`]+)`", r"\\fB\1\\fR", text)
    return re.sub(r"^(?=[.'])", r"\\&", text, flags=re.M)


def page(name, words):
    """A program's man page."""
    version = (TOP / "VERSION").read_text().strip()
    called = usages(name)
    lines = [f'.TH {name.upper()} 1 "" "flood {version}" "The flood program of the mill museum"']
    lines += [".SH NAME", f"{name} \\- {in_roff(words)}", ".SH SYNOPSIS"]
    synopsis = [usage for usage, _ in called] + [f"bin/run {name}"]
    lines += [line for usage in synopsis for line in (f".B {in_roff(usage)}", ".br")][:-1]
    lines.append(".SH DESCRIPTION")
    for usage, said in called:
        lines += [".TP", f".B {in_roff(usage)}", in_roff(said)]
    lines += [".TP", f".B bin/run {name}", ALONE if called else "Runs the program, which reads nothing."]
    if called:
        lines += [".SH REFUSALS", REFUSED]
        for number, plain, remedy in table(REFUSALS):
            lines += [".TP", f".B {number}", f"{in_roff(plain)}: {in_roff(remedy)}."]
    lines += [".SH SEE ALSO", "README.md has the lines of a sheet and of an answer, docs/TOOLS.md an example of each program that people start."]
    return "\n".join(lines) + "\n"


def pages():
    """Every man page, by its path."""
    return {FOLDER / f"{name}.1": page(name, words) for name, words in shows().items()}


def main():
    if "--write" not in sys.argv[1:]:
        print("".join(pages().values()), end="")
        return 0
    FOLDER.mkdir(exist_ok=True)
    for gone in set(FOLDER.glob("*.1")) - set(pages()):
        gone.unlink()
    for path, text in pages().items():
        path.write_text(text, encoding="utf-8")
    return 0


if __name__ == "__main__":
    ended(main, "manual")
