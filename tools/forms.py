#!/usr/bin/env python3
"""forms.py [POINT]: how often each older form stands in src/, by the points of docs/DESIGN-PASS.md; with a point's number its places, one a
line. A place is where to look, no verdict: the page says what was made of it, and the place itself why it stays."""
import difflib
import re
import sys
from collections import defaultdict
from pathlib import Path

from begin import ended

TOP = Path(__file__).resolve().parent.parent
HEAD = re.compile(r"^( *)(?:pub(?:\(crate\))? )?(?:unsafe )?(?:extern \"C\" )?fn (\w+)(?:<[^(]*>)?\(", re.M)
RECORD = re.compile(r"^(?:pub(?:\(crate\))? )?(struct|enum) (\w+)[^{;]*\{\n(.*?)^\}", re.S | re.M)
# variants that say that there is nothing, or a refusal
EMPTY = re.compile(r"^    (?:Not(?!e)\w*|No[A-Z]\w*|Unread|Refused)\b", re.M)
FLAG = re.compile(r"^    (?:pub(?:\(crate\))? )?(\w+): bool,", re.M)
NUMBERED = re.compile(r"^    (?:pub(?:\(crate\))? )?(refused|number|bad): (?:u32|usize),", re.M)
# a comment that says that 0 stands for no refusal, over a function
NONE_IS_0 = re.compile(r"((?:^ *//[^\n]*\n)+) *((?:pub(?:\(crate\))? )?fn \w+)", re.M)
TESTED = re.compile(r"^ *if (\w+) != 0 \{\n *return ", re.M)
STAND_IN = re.compile(r"^(?:pub(?:\(crate\))? )?const (NO_\w+|UNFIT): |^(?:pub(?:\(crate\))? )?fn (no_\w+|nothing|unread|none_\w+)\(", re.M)
LOOP = re.compile(r"^( *)while ([^\n]*?) \{\n(.*?)^\1\}", re.S | re.M)
# a parameter list is long from here on
MANY = 8
TOGETHER = (("marks", "beds", "roughness", "rates"), ("rain", "inflow"), ("depths", "lasts", "records"), ("left", "worked", "senders"))
# bodies are alike from here on, and are compared from so many lines on
ALIKE, LEAST = 0.9, 14
COPIED = re.compile(r"^ *(\w+)\[(\w+)\] = (\w+)\[\2\];$", re.M)


def sources():
    """The Rattle sources of src/, with their texts."""
    return [(path.relative_to(TOP).as_posix(), path.read_text(encoding="utf-8")) for path in sorted((TOP / "crates").glob("*/src/**/*.rt"))]


def functions(text):
    """The functions of a source: where each stands, its name, what is between its brackets, its body."""
    for found in HEAD.finditer(text):
        end = re.compile(rf"^{found[1]}\}}", re.M).search(text, found.end()).start()
        head, body = re.split(rf"(?:\n{found[1]}| )\{{\n", text[found.end() : end], maxsplit=1)
        listed = head.partition("\n" + found[1] + ")")[0] if head.startswith("\n") else head.partition("\n")[0]
        yield found.start(), found[2], listed, body


def place(path, text, at):
    return f"{path}:{text.count(chr(10), 0, at) + 1}"


def shapes(path, text):
    """Point 1: enums with an empty or a refused variant, flags and numbers beside values, functions whose 0 is no refusal, stand-ins."""
    for kind, name, body in RECORD.findall(text):
        at = text.index(f"{kind} {name}")
        if kind == "enum" and EMPTY.search(body):
            yield "an enum with an empty or refused variant", place(path, text, at), name
        if kind == "struct":
            for flag in FLAG.findall(body):
                yield "a flag in a struct", place(path, text, at), f"{name}.{flag}"
            for number in NUMBERED.findall(body):
                yield "a refusal's number in a struct", place(path, text, at), f"{name}.{number}"
    for found in NONE_IS_0.finditer(text):
        if "0 for none" in found[1] and "mask" not in found[1]:
            yield "a function whose 0 is no refusal", place(path, text, found.start(2)), found[2].split()[-1]
    for found in TESTED.finditer(text):
        yield "a number tested against 0 and handed on", place(path, text, found.start()), found[1]
    for found in STAND_IN.finditer(text):
        yield "a stand-in for no value", place(path, text, found.start()), found[1] or found[2]


def index_loops(path, text):
    """Point 3: a while whose condition names what its body counts up or down."""
    for found in LOOP.finditer(text):
        counted = re.findall(rf"^{found[1]}    (\w+) (?:\+=|-=) (?:1|\w+);$", found[3], re.M)
        if any(re.search(rf"\b{name}\b", found[2]) for name in counted):
            yield "a while that counts", place(path, text, found.start()), found[2]


def parameters(path, text):
    """Point 5: long parameter lists, and names that travel together."""
    for at, name, listed, _ in functions(text):
        names = re.findall(r"(?:^|,|\n)\s*(?:mut )?(\w+):", listed)
        if len(names) >= MANY:
            yield f"{MANY} parameters or more", place(path, text, at), f"{name} ({len(names)})"
        for group in TOGETHER:
            if set(group) <= set(names):
                yield "parameters " + ", ".join(group), place(path, text, at), name


def switches(path, text):
    """Point 7: a flag that says what a function does."""
    for at, name, listed, _ in functions(text):
        for flag in re.findall(r"(?:^|,|\n)\s*(\w+): bool", listed):
            yield "a flag as a parameter", place(path, text, at), f"{name}: {flag}"


def copies(path, text):
    """Point 4: an element copied for an element."""
    for found in COPIED.finditer(text):
        yield "an element copied by hand", place(path, text, found.start()), found[0].strip()


def arrays(path, text):
    """Point 6: arrays in a struct, with a length or another array beside them."""
    for kind, name, body in RECORD.findall(text):
        if kind == "struct" and re.search(r": \[\w+; \w+\],", body):
            yield "an array in a struct", place(path, text, text.index(f"struct {name}")), name


def twins(texts):
    """Point 2: pairs of functions with bodies that are alike."""
    bodies = []
    for path, text in texts:
        for _, name, _, body in functions(text):
            if body.count("\n") >= LEAST:
                bodies.append((path, name, re.findall(r"\w+|[^\w\s]", body)))
    for i, (path, name, words) in enumerate(bodies):
        for other, twin, others in bodies[i + 1:]:
            same = difflib.SequenceMatcher(None, words, others, autojunk=False)
            if same.real_quick_ratio() >= ALIKE and same.quick_ratio() >= ALIKE and same.ratio() >= ALIKE:
                yield "a pair of like bodies", path, f"{name}, {other} {twin}"


POINTS = {"1": shapes, "3": index_loops, "4": copies, "5": parameters, "6": arrays, "7": switches}


def main():
    texts = sources()
    found = {point: [row for path, text in texts for row in rows(path, text)] for point, rows in POINTS.items()}
    found["2"] = list(twins(texts))
    if len(sys.argv) > 1:
        print("\n".join("\t".join(row) for row in sorted(found[sys.argv[1]])))
        return
    for point in sorted(found):
        kinds = defaultdict(int)
        for kind, _, _ in found[point]:
            kinds[kind] += 1
        for kind in sorted(kinds):
            print(f"{point}\t{kinds[kind]}\t{kind}")


if __name__ == "__main__":
    ended(main, __name__)
