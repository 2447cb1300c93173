#!/usr/bin/env python3
"""Brings the project's own definitions and lemmas to today's spelling, once, after the kit's port.py.

usage: python3 tools/spelling.py        at the top of the checkout

Words are in snake case: `rootOf` becomes `root_of`, and a dash stands only between two names, so that `pasted-long` becomes `pasted_long` and
`length-tabulate` stays. Types and modules are in camel case: the modules `inner` become `Inner`. It rewrites specs/, proofs/, src/ and must-fail/
of each crate and the pages, and says which names it left since another has that spelling.
"""

import os
import re
import sys

KEYWORDS = "pub abbrev unfoldable record data constructor".split()
DECLARED = re.compile(r"^(\s*)((?:(?:pub|abbrev|unfoldable|record|data) )*)([^\s(){}:,.;⊢]+)((?: [({].*)?) :(?: |$)")
TOKEN = re.compile(r"[A-Za-z_][A-Za-z0-9_'₀-₉-]*")
CAMEL = re.compile(r"(?<=[a-z0-9])([A-Z])")
STD = {"length", "get_or", "take", "drop", "set", "append", "sum", "min", "max", "ltb", "leb", "eqb", "suc", "add", "mul", "sub", "div", "replicate", "reverse", "map"}
# lemmas whose name is a function's, and the modules that have them
LEMMAS = {
    "all_short": ["ReturnLaws"],
    "closed_same": ["Alike", "SheetBack"],
    "go_on": ["DeskSaved"],
    "next_place": ["DecimalLaws", "RightLaws"],
    "no_line": ["PutLaws"],
    "one_less": ["Bridge"],
    "row_fine": ["AddedLaws"],
    "taken_back": ["TakenBack", "Standing"],
}
# the kit's own words that the project's files cite in this form
KEPT = {"ownVal"}


def files(root, endings):
    for folder, dirs, names in os.walk(root):
        dirs[:] = sorted(d for d in dirs if d not in ("out", ".git", "target"))
        for name in sorted(names):
            if name.endswith(endings):
                yield os.path.join(folder, name)


def read(path):
    with open(path, encoding="utf-8") as f:
        return f.read()


def declared(root):
    """The names that the project's own antt files declare, but for proofs of single functions; and those of them that definitions have."""
    names, words = set(), set(STD)
    for path in files(root, (".antt",)):
        if os.path.basename(path) == "Proof.antt":
            continue
        for line in read(path).split("\n"):
            m = DECLARED.match(line)
            if m and m.group(3) not in KEYWORDS:
                names.add(m.group(3))
                if "/specs/" in path and re.search(r"abbrev|unfoldable", m.group(2)):
                    words.add(snake(m.group(3)))
    return names, words


def snake(word):
    """A word in snake case: only one that begins in lower case and is no name of a constant of the source."""
    if word in KEPT or not re.match(r"[a-z]", word) or re.search(r"[A-Z]{2}|_[A-Z]", word):
        return word
    word = word.replace("getD", "get_or")
    if word == "get_d_tabulate":
        return "get_or-tabulate"
    return CAMEL.sub(lambda m: "_" + m.group(1).lower(), word)


def spelled(name, words):
    """A declared name in today's spelling."""
    parts = [p if re.match(r"[A-Z]", p) else snake(p) for p in name.split("-")]
    text = parts[0]
    for before, part in zip(parts, parts[1:]):
        joined = (before in words and part in words) or re.match(r"[A-Z]", part) or re.match(r"[A-Z]", before) or not part or not before
        text += ("-" if joined else "_") + part
    return text


def table(names, words):
    """Old name to new, without those that would fall together."""
    new, taken = {}, {}
    for name in sorted(names):
        if TOKEN.fullmatch(name):
            new[name] = spelled(name, words)
            taken.setdefault(new[name], []).append(name)
    for to, olds in sorted(taken.items()):
        if len(olds) > 1:
            for old in olds:
                if old != to:
                    new[old] = snake(old) if snake(old) not in taken or snake(old) == old else old
            print("together: " + ", ".join(olds))
    return {old: to for old, to in new.items() if old != to}


def beside(text, module, lemmas):
    """A file's text where lemmas that have the name of a function, and now that of a definition too, get `_lem`: where they stand, and where they are imported."""
    here = {name for name, modules in lemmas.items() if module in modules}
    for m in re.finditer(r"^use \S*\.(\w+)\.\{([^}]*)\}", text, flags=re.M):
        here |= {name for name in lemmas if m.group(1) in lemmas[name] and name in re.split(r",\s*", m.group(2))}
    for name in here:
        text = re.sub(rf"(?<![.\w-]){name}(?![\w-])", name + "_lem", text)
    return text


def turned(text, new, camel):
    def word(m):
        token = m.group(0)
        if token in new:
            return new[token]
        if camel:
            return "-".join(p if re.match(r"[A-Z]", p) else snake(p) for p in token.split("-"))
        return token

    return re.sub(r"\bspecs\.inner\b", "specs.Inner", TOKEN.sub(word, text))


def quiet(text):
    """The places of a Rattle source that are no string."""
    return re.split(r'("(?:[^"\\]|\\.)*")', text)


def main():
    if sys.argv[1:]:
        print(__doc__.strip())
        return 0 if sys.argv[1] in ("-h", "--help") else 2
    root = "crates"
    names, words = declared(root)
    new = table(names, words)
    print(f"{len(new)} names have another spelling")
    for path in list(files(root, (".antt",))):
        old = read(path)
        text = re.sub(r"^(pub mod |mod )inner$", r"\1Inner", turned(beside(old, os.path.basename(path)[:-5], LEMMAS), new, True), flags=re.M)
        write(path, old, text)
    for path in list(files(root, (".rt", ".edit"))):
        old = read(path)
        parts = quiet(old)
        parts[::2] = [turned(p, {k: v for k, v in new.items() if "-" in k or CAMEL.search(k)}, True) for p in parts[::2]]
        write(path, old, "".join(parts))
    for path in list(files("docs", (".md",))) + ["README.md"]:
        old = read(path)
        write(path, old, re.sub(r"`[^`\n]+`", lambda m: turned(m.group(0), {k: v for k, v in new.items() if "-" in k or CAMEL.search(k)}, False), old))
    for crate in sorted(os.listdir(root)):
        specs = os.path.join(root, crate, "specs")
        for old, to in (("inner.antt", "Inner.antt"), ("inner", "Inner")):
            if os.path.exists(os.path.join(specs, old)):
                os.rename(os.path.join(specs, old), os.path.join(specs, to))


def write(path, old, text):
    if text != old:
        with open(path, "w", encoding="utf-8") as f:
            f.write(text)


if __name__ == "__main__":
    sys.exit(main())
