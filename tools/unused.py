#!/usr/bin/env python3
"""unused.py [TOP]: names that a Rattle or antt file imports and does not use, and public definitions and laws that no file names. A first
look: what only a reader or another language uses is among them, so check before you delete."""
import re
import sys
from collections import Counter, defaultdict
from pathlib import Path

from begin import ended

TOP = Path(__file__).resolve().parent.parent
IMPORT = {
    ".antt": re.compile(r"^(?:ghost )?use [^\n;]*?\{([^}]*)\}", re.M),
    ".rt": re.compile(r"^(?:ghost )?use (?:[^;]*?\{([^}]*)\}|[\w:]*::(\w+);)", re.M),
}
IMPORT_LINE = re.compile(r"^(?:pub )?(?:ghost )?use [^\n]*$", re.M)
DEFINED = re.compile(r"^\s*(?:unfoldable |abbrev )*pub (?:record |data |unfoldable |abbrev )*([\w'-]+) (?::|\()", re.M)
HEADED = r"^\s*(?:unfoldable |abbrev |pub |record |data )*{}(?![\w'-])"
WORD = re.compile(r"\w[\w'-]*")
# where an operator has its arguments
HOLE = "◌"
# where the sources of a kind stand in a crate
PARTS = {"rt": ("src",), "antt": ("specs", "proofs")}
# files of a proof, whose names are those of goals
OF_GOALS = ("Proof.antt", "Answers.antt", "Invariants.antt")


def plain(text):
    """Without comments."""
    return re.sub(r"^\s*//.*", "", re.sub(r"--.*", "", text), flags=re.M)


def is_used(name, body):
    """Whether a text uses a name; of an operator, whether it has its signs."""
    if HOLE in name:
        return all(sign in body for sign in name.split(HOLE) if sign)
    return re.search(rf"(?<![\w'-]){re.escape(name)}(?![\w'-])", body) is not None


def imports(path, text):
    """The names that a file imports, by the names that it gives them."""
    for found in IMPORT[path.suffix].finditer(text):
        for part in next(filter(None, found.groups()), "").split(","):
            if part.strip():
                yield part.split(" as ")[-1].strip().strip("«»")


def idle_imports(texts):
    """{path: names that it imports and does not use}"""
    idle = {}
    for path, text in texts.items():
        body = plain(IMPORT_LINE.sub("", text))
        names = [name for name in imports(path, text) if not is_used(name, body)]
        if names:
            idle[path] = names
    return idle


def lone_names(texts):
    """{name: the files that define it}, for public names that stand only where they are defined."""
    defined = defaultdict(set)
    for path, text in texts.items():
        if path.suffix == ".antt" and path.name not in OF_GOALS:
            for name in DEFINED.findall(text):
                defined[name].add(path)
    without = {path: plain(text) for path, text in texts.items()}
    counts = Counter(word for text in without.values() for word in WORD.findall(text))
    own = {name: sum(len(re.findall(HEADED.format(re.escape(name)), without[path], re.M)) for path in paths) for name, paths in defined.items()}
    return {name: defined[name] for name in sorted(defined) if counts[name] <= own[name]}


def main():
    top = Path(sys.argv[1]) if len(sys.argv) > 1 else TOP
    paths = [path for kind, folders in PARTS.items() for folder in folders for path in sorted((top / "crates").glob(f"*/{folder}/**/*.{kind}"))]
    texts = {path.relative_to(top): path.read_text(encoding="utf-8") for path in paths}
    idle, lone = idle_imports(texts), lone_names(texts)
    print(f"imported and not used: {sum(map(len, idle.values()))} names in {len(idle)} files")
    for path in sorted(idle):
        print(f"  {path}: {', '.join(idle[path])}")
    print(f"public and named nowhere else: {len(lone)}")
    for name, paths in lone.items():
        print(f"  {name} ({', '.join(map(str, sorted(paths)))})")
    return 0


if __name__ == "__main__":
    ended(main, "unused")
