#!/usr/bin/env python3
"""dev.py CRATE [WORDS ..]: `rt check WORDS` of a crate, said so that it can be read: what is proved is left out, and so are the long prefixes of
modules. All that rt said is kept in target/said/CRATE.out.

For each file of a proof that rt prints with holes and that is not there yet, the skeleton is written; with --no-write it is only named. Run it at
the root of a repository of Rattle. SAID_AT_MOST=N: so many characters are printed, the last ones (9,000).
"""
import os
import re
import subprocess
import sys
from pathlib import Path

from begin import ended

SKELETON = re.compile(r"help: write (?:\./)?(proofs/\S+\.antt) with these lines")
# what begins a new thing that rt says, and those of them that nobody needs in the loop
BEGINS = re.compile(r"fn |struct |enum |note:|/|\./|logic|library |statements |axioms |crate |rt: |checked |empty |holes|error|warning|help:")
NEEDLESS = ("note: what antt said", "note: antt's advice", "library ", "statements ", "axioms ", "logic /", "rt: chose --jobs", "rt: rt ", "checked ")
COMPUTED = "    (computed from:"
# modules of the project and of the kit whose names stand before nearly every word
PREFIXES = re.compile(
    r"Rattle\.\w+\.(?:proofs|specs)\."
    r"|\b(?:lib\.ListN|lib\.Seq|lib\.Dec|Prim\.Native\.Nat|mathlib\.Core\.(?:Path|List|Bool)"
    r"|borrow\.Table\.Row|borrow\.Rule\.Scalar|mir\.Val|mir\.Syntax|denote\.Ref)\."
)


def skeletons_apart(lines):
    """The lines without the printed skeletons, each of which leaves its head; and the skeletons, by the path of their file in the crate."""
    kept, skeletons, body = [], {}, None
    for line in lines:
        found = SKELETON.match(line)
        if found:
            body = skeletons.setdefault(found[1], [])
            kept.append(line)
        elif body is not None and (line.startswith("    ") or not line.strip()):
            body.append(line[4:].rstrip())
        else:
            body = None
            kept.append(line)
    return kept, {path: "\n".join(body).rstrip() + "\n" for path, body in skeletons.items()}


def needed(lines):
    """The lines without what is proved, and without what nobody needs in the loop."""
    skipping = computed = False
    for line in lines:
        if BEGINS.match(line):
            skipping = line.startswith(NEEDLESS)
        computed = line.startswith(COMPUTED) or (computed and line.startswith("      "))
        if not (skipping or computed or line.endswith(": proved")):
            yield line


def readable(said):
    """What rt said, as it is printed here, and the skeletons in it."""
    kept, skeletons = skeletons_apart(said.split("\n"))
    return PREFIXES.sub("", "\n".join(needed(kept))), skeletons


def main():
    words = [word for word in sys.argv[1:] if word != "--no-write"]
    if not words:
        print(__doc__, file=sys.stderr)
        return 2
    crate = Path("crates", words[0])
    done = subprocess.run(["rt", "check", *words[1:]], cwd=crate, text=True, stdin=subprocess.DEVNULL, stdout=subprocess.PIPE, stderr=subprocess.STDOUT)
    kept = Path("target", "said", f"{words[0]}.out")
    kept.parent.mkdir(parents=True, exist_ok=True)
    kept.write_text(done.stdout, encoding="utf-8")
    text, skeletons = readable(done.stdout)
    most = int(os.environ.get("SAID_AT_MOST", "9000"))
    print(text if len(text) <= most else "..\n" + text[-most:])
    for path, skeleton in ((crate / name, skeleton) for name, skeleton in skeletons.items()):
        if "--no-write" in sys.argv[1:] or path.exists():
            print(f"a skeleton is wanted: {path}")
        else:
            path.parent.mkdir(parents=True, exist_ok=True)
            path.write_text(skeleton, encoding="utf-8")
            print(f"a skeleton is written: {path}")
    return done.returncode


if __name__ == "__main__":
    ended(main, "dev")
