#!/usr/bin/env python3
"""places.py CRATE FUNCTION            what is to be proved of a function, and the way to all that is known at each place
places.py CRATE FUNCTION ANSWERS    fills the holes of its Answers.antt and Invariants.antt from a file of answers

Run it at the root of a repository of Rattle. `rt check --start` writes what is missing of both files, with holes, and says what is known; this
says it in a line for each goal. FUNCTION is the path below proofs/, as `step` or `tables/rain_by`.

A file of answers begins with `use` lines to be added, and then has blocks:

    == returns returns-2 unfolding stepped
    rw (sym «field.ensures», lt_ltb _ _ «if1.taken»)

A block answers each goal that it names by the lines below it; «if1.taken» becomes the goal's own way to what is called so, the newest of that
name, as `c.if1.taken`. Invariants and measures are named as goals.
"""
import re
import subprocess
import sys
from pathlib import Path

from begin import ended

GOAL = re.compile(r"(?:\S+: goal \? in|note:) `([^`]+)`(?: of \S+ is yours to choose)?$")
AS_IN = re.compile(r" *names you can use: as in `([^`]+)` above$")
BY_STEP = re.compile(r" *names you can use, by step:$")
STEP = re.compile(r"[ |]+([\w.'-]+): ((?:\.\S.*)|same as .*)$")
FIELD = re.compile(r"\.([\w'-]+)(?: \{([^}]*)\})?")
HOLES = ("Answers.antt", "Invariants.antt")


class Missing(Exception):
    """Something that is named and is not there."""


class Places:
    """The goals of one function, from what rt says of them: the names of what is known at each, the newest last."""

    def __init__(self, said):
        self.goals, goal, by_step = {}, None, False
        for line in said.split("\n"):
            if found := GOAL.match(line):
                goal, by_step = self.goals.setdefault(found[1], []), False
            elif goal is not None and (found := AS_IN.match(line)):
                goal += self.goals.get(found[1], [])
            elif goal is not None and BY_STEP.match(line):
                by_step = True
            elif by_step and (found := STEP.match(line)):
                goal += self.names(*found.groups())
            else:
                by_step = False

    @staticmethod
    def names(step, fields):
        """What is known at a step, by its whole name."""
        for name, inside in FIELD.findall(fields):
            yield f"{step}.{name}"
            yield from (f"{step}.{name}.{field}" for field in re.findall(r"\.([\w'-]+)", inside))

    def told(self):
        """A line for each goal."""
        return [f"{goal} : {' '.join(known)}" for goal, known in self.goals.items()]

    def with_ways(self, goal, answer):
        """An answer with «thing» as the goal's own way to it."""
        known = self.goals.get(goal, [])

        def way(found):
            ends = [name for name in known if f".{name}".endswith(f".{found[1]}")]
            if not ends:
                raise Missing(f"nothing is called {found[1]} at {goal}: {' '.join(known)}")
            return ends[-1]

        return re.sub(r"«([\w.'-]+)»", way, answer)

    def filled(self, proof, answers):
        """A file of a proof with its holes filled, as far as they are its own."""
        head, *blocks = re.split(r"^== *", answers, flags=re.M)
        for block in blocks:
            first, answer = block.split("\n", 1)
            names, _, opened = first.partition("unfolding")
            for name in names.split():
                if name not in self.goals:
                    raise Missing(f"there is no goal {name}")
                proof = self.answered(proof, name, answer.strip("\n"), opened.strip())
        added = [line for line in head.strip().split("\n") if line and line not in proof]
        return "".join(f"{line}\n" for line in added) + proof

    def answered(self, proof, name, answer, opened):
        """A proof with one hole filled, or one answer put in another's place, where the proof has it."""
        hole = re.compile(rf"(?:^unfolding [^\n]*\n)?^({re.escape(name)} \w+ =)(?:[^\n]*\n(?: +[^\n]*\n)*)", re.M)
        lines, before = self.with_ways(name, answer), f"unfolding {opened}\n" if opened else ""
        indented = "".join(f"\n    {line}" for line in lines.split("\n"))
        return hole.sub(lambda found: f"{before}{found[1]}{indented}\n", proof, count=1)


def places(crate, function):
    """The goals of a function, whose files have been begun."""
    words = ["rt", "check", "--start", function.replace("/", "::"), "--allow-holes"]
    said = subprocess.run(words, cwd=Path("crates", crate), stdin=subprocess.DEVNULL, stdout=subprocess.PIPE, stderr=subprocess.STDOUT, text=True).stdout
    found = Places(said)
    if not found.goals:
        raise Missing(f"rt says no goal of {function}: is the name right, and is anything left to prove of it?")
    return found


def main():
    if len(sys.argv) not in (3, 4):
        print(__doc__, file=sys.stderr)
        return 2
    crate, function, *answers = sys.argv[1:]
    try:
        found = places(crate, function)
        if not answers:
            print(*found.told(), sep="\n")
            return 0
        for name in HOLES:
            proof = Path("crates", crate, "proofs", function, name)
            if proof.exists():
                proof.write_text(found.filled(proof.read_text(encoding="utf-8"), Path(answers[0]).read_text(encoding="utf-8")), encoding="utf-8")
    except Missing as missing:
        print(f"places: {missing}", file=sys.stderr)
        return 1
    return 0


if __name__ == "__main__":
    ended(main, "places")
