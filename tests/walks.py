"""The walks by hand are what their tables make: the functions that hold a reference to boards are those of the tables; where one of them still has a
walk by hand in proofs/, in place of today's answers, it is as tools/walks.py writes it, and no other function has a proof of that kind. A table of one
call in another crate makes a walk of it; on a context made for it the lines find every entry where it lies."""
import re

from meadow.counted import Checks
from meadow.programs import TOP
from rattle import statics
from rattle.walks.context import Context
from rattle.walks.tables import RUN_TO_BOARDS, WALKS, alone

# what only a walk says
BY_HAND = re.compile(r"\bwalk[-_][mM]eets\b")
HOLDS = re.compile(r"^(?:pub )?(?:extern \"C\" )?fn (\w+)\((?:[^{]*?)&(?:mut )?\[Board\]", re.M)


def hold_made(checks):
    """Each walk that stands in proofs/ is as it is made."""
    for walk in WALKS:
        path = TOP / walk.path_in_crates
        holds = not path.exists() or path.read_text(encoding="utf-8") == walk.text()
        checks.hold(holds, f"{path.relative_to(TOP)} is not what its table makes: the kit finds the walk itself, with the answers that are wanted")


def hold_all(checks):
    """The functions that are lent boards, but for exports that only hand them on, are those of the tables, and no others are proved by hand."""
    exports = statics(TOP)
    sources = [path for path in sorted((TOP / "crates").glob("*/src/*.rt")) if path.parent.parent.name not in exports]
    lent = {(path.parent.parent.name, name) for path in sources for name in HOLDS.findall(path.read_text(encoding="utf-8"))}
    proofs = sorted((TOP / "crates").glob("*/proofs/**/Proof.antt"))
    walked = {path.relative_to(TOP) for path in proofs if BY_HAND.search(path.read_text(encoding="utf-8"))}
    checks.hold(lent == {(walk.crate, walk.function) for walk in WALKS}, f"other functions are lent boards than are walked: {sorted(lent)}")
    made = {walk.path_in_crates for walk in WALKS}
    checks.hold(walked <= made, f"other proofs are by hand than the tables make: {sorted(map(str, walked - made))}")


def hold_alone(checks):
    """A function of another crate that makes one walked call alone: one lemma, every slice to be written lent and closed, and the call by the name
    that other crates have for it."""
    text = alone("above::calling::after", RUN_TO_BOARDS, "Same r₁ boards₁", "got₁", [("above", "specs.Same.{Same}")]).text()
    checks.hold(re.findall(r"^    (from-\d+) :", text, re.M) == ["from-1"], "one call is not one lemma")
    for x in RUN_TO_BOARDS.written:
        checks.hold(f"(Held {RUN_TO_BOARDS.row(x)} (length {x}₀) b-{x} o-{x} δ)" in text, f"{x} is not lent")
        checks.hold(f"(zs {'.1 ' * list(RUN_TO_BOARDS.params).index(x)}.0)" in text, f"{x} does not become what the call made of it")
    checks.hold("use Rattle·display.proofs.lent.run_to_boards as run-to-boards\n" in text, "the call is not named as other crates name it")
    checks.hold("use Rattle·above·specs.specs.Same.{Same}\n" in text, "its own definitions are not named as its own")


def hold_context(checks):
    """Entries are moved, joined, dropped and read where they lie."""
    c = Context(["v-a", "b", "c", "d"])
    c.front("c", "b")
    c.join("fjoin", "d", "b", "both")
    c.drop("c")
    checks.hold(c.names == ["both", "v-a"], f"the entries are {c.names}")
    checks.hold(c.load("a") == "(load ! (from ! (stop !)) (look ! 1 refl))", "a local is not read where it lies")
    c.step("pick ! (λ r.", 1, "r")
    c.end("done !")
    lines = ["move ! (2 ∷ 1 ∷ []) $", "move ! (3 ∷ 1 ∷ []) $", "fjoin ! $", "move ! (1 ∷ []) $", "drop ! $", "pick ! (λ r.", "done !)"]
    checks.hold(c.lines == lines, f"the lines are {c.lines}")


def main():
    checks = Checks("walks")
    hold_made(checks)
    hold_all(checks)
    hold_alone(checks)
    hold_context(checks)
    checks.end()


if __name__ == "__main__":
    main()
