"""tools/believed.py counts what it says it counts, finds each fault that it says it finds, in small projects made for it, and finds none in
this one: what a reader must believe is short, and nothing in specs/ is there for nobody."""
import contextlib
import io
import re
import tempfile
from pathlib import Path

import believed
from meadow.counted import Checks

# Eight lines to believe in `low`, the head of its module and the order of its operator among them, and two in `flood`; two that only a layer
# function gives, and four inside.
PROJECT = {
    "crates.txt": "# crates\nlow:\nflood: low\ndemands: low flood\nshow: low\n",
    "crates/low/specs/Lib.antt": "pub mod Water\npub mod Worked\npub mod Inner\n",
    "crates/low/specs/Inner.antt": "pub mod Asked\npub mod Determined\n",
    "crates/low/specs/Water.antt": """-- Water, of which `idle` is only a word here.
use Rattle.std.specs.Prelude.{ℕ, ◌+◌}
use Rattle.low.specs.declared.squares.Shape.{Shape}

module _ (s : Shape) where
  -- how deep
  abbrev pub depth : ℕ
  depth = 1

-- or not
pub data Seen : Type 0 where
  wet : ℕ → Seen

infix 70 ◌over◌
abbrev pub ◌over◌ : ℕ → ℕ → ℕ
a over b = a + b

abbrev pub Judged : ℕ → Type 0
Judged r = r ≡ 1
""",
    "crates/low/specs/Worked.antt": "pub record Cases : Type 0 where\n  pub one : 1 ≡ 1\n",
    "crates/low/specs/Inner/Asked.antt": "abbrev pub Asked : Type 0\nAsked = Unit\n",
    "crates/low/specs/Inner/Determined.antt": """use Rattle.low.specs.Water.{Judged}
use Rattle.low.specs.Inner.Asked.{Asked}

pub record LowDetermined : Type 0 where
  pub judge : Asked → Judged 1
""",
    "crates/low/src/lib.rt": """ghost use Rattle.low.specs.Water.{Judged};
ghost use Rattle.low.specs.Inner.Asked.{Asked};

// A layer.
pub fn judge(depth: u64) -> u64
    requires asked { Asked }
    ensures { Judged result }
{
    1
}
""",
    "crates/flood/specs/Lib.antt": "pub mod Step\n",
    "crates/flood/specs/Step.antt": """use Rattle.low.specs.Water as Water
use Rattle.low.specs.Water.{◌over◌}

pub record Steps (n : ℕ) (r : List ℕ) : Type 0 where
  pub answer : n ≡ Water.depth over 1
""",
    "crates/flood/src/step.rt": """ghost use Rattle.flood.specs.Step.{Steps};

pub fn step(
    shape: Shape,
    depths: &mut [u32],
) -> u32
    ensures { Steps result depths.new }
{
    1
}
""",
    "crates/demands/specs/Lib.antt": "pub mod Demand1\n",
    "crates/demands/specs/Demand1.antt": """use Rattle.low.specs.Water.Seen.{wet}

pub record Demand1 : Type 0 where
  pub seen : (a : ℕ) → wet a ≡ wet a
""",
    "crates/show/src/main.rt": "ghost use Rattle.low.specs.Water.{Judged};\n\npub fn main() {\n}\n",
}
WATER, STEP, DEMAND = "crates/low/specs/Water.antt", "crates/flood/specs/Step.antt", "crates/demands/specs/Demand1.antt"
IDLE = "abbrev pub idle : ℕ\nidle = 2\n"
GIVES_IT = "fn more() -> u64\n    ensures { result ≡ idle }\n{\n    2\n}\n"
NAMES_IT = "use Rattle.low.specs.Water.{idle}\n"
NO_CONTRACT = "is reached by no contract:\n  low/specs/Water.antt: idle\n"


def told(project, words=()):
    """The status of tools/believed.py over a project, and all that it prints."""
    with tempfile.TemporaryDirectory() as folder:
        for name, text in project.items():
            path = Path(folder) / name
            path.parent.mkdir(parents=True, exist_ok=True)
            path.write_text(text, encoding="utf-8")
        out = io.StringIO()
        with contextlib.redirect_stdout(out), contextlib.redirect_stderr(out):
            status = believed.main([*words, folder])
        return status, out.getvalue()


def added(*additions, project=PROJECT):
    """The project with texts added at the ends of files."""
    made = dict(project)
    for name, text in additions:
        made[name] = made.get(name, "") + text
    return made


def changed(name, old, new):
    """The project with one text for another in a file."""
    return {**PROJECT, name: PROJECT[name].replace(old, new)}


def rows(printed):
    """The table's figures by their crate."""
    return {words[0]: [int(word) for word in words[1:5]] for words in map(str.split, printed.splitlines()) if words[1:2] and words[1].isdigit()}


def hold_counts(checks):
    """What is counted where."""
    status, printed = told(PROJECT)
    found = rows(printed)
    checks.hold(status == 0, f"the project is found at fault: {printed}")
    checks.hold(found.get("low") == [8, 2, 0, 4], f"low: {found.get('low')}")
    checks.hold(found.get("flood") == [2, 0, 0, 0], f"flood: {found.get('flood')}")
    checks.hold(found.get("total") == [10, 2, 0, 4] and "beside them 2 lines of demands" in printed, f"total: {printed}")
    above = {"crates.txt": PROJECT["crates.txt"] + "said: low flood demands\n", "crates/said/specs/Said.antt": "pub record Said : Type 0 where\n"}
    status, printed = told({**PROJECT, **above, "crates/said/src/lib.rt": f"pub {GIVES_IT}"})
    checks.hold(status == 0 and "beside them 3 lines of demands, said" in printed, f"a crate above the demands: {printed}")
    checks.hold("Judged" in told(PROJECT, ["--idle"])[1] and "Judged" not in printed, "--idle does not name what only a layer function gives")


def hold_reach(checks):
    """What reaches a definition, and what does not."""
    reaches = {
        "a demand": [(DEMAND, "  pub more : idle ≡ 2\n")],
        "an entry point's definition": [(STEP, "  pub more : n ≡ idle\n")],
        "a field of it": [(STEP, "  pub more : n ≡ idle.depth\n")],
        "a layer's contract": [("crates/low/src/more.rt", f"ghost {NAMES_IT[:-1]};\n\npub {GIVES_IT}")],
    }
    for name, additions in reaches.items():
        project = added((WATER, IDLE), *additions)
        project = {path: NAMES_IT + text if path in (DEMAND, STEP) else text for path, text in project.items()}
        status, printed = told(project)
        checks.hold(status == 0, f"{name} does not reach: {printed}")
    reaches_not = {
        "nothing": [],
        "a comment": [(STEP, "  -- idle\n")],
        "a text": [(STEP, '  pub more : n ≡ length "idle"\n')],
        "a field looked into": [(STEP, "  pub more : n ≡ r.idle\n")],
        "a field of what brackets hold": [(STEP, "  pub more : n ≡ (f r).idle\n")],
        "a field's own name": [(STEP, "  pub idle : n ≡ 1\n")],
        "a private function": [("crates/low/src/lib.rt", f"\n{GIVES_IT}")],
        "a program": [("crates/show/src/more.rt", f"pub {GIVES_IT}")],
        "a determinacy record": [("crates/low/specs/Inner/Determined.antt", "  pub more : idle ≡ 2\n")],
        "a definition that is idle itself": [(WATER, "abbrev pub other : ℕ\nother = idle\n")],
        "a worked case": [("crates/low/specs/Worked.antt", "  pub more : idle ≡ 2\n")],
    }
    for name, additions in reaches_not.items():
        project = added((WATER, IDLE), *additions)
        sources = {path: NAMES_IT + text for path, text in project.items() if path.endswith(".antt") and path != WATER}
        sources |= {path: f"ghost {NAMES_IT[:-1]};\n" + text for path, text in project.items() if path.endswith(".rt")}
        status, printed = told({**project, **sources})
        idle = NO_CONTRACT.replace("idle\n", "idle, other\n") if "other" in project[WATER] else NO_CONTRACT
        checks.hold(status == 1 and idle in printed, f"{name} reaches: {printed}")


def hold_faults(checks):
    """Each fault is found, and as many lines as may be are none."""
    asked = "use Rattle.low.specs.Inner.Asked.{Asked}\n"
    inside = "use Rattle.low.specs.Inner.Asked as Inside\n"
    lines = believed.MOST - 10
    faults = {
        "looks into specs/Inner/:\n  low/specs/Water.antt imports low/specs/Inner/Asked.antt\n": changed(WATER, "use Rattle.std", asked + "use Rattle.std"),
        "must be believed, and stands in specs/Inner/:\n  low/specs/Inner/Asked.antt: Asked\n": added(
            (STEP, inside + "  pub more : Inside.Asked\n")
        ),
        NO_CONTRACT: added((WATER, IDLE)),
        "lines are too many:\n  1\n": added((STEP, "  pub more : n ≡ 1\n" * (lines + 1))),
        "no definition must be believed:": {
            name: re.sub(r"ensures \{.*\}", "ensures { result ≡ 1 }", text) for name, text in PROJECT.items() if "demands" not in name and "specs" not in name
        },
    }
    for fault, project in faults.items():
        status, printed = told(project)
        checks.hold(status == 1 and fault in printed, f"not found: {fault!r}: {printed}")
    status, printed = told(added((STEP, "  pub more : n ≡ 1\n" * lines)))
    checks.hold(status == 0 and rows(printed)["total"][0] == believed.MOST, f"as many lines as may be: {printed}")


def main():
    checks = Checks("believed")
    for part in (hold_counts, hold_reach, hold_faults):
        part(checks)
    checks.hold(believed.main([]) == 0, "this project has something at fault, as said above")
    checks.end()


if __name__ == "__main__":
    main()
