"""The helpers of the proof loop on texts made for them: tools/dev.py leaves out what is proved and keeps skeletons whole, tools/places.py
finds the way to what is known and fills holes, tools/unused.py finds idle imports and lone names, tools/forms.py the older forms of code, and
nothing else."""
from pathlib import PurePosixPath

import dev
import forms
import places
import unused
from meadow.counted import Checks

SAID = """rt: chose --jobs 2 for low
fn low::first: proved
fn low::second: not proved
    Rattle.low.proofs.Laws.deep is not lib.Seq.wide
    (computed from:
      a long term
note: what antt said about it
  and more of that
statements core: modules loaded=161 checked=0
help: write ./proofs/third/Answers.antt with these lines
    use Low.{third}
    
    returns c = ?
help: write ./proofs/third/Invariants.antt with these lines, and check again: a hole is asked for
    decreases-loop l = ?
error: 1 not proved"""
READABLE = """fn low::second: not proved
    Laws.deep is not wide
help: write ./proofs/third/Answers.antt with these lines
help: write ./proofs/third/Invariants.antt with these lines, and check again: a hole is asked for
error: 1 not proved"""
SKELETONS = {"proofs/third/Answers.antt": "use Low.{third}\n\nreturns c = ?\n", "proofs/third/Invariants.antt": "decreases-loop l = ?\n"}

STARTED = """note: `invariant-loop-i` of proofs/f/Invariants.antt is yours to choose
  names you can use, by step:
  | l: .x, .i
  | l.initial: same as l
./proofs/f/Answers.antt:10:5: `add` is not admitted: has-holes
./proofs/f/Answers.antt:11:25: goal ? in `add`
    c : goal.Loop-i
  ⊢ Fits w64 c.args.x
  names you can use, by step:
    c: .well_formed
    c.args: .x
    c.loop-i: .x, .auto {.x-fits}
  the newest fields, with their types:
    c.loop-i.x : ℕ
./proofs/f/Answers.antt:14:5: `returns` is not admitted: has-holes
./proofs/f/Answers.antt:15:13: goal ? in `returns`
    c : goal.Else-i
  ⊢ c.args.x ≡ 1
  names you can use: as in `add` above
logic /opt: libraries=16"""
TOLD = [
    "invariant-loop-i : l.x l.i",
    "add : c.well_formed c.args.x c.loop-i.x c.loop-i.auto c.loop-i.auto.x-fits",
    "returns : c.well_formed c.args.x c.loop-i.x c.loop-i.auto c.loop-i.auto.x-fits",
]
PROOF = "use Low.{f}\n\npub add : goal.add\nadd c = ?\n\npub returns : goal.returns\nunfolding other\nreturns c =\n  ?\nlast = done\n"
INVARIANTS = "abbrev pub invariant-loop-i : goal.invariant-loop-i\ninvariant-loop-i l = ?\n"
ANSWERS = "use Laws.{le}\nuse Low.{f}\n== invariant-loop-i\n«i» < 3\n== add returns unfolding step\nle («x» «args.x»)\n"
FILLED = """use Laws.{le}
use Low.{f}

pub add : goal.add
unfolding step
add c =
    le (c.loop-i.x c.args.x)

pub returns : goal.returns
unfolding step
returns c =
    le (c.loop-i.x c.args.x)
last = done
"""
CHOSEN = """use Laws.{le}
use Low.{f}
abbrev pub invariant-loop-i : goal.invariant-loop-i
invariant-loop-i l =
    l.i < 3
"""

SOURCES = {
    "crates/low/specs/Water.antt": "use Lists.{take, drop as skip, ◌++◌}\n-- skip\npub deep : ℕ\ndeep = take 1\npub wide : ℕ\nwide = deep\n",
    "crates/low/src/lib.rt": "use low::first;\nuse low::second;\nfn third() { first(); }\n",
}
OLD_FORMS = """#[derive(Clone, Copy)]
pub enum Found {
    Is(u32),
    Not,
}

pub enum Part {
    Note,
}

pub struct Line {
    pub found: bool,
    pub values: [u32; 8],
}

// The number of the first refusal, 0 for none.
fn judged(depths: &[u32], rain: &[u32], inflow: &[u32]) -> u32
    ensures { result ≡ 0 }
{
    let number = early(depths);
    if number != 0 {
        return number;
    }
    0
}

fn copied(
    first: bool,
    to: &mut [u32],
    from: &[u32],
) {
    let mut i = 0;
    while i < to.len() {
        to[i] = from[i];
        i += 1;
    }
    while to.len() > 5 {
        stop(to);
    }
    for j in 0..3 {
        stop(to);
    }
    stop(to);
    stop(from);
    stop(to);
    stop(from);
}
"""
FORMS = {
    "1": [("an enum with an empty or refused variant", 2, "Found"), ("a flag in a struct", 11, "Line.found"), ("a function whose 0 is no refusal", 17, "judged"), ("a number tested against 0 and handed on", 21, "number")],
    "3": [("a while that counts", 33, "i < to.len()")],
    "4": [("an element copied by hand", 34, "to[i] = from[i];")],
    "5": [("parameters rain, inflow", 17, "judged")],
    "6": [("an array in a struct", 11, "Line")],
    "7": [("a flag as a parameter", 27, "copied: first")],
}
IDLE = {"crates/low/specs/Water.antt": ["skip", "◌++◌"], "crates/low/src/lib.rt": ["second"]}


def main():
    checks = Checks("proving")
    text, skeletons = dev.readable(SAID)
    checks.hold(text == READABLE, f"tools/dev.py prints {text!r}")
    checks.hold(skeletons == SKELETONS, f"tools/dev.py writes {skeletons}")
    found = places.Places(STARTED)
    checks.hold(found.told() == TOLD, f"tools/places.py says {found.told()}")
    checks.hold(found.filled(PROOF, ANSWERS) == FILLED, f"tools/places.py makes {found.filled(PROOF, ANSWERS)!r}")
    checks.hold(found.filled(INVARIANTS, ANSWERS) == CHOSEN, f"tools/places.py makes {found.filled(INVARIANTS, ANSWERS)!r}")
    for answers in ("== add\n«if1»\n", "== missing\nx\n"):
        try:
            found.filled(PROOF, answers)
            checks.hold(False, f"tools/places.py answers {answers!r}")
        except places.Missing:
            checks.hold(True, "")
    texts = {PurePosixPath(path): text for path, text in SOURCES.items()}
    idle = {str(path): names for path, names in unused.idle_imports(texts).items()}
    checks.hold(idle == IDLE, f"tools/unused.py finds idle {idle}")
    checks.hold(list(unused.lone_names(texts)) == ["wide"], f"tools/unused.py finds lone {unused.lone_names(texts)}")
    for point, rows in forms.POINTS.items():
        found = [(kind, int(place.removeprefix("x.rt:")), what) for kind, place, what in rows("x.rt", OLD_FORMS)]
        checks.hold(found == FORMS[point], f"tools/forms.py finds of point {point} {found}")
    alike = list(forms.twins([("x.rt", OLD_FORMS), ("y.rt", OLD_FORMS)]))
    checks.hold(alike == [("a pair of like bodies", "x.rt", "copied, y.rt copied")], f"tools/forms.py finds twins {alike}")
    checks.end()


if __name__ == "__main__":
    main()
