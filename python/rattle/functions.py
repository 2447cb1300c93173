"""The public functions of the library crates, each with its parameters and its contract as the source has them."""
import re
from typing import NamedTuple

from . import crates, imported, statements, statics

HEAD = re.compile(r'^pub (?:extern "C" )?(?:const )?fn (\w+)(?:<[^(]*>)?\(', re.M)
# a clause may have a name
CLAUSE = re.compile(r"^    (requires|ensures)(?: \w+)? \{(.*?)\}$", re.M | re.S)
SLICE = re.compile(r"&(mut )?\[")
# crates of which only our own crates call the functions, but for those named; every other function that asks nothing is an entry point
LAYERS = ("reckon", "trials", "grid", "rule", "ledger", "settling", "adding", "account", "moves", "text", "raster", "files", "sheet", "programs", "display", "hatches", "evenings", "frames", "stands", "trying", "desks")
ENTRIES_OF_LAYERS = {
    ("ledger", "take_back"),
    ("sheet", "read"),
    ("programs", "meadow_of"),
    ("display", "run_boards"),
    ("display", "run_to_boards"),
    ("evenings", "take_entry"),
    ("evenings", "take_line"),
    ("evenings", "begin_log"),
    ("evenings", "go_on"),
    ("desks", "command"),
    ("desks", "make_next"),
}


class Function(NamedTuple):
    """A public function: its parameters in order with their types, the type of what it hands back, its clauses, and what its file imports."""

    crate: str
    module: str
    name: str
    parameters: dict
    result: str
    requires: list
    ensures: list
    imports: tuple

    @property
    def path(self):
        """As docs/CONTRACTS.md names it: those of a crate's root have no module."""
        return self.name if self.module == "lib" else f"{self.module}::{self.name}"

    @property
    def slices(self):
        """{name: whether it is lent for writing} of its slices and lent arrays."""
        return {name: kind.startswith("&mut") for name, kind in self.parameters.items() if SLICE.match(kind)}

    @property
    def is_entry(self):
        """Whether a program or another language may call it."""
        return not self.requires and (self.crate not in LAYERS or (self.crate, self.name) in ENTRIES_OF_LAYERS)


def closing(text, start):
    """The place of the bracket that closes what is open at a place."""
    depth, at = 1, start
    while depth > 0:
        depth += {"(": 1, ")": -1}.get(text[at], 0)
        at += 1
    return at - 1


def functions_of(crate, path):
    """The public functions of a source file."""
    text = re.sub(r"^ *//.*\n", "", path.read_text(encoding="utf-8"), flags=re.M)
    imports = imported(text)
    for found in HEAD.finditer(text):
        end = closing(text, found.end())
        parameters = dict(re.findall(r"(\w+): ((?:&mut |&)?(?:\[[^\]]*\]|[\w:]+))", text[found.end() : end]))
        contract = re.split(r"\{$", text[end:], maxsplit=1, flags=re.M)[0]
        result = re.match(r"\)(?: -> ([^\n{]+))?", contract)[1] or ""
        clauses = {kind: [body for each, body in CLAUSE.findall(contract) if each == kind] for kind in ("requires", "ensures")}
        yield Function(crate, path.stem, found[1], parameters, result.strip(), clauses["requires"], clauses["ensures"], imports)


def public_functions(top, names):
    """Every public function of these crates, but of programs."""
    for crate in names:
        source = top / "crates" / crate / "src"
        if not (source / "main.rt").exists():
            for path in sorted(source.glob("*.rt")):
                yield from functions_of(crate, path)


def library_functions(top):
    """Every public function of every library that crates may look at."""
    apart = {*statements(top), *statics(top)}
    yield from public_functions(top, (name for name in crates(top) if name not in apart))


def exported_functions(top):
    """Every public function of the static libraries, which only call those of a library."""
    yield from public_functions(top, statics(top))
