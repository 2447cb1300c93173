#!/usr/bin/env python3
"""How many lines of definitions a reader must believe, crate by crate.

    python3 tools/believed.py [--idle] [TOP]

What must be believed is what the demands and the contracts of the entry points reach, name by name, through the definitions of specs/.
Beside it stand the lines that only contracts of layer functions reach, and those of specs/Inner/ (what only our own functions ask and
give). Imports, lists of modules, comments and blank lines are not counted, nor is a Worked.antt (cases worked by hand, which are proved).
The crate `demands` restates the letter and is counted apart, as is every crate above it.

With --idle the definitions that no demand and no entry point reaches are named. Ends with status 1 where a file outside specs/Inner/ looks
into it, a definition that must be believed stands in it, a definition outside it is reached by no contract at all, or what must be believed
has more than MOST lines.
"""
import sys
from collections import Counter
from pathlib import Path

from begin import ended
from rattle import crates, imported, statements
from rattle.functions import library_functions
from rattle.specs import INNER as INSIDE
from rattle.specs import Specs

TOP = Path(__file__).resolve().parent.parent
# a little above what there is; a landing may raise it. 2,300 was set for all of document 02, and is passed: see docs/CHANGES.md. The desk and
# its saved states are some 630 of them
MOST = 3210
WORKED = "Worked"
BELIEVED, LAYER, IDLE, INNER = "believed", "layers", "reached by nothing", "inner"


def roots(top, specs):
    """What the demands and the entry points name, and what the contracts of the other public functions name."""
    said = statements(top)
    demands = {key for key in specs.definitions if key[0] in said}
    entries, layers = set(), set()
    for function in library_functions(top):
        clauses = "\n".join(function.requires + function.ensures)
        (entries if function.is_entry else layers).update(specs.named(clauses, function.imports))
    return demands | entries, layers


def places(top, specs):
    """Where each definition that is counted belongs, and what must be believed although it stands in specs/Inner/."""
    first, second = roots(top, specs)
    needed, known = specs.reached(first), specs.reached(second)
    found, hidden, said = {}, [], statements(top)
    for key, each in specs.definitions.items():
        if each.module == WORKED or each.crate in said:
            continue
        if each.is_inner:
            found[key] = INNER
            hidden += [key] if key in needed and each.is_named else []
        else:
            found[key] = BELIEVED if key in needed else LAYER if key in known else IDLE
    return found, hidden


def looks_inside(specs):
    """Each file outside specs/Inner/ that imports from it."""
    for (crate, name), module in specs.modules.items():
        if not name.startswith(f"{INSIDE}."):
            names, modules = imported(module.text)
            seen = {where for where in [*names.values(), *modules.values()] if where[1].startswith(f"{INSIDE}.")}
            yield from (f"{crate}/specs/{name}.antt imports {where[0]}/specs/{where[1].replace('.', '/')}.antt" for where in sorted(seen))


def by_module(keys):
    """Names, after the crate and the module that has them."""
    modules = {}
    for crate, module, name in keys:
        modules.setdefault((crate, module), []).append(name)
    return [f"  {crate}/specs/{module.replace('.', '/')}.antt: {', '.join(names)}" for (crate, module), names in modules.items()]


def counted(top, specs, found):
    """Prints the table, and gives the lines to believe."""
    lines = Counter()
    for key, place in found.items():
        lines[key[0], place] += len(specs.definitions[key].lines)
    columns = (BELIEVED, LAYER, IDLE, INNER)
    row = lambda name, counts: f"{name:8}" + "".join(f"{count:>{len(column) + 3}}" for column, count in zip(columns, counts))
    print(row("crate", columns))
    for crate in crates(top):
        counts = [lines[crate, column] for column in columns]
        if any(counts):
            print(row(crate, counts))
    totals = [sum(lines[crate, column] for crate in crates(top)) for column in columns]
    said = statements(top)
    apart = sum(len(each.lines) for each in specs.definitions.values() if each.crate in said and each.module != WORKED)
    print(row("total", totals) + f"   to believe at most {MOST}, and beside them {apart} lines of {', '.join(said)}")
    return totals[0]


def main(words):
    top = Path(next((word for word in words if word != "--idle"), TOP))
    specs = Specs(top)
    found, hidden = places(top, specs)
    total = counted(top, specs, found)
    if "--idle" in words:
        for place in (LAYER, IDLE):
            print(f"{place}:", *by_module(key for key in found if found[key] == place and specs.definitions[key].is_named), sep="\n")
    faults = {
        "looks into specs/Inner/": [f"  {told}" for told in looks_inside(specs)],
        "must be believed, and stands in specs/Inner/": by_module(hidden),
        "is reached by no contract": by_module(key for key in found if found[key] == IDLE and specs.definitions[key].is_named),
        "lines are too many": [f"  {total - MOST}"] if total > MOST else [],
        "no definition must be believed": ["  0 lines"] if total == 0 else [],
    }
    for fault, rows in faults.items():
        if rows:
            print(f"believed: {fault}:", *rows, sep="\n", file=sys.stderr)
    return 1 if any(faults.values()) else 0


if __name__ == "__main__":
    ended(lambda: main(sys.argv[1:]), "believed")
