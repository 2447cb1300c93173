"""Every public function of a library says what it gives: it has a contract, which speaks of its answer, of each slice that it was lent to
write as it is afterwards, and of every other slice; and one determinacy record has a field for it, over the very relation that its contract
names: that of its own crate for a layer function, that of the demands for an entry point. Every record is proved. Every entry point is called by
a function of the crates above the demands, `calls` and `desk_calls`, which promises of it what the demands say. Changed functions, of which each has a fault that the test must find,
show that it looks."""
import re

from meadow.counted import Checks
from meadow.programs import TOP
from rattle import DEMANDS, imported, statements, statics
from rattle.functions import exported_functions, library_functions
from rattle.specs import Specs

# the exported functions have this before the name of the call
EXPORTED = "flood_"
# and the static library that exports a library's functions has this after the library's name
OF_EXPORTS = "_c"
# Rooms of which a contract promises nothing, because nobody reads what is left in them (docs/CONTRACTS.md says why), and slices that a
# `requires` asks to say only what the record says already, so that nothing depends on them.
IN_ROOMS = (
    ("settling", "settle::settle"),
    ("flood", "step::step_on"),
    ("flood", "step::step_checked"),
    ("trying", "lines::step_once"),
    ("desks", "command::make_further"),
)
NOT_SAID = {(*function, slice) for function in IN_ROOMS for slice in ("room", "left", "worked", "senders")}
# what becomes of a text that is written to a file is the system's to say
NOT_SAID.add(("files", "write_named", "text"))


# What comes of a file is the system's to say: what these functions give is not determined by what they are lent, so that no record has a field
# for them (docs/CONTRACTS.md).
OF_THE_SYSTEM = ("files",)
# what a field says of its relation; of these two, which leave parts of a room open, it says the rest in full
ONE = ("reckon", "Outcomes", "One")
IN_PART = {("adding", "add_water"), ("moves", "fill")}


def conjuncts(text):
    """The parts of a claim that are parted by × outside all brackets, without brackets round them."""
    parts, depth, part = [], 0, ""
    for letter in text:
        depth += (letter == "(") - (letter == ")")
        if letter == "×" and depth == 0:
            parts.append(part)
            part = ""
        else:
            part += letter
    parts = [each.strip() for each in [*parts, part]]
    if len(parts) > 1 or not parts[0].startswith("("):
        return [each for part in parts for each in (conjuncts(part[1:-1]) if part.startswith("(") else [part])]
    return parts


def head(part):
    """The word that a conjunct is about: its relation, or of an equation what it is equated with."""
    return part.rpartition("≡ ")[2].strip("( ").split(" ")[0]


class Records:
    """The determinacy records: the names of each crate's, and the text of each field, by the crate where its record stands, the crate of its
    function and its own name."""

    def __init__(self, specs):
        self.specs, self.names, self.fields = specs, {}, {}
        for (crate, _), module in specs.modules.items():
            for each in module.definitions.values():
                found = re.fullmatch(r"(\w+)Determined", each.name)
                if found:
                    self.names.setdefault(crate, []).append(each.name)
                    for field, text in re.findall(r"^ *pub (\S+) : (.*(?:\n {5,}.*)*)", "\n".join(each.lines), re.M):
                        self.fields[crate, found[1].lower(), field.replace("-", "_")] = (module, text)

    def named(self, place):
        """The definitions that a field names, those behind the names of its own file included."""
        module, text = self.fields[place]
        own = {name: (module.crate, module.name) for name in module.definitions}
        names, modules = imported(module.text)
        keys = self.specs.named(text, (own | names, modules))
        near = self.specs.reached(keys, lambda key: key[:2] != (module.crate, module.name))
        return keys.union(*(self.specs.definitions[key].names for key in near)) - near


def is_relation(specs, key):
    """Whether a definition says something of what it is given."""
    return re.search(r"→ Type 0$|record \S+ \(.*\) : Type 0 where$", specs.definitions[key].lines[0]) is not None


def place(function):
    """The field of a function: a layer function's stands in its own crate, an entry point's in the demands."""
    home = DEMANDS if function.is_entry else function.crate
    return home, function.crate.replace("_", ""), function.name.removeprefix(EXPORTED)


def hold_contract(hold, function):
    """A contract, on all that the function gives and all that it is lent."""
    name = f"{function.crate}::{function.path}"
    hold(function.ensures, f"{name} has no contract on what it gives")
    text = " ".join(function.ensures)
    if function.result:
        hold(re.search(r"(?<![\w.])result(?!\w)", text), f"the contract of {name} says nothing of its answer")
    for slice, written in function.slices.items():
        when = "new" if written else "now"
        told = re.search(rf"(?<![\w.])«?{slice}»?\.{when}(?!\w)", text) is not None
        promised = (function.crate, function.path, slice) not in NOT_SAID
        hold(told == promised, f"the contract of {name} says nothing of {slice}.{when}, or says what the list of exceptions leaves out")


def hold_field(hold, specs, records, function):
    """A field, over the relation that the contract names."""
    name, field = f"{function.crate}::{function.path}", place(function)
    if not hold(field in records.fields, f"no determinacy record of {field[0]} has a field for {name}"):
        return
    said = [specs.named(head(part), function.imports) for clause in function.ensures for part in conjuncts(clause.strip())]
    heads, named = set().union(*said), records.named(field)
    hold((ONE in named) != (field[1:] in IN_PART), f"the field of {name} does not say that there is one outcome")
    hold(heads and all(said) and heads <= named, f"the field of {name} is not over the relation of its contract: {sorted(heads - named)}")
    others = {key for key in named - heads - {ONE} if is_relation(specs, key)}
    hold(not others, f"the field of {name} is over a relation that its contract does not name: {sorted(others)}")


def hold_exported(hold, functions, exported, calls):
    """What other languages call stands under its plain name in a static library: each function of one only calls the function of its name in the
    library below it, with the same parameters and the same contract; and every function for other languages has one."""
    below = {(function.crate, function.name): function for function in functions}
    for function in exported:
        told = below.get((function.crate.removesuffix(OF_EXPORTS), function.name))
        if not hold(told, f"{function.crate}::{function.path} is no function of the library below it"):
            continue
        said = [(each.parameters, each.result, each.requires, each.ensures) for each in (function, told)]
        hold(said[0] == said[1], f"{function.crate}::{function.path} says something else than what it calls")
        words = re.fullmatch(rf"(?:\w+::)*{function.name}\(([\w\s,]*)\)", calls.get((function.crate, function.name), ""))
        hold(words and re.findall(r"\w+", words[1]) == list(function.parameters), f"{function.crate}::{function.path} is not one call of the function of its name")
    made = {(function.crate.removesuffix(OF_EXPORTS), function.name) for function in exported}
    for place in sorted(place for place in below if place[1].startswith(EXPORTED) and f"{place[0]}{OF_EXPORTS}" in statics(TOP)):
        hold(place in made, f"no static library exports {place[1]} of {place[0]}")


def exported_bodies(top):
    """{(crate, function): its body} of the static libraries' exports."""
    texts = [(crate, path.read_text(encoding="utf-8")) for crate in statics(top) for path in sorted((top / "crates" / crate / "src").glob("*.rt"))]
    head = r'^#\[unsafe\(no_mangle\)\]\npub extern "C" fn (\w+)\(.*?^\{\n(.*?)^\}'
    return {(crate, name): body.strip() for crate, text in texts for name, body in re.findall(head, text, re.M | re.S)}


def hold_tied(hold, functions, calls):
    """Each entry point has its function above the demands, whose whole body is that call; every other function there makes several calls of the
    libraries, one of them an entry point."""
    wanted = {f"after_{function.name}": function for function in functions if function.is_entry}
    for name, function in wanted.items():
        hold(re.fullmatch(rf"{function.name}\((?:[\w\s,]|\.len\(\))*\)", calls.get(name, "")), f"no function above the demands makes the call {function.crate}::{function.path}")
    entries, public = ({function.name for function in each} for each in (wanted.values(), functions))
    for name in sorted(set(calls) - set(wanted)):
        made = [word for word in re.findall(r"(\w+)\(", calls[name]) if word in public]
        hold(len(made) > 1 and entries & set(made), f"{name}, above the demands, makes fewer than two calls, or none of an entry point")


def bodies(top):
    """{public function: its body} of the crates above the demands, with the bodies of the other functions that it calls after it."""
    texts = [path.read_text(encoding="utf-8") for crate in statements(top) for path in sorted((top / "crates" / crate / "src").glob("*.rt"))]
    found = [each for text in texts for each in re.findall(r"^(pub )?fn (\w+)\(.*?^\{\n(.*?)^\}", text, re.M | re.S)]
    own = {name: body for public, name, body in found if not public}
    return {name: "".join([body, *(own[word] for word in re.findall(r"(\w+)\(", body) if word in own)]).strip() for public, name, body in found if public}


def hold_all(hold, specs, records, functions):
    for function in functions:
        hold_contract(hold, function)
        if function.crate not in OF_THE_SYSTEM:
            hold_field(hold, specs, records, function)
    wanted = {place(function) for function in functions}
    hold(len(wanted) == len(functions), "two public functions share a field")
    for home, crate, field in records.fields:
        hold((home, crate, field) in wanted, f"a determinacy record of {home} has a field for {crate} {field}, which does not belong there")


def hold_proved(hold, records, proofs):
    """Each determinacy record is a type of which a law that its crate declares is the proof."""
    for crate, names in records.names.items():
        for name in names:
            hold(re.search(rf"^(pub )?\S+ : {name}$", proofs.get(crate, ""), re.M), f"{crate} does not prove its {name}")


def determinacy_proofs(top):
    """{crate: the laws of its proofs/Determined.antt}, of those that declare one."""
    folders = [path.parent for path in sorted(top.glob("crates/*/proofs/Determined.antt"))]
    declared = [folder for folder in folders if "pub mod Determined\n" in (folder / "Lib.antt").read_text(encoding="utf-8")]
    return {folder.parent.name: (folder / "Determined.antt").read_text(encoding="utf-8") for folder in declared}


def faults(functions):
    """Functions that the test must find fault with, and what the fault is."""
    one = next(function for function in functions if function.is_entry and len(function.ensures) == 1 and any(function.slices.values()) and not all(function.slices.values()))
    written = next(name for name, writes in one.slices.items() if writes)
    lent = next(name for name, writes in one.slices.items() if not writes)
    (clause,) = one.ensures
    relation = head(clause)
    names, modules = one.imports
    other = next(name for name in names if name != relation)
    yield "no contract", one._replace(ensures=[])
    yield "nothing said of what is written", one._replace(ensures=[clause.replace(f"{written}.new", f"{written}.old")])
    yield "nothing said of what is lent", one._replace(ensures=[clause.replace(f"{lent}.now", f"{written}.old")])
    yield "nothing said of the answer", one._replace(ensures=[re.sub(r"(?<![\w.])result(?!\w)", "0", clause)])
    yield "another relation", one._replace(ensures=[clause.replace(relation, other, 1)])
    yield "a relation besides", one._replace(ensures=[clause, f" {other} result "])
    yield "a relation of that name from elsewhere", one._replace(imports=({**names, relation: ("nowhere", "Nothing")}, modules))
    yield "no field", one._replace(name="nosuch")
    yield "a layer function's field in place of an entry point's", one._replace(requires=[" ⊥ "])
    layer = next(function for function in functions if function.requires and function._replace(requires=[]).is_entry)
    yield "an entry point's field in place of a layer function's", layer._replace(requires=[])


def exported_faults(exported, exports):
    """Exported functions and their bodies that the test must find fault with, and what the fault is."""
    for one in exported[:1]:
        others, key = exported[1:], (one.crate, one.name)
        yield "an export is missing", others, exports
        yield "an export says less", [one._replace(ensures=one.ensures[1:]), *others], exports
        yield "an export asks more", [one._replace(requires=[*one.requires, " ⊥ "]), *others], exports
        yield "an export of another name", [one._replace(name="flood_nosuch"), *others], exports
        yield "an export calls another function", exported, {**exports, key: exports[key].replace(one.name, "flood_nosuch")}
        yield "an export that is not for other languages", exported, {name: body for name, body in exports.items() if name != key}


def main():
    checks = Checks("contracts")
    specs = Specs(TOP)
    records, functions = Records(specs), list(library_functions(TOP))
    checks.hold(functions != [], "there is no public function")
    hold_all(checks.hold, specs, records, functions)
    proofs = determinacy_proofs(TOP)
    hold_proved(checks.hold, records, proofs)
    for crate in records.names:
        found = []
        hold_proved(lambda right, _: found.append(bool(right)), records, {**proofs, crate: ""})
        checks.hold(not all(found), f"a fault is not found: {crate} proves no determinacy record")
    calls = bodies(TOP)
    hold_tied(checks.hold, functions, calls)
    for name in calls:
        found = []
        hold_tied(lambda right, _: found.append(bool(right)), functions, {**calls, name: "0"})
        checks.hold(not all(found), f"a fault is not found: {name} makes no call")
    exported, exports = list(exported_functions(TOP)), exported_bodies(TOP)
    hold_exported(checks.hold, functions, exported, exports)
    for fault, others, bodies_of in exported_faults(exported, exports):
        found = []
        hold_exported(lambda right, _: found.append(bool(right)) or right, functions, others, bodies_of)
        checks.hold(not all(found), f"a fault is not found: {fault}")
    for fault, function in faults(functions):
        found = []
        hold = lambda right, _: found.append(bool(right)) or right
        hold_contract(hold, function)
        hold_field(hold, specs, records, function)
        checks.hold(not all(found), f"a fault is not found: {fault}")
    checks.end()


if __name__ == "__main__":
    main()
