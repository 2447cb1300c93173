"""The definitions of the crates' specs/, each with its lines and with what it names, so that what a statement rests on can be followed."""
import re
from dataclasses import dataclass, field

from . import crates, imported

LISTS = ("Lib.antt", "Inner.antt")
INNER = "Inner"
# where an operator has its arguments
HOLE = "◌"
ITEM = re.compile(r"(?:(?:abbrev|unfoldable|pub|private) )*(?:(record|data|module) )?([^\s(){}:]+)")
BEGINS = re.compile(r"(abbrev|unfoldable|pub|private|record|data|module)\b|\S+ : ")
# what only gives a name: a field, a label, what a bracket binds
LABELS = [re.compile(r"^ *pub \S+(?= :)", re.M), re.compile(r"(?<=[{;])\s*[^\s={};]+(?= = )"), re.compile(r"(?<=[({])[^(){}:]+(?= : )")]


@dataclass
class Definition:
    """A definition of one module: its lines, and the definitions that it names, by crate, module and name."""

    crate: str
    module: str
    name: str
    kind: str
    lines: list = field(default_factory=list)
    names: set = field(default_factory=set)

    @property
    def key(self):
        return self.crate, self.module, self.name

    @property
    def is_inner(self):
        """Whether only our own functions ask and give it."""
        return self.module.split(".")[0] == INNER

    @property
    def is_named(self):
        """Whether it has a name: a module's head only says what its definitions have in common."""
        return self.kind != "module"


@dataclass
class Module:
    """A file of specs/: its definitions by name, the constructors of its data, its imports."""

    crate: str
    name: str
    text: str
    definitions: dict = field(default_factory=dict)
    constructors: dict = field(default_factory=dict)


def indent(line):
    return len(line) - len(line.lstrip())


def items(module):
    """Cuts a file into its definitions: one begins at its module's own indentation, and goes on to the next."""
    heads, item, number = [], None, 0
    for line in module.text.splitlines():
        number += 1
        line = re.sub(r"(^|\s)--.*", "", line)
        if not line.strip() or re.match(r"(pub )?(use|mod) ", line):
            continue
        heads = [head for head in heads if head[0] < indent(line)]
        fixity = re.match(r" *infix[lr]? \d+ (\S+)", line)
        if indent(line) == 2 * len(heads) and (fixity or BEGINS.match(line.strip())):
            kind, name = ("", fixity[1]) if fixity else ITEM.match(line.strip()).groups()
            name = f"{name}@{number}" if kind == "module" else name
            item = module.definitions.setdefault(name, Definition(module.crate, module.name, name, kind))
            item.kind = item.kind or kind or ""
            item.names |= {head[1].key for head in heads}
            if kind == "module":
                heads.append((indent(line), item))
        elif item and item.kind == "data" and re.match(r" *\S+ : ", line):
            module.constructors[line.split()[0]] = item.name
        if item:
            item.lines.append(line)
    return module


def words(text):
    """The names that a text may be using, but for fields that it only looks into; of a name with a field behind it also the name alone."""
    text = re.sub(r'"[^"]*"', "", text)
    for label in LABELS:
        text = label.sub("", text)
    found = {word.strip(".") for word in re.split(r"[\s(){}\[\],;«»]+", text) if not word.startswith(".")}
    return found | {word.partition(".")[0] for word in found}


class Specs:
    """The definitions of all crates of a project."""

    def __init__(self, top):
        self.modules = {}
        for crate in crates(top):
            folder = top / "crates" / crate / "specs"
            for path in sorted(folder.rglob("*.antt")):
                if path.name not in LISTS:
                    name = ".".join(path.relative_to(folder).with_suffix("").parts)
                    self.modules[crate, name] = items(Module(crate, name, path.read_text(encoding="utf-8")))
        self.definitions = {each.key: each for module in self.modules.values() for each in module.definitions.values()}
        for module in self.modules.values():
            imports = imported(module.text)
            own = {name: (module.crate, module.name) for name in [*module.definitions, *module.constructors]}
            for each in module.definitions.values():
                each.names |= self.named("\n".join(each.lines), (own | imports[0], imports[1])) - {each.key}

    def found(self, where, name):
        """The definition that has a name in a module: of a constructor its data, which may be a module of its own."""
        data = ""
        while where not in self.modules and "." in where[1]:
            where, data = (where[0], where[1].rpartition(".")[0]), where[1].rpartition(".")[2]
        if where not in self.modules:
            return None
        module = self.modules[where]
        name = name if name in module.definitions else module.constructors.get(name, data)
        return module.definitions[name].key if name in module.definitions else None

    def named(self, text, imports):
        """The definitions that a text names, by its imports."""
        names, modules = imports
        used = words(text)
        keys = set()
        for name, where in names.items():
            parts = [part for part in name.split(HOLE) if part]
            if all(part in used for part in parts):
                keys.add(self.found(where, name))
        for word in used:
            first, dot, rest = word.partition(".")
            if dot and first in modules:
                keys.add(self.found(modules[first], rest))
        return keys - {None}

    def reached(self, keys, stop=lambda key: False):
        """All that definitions rest on, themselves included; what stands behind a stop is not looked at."""
        seen, left = set(), list(keys)
        while left:
            key = left.pop()
            if key not in seen and not stop(key):
                seen.add(key)
                left += self.definitions[key].names
        return seen
