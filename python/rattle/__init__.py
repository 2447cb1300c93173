"""The project's own Rattle sources, read as text: the public functions with their contracts, and the definitions of specs/ with what each of
them names. Tools and tests that look after the project rest on it."""
import re

DEMANDS = "demands"
# the library's own specs have the same form
MODULE = re.compile(r"Rattle\.(?!(?:std|core)\.)(\w+)\.specs\.(\S+)")
STATIC = "staticlib"


def module_of(path):
    """(crate, module) of a path as an import has it, whichever crate looks; None for what is not this project's."""
    found = MODULE.fullmatch(path)
    return found.groups() if found else None


def listed(top):
    """Each crate's words before the colon, its name first, and those after it, as crates.txt has them."""
    lines = (top / "crates.txt").read_text(encoding="utf-8").splitlines()
    for line in (line.partition("#")[0] for line in lines):
        if line.strip():
            words, _, others = line.partition(":")
            yield words.split(), others.split()


def crates(top):
    """{crate: those that it may look at}, as crates.txt lists them, the lowest first."""
    return {words[0]: others for words, others in listed(top)}


def statics(top):
    """The crates that are static libraries: what other languages link."""
    return [words[0] for words, _ in listed(top) if STATIC in words[1:]]


def statements(top):
    """The crates that only say what holds of the libraries: the demands, and what stands above them. Nobody calls their functions."""
    return [name for name, others in crates(top).items() if DEMANDS in (name, *others)]


def imported(text):
    """{name: (crate, module)} of the definitions that a file imports, and {name: (crate, module)} of the modules under names of their own."""
    names, modules = {}, {}
    for path, inside in re.findall(r"^(?:ghost )?use (\S+)\.\{([^}]*)\}", text, re.M):
        if module_of(path):
            names |= {name.strip().split(" as ")[-1]: module_of(path) for name in inside.split(",")}
    for path, name in re.findall(r"^(?:ghost )?use (\S+) as (\w+)", text, re.M):
        if module_of(path):
            modules[name] = module_of(path)
    return names, modules
