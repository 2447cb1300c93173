"""The inputs of a program, taken from its own source: its constants, and its functions that only put values together and call others.

Such a function has no `if`, `match` or loop; it is read line by line into Python, values being copied where Rattle moves or copies them.
All other functions a test must give itself.
"""
import copy
import re
from types import SimpleNamespace

from meadow.programs import TOP

BRANCHES = re.compile(r"\b(if|match|while|for|loop|return)\b")
FUNCTION = re.compile(r"\bfn (\w+)\(([^()]*)\)[^{]*\{")
CONSTANT = re.compile(r"\bconst (\w+): [^=]+= (.*?);\n", re.S)
BINDING = re.compile(r"(?:let (?:mut )?)?([\w.\[\]]+)(?:: [^=]+)? = (.*)", re.S)
STRUCT = re.compile(r"\b([A-Z][A-Za-z]*) \{([^{}]*)\}")


class Struct(SimpleNamespace):
    """A struct's fields by name."""


class Printer:
    """What a program's `main` is handed: it keeps what is printed by it."""

    def __init__(self):
        self.parts = []

    def write_all(self, text):
        self.parts.append(text.decode("ascii"))

    def print(self, value):
        self.parts.append(str(value))

    def printed(self):
        return "".join(self.parts)


def sources_of(crate):
    """The text of a program's source files, without comments."""
    paths = sorted((TOP / "crates" / crate / "src").glob("*.rt"))
    return [re.sub(r"//[^\n]*", "", path.read_text(encoding="utf-8")) for path in paths]


def python_of(text):
    """An expression of Rattle as one of Python."""
    text = re.sub(r"\s+", " ", text.strip())
    text = re.sub(r"&(mut )?", "", text)
    text = re.sub(r'print!\((\w+); "\{(\w+)\}"\)', r"\1.print(\2)", text)
    text = re.sub(r"\b(\d[\d_]*)(u8|u32|u64|usize)\b", r"\1", text)
    text = re.sub(r" as \w+", "", text)
    text = re.sub(r"\b[a-z]\w*::", "", text)
    text = re.sub(r"\b[A-Z]\w*::([A-Z]\w*)", r'"\1"', text)
    text = re.sub(r"\[([^\[\];]+); ([^\[\];]+)\]", r"[\1] * (\2)", text)
    while STRUCT.search(text):
        text = STRUCT.sub(made, text)
    return text


def made(found):
    """A struct put together, as a call with its fields by name."""
    fields = re.sub(r"(\w+): ", r"\1=", found[2])
    return f"{found[1]}({fields})"


def body_at(text, start):
    """The text from a place behind an opening brace up to the closing one."""
    depth, at = 1, start
    while depth > 0:
        depth += {"{": 1, "}": -1}.get(text[at], 0)
        at += 1
    return text[start : at - 1]


def statements(body):
    """The parts of a body between semicolons that stand in no bracket; the last is its value, or empty."""
    parts, depth, part = [], 0, ""
    for letter in body:
        depth += (letter in "([{") - (letter in ")]}")
        if letter == ";" and depth == 0:
            parts.append(part)
            part = ""
        else:
            part += letter
    return parts, part


def statement(text):
    """A statement as a line of Python."""
    found = BINDING.fullmatch(text.strip())
    return f"{found[1]} = copied({python_of(found[2])})" if found else python_of(text)


def function_of(name, parameters, body):
    """A straight function as the text of a Python one."""
    names = re.findall(r"(\w+):", parameters)
    parts, value = statements(body)
    lines = [statement(part) for part in parts] + [f"return {python_of(value) or None}"]
    return f"def {name}({', '.join(names)}):\n" + "".join(f"    {line}\n" for line in lines)


def constants(crate):
    """A program's constants by name."""
    found = {}
    for text in sources_of(crate):
        for name, value in CONSTANT.findall(text):
            found[name] = eval(python_of(value), {**structs([value]), **found})
    return found


def structs(texts):
    """A maker for each struct that is put together somewhere."""
    return {name: Struct for text in texts for name in re.findall(r"\b([A-Z]\w*) \{", text)}


def program(crate, given):
    """A program's names: its constants, its straight functions, and those given."""
    names = {"copied": copy.deepcopy, **structs(sources_of(crate)), **constants(crate)}
    read = set()
    for text in sources_of(crate):
        for found in FUNCTION.finditer(text):
            name, body = found[1], body_at(text, found.end())
            if name in given or BRANCHES.search(body):
                continue
            if name in read:
                raise ValueError(f"{crate} has two functions {name}")
            read.add(name)
            exec(function_of(name, found[2], body), names)
    names.update(given)
    return names
