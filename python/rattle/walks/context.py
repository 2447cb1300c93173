"""A context of the kit's calculus, entry by entry, and the lines that move it. Entries have names; the kit knows them by their places."""


class Context:
    def __init__(self, names):
        self.names, self.lines = list(names), []

    def at(self, name):
        """An entry's place."""
        assert self.names.count(name) == 1, (name, self.names)
        return self.names.index(name)

    def step(self, line, takes=0, *gives):
        """A line, by which the first entries, as many as it takes, become those that it gives."""
        self.lines.append(line)
        self.names[:takes] = gives

    def front(self, *names):
        """Brings entries to the front, in this order."""
        places = [self.at(name) for name in names]
        if places != list(range(len(places))):
            self.lines.append(f"move ! ({listed(map(str, places))}) $")
            self.names = [*names, *(name for name in self.names if name not in names)]

    def rename(self, name):
        """Another name for the first entry."""
        self.names[0] = name

    def drop(self, name):
        self.front(name)
        self.step("drop ! $", 1)

    def join(self, how, first, second, name):
        self.front(first, second)
        self.step(f"{how} ! $", 2, name)

    def end(self, line):
        """The last line, with all that is still open closed."""
        text = "".join(self.lines) + line
        self.lines.append(line + ")" * (text.count("(") - text.count(")")))

    def load(self, local, *fields):
        """A local read, or a field of it."""
        place = self.at(f"v-{local}")
        if not fields:
            return f"(load ! (from ! (stop !)) (look ! {place} refl))"
        path, parts = "(stop !)", "(whole !)"
        for field in fields:
            path, parts = f"(fld ! refl {path})", f"(sub ! {field} refl {parts})"
        return f"(load ! (from ! {path}) (look-in ! {place} {parts}))"

    def assign(self, value, local, typed, how="init"):
        """A local is given a value for the first time, or another one (`store`)."""
        self.step(f"assigns ! {value} (from ! (stop !)) ({how} ! {self.at('v-' + local)} refl {typed}) $")

    def text(self, indent):
        return "\n".join(" " * indent + line for line in self.lines)


def listed(items):
    return " ∷ ".join([*items, "[]"])


def nested(items, end="tt"):
    """Pairs, nested to the right."""
    items = list(items)
    return f"({items[0]}, {nested(items[1:], end)})" if items else end


def nested_type(items):
    items = list(items)
    return f"{items[0]} × ({nested_type(items[1:])})" if items else "Unit {0}"


def part(place):
    """The way to a part of nested pairs."""
    return " ".join([".1"] * place + [".0"])


def operands(items):
    items = list(items)
    return f"(and-then ! {items[0]} {operands(items[1:])})" if items else "(no-more !)"


def low(number):
    """A number as an index below the line."""
    return "".join("₀₁₂₃₄₅₆₇₈₉"[int(digit)] for digit in str(number))
