"""What the walks know of types: those that go by value, and slices of them that are lent."""
from dataclasses import dataclass


@dataclass(frozen=True)
class Plain:
    """A type that goes by value: what it denotes, its row of the kit, its type in MIR, its machine values, and its laws."""
    denotes: str
    row: str
    mir: str
    pointee: str
    value: str          # the machine value of @
    values: str         # all of them, as a function
    lawful: str
    makes: str
    tells: str
    copies: str = ""
    uses: tuple = ()    # what a file that speaks of it imports, `OWN` being the crate where the file stands

    def machine(self, term):
        return f"({self.value.replace('@', term)})"

    def machines(self, term):
        return f"({self.values} {term})"

    def owned(self, term, known):
        """The line by which it is owned at a value of which its relation is known."""
        return f"owned ! {self.row} (Is {self.row}) ({self.makes}) {term} _ {known} $"

    def typed(self, term, known):
        return f"({self.lawful} .typed {term} _ {known} .0)"

    def told(self, term, known):
        """That its machine values are those of the term."""
        return f"{self.tells} {term} (w ∷ []) {known}"

    def relation(self, term):
        return f"Is {self.row} {term} {self.machines(term)}"


def number(row, width):
    return Plain("ℕ", row, f"(tyInt {width})", f"(tyInt {width})", f"vint {width} @", f"uint-vals {width}", f"uint-lawful 𝓤 H A W {width}",
                 f"uint-makes 𝓤 H A W {width}", f"uint-tells {width}")


def struct(crate, module, name):
    of, laws = f"of-{name}", f"laws-{name}"
    both = f"{of}.the-type {laws}.the-laws"
    uses = (
        (crate, f"specs.declared.{module}.{name}.{{{name}}}"),
        (crate, f"proofs.{module}.{name} as {of}"),
        (crate, f"proofs.{module}.{name}.Laws as {laws}"),
    )
    return Plain(name, f"{of}.the-row", f"{laws}.mir", f"(pointee ({of}.the-row .written))", f"LL.val {both} @", f"LL.vals {both}",
                 f"LL.lawful {both} 𝓤 H A W", f"LL.makes {of}.the-type {laws}.the-plain 𝓤 H A", f"LL.tells {both}",
                 f"LL.copy {of}.the-type {laws}.the-copy 𝓤 H A W", uses)


NOTHING = Plain("Unit {0}", "Nothing", "tyUnit", "", "vunit", "nothing-vals", "nothing-lawful 𝓤 H A W", "nothing-makes 𝓤 H A W", "nothing-tells")
U8, U32, U64, USIZE = number("u8", "w8"), number("u32", "w32"), number("u64", "w64"), number("usize", "w64")


@dataclass(frozen=True)
class Lent:
    """A slice that is lent, to be read or to be written."""
    of: Plain
    written: bool

    @property
    def how(self):
        return "mut" if self.written else "imm"

    @property
    def kind(self):
        return "MutSlice" if self.written else "ShrSlice"

    @property
    def uses(self):
        return self.of.uses


def shared(of):
    return Lent(of, False)


def mutable(of):
    return Lent(of, True)
