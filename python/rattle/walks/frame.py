"""What every walk has round its body: the parameters as they come in and go out, the locals, and the last lines that take the walk to the
function's own contract."""
from pathlib import PurePosixPath
from typing import NamedTuple

from rattle.walks.context import Context, listed, low, nested, nested_type, part
from rattle.walks.kit import imports
from rattle.walks.values import Lent

GIVEN = "{M : Type 1} (𝓤 : URA M) (H : Heap 𝓤) (A : Atoms 𝓤)"
RUN = "(mem : Memory → SProp 𝓤) (run : Routine → Fun 𝓤)"
ALL = "𝓤 H A W mem run"
CONTRACT = "𝓤 H A mem run"


class Name(NamedTuple):
    """A function by its path."""
    crate: str
    module: str
    function: str

    @classmethod
    def of(cls, path):
        return cls(*path.split("::"))

    @property
    def dashed(self):
        return self.function.replace("_", "-")

    @property
    def key(self):
        return "·".join(self).replace("_", "-")


class Frame:
    """A walk of a function, of which subclasses make the body. `looked` is a slice to be read that the body itself reads."""

    def __init__(self, name, params, result, callees, uses, looked=None):
        self.name, self.params, self.result = name, params, result
        self.crate, self.module, self.function = Name.of(name)
        self.callees, self.uses = {callee.dashed: callee for callee in callees}, uses
        self.slices = [x for x, kind in params.items() if isinstance(kind, Lent)]
        self.written = [x for x in self.slices if params[x].written]
        self.read = [x for x in self.slices if not params[x].written]
        self.values = [x for x in params if x not in self.slices]
        self.apart = [x for x in self.slices if x in self.written or x == looked]
        self.lifetime = {x: place for place, x in enumerate(self.slices)}

    @property
    def path_in_crates(self):
        """Its file, from the project's root."""
        return PurePosixPath("crates", self.crate, "proofs", self.module, self.function, "Proof.antt")

    # ---- names and terms

    def path(self, crate, name):
        """A module of a crate, as this crate names it."""
        folder = name.partition(".")[0]
        return f"Rattle·{crate}·{folder}.{name}" if crate == self.crate else f"Rattle·{crate}.{name}"

    def row(self, x):
        return self.params[x].of.row if x in self.slices else self.params[x].row

    def list(self, x):
        """A slice's list as it came in."""
        return f"{x}₀" if x in self.apart else f"({x}₀ .now)"

    def reference(self, x):
        return f"at-{x} γ-{x} {x}₀" if x in self.apart else f"{x}₀"

    def place(self, x):
        return f"b-{x} o-{x}"

    def token(self, x):
        return f"‵ (flft κ-{x} q-{x})"

    def machine(self, x):
        return f"s-{x}" if x in self.slices else self.params[x].machine(f"{x}₀")

    def machines(self, x):
        return f"(s-{x} ∷ [])" if x in self.slices else self.params[x].machines(f"{x}₀")

    def mir(self, x):
        return f"ty-{x}" if x in self.slices else self.params[x].mir

    def argument(self, x):
        return self.reference(x) if x in self.slices else f"{x}₀"

    def denotes(self, x):
        return f"RefT (List {self.params[x].of.denotes})" if x in self.slices else self.params[x].denotes

    def type(self, x):
        """A parameter's type of the kit."""
        return f"{self.params[x].kind} (named {self.lifetime[x]}) κ-{x} {self.row(x)}" if x in self.slices else self.row(x)

    def held(self, x):
        return f"(Held {self.row(x)} (length {x}₀) {self.place(x)} γ-{x})"

    def opened(self, x, now):
        """The entries of a borrow that is open, at its list now."""
        code = f"(codedHoleys {self.row(x)} .code (heres {self.row(x)} {x}₀))"
        return [(f"row-{x}", f"‵ (row {self.row(x)} fullShare {now} {self.place(x)})"), (f"obor-{x}", f"‵ (fobor κ-{x} q-{x} {self.held(x)})"),
                (f"obs-{x}", f"‵ (fobs γ-{x} {code})"), (f"auth-{x}", f"‵ (fauth γ-{x} {code})")]

    def shared(self, x):
        return [(f"tok-{x}", self.token(x)), (f"D-{x}", f"‵ D-{x}")]

    # ---- locals: {name: type}, the first being what is given back; `full` has the values of those that hold one

    def place_of(self, local):
        return "l" + low(list(self.locals).index(local))

    @property
    def places(self):
        return " ".join(map(self.place_of, self.locals))

    def local_items(self, full):
        items = []
        for x in reversed(self.locals):
            place = f"{self.locals[x]} {self.place_of(x)}"
            items.append((f"v-{x}", f"‵ (fat fullShare {place} 0 {full[x]})" if x in full else f"‵ (froom {place} 0)"))
            items.append((f"x-{x}", f"‵ (fdies {place})"))
        return items

    @property
    def passed_values(self):
        return {x: self.machine(x) for x in self.params}

    # ---- the text

    def put(self, *texts):
        self.out.extend(texts)

    def text(self):
        self.out = []
        self.before()
        self.body()
        self.after()
        body = "\n".join(self.out)
        uses = []
        of_params = [use for kind in self.params.values() for use in kind.uses]
        for crate, name in [*self.uses, *of_params, *self.result.uses, *self.more_uses()]:
            line = f"use {self.path(crate, name)}"
            if line not in uses:
                uses.append(line)
        return "\n".join([*self.heading(), *imports(body), *uses, *self.names(), "", body]) + "\n"

    def heading(self):
        made = f"-- `{self.name}` meets its contract: a walk of its MIR by hand, made by tools/walks.py from its table."
        return [made, f"-- {self.says}", "-- Assumes nothing."]

    def names(self):
        """The modules of the functions that are called, and its own."""
        for name, callee in self.callees.items():
            module = self.path(callee.crate, f"proofs.{callee.module}.{callee.function}")
            yield from (f"use {module} as {name}", f"use {module}.Symbol as {name}-def", f"use {module}.Symbol.{{name as #{name}}}",
                        f"use {module}.Met as {name}-thm")
        module = self.path(self.crate, f"proofs.{self.module}.{self.function}")
        yield from (f"use {module}.Key.{{name as #here}}", f"use {module} as here", f"use {module}.Statement as stated", f"use {module}.Code as code",
                    f"use {module}.Code.Mir as mir′")

    def stay(self, x):
        if x in self.values:
            return f"stay-none (λ _. {self.row(x)}) yes"
        kind, kept = ("stay-slice", "") if x in self.written else ("stay-none-slice", " yes")
        return f"{kind} ({self.lifetime[x]} ∷ []) tt (plain (λ _. {self.row(x)})){kept}"

    def goes(self, x):
        count = len(self.slices)
        if x in self.values:
            return f"goes-none 𝓤 H A W {count} (λ _. {self.row(x)}) yes (λ κs x f. refl)"
        if x in self.written:
            return f"goes-slice 𝓤 H A W {count} {self.lifetime[x]} tt (plain (λ _. {self.row(x)}))"
        return f"goes-none-slice 𝓤 H A W {count} ({self.lifetime[x]} ∷ []) tt (plain (λ _. {self.row(x)})) yes"

    def spells(self, x):
        return "slice-vals" if x in self.slices else self.params[x].values

    def tells(self, x):
        if x in self.values:
            return self.params[x].tells
        kind = "mut-slice-tells" if x in self.written else "shr-slice-tells"
        return f"{kind} (named {self.lifetime[x]}) (κs {part(self.lifetime[x])}) {self.row(x)}"

    def bound(self):
        """What the walk binds: the names, their types, and what they are at a call of it."""
        place = {x: part(number) for number, x in enumerate(self.params)}
        yield from ((f"κ-{x}", "Lft", f"(κs {part(self.lifetime[x])})") for x in self.slices)
        yield from ((f"q-{x}", "Share", f"(qs {part(self.lifetime[x])})") for x in self.slices)
        for x in self.apart:
            yield f"b-{x}", "ℕ", f"(a {place[x]} .ptr .0)"
            yield f"o-{x}", "ℕ", f"(a {place[x]} .ptr .1)"
            yield f"γ-{x}", "GName", f"(a {place[x]} .name)"
        for x in self.params:
            if x in self.apart:
                yield f"{x}₀", f"List {self.params[x].of.denotes}", f"(a {place[x]} .now)"
            else:
                yield f"{x}₀", self.denotes(x), f"(a {place[x]})"
        for x in self.params:
            if x in self.slices:
                yield f"room-{x}", f"Room {self.row(x)} (length {self.list(x)})", f"(are {place[x]} .0 .1)"
            else:
                yield f"is-{x}", self.params[x].relation(f"{x}₀"), f"(are {place[x]})"

    def before(self):
        """The types, what the walk binds, and what is had of the parameters."""
        self.put("abbrev stayed : Stays (here.ended .signature .params) (here.ended .kept)", "stayed = " + nested(map(self.stay, self.params)), "")
        for x in self.slices:
            kind = self.params[x]
            self.put(f"abbrev ty-{x} : Ty", f"ty-{x} = sliceTy (tyRef (named {self.lifetime[x]}) {kind.how} {kind.of.pointee})", "")
        self.put(f"module _ {GIVEN} {RUN} where")
        for name in self.callees:
            self.put(f"  abbrev Of-{name} : Contract 𝓤", f"  Of-{name} = tripleOf 𝓤 H A {name}.signature ({name}.spec {CONTRACT})", "")
        self.put(f"module _ {GIVEN} (W : Given 𝓤 H A) {RUN}")
        bound = [f"({name} : {kind})" for name, kind, _ in self.bound()]
        self.put("    " + "\n    ".join(bound) + " where")
        for x in self.apart:
            kind = self.params[x].of.denotes
            self.put(f"  abbrev at-{x} : GName → List {kind} → RefT (List {kind})")
            self.put(f"  at-{x} δ l = record {{ ptr = (b-{x}, o-{x}); name = δ; now = l }}", "")
        for x in self.slices:
            place = f"(b-{x}, o-{x})" if x in self.apart else f"({x}₀ .ptr)"
            self.put(f"  abbrev s-{x} : Val", f"  s-{x} = sliceVal {place} (length {self.list(x)})", "")
        for x in self.read:
            self.put(f"  abbrev D-{x} : Fml", f"  D-{x} = {self.type(x)} .own ({self.reference(x)}) (s-{x} ∷ [])", "")
        self.put(f"  abbrev a : {nested_type(map(self.denotes, self.params))}", f"  a = {nested(map(self.argument, self.params))}", "")
        self.put(f"  abbrev vals : {nested_type('List Val' for x in self.params)}", f"  vals = {nested(map(self.machines, self.params))}", "")
        clauses = f"walkOf 𝓤 H A here.ended stayed (here.clauses {CONTRACT})"
        self.put(f"  abbrev bound : {clauses} .Ghost")
        self.put(f"  bound = (({nested('κ-' + x for x in self.slices)}, {nested('q-' + x for x in self.slices)}, tt, a, vals), tt)", "")
        self.put("  abbrev Post : Val → SProp 𝓤", f"  Post = {clauses} .post bound", "")

    def exit_items(self, lists):
        """What is had at the exit, each written slice at its last list."""
        items = []
        for x in reversed(self.written):
            row, last = self.row(x), lists[x]
            items += [(f"obs-{x}", f"‵ (fobs γ-{x} (codedHoleys {row} .code (heres {row} {last})))"),
                      (f"bor-{x}", f"‵ (fbor κ-{x} (Held {row} (length {last}) {self.place(x)} γ-{x}))"), (f"tok-{x}", self.token(x))]
        return items + [item for x in self.read for item in self.shared(x)]

    def exit(self, lists, longs, term, known, law):
        """The lines from what is had at the exit to the contract: the last lists, that they are as long as the first, what is given back, what
        is known of it, and the law that the contract holds."""
        items = self.exit_items(lists)
        c = Context(name for name, _ in items)
        c.step(f"qed W ({listed(text for _, text in items)}) ∵")
        ends = nested(lists.get(x, "tt") for x in self.params), nested(longs.get(x, "tt") for x in self.params)
        at = f"{self.result.machine(term)} {term} {ends[0]} {ends[1]}"
        c.step(f"suffices ! _ (ends-at 𝓤 H A here.ended stayed (here.clauses {CONTRACT}) W bound {at}) $")
        c.step(f"says ! ({law}) $")
        c.step("nothing ! $", 0, "toks")
        for x in reversed(self.slices):
            c.join("join", f"tok-{x}", "toks", "toks")
        c.step("frame ! $", 1)
        c.step("nothing ! $", 0, "had")
        for x in reversed(self.params):
            if x in self.written:
                c.join("fjoin", f"obs-{x}", f"bor-{x}", "own")
                same = f"ap (λ (n : ℕ). sliceVal (b-{x}, o-{x}) n ∷ []) (sym {longs[x]}), subst (Room {self.row(x)}) (sym {longs[x]}) room-{x}"
                c.step(f"pureI ! (at-slice {self.row(x)} (at-{x} γ-{x} {lists[x]}) (s-{x} ∷ [])) (tt, (tt, tt)) ({same}) $ fjoin ! $")
            elif x in self.values:
                c.step(self.params[x].owned(f"{x}₀", f"is-{x}"), 0, "own")
            c.join("fjoin", f"D-{x}" if x in self.read else "own", "had", "had")
        assert c.names == ["had"], c.names
        c.step("frame ! $", 1)
        c.end(f"{self.result.owned(term, known)} done !")
        return c

    def leave(self, c, lists, longs, exits):
        """The borrows are closed, the locals freed: from a context where what is given back lies in its local."""
        for x in self.written:
            c.front(f"row-{x}", f"obor-{x}", f"obs-{x}", f"auth-{x}")
            c.step(f"closes-slice ! tt {self.row(x)} {x}₀ {lists[x]} {longs[x]} {self.place(x)} $", 4, f"obs-{x}", f"bor-{x}", f"tok-{x}")
        c.step(f"returns ! (look ! {c.at('v-ret')} refl) $")
        for x in reversed(self.locals):
            if x in self.full:
                c.step(f"forget ! {c.at('v-' + x)} refl $")
        for x in self.locals:
            c.front(f"v-{x}", f"x-{x}")
            c.step("free1 ! $", 2)
        c.step("free0 ! $")
        c.front(*(name for name, _ in self.exit_items(lists)))
        c.end(f"by ! ({exits})")

    def begin(self, c):
        """What the types own at the entry is taken apart, and each borrow of a slice to be written is opened."""
        for x in self.params:
            c.front("owns")
            c.step("fsplit ! $", 1, "own", "owns")
            if x in self.written:
                c.step("fsplit ! $ drop ! $ fsplit ! $", 1, f"obs-{x}", f"bor-{x}")
            elif x in self.read:
                c.rename(f"D-{x}")
            else:
                c.drop("own")
        c.drop("owns")
        for x in self.slices:
            c.front("toks")
            c.step("split ! $", 1, f"tok-{x}", "toks")
        c.drop("toks")
        for x in self.written:
            c.front(f"obs-{x}", f"bor-{x}", f"tok-{x}")
            c.step(f"opens-slice ! tt {self.row(x)} {x}₀ {self.place(x)} $", 3, f"row-{x}", f"obor-{x}", f"obs-{x}", f"auth-{x}")

    @property
    def known(self):
        return " ".join(f"(k-{name} : Triple 𝓤 (𝓣 .C #{name}) (Of-{name} {CONTRACT}))" for name in self.callees)

    @property
    def knowns(self):
        return " ".join(f"k-{name}" for name in self.callees)

    @property
    def entry(self):
        """The entries at the entry: tokens, and what the types own."""
        tokens = "‵ ftrue"
        for x in reversed(self.slices):
            tokens = f"({self.token(x)} ⊛ {tokens})"
        return [("toks", tokens), ("owns", f"‵ (owns ({listed(map(self.type, self.params))}) a vals)")]

    @property
    def flat(self):
        return f"({listed(map(self.machine, self.params))})"

    def copies(self, c, x, name):
        """A slice to be read is copied, and the copy has a name."""
        c.front(f"D-{x}")
        law = f"(shr-slice-copy 𝓤 H A W (named {self.lifetime[x]}) κ-{x} {self.row(x)} .twice ({self.reference(x)}) (s-{x} ∷ []))"
        c.step(f"use1 W (‵ D-{x} ⊛ ‵ D-{x}) {law} $ split ! $", 1, name, f"D-{x}")

    def hears(self, c, callee, bound, gives, result, became, fact, tokens="‵ ftrue"):
        """After a call: what it gave, under a name, its fact, and what the slices that it wrote became (`zs`, part by part, a type for each)."""
        name, (lifetimes, terms), index = callee.dashed, bound, result[1:]
        ensured = f"raw (ensured 𝓤 H A {name}.ended ({name}.clauses {CONTRACT}) {lifetimes} {terms} tt {result})"
        c.step(f"use1 W (later (some (λ ({result} : {gives.denotes}). ({tokens} ⊛ ‵ ({gives.row} .own {result} (w ∷ []))) ⊛ {ensured}))) (id⊢ 𝓤 _) $")
        c.step(f"await ! tt $ pick ! (λ {result}. split ! $ move ! (1 ∷ []) $", 1, "ensured", "res")
        said = f"‵ (lasts {name}.ended {lifetimes} {terms} zs) ⊛ raw (fact 𝓤 ({fact}))"
        c.step(f"use1 W (some (λ (zs : {nested_type(kind or 'Unit {0}' for kind in became.values())}). {said})) (id⊢ 𝓤 _) $ pick ! (λ zs.")
        c.step(f"split ! $ move ! (1 ∷ []) $ heard ! ({fact}) (λ got{index}.", 1, "lasts")
        for x, kind in became.items():
            c.front("lasts")
            c.step("fsplit ! $", 1, "last", "lasts")
            if kind:
                c.step(f"fsplit ! $ move ! (1 ∷ []) $ feqL ! (λ now-{x}.", 1, f"fin-{x}")
            else:
                c.drop("last")
        c.drop("lasts")
        c.front("res")
        c.step("split ! $", 1, "back", "res")

    def lands(self, c, gives, result, local, how="init"):
        """What a call gave lies in a local, as the machine value w."""
        c.front("res")
        c.step(f"peeks ! {gives.row} (Is {gives.row}) (shows 𝓤 H A {gives.row}) {result} (w ∷ []) (λ is.")
        place = c.at(f"v-{local}")
        c.step(f"land ! (from ! (stop !)) ({how} ! {place} refl {gives.typed(result, 'is')}) $")

    def spelled(self, c, gives, result, local):
        """And as its own machine value."""
        self.rewrites(c, local, "(x : Val)", gives.mir, "x", f"(ap only ({gives.told(result, 'is')}))")

    def rewrites(self, c, local, bound, mir, value, by):
        """A local's value is another one that it equals."""
        c.step(f"rewrite ! {c.at('v-' + local)} (λ {bound}. ‵ (fat fullShare {mir} {self.place_of(local)} 0 {value})) {by} refl $")

    def inside(self):
        """The module in which the body is walked."""
        self.put(f"  module _ (𝓣 : Tables 𝓤 H) (fm : FmC 𝓤 H (W .laws) (𝓣 .C)) {self.known} ({self.places} : ℕ) where")
        self.put("    abbrev C : Calls 𝓤 H", "    C = 𝓣 .C", "", "    abbrev Λ : Loops 𝓤 H", "    Λ = 𝓣 .Λ", "")
        self.put("    abbrev En : Env 𝓤 H", "    En = " + listed(f"({kind}, {self.place_of(x)})" for x, kind in self.locals.items()), "")

    def passed(self, then):
        """The arguments are stored, and `then` goes on."""
        items = [*self.local_items({}), *self.entry]
        goal = f"(params′ En {self.flat} (runs C Λ En (code.function .body) (atRet En Post)))"
        self.put(f"    passed : Sq W ({listed(text for _, text in items)}) {goal}", "    passed =")
        c = Context(name for name, _ in items)
        c.step("params1 ! $")
        for x in self.params:
            typed = f"(tt, (tt, (record {{ fits = room-{x} .0 }}, tt)))" if x in self.slices else self.params[x].typed(f"{x}₀", f"is-{x}")
            c.step(f"pass1 ! (init ! {c.at('v-' + x)} refl {typed}) $")
        c.end(f"pass0 ! $ {then}")
        self.put(c.text(8), "")

    def after(self):
        """From the walk to the contract, and to the function's own routine."""
        known = " → ".join(f"Triple 𝓤 (𝓣 .C #{name}) (Of-{name} {CONTRACT})" for name in self.callees)
        kind = f"(𝓣 : Tables 𝓤 H) → FmC 𝓤 H (W .laws) (𝓣 .C) → {known}"
        function = "(WpFn 𝓤 H (𝓣 .C) (𝓣 .Λ) code.function)"
        tokens = f"{nested('κ-' + x for x in self.slices)} {nested('q-' + x for x in self.slices)}"
        at_entry = f"(onEntry 𝓤 H A here.signature {tokens} a vals)"
        self.put(f"  walk : {kind} →", f"      ent 𝓤 {at_entry} (WpFn 𝓤 H (𝓣 .C) (𝓣 .Λ) code.function {self.flat} Post)")
        self.put(f"  walk 𝓣 fm {self.knowns} =")
        c = Context([])
        c.step(f"qed W ({listed(text for _, text in self.entry)}) ∵")
        c.step(f"enter ! (𝓣 .C) (𝓣 .Λ) code.function {self.flat} _ $")
        for x in self.locals:
            c.step(f"alloc1 ! (λ {self.place_of(x)}.")
        c.end(f"alloc0 ! $ passed 𝓣 fm {self.knowns} {self.places}")
        self.put(c.text(6), "")
        clauses = f"(here.clauses {CONTRACT})"
        self.put(f"module _ {GIVEN} (W : Given 𝓤 H A) {RUN} where")
        self.put(f"  all-walks : {kind} → Walks 𝓤 H A here.ended stayed {function} {clauses}")
        self.put(f"  all-walks 𝓣 fm {self.knowns} =", f"      walked 𝓤 H A here.ended stayed {clauses} {function}")
        self.put(f"      (λ κs. {nested(map(self.spells, self.params))})", f"      (λ κs. {nested(map(self.tells, self.params))})")
        values = " ".join(at for _, _, at in self.bound())
        self.put(f"      (λ κs qs bounds a g are. via 𝓤 _ (fst∗ 𝓤 _ (emp 𝓤)) (walk {ALL} {values} 𝓣 fm {self.knowns}))", "")
        self.put(f"  meets : (𝓣 : Tables 𝓤 H) → {known} → Meets 𝓤 H A here.signature {function} (here.spec {CONTRACT})")
        self.put(f"  meets 𝓣 {self.knowns} =", f"      walk-meets 𝓤 H A here.ended stayed W {nested(map(self.goes, self.params))}")
        self.put(f"      {clauses} {function} (WpFn-mono 𝓤 H (W .laws) 𝓣 code.function) (all-walks 𝓣 (fmOf 𝓤 H (W .laws) 𝓣) {self.knowns})", "")
        name = f"{Name.of(self.name).dashed}-spec"
        run, tables = "(𝓜 .mem) (𝓡 .run)", "tables 𝓤 H 𝓜 𝓡 code.env"
        self.put(f"pub {name} : {{M : Type 1}} → stated.statement M", "unfolding code.routine tablesOf", f"{name} 𝓤 H 𝓜 𝓖 𝓡 =")
        self.put(f"    entered 𝓤 H (tripleOf 𝓤 H (𝓖 .A) here.signature (here.spec 𝓤 H (𝓖 .A) {run}))")
        self.put(f"    ({tables} .C) ({tables} .Λ) #here code.function (code.unfolded 𝓤 H 𝓜 𝓡)")
        self.put(f"    (meets 𝓤 H (𝓖 .A) (givenOf 𝓤 H 𝓜 𝓖) {run} (tablesOf 𝓤 H 𝓜 ({tables}))")
        for name, callee in self.callees.items():
            theorem = f"#{name} {name}-def.routine code.calls-{callee.key} ({name}-thm.met 𝓤 H 𝓜 𝓖 𝓡)"
            self.put(f"    (cited 𝓤 H (Of-{name} 𝓤 H (𝓖 .A) {run}) 𝓜 𝓡 code.env {theorem})")
        self.out[-1] += ")"
