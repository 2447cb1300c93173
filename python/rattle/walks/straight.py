"""The walk of a straight body of calls: a lemma a call, over the rest of the body, so that no declaration grows too large. For a call the elements
of a slice to be written are lent, as a `&` or a `&mut`, and come back."""
import re
from dataclasses import dataclass

from rattle.walks.context import Context, listed, low, nested, operands, part
from rattle.walks.frame import CONTRACT, Frame, Name
from rattle.walks.kit import is_used
from rattle.walks.values import NOTHING, Lent, Plain


@dataclass(frozen=True)
class Call:
    """A call: its arguments (a parameter, by value or to be read; `x?` and `x!`, a slice to be written that is lent to be read or written; `r1`,
    what the first call gave), what it gives, and the fact that its contract states, where the list of x after call 2 is `x₂` and what that gave
    is `r₂`."""
    function: str
    args: tuple
    gives: Plain
    fact: str

    @property
    def callee(self):
        return Name.of(self.function)

    @property
    def lent(self):
        return [arg[:-1] for arg in self.args if arg[-1] in "?!"]

    @property
    def written(self):
        return [arg[:-1] for arg in self.args if arg[-1] == "!"]


class Straight(Frame):
    says = "Each borrow is opened once and closed once."

    def __init__(self, function, params, calls, law, uses):
        super().__init__(function, params, calls[-1].gives, [call.callee for call in calls], uses)
        self.calls, self.law = calls, law
        self.numbers = range(1, len(calls) + 1)
        self.locals = self.all_locals()

    def more_uses(self):
        laws = [law for law in ("Part", "lend-row", "back-row", "lend-shr-row", "back-shr-row") if is_used(law, "\n".join(self.out))]
        return [use for call in self.calls for use in call.gives.uses] + [("display", f"proofs.LendRow.{{{', '.join(laws)}}}")]

    def call(self, number):
        return self.calls[number - 1]

    # ---- locals

    def result_local(self, number):
        return "ret" if number == len(self.calls) else f"r{number}"

    def reborrowed(self, number, x):
        return f"ref-{number}-{x}", f"slice-{number}-{x}"

    def temporaries(self, number):
        """{local: type} of a call: where nothing is given, that; then a reference and a slice for each that is lent."""
        call, made = self.call(number), {}
        if call.gives is NOTHING:
            made[self.result_local(number)] = NOTHING.mir
        for x in call.lent:
            pointer = f"(tyRef erased {'mut' if x in call.written else 'imm'} {self.params[x].of.pointee})"
            first, second = self.reborrowed(number, x)
            made |= {first: pointer, second: f"(sliceTy {pointer})"}
        return made

    def all_locals(self):
        made = {"ret": self.result.mir} | {x: self.mir(x) for x in self.params}
        for number in self.numbers[:-1]:
            if self.call(number).gives is not NOTHING:
                made[self.result_local(number)] = self.call(number).gives.mir
        for number in self.numbers:
            made |= self.temporaries(number)
        return made

    def full_before(self, number):
        """{local: value} of those that hold one before a call."""
        full = self.passed_values
        for earlier in range(1, number):
            full[self.result_local(earlier)] = self.call(earlier).gives.machine(f"r{low(earlier)}")
            for x in self.call(earlier).lent:
                first, second = self.reborrowed(earlier, x)
                full |= {first: f"(vptr {self.place(x)})", second: f"s-{x}"}
        return full

    # ---- what is known after some calls

    def lists_after(self, number):
        """{slice to be written: its list}"""
        lists = {x: f"{x}₀" for x in self.written}
        for earlier in range(1, number + 1):
            lists |= {x: f"{x}{low(earlier)}" for x in self.call(earlier).written}
        return lists

    def longs_after(self, number):
        return {x: "refl" if now == f"{x}₀" else f"long-{now}" for x, now in self.lists_after(number).items()}

    def known_after(self, number):
        """(name, type) of all that calls gave, up to this one."""
        known = []
        for earlier in range(1, number + 1):
            call, index = self.call(earlier), low(earlier)
            known += [(f"r{index}", call.gives.denotes), (f"is{index}", call.gives.relation(f"r{index}"))]
            for x in call.written:
                known += [(f"{x}{index}", f"List {self.params[x].of.denotes}"), (f"long-{x}{index}", f"length {x}{index} ≡ length {x}₀")]
            known.append((f"got{index}", call.fact))
        return known

    @staticmethod
    def telescope(known):
        return "".join(f"({name} : {kind}) " for name, kind in known) + "→ " if known else ""

    @staticmethod
    def applied(known):
        return "".join(f" {name}" for name, _ in known)

    # ---- a call's arguments

    def slices_of(self, call):
        """{name of a slice in its place: whether it is lent anew}"""
        return {arg.rstrip("?!"): arg[-1] in "?!" for arg in call.args if isinstance(self.params.get(arg.rstrip("?!")), Lent)}

    def lent_type(self, call, x, place):
        kind = "MutSlice" if x in call.written else "ShrSlice"
        return f"{kind} (named {place}) (ν-{x} ∷ []) {self.row(x)}"

    def value_of(self, arg):
        """An argument by value: its type, its term, and what is known of it."""
        if re.fullmatch(r"r\d+", arg):
            index = low(int(arg[1:]))
            return self.call(int(arg[1:])).gives, f"r{index}", f"is{index}"
        return self.params[arg], f"{arg}₀", f"is-{arg}"

    def bound_of(self, call, lists):
        """Of a call: lifetimes, shares, arguments and their machine values."""
        slices = self.slices_of(call)
        terms, machines = [], []
        for arg in call.args:
            x = arg.rstrip("?!")
            if x in slices:
                terms.append(f"at-{x} δ-{x} {lists[x]}" if slices[x] else self.reference(x))
                machines.append(f"(s-{x} ∷ [])")
            else:
                kind, term, _ = self.value_of(arg)
                terms.append(term)
                machines.append(kind.machines(term))
        lifetimes = nested(f"ν-{x} ∷ []" if lent else f"κ-{x}" for x, lent in slices.items())
        shares = nested("fullShare" if lent else f"q-{x}" for x, lent in slices.items())
        return lifetimes, shares, nested(terms), nested(machines)

    def token_of(self, x, lent):
        return f"‵ (flft (ν-{x} ∷ []) fullShare)" if lent else self.token(x)

    def known_at(self, number):
        """What the lemmas of a call take: what is known before it, and the names of what it is lent."""
        call = self.call(number)
        return self.known_after(number - 1) + [(f"ν-{x}", "ℕ") for x in call.lent] + [(f"δ-{x}", "GName") for x in call.lent]

    def passes(self, number):
        """What a call takes, and that it is there."""
        call, lists = self.call(number), self.lists_after(number - 1)
        name, slices, known = call.callee.dashed, self.slices_of(call), self.known_at(number)
        lifetimes, shares, terms, machines = self.bound_of(call, lists)
        self.put(f"  abbrev to-{number} : {self.telescope(known)}Of-{name} {CONTRACT} .Ghost")
        self.put(f"  to-{number}{self.applied(known)} = (({lifetimes}, {shares}, tt, {terms}, {machines}), tt)", "")
        items = [(f"tok-{x}", self.token_of(x, lent)) for x, lent in slices.items()]
        for place, (x, lent) in enumerate(slices.items()):
            items.append((f"own-{x}", f"‵ ({self.lent_type(call, x, place)} .own (at-{x} δ-{x} {lists[x]}) (s-{x} ∷ []))" if lent else f"‵ D-{x}"))
        texts = listed(text for _, text in items)
        here = f"(⋆ 𝓤 H A ({texts}))" if items else "(emp 𝓤)"
        self.put(f"  goes-{number} : {self.telescope(known)}ent 𝓤 {here} (Of-{name} {CONTRACT} .pre (to-{number}{self.applied(known)}))")
        self.put(f"  goes-{number}{self.applied(known)} =")
        c = Context(item for item, _ in items)
        c.step(f"qed W ({texts}) ∵")
        c.step("nothing ! $", 0, "had")
        for arg in reversed(call.args):
            x = arg.rstrip("?!")
            if x not in slices:
                kind, term, is_known = self.value_of(arg)
                c.step(kind.owned(term, is_known), 0, f"own-{x}")
            c.join("fjoin", f"own-{x}", "had", "had")
        c.step("nothing ! $", 0, "toks")
        for x in reversed(slices):
            c.join("join", f"tok-{x}", "toks", "toks")
        c.step("join ! $ frame ! $ done !")
        self.put(c.text(6), "")

    # ---- the body, from its end

    def lends(self, c, number):
        """Slices to be written are lent, those to be read copied."""
        call, lists, longs = self.call(number), self.lists_after(number - 1), self.longs_after(number - 1)
        for x in call.lent:
            first, second = self.reborrowed(number, x)
            pointer = f"(addr ! (from ! (fld ! refl (hop ! (look-in ! {c.at('v-' + x)} (sub ! 0 refl (whole !))) (stop !)))))"
            c.assign(pointer, first, "(tt, tt)")
            c.assign(f"(agg ! {operands([c.load(first), c.load(x, 1)])})", second, f"(tt, (tt, (record {{ fits = room-{x} .0 }}, tt)))")
        for place, (x, lent) in enumerate(self.slices_of(call).items()):
            if lent:
                c.step(f"lft-new ! tt (λ ν-{x}.", 0, f"tok-{x}")
                c.front(f"row-{x}")
                how = "lend-row" if x in call.written else "lend-shr-row"
                own = f"({self.lent_type(call, x, place)} .own (at-{x} δ {lists[x]}) (s-{x} ∷ []))"
                law = f"({how} {self.lent_at(x, place)} {lists[x]} (length {x}₀) {longs[x]} room-{x})"
                c.step(f"use1 W (later (some (λ (δ : GName). ‵ {own} ⊛ ‵ {self.lent_back(call, x, lists[x], place)}))) {law} $")
                c.step(f"await ! tt $ pick ! (λ δ-{x}. split ! $", 1, f"own-{x}", f"lent-{x}")
            else:
                self.copies(c, x, f"own-{x}")

    def lent_at(self, x, place):
        return f"𝓤 H A W {self.row(x)} (named {place}) (ν-{x} ∷ []) {self.place(x)}"

    def lent_back(self, call, x, now, place):
        """What comes back of a slice once its lifetime has ended, under the name δ."""
        if x in call.written:
            return f"(flent (ν-{x} ∷ []) (Held {self.row(x)} (length {x}₀) {self.place(x)} δ))"
        return f"(flent (ν-{x} ∷ []) (Part {self.lent_at(x, place)} {now}))"

    def calls_it(self, c, number):
        """The call, up to what it gave, its fact and its tokens. What the lists became is `zs`, part by part."""
        call, slices, known = self.call(number), self.slices_of(self.call(number)), self.known_at(number)
        name, index = call.callee.dashed, low(number)
        goes = f"W (raw (Of-{name} {CONTRACT} .pre (to-{number}{self.applied(known)}))) (goes-{number}{self.applied(known)}) $"
        if slices:
            entries = [*(f"tok-{x}" for x in slices), *(f"own-{x}" for x in slices)]
            c.front(*entries)
            c.step(f"group ! {len(entries)} $", len(entries), "pre")
            c.step(f"use1 {goes}")
        else:
            c.step(f"use0 {goes}", 0, "pre")
        loads = [c.load(self.local_of(number, arg)) for arg in call.args]
        c.step(f"calls-at ! fm (Of-{name} {CONTRACT}) k-{name} (to-{number}{self.applied(known)}) {operands(loads)} (λ w.")
        tokens = "‵ ftrue"
        for x, lent in reversed(slices.items()):
            tokens = f"({self.token_of(x, lent)} ⊛ {tokens})"
        lifetimes, _, terms, _ = self.bound_of(call, self.lists_after(number - 1))
        became = {arg.rstrip("?!"): f"List {self.params[arg[:-1]].of.denotes}" if arg[-1] == "!" else None for arg in call.args}
        self.hears(c, call.callee, (lifetimes, terms), call.gives, f"r{index}", became, self.fact_at(number), tokens)

    def local_of(self, number, arg):
        if arg[-1] in "?!":
            return self.reborrowed(number, arg[:-1])[1]
        return self.result_local(int(arg[1:])) if re.fullmatch(r"r\d+", arg) else arg

    def became(self, number, x):
        """What a list became in a call, of the parts of `zs`."""
        return f"(zs {part(self.call(number).args.index(x + '!'))})"

    def fact_at(self, number):
        fact = self.call(number).fact
        for x in self.call(number).written:
            fact = re.sub(rf"(?<!\w){x}{low(number)}(?!\w)", self.became(number, x), fact)
        return fact

    def lent_are_back(self, c, number):
        call = self.call(number)
        c.drop("res")
        slices = self.slices_of(call)
        for x in slices:
            c.front("back")
            c.step("split ! $", 1, f"tok-{x}", "back")
        c.drop("back")
        for place, x in enumerate(slices):
            if slices[x]:
                self.comes_back(c, number, x, place)

    def comes_back(self, c, number, x, place):
        call, now = self.call(number), self.lists_after(number - 1)[x]
        c.front(f"tok-{x}")
        c.step("lft-end ! tt $", 1, "dead")
        if x in call.written:
            now = self.became(number, x)
            back, law = ["dead", f"lent-{x}", f"fin-{x}"], f"(back-row {self.lent_at(x, place)} {now} (length {x}₀) δ-{x})"
        else:
            back, law = ["dead", f"lent-{x}"], f"(back-shr-row {self.lent_at(x, place)} {now})"
        c.front(*back)
        row = f"(later (‵ (row {self.row(x)} fullShare {now} {self.place(x)})))"
        c.step(f"use{len(back)} W {row} {law} $ await ! tt $", len(back), f"row-{x}")

    def as_long(self, number, x):
        """That what a list became in a call is as long as it was at the start."""
        before = self.longs_after(number - 1)[x]
        return f"now-{x}" if before == "refl" else f"(now-{x} ∙ {before})"

    def given_on(self, number):
        """What a call gave, as the next lemma takes it."""
        call, index = self.call(number), low(number)
        known = f"(subst (Is {call.gives.row} r{index}) ({call.gives.told('r' + index, 'is')}) is)"
        lists = "".join(f" {self.became(number, x)} {self.as_long(number, x)}" for x in call.written)
        return f"{self.applied(self.known_after(number - 1))} r{index} {known}{lists} got{index}"

    @property
    def head(self):
        c = Context(name for name, _ in self.entry)
        self.begin(c)
        return c.names

    def items_before(self, number):
        lists = self.lists_after(number - 1)
        entries = dict(item for x in self.written for item in self.opened(x, lists[x])) | dict(item for x in self.read for item in self.shared(x))
        return [(name, entries[name]) for name in self.head] + self.local_items(self.full_before(number))

    def walk_from(self, number, tail):
        known, items = self.known_after(number - 1), self.items_before(number)
        self.put(f"    from-{number} : {self.telescope(known)}Sq W ({listed(text for _, text in items)}) (runs C Λ En mir′.t-{tail} (atRet En Post))")
        self.put(f"    from-{number}{self.applied(known)} =")
        c = Context(name for name, _ in items)
        self.lends(c, number)
        self.calls_it(c, number)
        self.lands(c, self.call(number).gives, f"r{low(number)}", self.result_local(number))
        self.spelled(c, self.call(number).gives, f"r{low(number)}", self.result_local(number))
        self.lent_are_back(c, number)
        if number < len(self.calls):
            c.front(*self.head)
            assert c.names == [name for name, _ in items], c.names
            c.end(f"from-{number + 1}{self.given_on(number)}")
        else:
            self.full = list(self.locals)
            lists, longs = self.lists_after(number), self.longs_after(number)
            last = {x: self.became(number, x) if x in self.call(number).written else lists[x] for x in self.written}
            long = {x: self.as_long(number, x) if x in self.call(number).written else longs[x] for x in self.written}
            self.leave(c, last, long, f"exits{self.given_on(number)}")
        self.put(c.text(8), "")

    def body(self):
        count = len(self.calls)
        known = self.known_after(count)
        lists, longs = self.lists_after(count), self.longs_after(count)
        term, is_known = f"r{low(count)}", f"is{low(count)}"
        items = listed(text for _, text in self.exit_items(lists))
        self.put(f"  exits : {self.telescope(known)}ent 𝓤 (⋆ 𝓤 H A ({items})) (Post {self.result.machine(term)})", f"  exits{self.applied(known)} =")
        self.put(self.exit(lists, longs, term, is_known, self.law).text(6), "")
        for number in self.numbers:
            self.passes(number)
        self.inside()
        tails, tail = {}, 1
        for number in self.numbers:
            tails[number] = tail
            tail += 2 * len(self.call(number).lent) + 1
        for number in reversed(self.numbers):
            self.walk_from(number, tails[number])
        first = self.items_before(1)
        stored = self.local_items(self.full_before(1))
        texts = listed(text for _, text in [*stored, *self.entry])
        self.put(f"    opened : Sq W ({texts}) (runs C Λ En (code.function .body) (atRet En Post))", "    opened =")
        c = Context(name for name, _ in [*stored, *self.entry])
        self.begin(c)
        assert c.names == [name for name, _ in first], c.names
        c.end("from-1")
        self.put(c.text(8), "")
        self.passed("opened")
