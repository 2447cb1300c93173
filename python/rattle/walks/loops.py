"""The walk of a loop over a lent list, which calls a function by value on each element. What the function gives is kept from turn to turn
(`Keeps`, over a list that is read), or put in the element's place (`Puts`, over a list that is written). The list is opened once before the loop
and closed once after it."""
from dataclasses import dataclass

from rattle.walks.context import Context, listed, nested, operands
from rattle.walks.frame import CONTRACT, Frame, Name
from rattle.walks.values import NOTHING, USIZE, Plain

SIZE = 40   # the bytes of a board
I = "(i .0)"   # how many elements are done at a turn, and so the place of its own
TURN = "Sq W (At i) (runs C Λ En mir′.turn-1 (anyQ (Turned i)))"


@dataclass(frozen=True)
class Each:
    """A call by value: its arguments (a parameter; `kept`, `place` and `element` in a loop), what it gives, what that is, and the law of what it
    asks, if it does. In these texts `@` is the place and `h` the element."""
    function: str
    args: tuple
    gives: Plain
    is_now: str
    asks: str = ""

    @property
    def callee(self):
        return Name.of(self.function)


class Loop(Frame):
    """What both loops share. A subclass says what is kept and had after some elements."""

    def __init__(self, function, params, result, before, each, default, uses):
        self.over = next(iter(params))
        looked = None if params[self.over].written else self.over
        calls = [before, each] if before else [each]
        super().__init__(function, params, result, [call.callee for call in calls], uses, looked)
        self.first, self.each, self.default, self.element = before, each, default, params[self.over].of
        self.more_locals = {"i": USIZE.mir, "one": self.element.mir, "word": USIZE.mir, "go": "tyBool", "ptr": "tyPtr", "copy": self.element.mir}

    def more_uses(self):
        return [use for kind in (self.element, self.each.gives) for use in kind.uses]

    # ---- calls by value

    def value_of(self, arg, place):
        """An argument at a place and the element h: its local, its type, its term, and what is known of it."""
        if arg == "element":
            return "one", self.element, "h", "is-h"
        if arg == "place":
            return "i", USIZE, place, "(refl, near less)"
        if arg == "kept":
            return "kept", self.result, self.kept(place), "is-kept"
        return arg, self.params[arg], f"{arg}₀", f"is-{arg}"

    def passes(self, call, telescope):
        """What a call takes, and that it is there."""
        name, names = call.callee.dashed, "".join(f" {word}" for word, _ in telescope)
        bound = "".join(f"({word} : {kind}) " for word, kind in telescope) + "→ " * bool(telescope)
        args = [self.value_of(arg, "i")[1:] for arg in call.args]
        self.put(f"  abbrev to-{name} : {bound}Of-{name} {CONTRACT} .Ghost")
        terms, machines = nested(term for _, term, _ in args), nested(kind.machines(term) for kind, term, _ in args)
        self.put(f"  to-{name}{names} = ((tt, tt, tt, {terms}, {machines}), tt)", "")
        self.put(f"  goes-{name} : {bound}ent 𝓤 (emp 𝓤) (Of-{name} {CONTRACT} .pre (to-{name}{names}))", f"  goes-{name}{names} =")
        c = Context([])
        c.step("qed W [] ∵" + f" says ! ({call.asks}) $" * bool(call.asks))
        c.step("nothing ! $", 0, "had")
        for kind, term, known in reversed(args):
            c.step(kind.owned(term, known), 0, "own")
            c.join("fjoin", "own", "had", "had")
        c.step("nothing ! $", 0, "toks")
        c.step("frame ! $ done !" if call.asks else "join ! $ frame ! $ done !")
        self.put(c.text(6), "")

    def calls_it(self, c, call, at=""):
        """The call at values that its lemmas are given, up to what it gave, r, and that it is what the call says."""
        name, args = call.callee.dashed, [self.value_of(arg, I) for arg in call.args]
        c.step(f"use0 W (raw (Of-{name} {CONTRACT} .pre (to-{name}{at}))) (goes-{name}{at}) $", 0, "pre")
        c.step(f"calls-at ! fm (Of-{name} {CONTRACT}) k-{name} (to-{name}{at}) {operands(c.load(local) for local, *_ in args)} (λ w.")
        terms = nested(term for _, _, term, _ in args)
        self.hears(c, call.callee, ("tt", terms), call.gives, "r", {arg: None for arg in call.args}, f"r ≡ {self.there(call.is_now)}")
        c.drop("back")

    def there(self, text):
        """A text of a table at the place of the turn."""
        return text.replace("@", I)

    # ---- the text

    def body(self):
        self.put("  abbrev n : ℕ", f"  n = length {self.over}₀", "")
        self.exits()
        if self.first:
            self.passes(self.first, [])
        if "place" in self.each.args:
            self.put("  near : {i : ℕ} → i < n → i < 2 ^ 64", f"  near less = lt-trans less (room-{self.over} .0)", "")
        self.passes(self.each, [("i", "ℕ"), ("less", "i < n"), *self.kept_known, ("h", self.element.denotes), ("is-h", self.element.relation("h"))])
        self.put("  -- how many elements are done", "  abbrev Done : Type 0", f"  Done = (i : ℕ) × ({self.known_done})", "")
        self.put("  abbrev Nearer : Done → Done → Type 0", "  Nearer j i = n - j .0 < n - i .0", "")
        self.put("  Nearer-wf : WellFounded Nearer", "  Nearer-wf = InvImage·wf (λ (i : Done). n - i .0) (Nat·lt-wfRel .wf)", "")
        self.inside()
        self.states()
        self.leaves()
        self.goes_on()
        self.turns()
        self.opens()
        self.begins()
        self.passed("begun")

    def items(self, place):
        """All entries after some elements."""
        return [*self.head(place), *self.local_items(self.passed_values | self.locals_at(place))]

    def states(self):
        pad = self.pad
        rest = f"afterBlock 𝓤 H (afterSeq 𝓤 H (Wp 𝓤 H C Λ En mir′.t-{self.tail} (atReturn 𝓤 H En Post)) (atReturn 𝓤 H En Post))"
        self.put("    abbrev Rest : Out → SProp 𝓤", f"    Rest = {rest}", "", *self.within_share)
        first, *rest = (text for _, text in self.items(I))
        self.put(f"{pad}abbrev At : Done → List (Item 𝓤)", f"{pad}At i =", f"{pad}    {first}")
        self.put(*(f"{pad}    ∷ {text}" for text in rest), f"{pad}    ∷ []", "")
        self.put(f"{pad}abbrev Turned : Done → Out → SProp 𝓤", f"{pad}Turned i = afterTurn 𝓤 H (Below 𝓤 H A Nearer At i) Rest", "")

    def lemma(self, name, test, c, known):
        """A turn by what its test gave, and what is known on the way."""
        pad = self.pad
        self.put(f"{pad}{name} : (i : Done) → ltb (i .0) n ≡ {test} → {TURN}", f"{pad}unfolding afterTurn", f"{pad}{name} i tested =")
        self.put(c.text(len(pad) + 4))
        self.put(f"{pad}  where" if known else "")
        for word, kind, term in known:
            self.put(f"{pad}    {word} : {kind}", f"{pad}    {word} = {term}", "")

    def tests(self, c):
        c.assign(f"(of-opd ! {c.load(self.over, 1)})", "word", f"(tt, record {{ fits = room-{self.over} .0 }})")
        c.assign(f"(bin ! {c.load('i')} {c.load('word')} tt)", "go", "(tt, tt)")
        self.rewrites(c, "go", "(t : Bool)", "tyBool", "(vbool t)", "tested")

    def leaves(self):
        c = Context(name for name, _ in self.items(I))
        self.tests(c)
        c.step(f"leaves-loop ! {c.load('go')} $ exec ! C Λ En mir′.t-{self.tail} (atRet En Post) $")
        self.full = [*self.params, *self.locals_at(I), "word", "go", "ret"]
        self.ends(c)
        self.lemma("leaves", "false", c, self.known_at_end())

    @property
    def seen_as(self):
        """How the kit sees an element."""
        kind = self.element
        return f"{kind.row} (Is {kind.row}) (shows 𝓤 H A {kind.row}) ({kind.values}) ({kind.tells})"

    def address(self, c, local):
        """The address of the element."""
        b, o = self.place(self.over).split()
        c.assign(f"(bin ! {c.load('i')} (lit ! tt) scaled)", "word", "(tt, scaled)", "store")
        c.assign(f"(bin ! {c.load(self.over, 0)} {c.load('word')} tt)", local, "(tt, tt)")
        self.rewrites(c, local, "(p : ℕ)", "tyPtr", f"(vptr {b} p)", f"(sym (place-is {SIZE} {o} {I}))")

    def goes_on(self):
        items, kind, x = self.items(I), self.element, self.over
        c = Context(name for name, _ in items)
        self.tests(c)
        c.step(f"stays ! {c.load('go')} $")
        at = f"{self.share} {self.list_now(I)} {I} {self.default} {self.place(x)} within"
        c.step(f"elem-out ! {self.seen_as} {at} (λ is-h.", 1, "item", "own", "others")
        self.address(c, "ptr")
        item = f"(load ! (from ! (hop ! (look ! {c.at('v-ptr')} refl) (stop !))) (look-raw ! {c.at('item')} refl))"
        c.assign(f"(of-opd ! {item})", "copy", kind.typed("h", "is-h"))
        c.assign(f"(of-opd ! {c.load('copy')})", "one", kind.typed("h", "is-h"))
        self.turn(c)
        c.front(*(name for name, _ in self.head(I)))
        fits = "record { fits = next-fits }"
        c.step(f"assigns-last ! (bin ! {c.load('i')} (lit ! tt) ({fits})) (from ! (stop !)) (store ! {c.at('v-i')} refl (tt, {fits})) $")
        for local in reversed(list(self.locals)[list(self.locals).index("i") + 1:]):
            c.step(f"forget ! {c.at('v-' + local)} refl $")
        assert c.names == [name for name, _ in items], c.names
        c.end(f"again ! Nearer At i {self.next} (add-one-dec n {I} less)")
        self.lemma("goes-on", "true", c, [
            ("less", "i .0 < n", f"ltb-true {I} n tested"),
            ("within", f"i .0 < length {self.list_now(I)}", self.within),
            ("h", kind.denotes, f"getD {self.list_now(I)} {I} {self.default}"),
            ("scaled", f"Fits w64 (i .0 * {SIZE})", f"scaled-fits {I} n {SIZE} less (room-{x} .1)"),
            ("next-fits", "i .0 + 1 < 2 ^ 64", f"lt-of-le-of-lt (add-one-le less) (room-{x} .0)"),
            *self.known_on_the_way()])

    def turns(self):
        pad = self.pad
        self.put(f"{pad}turns : (i : Done) → {TURN}", f"{pad}turns i = by-test (ltb (i .0) n) refl", f"{pad}  where")
        self.put(f"{pad}    by-test : (t : Bool) → ltb (i .0) n ≡ t → {TURN}")
        self.put(f"{pad}    by-test true tested = goes-on i tested", f"{pad}    by-test false tested = leaves i tested", "")
        self.put(f"{pad}looped : (i : Done) → Sq W (At i) (runs C Λ En (loop mir′.turn-1) (anyQ Rest))")
        self.put(f"{pad}looped i = loops ! 𝓣 Nearer Nearer-wf At turns i", "")

    def opens(self):
        """The list is opened, and the loop begins."""
        items = [*self.local_items(self.passed_values | self.locals_at("0")), *self.entry]
        self.put(f"    opened : {self.opened_with}Sq W ({listed(text for _, text in items)}) (runs C Λ En (loop mir′.turn-1) (anyQ Rest))")
        self.put(f"    opened{' is-kept' * bool(self.first)} =")
        c = Context(name for name, _ in items)
        self.begin(c)
        self.looks(c)
        c.front(*(name for name, _ in self.head("0")))
        assert c.names == [name for name, _ in self.items("0")], c.names
        c.end(self.looped)
        self.put(c.text(8), "")

    def begins(self):
        """The call before the loop, if there is one, and the first place."""
        items = [*self.local_items(self.passed_values), *self.entry]
        self.put(f"    begun : Sq W ({listed(text for _, text in items)}) (runs C Λ En (code.function .body) (atRet En Post))", "    begun =")
        c = Context(name for name, _ in items)
        then = self.before_loop(c)
        c.assign("(of-opd ! (lit ! tt))", "i", "(tt, record { fits = lit< tt })")
        c.end(f"first ! $ blocks ! $ opened{then}")
        self.put(c.text(8), "")


class Keeps(Loop):
    """A list that is read. `after` is what is kept after i elements of it, of which `none`, `more` and `all` are laws: at the start, after one more,
    and at the end what the contract says."""
    says = "The list is looked into once, before the loop, and shut once, after it."
    tail, share, pad, within_share, within = 4, "q′", " " * 6, ["    module _ (q′ : Share) where"], "less"
    looped = "looped q′ (0, (zero-le, is-kept))"

    def __init__(self, function, params, before, each, after, none, more, all_done, default, uses):
        super().__init__(function, params, each.gives, before, each, default, uses)
        self.after_some, self.none, self.more, self.all_done = after, none, more, all_done
        self.locals = {"ret": self.result.mir} | {x: self.mir(x) for x in params} | {"kept": self.result.mir} | self.more_locals

    def kept(self, place):
        return f"({self.after_some} {self.over}₀ {place})"

    def related(self, place):
        return self.result.relation(self.kept(place))

    kept_known = property(lambda self: [("is-kept", self.related("i"))])
    known_done = property(lambda self: f"(i ≤ n) × ({self.related('i')})")
    opened_with = property(lambda self: f"{self.related('0')} → ")

    def locals_at(self, place):
        return {"kept": self.result.machine(self.kept(place)), "i": USIZE.machine(place)}

    def list_now(self, place):
        return f"{self.over}₀"

    def head(self, place):
        x = self.over
        parts = f"(arr-parts (shares {self.row(x)}) (length {x}₀) .part q′ {x}₀ {self.place(x)})"
        row = f"‵ (row {self.row(x)} q′ {x}₀ {self.place(x)})"
        return [(f"row-{x}", row), (f"obor-{x}", f"‵ (fobor κ-{x} q-{x} {parts})"), (f"D-{x}", f"‵ D-{x}")]

    def exits(self):
        items = listed(text for _, text in self.exit_items({}))
        self.put(f"  exits : {self.related('n')} → ent 𝓤 (⋆ 𝓤 H A ({items})) (Post {self.result.machine(self.kept('n'))})", "  exits is =")
        self.put(self.exit({}, {}, self.kept("n"), "is", f"{self.all_done} {self.over}₀").text(6), "")

    def rewrites_kept(self, c, by):
        self.rewrites(c, "kept", f"(r : {self.result.denotes})", self.result.mir, self.result.machine("r"), by)

    def ends(self, c):
        x = self.over
        self.rewrites(c, "kept", "(k : ℕ)", self.result.mir, self.result.machine(self.kept("k")), "at-end")
        c.front(f"row-{x}", f"obor-{x}")
        c.step(f"shuts-slice ! tt {self.row(x)} q′ {x}₀ {self.place(x)} $", 2, f"tok-{x}")
        c.assign(f"(of-opd ! {c.load('kept')})", "ret", self.result.typed(self.kept("n"), "is-kept"))
        self.leave(c, {}, {}, "exits is-kept")

    def known_at_end(self):
        return [("at-end", "i .0 ≡ n", f"le-antisymm (i .1 .0) (ltb-false {I} n tested)"),
                ("is-kept", self.related("n"), f"subst (λ (k : ℕ). {self.related('k')}) at-end (i .1 .1)")]

    def turn(self, c):
        x = self.over
        c.front("item", "own", "others")
        c.step(f"elem-back ! {self.row(x)} q′ {x}₀ {I} {self.default} {self.element.machines('h')} {self.place(x)} less $", 3, f"row-{x}")
        self.calls_it(c, self.each, f" {I} less (i .1 .1) h is-h")
        self.lands(c, self.result, "r", "kept", "store")
        self.spelled(c, self.result, "r", "kept")
        self.rewrites_kept(c, "(got ∙ one-more)")
        c.drop("res")

    @property
    def landed(self):
        return f"(subst (Is {self.result.row} r) ({self.result.told('r', 'is')}) is)"

    next = property(lambda self: f"(next r got {self.landed})")

    def known_on_the_way(self):
        became, kind = self.there(self.each.is_now), self.result
        return [("one-more", f"{became} ≡ {self.kept('(i .0 + 1)')}", f"{self.more} {self.over}₀ {I}"),
                ("next", f"(r : {kind.denotes}) → r ≡ {became} → {kind.relation('r')} → Done",
                 f"λ r got is. (i .0 + 1, (add-one-le less, subst (λ (x : {kind.denotes}). {kind.relation('x')}) (got ∙ one-more) is))")]

    def looks(self, c):
        x, kind = self.over, self.element
        c.step("-- one copy of the reference is looked into, the other is kept whole for the exit")
        self.copies(c, x, "in")
        c.step("fsplit ! $ drop ! $ fsplit ! $ drop ! $", 1, "shr")
        c.front("shr", f"tok-{x}")
        c.step(f"looks-slice ! tt {self.seen_as} ({kind.copies}) {x}₀ {self.place(x)} (λ q′.", 2, f"row-{x}", f"obor-{x}", "shr")
        c.drop("shr")

    def before_loop(self, c):
        self.calls_it(c, self.first)
        self.lands(c, self.result, "r", "kept")
        self.spelled(c, self.result, "r", "kept")
        self.rewrites_kept(c, f"(got ∙ {self.none} {self.over}₀)")
        c.drop("res")
        return f" (subst (λ (x : {self.result.denotes}). {self.result.relation('x')}) (got ∙ {self.none} {self.over}₀) {self.landed})"


class Puts(Loop):
    """A list that is written. `after` is the list after i elements, of which `none`, `long`, `more` and `all_done` are laws: at the start, as long
    as before, after one more element, and at the end what the contract says, `whole`, which is as long too (`whole_long`)."""
    says = "The borrow is opened once, before the loop, and closed once, after it."
    tail, share, pad, within_share, opened_with = 3, "fullShare", " " * 4, [], ""
    kept_known, known_done, looped, next = [], "i ≤ n", "looped (0, zero-le)", "next"

    def __init__(self, function, params, each, after, whole, laws, default, uses):
        super().__init__(function, params, NOTHING, None, each, default, uses)
        self.after_some, self.whole = after, whole
        self.none, self.long, self.more, self.all_done, self.whole_long = laws
        self.locals = {"ret": self.result.mir} | {x: self.mir(x) for x in params} | self.more_locals | {"ptr2": "tyPtr"}

    def locals_at(self, place):
        return {"i": USIZE.machine(place)}

    def list_now(self, place):
        return f"({self.after_some} {place} {self.over}₀)"

    def head(self, place):
        return self.opened(self.over, self.list_now(place))

    lists = property(lambda self: {self.over: f"({self.whole})"})
    longs = property(lambda self: {self.over: f"({self.whole_long})"})
    within = property(lambda self: f"subst (λ (k : ℕ). i .0 < k) (sym ({self.long} {I} {self.over}₀)) less")

    def exits(self):
        items = listed(text for _, text in self.exit_items(self.lists))
        self.put(f"  exits : ent 𝓤 (⋆ 𝓤 H A ({items})) (Post vunit)", "  exits =")
        self.put(self.exit(self.lists, self.longs, "tt", "refl", "refl").text(6), "")

    def rewrites_row(self, c, by):
        row = f"‵ (row {self.element.row} fullShare l {self.place(self.over)})"
        c.step(f"rewrite ! {c.at('row-' + self.over)} (λ (l : List {self.element.denotes}). {row}) {by} refl $")

    def ends(self, c):
        self.rewrites_row(c, f"({self.all_done} {I} {self.over}₀ (ltb-false {I} n tested))")
        c.assign("(of-opd ! (unit-lit !))", "ret", "(tt, tt)")
        self.leave(c, self.lists, self.longs, "exits")

    def known_at_end(self):
        return []

    def turn(self, c):
        x = self.over
        self.calls_it(c, self.each, f" {I} less h is-h")
        self.lands(c, self.element, "r", "copy", "store")
        self.address(c, "ptr2")
        c.step(f"assigns ! (of-opd ! {c.load('copy')}) (from ! (hop ! (look ! {c.at('v-ptr2')} refl) (stop !))) "
               f"(store-raw ! {c.at('item')} refl {self.element.typed('r', 'is')}) $")
        c.drop("own")
        c.front("item", "res", "others")
        c.step(f"elem-put ! {self.element.row} fullShare {self.list_now(I)} {I} r (w ∷ []) {self.place(x)} within $", 3, f"row-{x}")
        self.rewrites_row(c, f"({self.more} {I} {x}₀ less got)")

    def known_on_the_way(self):
        return [("next", "Done", "(i .0 + 1, add-one-le less)")]

    def looks(self, c):
        """The borrow is open already."""
        self.rewrites_row(c, f"({self.none} {self.over}₀)")

    def before_loop(self, c):
        return ""
