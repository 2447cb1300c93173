"""The desk's program from outside. Random evenings of lines, on small sheets and on some of 32 by 32 and 64 by 64: every answer is the one of the
rule in plain Python, every frame balances by its own numbers, what stands at the end is what a fresh program makes of the standing steps alone, and
one that lays what `stand` printed goes on alike. Every refusal by a table; damaged bytes; two programs whose lines are mixed. What the gate holds
the program to is worked anew too.

`bin/test desk --seed N` makes other evenings; `bin/test desk --write` writes the program's stored output.
"""
import random
import re
import sys

from desk_refusals import PUDDLE, STEPPED, TAKEN, lay, refused_cases, saved, sent, sheet, without_sheet
from hatchlog import random_sheet
from meadow.counted import Checks
from meadow.logs.entries import written
from meadow.programs import TOP, Asked, printed_often
from meadow.rule.ranges import LAST_CLOCK
from meadow.sheets.lines import Sheet, refused_text
from plain_desk import DONE, MOST_GIVEN, MOST_TEXT, PlainDesk, order_of, worked
from printouts import hold_stored, shortened

SEED, EVENINGS, DAMAGED, MIXED = 140, 240, 400, 12
# squares a side of the large sheets, and how many steps are kept of each
LARGE = {32: 219, 64: 54}
ENDINGS = (b"done\n", b"refused\t")
ANSWER = re.compile(r"(?:.*\n)*?(?:done|refused\t\d+\t\d+)\n")
KEPT, OPENING = re.compile(r"^(frame(?:\t\d+){5}\t)\d+", re.MULTILINE), re.compile(r"^(stand(?:\t\d+){3}\t)\d", re.MULTILINE)
LOOK = written("show", "stand")
FRAME = re.compile(r"^frame\t(.*)\nrates(?:\t\d+){9}\n((?:row\t.*\n)+)", re.MULTILINE)


def told(text):
    """What the built program prints of a text at its standard input, a byte for each letter."""
    return printed_often("desk", text.encode("latin-1"), timeout=60).decode("ascii")


def answers_in(text):
    """The answers, each with its `done` or `refused`; nothing else is printed."""
    found = ANSWER.findall(text)
    return found if "".join(found) == text else [*found, "and something that is no answer"]


def without_kept(text):
    """Frames but for kept."""
    return KEPT.sub(r"\1-", text)


def without_opening(text):
    """Saved states but for whether hatches may still be named."""
    return OPENING.sub(r"\1-", text)


# ---- evenings


class Night:
    """Lines that were sent to a desk in plain Python, and its answers."""

    def __init__(self):
        self.desk, self.lines, self.answers = PlainDesk(), [], []

    def send(self, text):
        """A line, and the text that follows it."""
        line, _, rest = text.partition("\n")
        self.lines.append(text)
        self.answers.append(self.desk.take(line + "\n", rest))

    def look(self):
        """The last two lines of an evening: what stands at its end."""
        for line in LOOK.splitlines(True):
            self.send(line)

    def given(self):
        """All that was sent."""
        return "".join(self.lines)


def random_step(chance, trial):
    """A line `step`."""
    clock = trial.meadow.clock
    end = chance.choice((LAST_CLOCK, LAST_CLOCK, LAST_CLOCK, clock, clock + 1, clock + chance.randint(1, 5_000), LAST_CLOCK + 1))
    return f"step {chance.choice((1, 1, 2, 3, 5, 8, 8, 13, 0, 65))} {end} {chance.choice((0, 0, 0, 1, 1, 1, 2))}"


def random_back(chance, trial):
    """A line `back`."""
    kept = trial.meadow.kept
    return f"back {chance.choice((0, 1, 1, 2, 3, kept // 2, kept, kept + 1))}"


def random_hatch(chance, trial):
    """A line `hatch`, mostly on ground."""
    places = [divmod(square, trial.meadow.columns) for square in trial.meadow.ground()] or [(0, 0)]
    row, column = chance.choice(places) if chance.random() < 0.9 else (chance.randint(0, 4), chance.randint(0, 4))
    return f"hatch {chance.randint(1, 9) if chance.random() < 0.9 else chance.choice((0, 10))} {row} {column}"


def random_draw(chance, trial):
    """A line `draw`, mostly of a hatch that is named."""
    number = chance.choice([*trial.places] * 4 + [chance.randint(0, 10)])
    return f"draw {number} {chance.choice((0, 0, 1, 5, 40, 300, 1_000, 1_000, 20_000, 100_000, 100_001))}"


def random_most(chance, trial):
    """A line `most`."""
    update, clock = trial.meadow.rules["update"], trial.meadow.clock
    return f"most {chance.choice((0, clock, clock - clock % update, (clock // update + chance.randint(1, 9)) * update, LAST_CLOCK + 1))}"


def random_look(chance, _trial):
    """A line that looks."""
    return chance.choice(("show", "arrows", "arrows", "stand"))


KINDS = {random_step: 10, random_back: 5, random_draw: 7, random_look: 4, random_most: 2, random_hatch: 1}


def random_line(chance, trial):
    """Any line without a text."""
    (kind,) = chance.choices(list(KINDS), KINDS.values())
    return written(kind(chance, trial))


def random_night(chance, sheet_text, many):
    """An evening of so many lines: a sheet, hatches, and lines of any kind; states that were saved are laid later, the sheet sometimes anew."""
    night, stands = Night(), []
    night.send(sheet(sheet_text))
    for _ in range(chance.randint(0, 4)):
        night.send(written(random_hatch(chance, night.desk.trial)))
    while len(night.lines) < many:
        if stands and chance.random() < 0.06:
            night.send(lay(chance.choice(stands)))
        elif chance.random() < 0.01:
            night.send(sheet(sheet_text))
        else:
            night.send(random_line(chance, night.desk.trial))
        if night.lines[-1] == "stand\n":
            stands.append(night.answers[-1].removesuffix(DONE))
    night.look()
    return night


# ---- what is held of an evening


class Count:
    """What the evenings had in them."""

    def __init__(self):
        self.evenings = self.lines = self.frames = self.refusals = self.backs = self.standing = self.arrows = self.laid = 0

    def add(self, night, frames):
        """One evening more."""
        self.evenings += 1
        self.lines += len(night.lines)
        self.frames += frames
        for line, answer in zip(night.lines, night.answers):
            done = answer.endswith(DONE)
            self.refusals += not done
            self.backs += done and line.startswith("back") and line != "back\t0\n"
            self.laid += done and line.startswith("lay")
            self.arrows += answer.count("arrow\t")
        self.standing += len(night.desk.trial.began)


def hold_frames(checks, words, text):
    """Every frame balances by its own numbers, and its rows have the water that it says; how many there are."""
    frames = FRAME.findall(text)
    for figures, rows in frames:
        *_, out, soak, kept, room, on, start, given = map(int, figures.split("\t"))
        squares = [field for line in rows.splitlines() for field in line.split("\t")[1:]]
        checks.hold(on + out + soak == start + given, f"{words}: the account of {figures}")
        checks.hold(on == sum(int(depth) for depth in squares if depth != "x") and kept <= room, f"{words}: the figures of {figures}")
    return len(frames)


def hold_night(checks, words, night):
    """Each answer of the program is the one in plain Python; all of them."""
    answers = answers_in(told(night.given()))
    checks.hold(len(answers) == len(night.answers), f"{words}: {len(answers)} answers to {len(night.answers)} lines")
    for line, answer, by_rule in zip(night.lines, answers, night.answers):
        if not checks.hold(answer == by_rule, f"{words}: {shortened(line)}"):
            print(f"desk: it answers {shortened(answer)}, and by the rule it is {shortened(by_rule)}; all of it: {night.given()!r}")
            break
    return answers


def beginning(desk):
    """The lines that give a desk its sheet, what was laid last, and the hatches named since."""
    trial = desk.trial
    laid = trial.laid or ""
    before = {int(line.split("\t")[1]) for line in laid.splitlines() if line.startswith("hatch")}
    named = [written("hatch {} {} {}".format(number, *trial.places[number])) for number in sorted(trial.places) if number not in before]
    return sheet(desk.sheet_text) + (lay(laid) if laid else "") + "".join(named)


def only_standing(desk):
    """The lines of an evening that makes the standing steps alone, each with its own rates, and none besides."""
    trial, lines = desk.trial, [beginning(desk)]
    for litres in [*trial.began, trial.litres]:
        lines += [written(f"draw {number} {rate}") for number, rate in litres.items()]
        lines.append(written(f"step 1 {LAST_CLOCK} 0"))
    return "".join(lines[:-1])


def hold_never_made(checks, words, night, answers):
    """What stands at the end is what a fresh program makes of the standing steps; it keeps more of them, and its opening may still be open."""
    alone = answers_in(told(only_standing(night.desk) + LOOK))
    same = [without_opening(without_kept("".join(texts[-2:]))) for texts in (answers, alone)]
    checks.hold(same[0] == same[1], f"{words}: it stands at {same[0]!r}, and the standing steps alone at {same[1]!r}; {night.given()!r}")


def goes_on(chance, laid):
    """Lines after a saved state that do not ask for steps before it; some refused ones."""
    first = len(laid.lines)
    while len(laid.lines) < first + 10:
        line = random_line(chance, laid.desk.trial)
        kept = laid.desk.trial.meadow.kept
        if not (line == "arrows\n" and kept == 0 or line.startswith("back") and order_of(line)[1][0] > kept):
            laid.send(line)
    return "".join(laid.lines[first:])


def hold_not_interrupted(checks, words, chance, night, stand):
    """A program that lays what another printed last goes on as that one does, but for kept."""
    laid = Night()
    laid.send(sheet(night.desk.sheet_text))
    laid.send(lay(stand.removesuffix(DONE)))
    more = goes_on(chance, laid)
    after, whole = (answers_in(told(text + more))[-10:] for text in (laid.given().removesuffix(more), night.given()))
    checks.hold(after == laid.answers[-10:], f"{words}: laid, it does not go on by the rule; {laid.given()!r}")
    for line, one, other in zip(laid.lines[-10:], after, whole):
        checks.hold(without_kept(one) == without_kept(other), f"{words}: {line!r} after a laying: {one!r}, without: {other!r}")


def hold_evenings(checks, chance, many):
    """Random evenings on small sheets; they have enough of each kind in them."""
    count, nights = Count(), []
    for turn in range(many):
        words = f"evening {turn}"
        night = random_night(chance, random_sheet(chance)[1], chance.randint(8, 45))
        answers = hold_night(checks, words, night)
        count.add(night, hold_frames(checks, words, "".join(answers)))
        hold_never_made(checks, words, night, answers)
        hold_not_interrupted(checks, words, chance, night, answers[-1])
        nights.append(night)
    print("desk: " + ", ".join(f"{number} {name}" for name, number in vars(count).items()))
    for name, number in vars(count).items():
        checks.hold(number >= many // 5, f"the evenings have only {number} {name}")
    return nights


# ---- large sheets, and how many steps are kept


def large_sheet(chance, size):
    """So many squares by as many, falling to an exit in the south, a tenth of it walls and half of it wet, under rain."""
    ground = Sheet(size, size, 5, shortest=200, longest=2_000, update=5_000, edge=50)
    mouth = (size - 1, size // 2)
    for row, column in ground.squares:
        if (row, column) in ((0, 0), mouth) or chance.random() < 0.9:
            depth = chance.choice((0, chance.randint(1, 200_000)))
            mark = "e" if (row, column) == mouth else "o"
            ground.put((row, column), 20_000 * (size - row) + chance.randint(0, 9_000), 350, depth, mark, rate=5_000)
    ground.rain = [(0, 60_000, 90_000)]
    return ground.text(0)


def dry_sheet(rows, columns):
    """Level and dry."""
    ground = Sheet(rows, columns, 10, shortest=1_000, longest=1_000, update=1_000)
    for place in ground.squares:
        ground.put(place, 0, 300)
    return ground.text(0)


def hold_large(checks, chance, size):
    """A warden's evening on a large sheet."""
    night = Night()
    night.send(sheet(large_sheet(chance, size)))
    for line in ("hatch 1 0 0", "draw 1 700", "step 3 604800000 1", "arrows", "draw 1 0", "step 2 604800000 0", "arrows", "back 4", "stand"):
        night.send(written(line))
    night.send(lay(night.answers[-1].removesuffix(DONE)))
    for line in ("draw 1 90", "step 1 604800000 1", "arrows", "back 2", "back 1"):
        night.send(written(line))
    night.look()
    words = f"{size} by {size}"
    answers = hold_night(checks, words, night)
    hold_frames(checks, words, "".join(answers))
    hold_never_made(checks, words, night, answers)


def hold_kept(checks, rows, columns, kept):
    """Of more steps than are kept, as many as are kept go back, and not one more."""
    steps = [written(f"step {count} {LAST_CLOCK} 0") for count in [64] * ((kept + 2) // 64) + [(kept + 2) % 64] if count]
    given = sheet(dry_sheet(rows, columns)) + "".join(steps) + written(f"back {kept + 1}", "show", f"back {kept}", "back 1", "show")
    *_, too_many, at_end, gone_back, one_more, at_last = (answer.split("\n")[0].split("\t") for answer in answers_in(told(given)))
    words = f"{kept} kept of {rows} by {columns}"
    checks.hold(too_many == one_more == ["refused", "10", "0"], f"{words}: {too_many} and {one_more}")
    checks.hold((at_end[1:2], at_end[6:8]) == ([str(kept + 2)], [str(kept)] * 2), f"{words}: {at_end}")
    checks.hold((gone_back[1:2], gone_back[6:8]) == (["2"], ["0", str(kept)]) and gone_back == at_last, f"{words}: {gone_back}, then {at_last}")


# ---- refusals and damaged bytes


def hold_refused(checks):
    """Every refusal of the table, by number and line, with everything as it was; and what is just taken."""
    for words, before, line, refusal in refused_cases():
        given = before + LOOK + line + LOOK
        text = told(given)
        *_, show, stand, answer, show_after, stand_after = answers_in(text)
        checks.hold(answer == refused_text(*refusal), f"{words}: {shortened(answer)}, not {refusal}")
        checks.hold((show, stand) == (show_after, stand_after), f"{words}: from {shortened(show + stand)} to {shortened(show_after + stand_after)}")
        checks.hold(worked(given.encode("latin-1")) == text, f"{words}: by the rule it is {shortened(worked(given.encode('latin-1')))}")
    for words, before, line in TAKEN:
        given = before + sent(line) + LOOK
        text = told(given)
        checks.hold(answers_in(text)[-3].endswith(DONE), f"{words}: {shortened(text)}")
        checks.hold(worked(given.encode("latin-1")) == text, f"{words}: by the rule it is {shortened(worked(given.encode('latin-1')))}")


def hold_series(checks):
    """A step refused in a series: the steps made stand, and were shown; 100 m stand in the puddle after three steps of 33 m."""
    start = sheet(PUDDLE) + written("hatch 1 0 0", "draw 1 33000")
    depths = [(1 + 33_000 * made) * 1_000 for made in (1, 2, 3)]
    for every, shown in ((1, depths), (0, depths[-1:])):
        *_, answer, after = answers_in(told(start + written(f"step 9 604800000 {every}", "show")))
        rows = [int(line.split("\t")[1]) for line in answer.splitlines() if line.startswith("row")]
        checks.hold(rows == shown and answer.endswith(refused_text(8, 0)), f"a series refused, every {every}: {answer!r}")
        checks.hold(after.startswith("frame\t3\t3000\t"), f"after a series refused, every {every}: {after!r}")


def hold_given(checks):
    """Given past what a saved state may have: the step that comes there is made, and the next one is 6."""
    start = sheet(PUDDLE) + lay(saved(given=MOST_GIVEN, hatches=("1 0 0 1",)))
    *_, answer = answers_in(told(start + written("step 2 604800000 1")))
    checks.hold(answer.count("frame") == 1 and answer.endswith(refused_text(6, 0)), f"given at its most: {answer!r}")


def hold_without_sheet(checks):
    """Before a sheet every other line is 12, line 0, and a text after it is passed over."""
    for line in without_sheet():
        text = told(line + sheet(PUDDLE))
        checks.hold(text == refused_text(12, 0) + worked(sheet(PUDDLE).encode()), f"{line!r} before a sheet: {text!r}")


def hold_ends(checks):
    """Where the program ends: at the end of input, after a text that is cut off, after a count of more bytes than are taken."""
    good, refused = told(STEPPED), refused_text(12, 0)
    cases = [
        ("nothing", "", ""),
        ("a line without its newline", STEPPED + "show", good + refused),
        ("a sheet's line without its newline", STEPPED + "sheet\t3", good + refused),
        ("a sheet cut off", STEPPED + sheet(PUDDLE)[:-1], good + refused),
        ("a sheet of which nothing came", STEPPED + "sheet\t1\n", good + refused),
        ("a saved state cut off", STEPPED + lay(saved())[:-1], good + refused),
        ("a saved state cut off, no sheet yet", lay(saved())[:-1], refused),
    ]
    for word in ("sheet", "lay"):
        for bytes_said in (MOST_TEXT + 1, 4_294_967_295):
            cases.append((f"{word} {bytes_said}", STEPPED + f"{word}\t{bytes_said}\n" + LOOK, good + refused))
    for words, given, answer in cases:
        text = told(given)
        checks.hold(text == answer, f"{words}: {shortened(text)}")
        checks.hold(worked(given.encode("latin-1")) == answer, f"{words}: by the rule {shortened(worked(given.encode('latin-1')))}")


def damaged(chance, text):
    """A text with bytes lost, doubled, changed or put in; or its end."""
    for _ in range(chance.randint(1, 3)):
        at, many = chance.randrange(len(text) + 1), chance.choice((0, 0, 1, 1, 2, 30))
        bit = chance.choice(("", "\t", "\n", " ", "0", "9", "\0", chr(chance.randrange(256)), "show\n", "back\t1\n", text[at : at + 40], "x" * 130))
        text = text[:at] + bit + text[at + many :] if chance.random() < 0.9 else text[:at]
    return text


def hold_damaged(checks, chance, nights, many):
    """Damaged evenings, and bytes by chance: the program answers as the rule in Python does, and ends."""
    refused = 0
    for turn in range(many):
        text = damaged(chance, chance.choice(nights).given()) if turn % 8 else chance.randbytes(chance.randint(1, 400)).decode("latin-1")
        program, by_rule = told(text), worked(text.encode("latin-1"))
        refused += program.count("refused")
        checks.hold(program == by_rule, f"damaged evening {turn}: {text!r}: it answers {shortened(program)}, and by the rule {shortened(by_rule)}")
    print(f"desk: {many} damaged evenings, with {refused} refusals")


# ---- two programs side by side


def hold_mixed(checks, chance, nights, many):
    """Lines of two evenings mixed over two programs: each answers as it does alone, and ends with its input."""
    for turn in range(many):
        pair = chance.sample(nights, 2)
        engines, answers = [Asked("desk", ENDINGS) for _ in pair], [[], []]
        left = [list(night.lines) for night in pair]
        while any(left):
            at = chance.choice([at for at in (0, 1) if left[at]])
            answers[at].append(engines[at].ask(left[at].pop(0).encode("ascii")).decode("ascii"))
        for night, engine, own in zip(pair, engines, answers):
            checks.hold("".join(own) == told(night.given()), f"pair {turn}: {night.given()!r} is answered otherwise beside another")
            checks.hold(engine.end() == (b"", 0), f"pair {turn}: a program does not end with its input")


# ---- what the gate holds the program to


def stored_text():
    """What the program prints in the gate, worked in Python."""
    return worked((TOP / "crates" / "desk" / "stdin").read_bytes())


def hold_gate(checks):
    """The stored evening, in which every kind of line is done and some are refused."""
    text = stored_text()
    given = (TOP / "crates" / "desk" / "stdin").read_bytes()
    checks.hold(printed_often("desk", given).decode("ascii") == text, "the program prints something else of its stored input")
    hold_stored(checks, "desk", text)


def main():
    if sys.argv[1:] == ["--write"]:
        (TOP / "crates" / "desk" / "stdout").write_text(stored_text(), encoding="ascii")
        return
    checks = Checks("desk")
    chance = random.Random(int(sys.argv[2]) if sys.argv[1:2] == ["--seed"] else SEED)
    hold_refused(checks)
    hold_series(checks)
    hold_given(checks)
    hold_without_sheet(checks)
    hold_ends(checks)
    nights = hold_evenings(checks, chance, EVENINGS)
    hold_damaged(checks, chance, nights, DAMAGED)
    hold_mixed(checks, chance, nights, MIXED)
    for size, kept in LARGE.items():
        hold_large(checks, chance, size)
        hold_kept(checks, size, size, kept)
    hold_kept(checks, 1, 1, 256)
    hold_gate(checks)
    checks.end()


if __name__ == "__main__":
    main()
