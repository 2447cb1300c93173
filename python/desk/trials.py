"""One trial: an engine of its own, a journal written ahead of it, and the frames of its standing steps. The season is never reached from here."""
import threading
from itertools import groupby
from pathlib import Path

from meadow.rule.ranges import LAST_CLOCK
from meadow.rule.refusals import Refused

from . import logs, stands
from .account import Tables
from .engine import MOST_STEPS, Engine, Gone
from .files import name_of, written
from .frames import frames_of
from .ground import cautions_of
from .journal import Full, Journal
from .refusals import beginning_words, change_words

MOST_STANDING, MOST_MARKS = 2_000, 40
# the first words of a journal
KIND, FORM = "desk", "1"


class Stale(Exception):
    """The trial has moved on since the page last looked."""


class Fault(Exception):
    """A request that cannot be met, in words."""


def alike(frames):
    """The steps between frames, those with the same rates one after the other together: the rates and how many, at most what a line can ask for."""
    together = [len(list(steps)) for _, steps in groupby(frame.rates for frame in frames[1:])]
    at = 1
    for count in together:
        for part in range(0, count, MOST_STEPS):
            yield frames[at].rates, min(MOST_STEPS, count - part)
        at += count


def laid(season, stand):
    """An engine of a season's sheet at a saved state; words where that is refused."""
    try:
        return Engine.laid(season.sheet_text, stand.text)
    except Refused as refused:
        raise Fault(beginning_words(refused)) from None


class Trial:
    """A trial from its files. Every change goes through `change`, which writes the journal first."""

    def __init__(self, folder, key, season):
        self.key, self.season = key, season
        self.stand = stands.read(Path(folder) / f"{key}.stand")
        self.journal = Journal(Path(folder) / f"{key}.journal")
        self.hold_head()
        self.hatches = logs.read(self.stand.told["log"].encode("ascii"), season.sheet).hatches
        if self.hatches != season.log.hatches:
            raise Fault("its hatches are not the season's")
        self.tables = Tables(season.sheet, self.hatches)
        self.lock = threading.RLock()
        self.engine, self.reworked, self.same = None, 0, True
        self.closed = False
        self.rebuild()

    @classmethod
    def begun(cls, folder, key, season, name, stand):
        """A new trial of a name from a saved state."""
        written(Path(folder) / f"{key}.stand", stand.bytes())
        Journal.begun(Path(folder) / f"{key}.journal", (KIND, FORM, stand.told["sheet"], stand.told["state"], name))
        return cls(folder, key, season)

    def hold_head(self):
        """The journal is one, and is of this sheet and of its own beginning."""
        if self.stand is None or len(self.journal.head) != 5 or self.journal.head[:2] != [KIND, FORM]:
            raise Fault("its files are no trial")
        sheet, state = self.journal.head[2:4]
        if sheet != name_of(self.season.sheet_text):
            raise Fault("it is of another sheet")
        if state != self.stand.told["state"]:
            raise Fault("its journal is of another beginning")

    def rebuild(self):
        """The trial from its journal alone, which is the trial."""
        self.broken = True
        self.name, self.marks, self.names, self.serial = self.journal.head[4], [], {}, 0
        self.begin()
        for words in self.journal.lines:
            self.replay(words)
        self.remember()
        self.broken = False

    def replay(self, words):
        """A line of the journal made again; one that was refused then is refused now."""
        try:
            for _ in self.apply(*words):
                pass
        except (Refused, Fault):
            pass
        self.serial += 1

    def begin(self):
        """A fresh engine at the trial's beginning."""
        if self.engine:
            self.engine.close()
        self.engine = laid(self.season, self.stand)
        (first,) = self.frames_in(self.engine.opening)
        self.frames, self.rates, self.kept = [first], first.rates, first.kept

    def frames_in(self, lines):
        """The frames of an answer of this meadow."""
        return frames_of(lines, self.season.sheet.rows)

    def now(self):
        """The state that stands."""
        return self.frames[-1]

    def made(self):
        """How many steps of this trial stand."""
        return len(self.frames) - 1

    def take(self, frame):
        """A new frame joins those that stand."""
        last = self.now()
        more = self.tables.between(frame.rates, last.clock, frame.clock)
        frame.poured = tuple(before + given for before, given in zip(last.poured, more))
        self.frames.append(frame)
        self.kept = frame.kept
        return frame

    # ---- the lines of a journal

    def apply(self, word, *fields):
        """Makes one line, and yields the frames that it gives."""
        return {"draw": self.draw, "step": self.step, "back": self.back, "mark": self.mark, "name": self.rename}[word](*fields)

    def draw(self, hatch, litres):
        """A hatch runs at another rate from now on."""
        self.engine.ask("draw", hatch, litres)
        self.rates = tuple(int(litres) if at == int(hatch) else old for at, old in enumerate(self.rates, 1))
        return []

    def step(self, count, end):
        """So many steps before a clock; a refused one ends them."""
        stood = self.made()
        self.names = {at: name for at, name in self.names.items() if at <= stood}
        for frame in self.frames_in(self.engine.lines("step", count, end, 1)):
            if frame.steps > self.now().steps:
                yield self.take(frame)

    def back(self, count):
        """So many steps taken back: by their records as far as these reach, else the standing ones are worked again."""
        until = self.made() - int(count)
        if until < 0:
            raise Refused(10)
        if int(count) <= self.kept:
            (there,) = self.frames_in(self.engine.ask("back", count))
            self.same = there.water() == self.frames[until].water()
            self.rates, self.kept = there.rates, there.kept
            del self.frames[until + 1 :]
        else:
            self.rework(until, self.frames[until + 1].rates)
        self.marks = [(name, at) for name, at in self.marks if at <= until]
        return []

    def mark(self, name):
        """The state that stands gets a name for the way back."""
        marks = [(other, at) for other, at in self.marks if other != name][-MOST_MARKS + 1 :]
        self.marks = sorted([*marks, (name, self.made())], key=lambda mark: mark[1])
        return []

    def rename(self, name):
        """The trial gets another name."""
        self.name = name
        return []

    def rework(self, until, rates):
        """The standing steps up to one on a fresh engine, each with its own rates, and these rates after them: demand 3 says that the state is the
        same."""
        stood = self.frames[: until + 1]
        # an engine that ends on the way leaves a part of the steps, and the trial is then made again from its journal
        self.broken = True
        self.begin()
        for its_rates, count in alike(stood):
            self.run_hatches_at(its_rates)
            for frame in self.frames_in(self.engine.lines("step", count, LAST_CLOCK, 1)):
                self.take(frame)
        self.run_hatches_at(rates)
        self.broken = False
        self.reworked += 1
        self.same = [frame.water() for frame in self.frames] == [frame.water() for frame in stood]

    def run_hatches_at(self, rates):
        """Each hatch that runs otherwise is drawn."""
        for hatch, (old, new) in enumerate(zip(self.rates, rates), 1):
            if old != new:
                self.engine.ask("draw", hatch, new)
        self.rates = tuple(rates)

    # ---- what the page asks for

    def remember(self):
        """The name of the water that stands, kept by its step, to be compared when a take-back comes there again. A change that was refused before
        the engine had it may find the engine ended only here."""
        self.look_after()
        self.names[self.made()] = stands.water_of(self.engine.stand())
        return self.names[self.made()]

    def change(self, at, *words):
        """One change, as text for the page, while it is made; the journal has it before the engine."""
        with self.lock:
            self.hold_open()
            # true is no number of changes
            if at != self.serial or isinstance(at, bool):
                raise Stale
            if words[0] == "step" and self.made() + words[1] > MOST_STANDING:
                raise Fault(f"a trial holds {MOST_STANDING:,} steps: take some back, or begin another")
            try:
                self.journal.append(words)
            except Full as why:
                raise Fault(f"nothing was done, since the journal cannot be written: {why}") from None
            self.serial += 1
            try:
                yield from self.made_surely(words)
            except Refused as refused:
                yield f"refused\t{refused.number}\t{change_words(refused)}\n"
            except Gone:
                # the journal has the line, and the engine does not
                self.broken = True
                raise
            yield self.standing(words[0] == "back")

    def made_surely(self, words):
        """A change's frames as text. Where the engine has ended, what stood before is worked again, and then the change is made."""
        stood, rates = self.made(), self.rates
        try:
            yield from (frame.text(self.frames[0]) for frame in self.apply(*words))
        except Gone:
            del self.frames[stood + 1 :]
            self.rework(stood, rates)
            yield f"again\t{stood}\n"
            yield from (frame.text(self.frames[0]) for frame in self.apply(*words))

    def standing(self, taken_back=False):
        """How the trial stands, in the lines that end every answer. After a take-back it also says whether the state is the one that was there."""
        known = self.names.get(self.made())
        name = self.remember()
        same = "-" if not taken_back else "same" if self.same and known in (None, name) else "DIFFERS"
        now = "\t".join(map(str, ("now", self.serial, self.made(), self.kept, name, same, self.reworked)))
        marks = "".join(f"mark\t{at}\t{mark}\n" for mark, at in self.marks)
        return f"{now}\nrates\t" + "\t".join(map(str, self.rates)) + f"\n{marks}end\n"

    def all(self):
        """Every standing frame, for a page that opens."""
        with self.lock:
            self.hold_open()
            self.look_after()
            yield from (frame.text(self.frames[0]) for frame in self.frames)
            yield self.standing()

    def look_after(self):
        """The engine answers, worked again where it has ended."""
        try:
            self.engine.ask("show")
        except Gone:
            self.rework(self.made(), self.rates)

    def arrows(self):
        """The arrows of the state that stands."""
        with self.lock:
            self.hold_open()
            self.look_after()
            try:
                yield from self.engine.lines("arrows")
            except Refused:
                pass
            yield "end\n"

    def cautions(self):
        """What a reader of the state that stands must mind."""
        with self.lock:
            frame = self.now()
        return cautions_of(self.season.sheet, frame)

    def changes(self):
        """(clock, hatch, litres) of each change of a hatch: those that a standing step was made at, and those since the last."""
        rates = [frame.rates for frame in self.frames] + [self.rates]
        for before, old_rates, new_rates in zip(self.frames, rates, rates[1:]):
            for hatch, (old, new) in enumerate(zip(old_rates, new_rates), 1):
                if old != new:
                    yield before.clock, hatch, new

    def log(self):
        """The opening as a hatch log, from the season's own lines on. It knows only multiples of the update time: nothing else is rounded to them."""
        with self.lock:
            clock, update = self.now().clock, self.season.sheet.run["update"]
            changes = list(self.changes())
            for moved, hatch, _ in changes:
                if moved % update:
                    raise Fault(f"hatch {hatch} was moved at {moved:,} ms, and a hatch log knows only multiples of {update:,} ms")
            if not self.hatches:
                raise Fault("the season names no hatch, and a hatch log needs one")
            if clock % update:
                stands_at = f"the trial stands at {clock:,} ms, and a hatch log comes only to multiples of {update:,} ms"
                raise Fault(f"{stands_at}: the key U goes on to the next")
            first = min(self.hatches)
            lines = [*changes, (clock, first, self.rates[first - 1])]
            return self.stand.told["log"] + "".join("\t".join(map(str, line)) + "\n" for line in lines)

    def told(self):
        """What a row of the table of trials says."""
        with self.lock:
            now = self.now()
            return {
                "key": self.key,
                "name": self.name,
                "serial": self.serial,
                "made": self.made(),
                "begins": self.frames[0].clock,
                "clock": now.clock,
                "wet": now.wet_squares(),
                "out": now.out,
            }

    def hold_open(self):
        """A request that waited while the trial was dropped finds none; one after an engine that ended each time finds it made again."""
        if self.closed:
            raise Fault("there is no such trial any more")
        if self.broken:
            self.rebuild()

    def close(self):
        """Ends the engine; the trial stays on the disk."""
        with self.lock:
            self.closed = True
            self.engine.close()
