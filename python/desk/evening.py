"""All trials of an evening, and the season beside them, which is only looked at."""
import os
import sys
import threading
import time
from pathlib import Path

from meadow.rule.ranges import LAST_CLOCK
from meadow.words.hatches import letter

from . import stands
from .engine import Engine, Gone
from .frames import frames_of
from .logs import NoLog
from .season import STAND
from .trials import Fault, Trial, alike, laid

MOST_TRIALS, LONGEST_NAME = 6, 40


class Evening:
    """The trials in a folder, each by its key, a letter that is never used again."""

    def __init__(self, folder, season):
        self.folder, self.season = Path(folder), season
        self.folder.mkdir(parents=True, exist_ok=True)
        self.lock = threading.Lock()
        self.opened, self.at_opening = time.strftime("%H:%M"), season.fingerprint()
        self.trials, self.aside = {}, []
        for path in sorted(self.folder.glob("*.journal")):
            try:
                self.trials[path.stem] = Trial(self.folder, path.stem, season)
            except (Fault, Gone, NoLog, OSError, ValueError, LookupError) as why:
                self.aside.append(f"trial {path.stem} is left aside: {why}")
                print(f"desk: {self.aside[-1]}", file=sys.stderr)

    def trial(self, key):
        """The trial of a key."""
        if key not in self.trials:
            raise Fault("there is no such trial")
        return self.trials[key]

    def beginning(self):
        """Where a new trial begins: where the season stands, or the sheet's own start."""
        stand = self.season.stand()
        if stand:
            return stand
        engine = Engine.fresh(self.season.sheet_text, self.season.log.hatches)
        try:
            return stands.stand_of(engine.stand(), self.season.sheet_text, self.season.log.text(0))
        finally:
            engine.close()

    def new(self, name, copied=None):
        """A trial of a name from where the season stands, or with another's standing steps."""
        if not name.isprintable() or not 1 <= len(name) <= LONGEST_NAME:
            raise Fault(f"a trial's name has 1 to {LONGEST_NAME} letters")
        with self.lock:
            if len(self.trials) >= MOST_TRIALS:
                raise Fault(f"there are {MOST_TRIALS} trials: drop one first")
            key = self.next_key()
            try:
                if copied is None:
                    made = Trial.begun(self.folder, key, self.season, name, self.beginning())
                else:
                    made = self.copy(self.trial(copied), key, name)
            except (Fault, OSError) as why:
                self.set_aside(key)
                raise Fault(f"no trial was begun: {getattr(why, 'strerror', None) or why}") from None
            self.trials[key] = made
            return made

    def next_key(self):
        """The letter after all that were used."""
        used = {path.name.split(".")[0] for path in self.folder.glob("*.journal*")}
        return next(key for key in (letter(number).upper() for number in range(1, 1_000)) if key not in used)

    def copy(self, other, key, name):
        """A trial from another's beginning with its standing steps, made again through a journal of its own."""
        with other.lock:
            steps, rates = list(alike(other.frames)), other.rates
            made = Trial.begun(self.folder, key, self.season, name, other.stand)
        for its_rates, count in steps:
            self.drawn(made, its_rates)
            self.changed(made, "step", count, LAST_CLOCK)
        self.drawn(made, rates)
        return made

    @staticmethod
    def changed(trial, *words):
        """A change of a trial made to its end."""
        for _ in trial.change(trial.serial, *words):
            pass

    def drawn(self, trial, rates):
        """Each hatch of a trial that runs otherwise is drawn."""
        for hatch, (old, new) in enumerate(zip(trial.rates, rates), 1):
            if old != new:
                self.changed(trial, "draw", hatch, new)

    def drop(self, key):
        """A trial leaves the desk; its files stay, set aside."""
        with self.lock:
            self.trial(key).close()
            del self.trials[key]
            self.set_aside(key)

    def set_aside(self, key):
        """The files of a trial, under names that are no trial's."""
        for kind in ("journal", "stand"):
            path = self.folder / f"{key}.{kind}"
            if path.exists():
                os.replace(path, path.with_name(path.name + ".dropped"))

    def season_frame(self):
        """The season as it stands, told by an engine of its own, which then ends."""
        engine = laid(self.season, self.beginning())
        try:
            (frame,) = frames_of(engine.opening, self.season.sheet.rows)
            return frame.text(frame) + "end\n"
        finally:
            engine.close()

    def told(self):
        """What the page asks for every two seconds: the trials, and how the season is."""
        now, stand = self.season.fingerprint(), self.season.stand()
        run = {name: value for name, value in stand.told.items() if name != "log"} if stand else None
        season = {"opened": self.opened, "files": now, "same": now == self.at_opening, "run": run, "begun": STAND in now}
        return {"trials": [trial.told() for trial in list(self.trials.values())], "season": season, "aside": self.aside}

    def close(self):
        """Ends every engine."""
        for trial in self.trials.values():
            trial.close()
