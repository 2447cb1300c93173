"""bin/season FOLDER: runs the season by its sheet and log to the log's last clock, or on from where it stood, in slices of steps. It is the only
program that writes in the folder: after each slice `stand`, whole or not at all. A file `stop` in the folder or Ctrl-C stops it after the slice
under way, and the same command goes on, to the same water bit for bit.

bin/season keep FOLDER TRIAL.log: shows what would change in the season's log, asks, and adopts a trial that the desk saved. No button does.
"""
import argparse
import signal
import sys
import time
from contextlib import contextmanager
from difflib import unified_diff

from meadow.programs import ended
from meadow.rule.refusals import Refused
from meadow.words.pace import before_words, seconds
from meadow.words.units import steps as steps_in_words
from meadow.words.units import time as time_in_words

from . import logs
from .engine import MOST_STEPS, Engine, Gone
from .files import Held, bytes_of, held, written
from .frames import numbers_of
from .refusals import beginning_words, what_words
from .season import LOG, STAND, NoSeason, Season
from .stands import stand_of

STOP, LOCK = "stop", "keeper.lock"
RUNNING, STOPPED, DONE = "running", "stopped", "done"


class Cannot(Exception):
    """What the keeper asked for cannot be done, in words."""


@contextmanager
def alone(season):
    """No other run of the season is under way."""
    try:
        with held(season.folder / LOCK):
            yield
    except Held:
        raise Cannot("another run of this season is under way") from None


class Run:
    """The season's run: the log's lines that are used, and an engine that has come so far."""

    def __init__(self, season, anew=False):
        self.season, self.used = season, 0
        stand = None if anew else self.stand()
        sheet, hatches = season.sheet_text, season.log.hatches
        try:
            self.engine = Engine.laid(sheet, stand.text) if stand else Engine.fresh(sheet, hatches)
        except Refused as refused:
            raise Cannot(beginning_words(refused)) from None
        self.steps, self.clock = numbers_of(self.engine.opening[0])[:2]
        self.first, self.began = (self.steps, self.clock), time.monotonic()
        self.pace = stand.told.get("pace") if stand else None
        self.end = season.log.end(season.end)
        self.most, self.least = self.bounds()
        self.stopped, self.why = False, None

    def stand(self):
        """The stand that this run goes on from; None where there is none. One of another sheet or log is not thrown away unasked."""
        if not (self.season.folder / STAND).exists():
            return None
        stand = self.season.stand()
        used = stand.told["log"].encode("ascii") if stand else None
        if used is None or not self.season.log.text().startswith(used):
            raise Cannot("the season stands by another sheet or log: bin/season --anew FOLDER runs it from its beginning")
        self.used = len(logs.read(used, self.season.sheet).lines)
        left = self.season.log.lines[self.used :]
        if left and left[0][0] < stand.told["clock"]:
            raise Cannot(f"the log's next line, at {left[0][0]} ms, is before where the season stands: bin/season --anew FOLDER runs it anew")
        return stand

    def bounds(self):
        """The most and the least steps of the whole run, which the program tells before the first is made."""
        engine = Engine.fresh(self.season.sheet_text, self.season.log.hatches)
        try:
            (told,) = engine.ask("most", self.end)
        finally:
            engine.close()
        return numbers_of(told) or (None, None)

    def save(self, how):
        """Writes where the run stands."""
        made, lasted = self.steps - self.first[0], time.monotonic() - self.began
        if made:
            self.pace = round(made / max(lasted, 0.001), 1)
        told = {"how": how, "steps": self.steps, "clock": self.clock, "end": self.end, "most": self.most, "least": self.least}
        told |= {"why": self.why, "pace": self.pace, "saved": time.strftime("%Y-%m-%d %H:%M:%S")}
        used = self.season.log.text(self.used)
        written(self.season.folder / STAND, stand_of(self.engine.stand(), self.season.sheet_text, used, **told).bytes())

    def before_words(self):
        """What is said before it starts: the least and the most steps, and a time."""
        bounds = f"at least {self.least:,} and at most {self.most:,} steps" if self.most is not None else "steps that nobody can count before"
        if self.pace and self.most is not None:
            far = f"at {self.pace:g} steps a second, as it last went, up to some {seconds(max(0, self.most - self.steps) / self.pace)}"
        else:
            far = before_words(self.season.sheet, self.end)
        return f"season: {bounds} from the beginning to {time_in_words(self.end)}, {steps_in_words(self.steps)} of them made; {far}"

    def life_words(self):
        """How far it has come, and how long it still takes by its own pace."""
        come, lasted = self.clock - self.first[1], time.monotonic() - self.began
        left = f"some {seconds(lasted * (self.end - self.clock) / come)} left" if come and self.clock < self.end else ""
        return f"at {time_in_words(self.clock)} of {time_in_words(self.end)}, {steps_in_words(self.steps)}{'; ' if left else ''}{left}"

    def stops(self):
        """Whether somebody wants it to stop."""
        return self.stopped or (self.season.folder / STOP).exists()

    def to(self, clock, tell):
        """Slices to a clock; whether it came there."""
        while self.clock < clock:
            if self.stops():
                return False
            self.steps, self.clock = numbers_of(self.engine.ask("step", MOST_STEPS, clock, 0)[0])[:2]
            self.save(RUNNING)
            tell(self.life_words())
        return True

    def whole(self, tell):
        """The run to its end, or to where it is stopped or refused; how it ended."""
        try:
            for clock, hatch, litres in self.season.log.lines[self.used :]:
                if not self.to(clock, tell):
                    return STOPPED
                self.engine.ask("draw", hatch, litres)
                self.used += 1
            return DONE if self.to(self.end, tell) else STOPPED
        except Refused as refused:
            self.steps, self.clock = numbers_of(self.engine.ask("show")[0])[:2]
            self.why = what_words(refused)
            return f"refused {refused.number}"

    def close(self):
        """Ends the engine."""
        self.engine.close()


def run(season, anew=False, tell=print):
    """Runs a season as far as it comes, and says how it ended."""
    with alone(season):
        if (season.folder / STOP).exists():
            raise Cannot(f"there is a file {STOP} in the folder: remove it to go on")
        under_way = Run(season, anew)
        before = {number: signal.signal(number, lambda *_: setattr(under_way, "stopped", True)) for number in (signal.SIGINT, signal.SIGTERM)}
        try:
            tell(under_way.before_words())
            how = under_way.whole(tell)
            under_way.save(how)
            tell(f"{how}{f', {under_way.why}' if under_way.why else ''}: {under_way.life_words()}")
            return how
        finally:
            for number, handler in before.items():
                signal.signal(number, handler)
            under_way.close()


def adopted(season, text):
    """The season's log as a trial's would have it; refused where its beginning is not what the season's run has used."""
    log, stand = logs.read(text, season.sheet), season.stand()
    used = stand.told["log"].encode("ascii") if stand else season.log.text(0)
    if not log.text().startswith(used):
        raise Cannot("its beginning is not the season's: the trial began elsewhere, or the season has gone on since")
    left = log.lines[len(logs.read(used, season.sheet).lines) :]
    if stand and left and left[0][0] < stand.told["clock"]:
        raise Cannot("it changes a hatch before where the season stands")
    return log.text()


def keep(season, path, asked=input):
    """Shows what would change in the season's log, asks, and writes it; whether it did."""
    with alone(season):
        new = adopted(season, bytes_of(path))
        lines = [text.decode("ascii").splitlines() for text in (season.log_text, new)]
        change = list(unified_diff(*lines, "the season's log", str(path), lineterm=""))
        if not change:
            print("the season's log says the same already")
            return False
        print("\n".join(line.replace("\t", " ") for line in change))
        if asked("adopt it? write yes: ").strip() != "yes":
            print("nothing is changed")
            return False
        written(season.folder / LOG, new)
        print(f"adopted; bin/season {season.folder} goes on by it")
        return True


def teller():
    """Says each word over the last on a terminal, else line by line."""
    before, after = ("\r\x1b[K", "") if sys.stderr.isatty() else ("", "\n")
    return lambda words: print(before + words, end=after, file=sys.stderr, flush=True)


def main():
    """bin/season: runs, or keeps."""
    keeps = sys.argv[1:2] == ["keep"]
    parser = argparse.ArgumentParser(prog="bin/season" + " keep" * keeps, description=__doc__, formatter_class=argparse.RawDescriptionHelpFormatter)
    parser.add_argument("folder", metavar="FOLDER", help="the season's folder")
    if keeps:
        parser.add_argument("log", metavar="TRIAL.log", help="a hatch log that the desk saved")
    else:
        parser.add_argument("--anew", action="store_true", help="from the beginning, whatever stands")
    given = parser.parse_args(sys.argv[1 + keeps :])
    try:
        season = Season(given.folder)
        if keeps:
            return 0 if keep(season, given.log) else 1
        how = run(season, given.anew, teller())
        if sys.stderr.isatty():
            print(file=sys.stderr)
        return 0 if how == DONE else 1
    except (Cannot, NoSeason, logs.NoLog) as why:
        print(f"season: {why}", file=sys.stderr)
    except Gone:
        print("season: the engine has ended; what the season's run had saved stands", file=sys.stderr)
    except EOFError:
        print("nothing is changed")
    return 1


if __name__ == "__main__":
    ended(main, "season")
