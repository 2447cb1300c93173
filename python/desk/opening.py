"""bin/desk [SEASON [TRIALS]]: opens the warden's desk over a season's folder, which is only read, and the browser. The trials of the evening lie in
TRIALS, or beside the season in a folder of its name with .trials at its end. Without a season it opens a sample in a place of its own, which is
thrown away at the end."""
import argparse
import errno
import shutil
import sys
import tempfile
import webbrowser
from contextlib import contextmanager
from pathlib import Path

from meadow.programs import TOP, ended, words_of

from . import keeper
from .engine import Engine
from .evening import Evening
from .files import Held, held
from .season import NoSeason, Season
from .server import Server

SAMPLE = TOP / "samples" / "season"
# the trial that a newcomer finds: a hatch drawn, and no step made yet
FIRST_TRIAL, FIRST_HATCH, FIRST_LITRES = "hatch 5 drawn", 5, 600
PORT = 8101


@contextmanager
def sample():
    """The sample season, run to where its log ends, and a folder for its trials; both are gone at the end."""
    with tempfile.TemporaryDirectory(prefix="desk-") as room:
        folder = Path(room) / SAMPLE.name
        shutil.copytree(SAMPLE, folder)
        keeper.run(Season(folder), tell=lambda words: None)
        yield folder, Path(room) / "trials"


def begin_trial(evening):
    """The first trial of the sample, so that one key moves water."""
    trial = evening.new(FIRST_TRIAL)
    for _ in trial.change(trial.serial, "draw", FIRST_HATCH, FIRST_LITRES):
        pass


def served(port, evening):
    """The server at the usual port, so that a page finds it again after a restart; at a free one where it is taken and nobody named it."""
    try:
        return Server(PORT if port is None else port, evening)
    except OSError as fault:
        if fault.errno != errno.EADDRINUSE or port is not None:
            raise
        return Server(0, evening)


def opened(folder, trials, given, first=False):
    """The desk over a season, until it is stopped; one desk at a time holds a folder of trials, since each writes their journals."""
    season = Season(folder)
    trials.mkdir(parents=True, exist_ok=True)
    with held(trials / "desk.lock") as lock:
        evening = Evening(trials, season)
        try:
            server = served(given.port, evening)
            if first:
                begin_trial(evening)
            print(f"the desk is at {server.address()}; Ctrl-C closes it", flush=True)
            print(server.address(), file=lock, flush=True)
            if not given.no_browser:
                webbrowser.open(server.address())
            server.serve_forever()
        finally:
            evening.close()


def main():
    """bin/desk."""
    parser = argparse.ArgumentParser(prog="bin/desk", description=__doc__)
    parser.add_argument("season", metavar="SEASON", nargs="?", help="the season's folder; without one a sample is opened")
    parser.add_argument("trials", metavar="TRIALS", nargs="?", help="where the evening's trials lie")
    parser.add_argument("--port", type=int, help=f"the port of the page, else {PORT} or, where that is taken, a free one; 0 for a free one")
    parser.add_argument("--patience", type=float, default=Engine.patience, help="seconds in which an engine must answer, else it is started again: 30")
    parser.add_argument("--no-browser", action="store_true", help="opens no browser")
    given = parser.parse_args()
    Engine.patience = given.patience
    # built before anything is opened, where it is not
    words_of("desk")
    try:
        if given.season is None:
            with sample() as (folder, trials):
                opened(folder, trials, given, first=True)
        else:
            folder = Path(given.season).resolve()
            opened(folder, Path(given.trials or f"{folder}.trials"), given)
    except NoSeason as why:
        print(f"desk: {why}", file=sys.stderr)
    except Held as where:
        print(f"desk: it is open already over these trials, at {str(where).strip() or 'another window'}", file=sys.stderr)
    return 1


if __name__ == "__main__":
    ended(main, "desk")
