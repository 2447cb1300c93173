"""Desks for tests: a season's folder in a room of its own, the server started over it, and requests to it."""
import http.client
import json
import os
import re
import shutil
import signal
import subprocess
from pathlib import Path

from meadow.programs import TOP
from meadow.sheets.lines import SECOND, Sheet

SAMPLE = TOP / "samples" / "season"
DESK, SEASON = TOP / "bin" / "desk", TOP / "bin" / "season"
# a user who owns nothing and reads everything, so that the project may lie anywhere: what root starts so can write only where that user may
NOBODY = 65_534
READS = "-all,+dac_read_search"
AS_NOBODY = ["setpriv", "--reuid", str(NOBODY), "--regid", str(NOBODY), "--clear-groups", f"--inh-caps={READS}", f"--ambient-caps={READS}", "--"]


class Room:
    """A folder with a copy of a season, the sample's where no other is said, and a place for trials; `with` it no server is left running."""

    def __init__(self, folder, season=SAMPLE):
        self.folder = Path(folder)
        self.season, self.trials = self.folder / "season", self.folder / "trials"
        shutil.copytree(season, self.season)
        self.server, self.port, self.token = None, 0, None
        # the words before the desk's, where another user starts it
        self.user = []

    def __enter__(self):
        return self

    def __exit__(self, *_):
        self.kill()

    def read_only(self):
        """From now on nobody may write in the season's folder, and where root is at work a user starts the desk who owns its trials alone."""
        for path in self.season.iterdir():
            path.chmod(0o444)
        self.season.chmod(0o555)
        self.trials.mkdir()
        if os.geteuid() == 0:
            os.chown(self.trials, NOBODY, NOBODY)
            self.user = AS_NOBODY

    def lets_write(self):
        """Whether who starts the desk can make a file in the season's folder, or write to one that is there."""
        tries = [["touch", self.season / "mark"], ["sh", "-c", 'echo >>"$1"', "sh", self.season / "season.log"]]
        return [words[0] for words in tries if subprocess.run([*self.user, *words], stderr=subprocess.DEVNULL).returncode == 0]

    def start(self, words=(), more=(), **how):
        """Starts the server, at the port of the time before where there was one, with more words after the usual ones; or by other words."""
        usual = [*self.user, DESK, self.season, self.trials, "--port", str(self.port), "--no-browser", *more]
        self.server = subprocess.Popen(words or usual, stdout=subprocess.PIPE, stderr=subprocess.DEVNULL, text=True, **how)
        self.port = int(re.search(r":(\d+)/", self.server.stdout.readline())[1])
        self.token = re.search(r'name="token" content="([^"]+)"', self.ask("GET", "/")[1])[1]

    def kill(self):
        """Ends the server as a power cut would."""
        if self.server:
            self.server.kill()
            self.server.wait()
            self.server.stdout.close()
            self.server = None

    def engines(self):
        """The processes of the server's engines."""
        found = []
        for name in filter(str.isdigit, os.listdir("/proc")):
            try:
                parent = int(Path(f"/proc/{name}/stat").read_text().rsplit(")", 1)[1].split()[1])
            except OSError:
                continue
            if parent == self.server.pid:
                found.append(int(name))
        return found

    def kill_engines(self):
        """Ends every engine, as a fault of theirs would."""
        for engine in self.engines():
            os.kill(engine, signal.SIGKILL)

    def ask(self, method, path, body=None, token=None, **headers):
        """The status, the text and the headers of an answer; a header of None is left out."""
        sent = {"Host": f"127.0.0.1:{self.port}"}
        if body is not None:
            sent |= {"Content-Length": str(len(body)), "Content-Type": "application/json"}
        if token:
            sent["X-Desk-Token"] = token
        sent |= {name.replace("_", "-"): value for name, value in headers.items()}
        talk = http.client.HTTPConnection("127.0.0.1", self.port, timeout=60)
        talk.putrequest(method, path, skip_host=True, skip_accept_encoding=True)
        for name, value in sent.items():
            if value is not None:
                talk.putheader(name, value)
        talk.endheaders(body)
        answer = talk.getresponse()
        try:
            return answer.status, answer.read().decode("utf-8"), dict(answer.getheaders())
        finally:
            talk.close()

    def get(self, path):
        """The status and the text of what the page asks for."""
        return self.ask("GET", path, token=self.token)[:2]

    def post(self, path, **asked):
        """The status and the text of what the page wants done."""
        return self.ask("POST", path, json.dumps(asked).encode(), token=self.token)[:2]

    def new(self, name, **more):
        """The key of a new trial."""
        return json.loads(self.post("/api/trials", name=name, **more)[1])["key"]

    def change(self, key, what, **asked):
        """The text of a change of a trial, at the serial that it has."""
        return self.post(f"/api/trial/{key}/{what}", at=self.now(key)["serial"], **asked)[1]

    def now(self, key):
        """How a trial stands, as the server's list tells it."""
        return next(told for told in json.loads(self.get("/api/desk")[1])["trials"] if told["key"] == key)

    def water(self, key):
        """The name of a trial's water."""
        return water_in(self.get(f"/api/trial/{key}/frames")[1])

    def run_season(self, *words, **how):
        """The keeper's run of the season, to its end."""
        return subprocess.run([SEASON, *words, self.season], capture_output=True, text=True, **how)


def one_square(folder):
    """A season of one square of one metre, with a hatch in it."""
    folder.mkdir()
    sheet = Sheet(1, 1, 1, shortest=SECOND, longest=SECOND, update=SECOND)
    sheet.put((0, 0), 0, 100)
    (folder / "season.sheet").write_text(sheet.text(SECOND), encoding="ascii")
    (folder / "season.log").write_text("hatch\t1\t0\t0\n", encoding="ascii")
    return folder


def water_in(text):
    """The name of the water in an answer's last lines."""
    return re.findall(r"^now\t.*$", text, re.M)[-1].split("\t")[4]


def files_of(folder):
    """The bytes and the time of each file of a folder."""
    return {path.name: (path.read_bytes(), path.stat().st_mtime_ns) for path in sorted(Path(folder).iterdir())}
