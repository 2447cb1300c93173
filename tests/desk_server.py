"""The desk without its page. The program gives what `meadow` stores of the samples, and refuses what is no line of it. What must not get through the
server does not: other hosts and origins, no token, odd bodies, other paths. Torn journals, a full disk, engines and the server killed lose nothing.
Random evenings leave what a fresh engine makes of the standing steps alone. The keeper's run, stopped, killed and gone on with, leaves the same
bytes as an unbroken one, and a trial's saved log through `hatchlog` the desk's depths.

`bin/test desk_server --seed N` makes other random evenings."""
import json
import os
import random
import re
import resource
import shutil
import signal
import socket
import subprocess
import sys
import tempfile
import threading
import time
from pathlib import Path
from unittest import mock

from desk import logs, stands
from desk.engine import Engine, Gone
from desk.evening import Evening
from desk.frames import frames_of
from desk.season import Season
from desk.trials import Trial
from desk_pace import large_season
from desks import DESK, SAMPLE, SEASON, Room, files_of, one_square, water_in
from meadow.counted import Checks
from meadow.programs import TOP, built, printed_of_named
from meadow.rule.ranges import LAST_CLOCK
from meadow.rule.refusals import Refused
from meadow.sheets.lines import HOUR, SECOND, answer_text
from meadow.sheets.reading import read

SAMPLES = ("document-01", "dry-weather", "held-pond", "soaking-meadow", "walled-meadow")

# ---- the program


def answer_of(frame):
    """A frame as `meadow` prints an answer."""
    return answer_text(frame.depths(), {"outflow": frame.out, "soaked": frame.soaked, "steps": frame.steps, "clock": frame.clock})


def hold_samples(checks):
    """The engine run to a sample's end, in slices, gives the stored answer."""
    for name in SAMPLES:
        text = (TOP / "samples" / f"{name}.sheet").read_bytes()
        sheet, end = read(text.decode("ascii"))
        engine = Engine.fresh(text, {})
        (frame,) = frames_of(engine.opening, sheet.rows)
        while frame.clock < end:
            (frame,) = frames_of(engine.ask("step", 64, end, 0), sheet.rows)
        engine.close()
        checks.hold(answer_of(frame) == (TOP / "samples" / f"{name}.out").read_text(), f"the desk's engine does not give samples/{name}.out")


# a line after the sample season's sheet, its hatches and two steps, and the number that it is refused by
REFUSED_LINES = [
    ("hello", 12),
    ("show\t1", 12),
    ("draw\t1", 12),
    ("draw\t01\t5", 12),
    ("draw\t1\t5\t5", 12),
    ("draw 1 5", 12),
    ("draw\t0\t5", 12),
    ("draw\t10\t5", 12),
    ("draw\t1\t100001", 4),
    ("hatch\t1\t0\t0", 12),
    ("step\t0\t1000\t1", 12),
    ("step\t65\t1000\t1", 12),
    ("step\t1\t1000\t2", 12),
    (f"step\t1\t{LAST_CLOCK + 1}\t1", 5),
    ("back\t3", 10),
    ("most\t604800001", 5),
    ("step\t1\t1000", 12),
    ("x" * 126, 12),
]


def season_engine():
    """The sample season's engine before its first step."""
    season = Season(SAMPLE)
    return season, Engine.fresh(season.sheet_text, season.log.hatches)


def hold_refusals(checks):
    """What is no line is refused by its number, and leaves the state as it was."""
    season, engine = season_engine()
    engine.ask("step", 2, LAST_CLOCK, 0)
    before = engine.stand()
    for line, number in REFUSED_LINES:
        try:
            engine.ask(line)
            told = 0
        except Refused as refused:
            told = refused.number
        checks.hold(told == number, f"the desk's engine answers {line!r} by {told}, not by {number}")
    checks.hold(engine.stand() == before, "a refused line changes the state")
    engine.close()


def hold_stand(checks):
    """What `stand` prints `lay` reads, and goes on as if nothing had been; a saved state that is damaged is refused."""
    season, engine = season_engine()
    engine.ask("draw", 5, 600)
    engine.ask("step", 30, LAST_CLOCK, 0)
    text = engine.stand()
    laid = Engine.laid(season.sheet_text, text)
    checks.hold(laid.stand() == text, "a saved state that is laid down is another one")
    ways = [list(frames_of(one.ask("step", 30, LAST_CLOCK, 1), season.sheet.rows)) for one in (engine, laid)]
    waters = [[frame.water() for frame in way] for way in ways]
    checks.hold(len(waters[0]) == 30 and waters[0] == waters[1], "a laid state goes on otherwise")
    checks.hold(engine.stand() == laid.stand(), "a laid state comes elsewhere")
    engine.close()
    for what, damaged in damaged_stands(text):
        try:
            laid.ask("lay", len(damaged), damaged)
            told = 0
        except Refused as refused:
            told = refused.number
        checks.hold(told != 0, f"a saved state is taken with {what}")
    laid.close()


def damaged_stands(text):
    """What was done to a saved state, and it."""
    lines = text.splitlines(True)
    yield "its last line gone", b"".join(lines[:-1])
    yield "a line twice", b"".join([*lines, lines[-1]])
    yield "its first line gone", b"".join(lines[1:])
    yield "a word", text.replace(b"soak\t", b"soaked\t", 1)
    yield "a clock after a week", text.replace(lines[0], b"\t".join([b"stand", b"1", b"604800001", b"1000", b"0\n"]), 1)
    yield "no newline at its end", text[:-1]
    yield "nothing in it", b""


# ---- safety


def hold_page(checks, room):
    """The page comes with a strict policy, and names no address but this computer's."""
    status, page, headers = room.ask("GET", "/")
    policy = headers["Content-Security-Policy"]
    checks.hold(status == 200 and "default-src 'none'" in policy and "unsafe" not in policy, f"the page comes with the policy {policy}")
    scripts = re.findall(r'src="(/\w+\.js)"', page)
    checks.hold(len(scripts) > 3, "the page has no scripts")
    for name in ("/", "/desk.css", *scripts):
        status, text, _ = room.ask("GET", name)
        checks.hold(status == 200 and not re.search(r"https?://", text), f"{name} does not come, or names another computer")
    listens = [line.split() for line in Path("/proc/net/tcp").read_text().splitlines()[1:]]
    mine = [words[1].split(":")[0] for words in listens if words[1].endswith(f":{room.port:04X}") and words[3] == "0A"]
    checks.hold(mine == ["0100007F"], f"the desk listens at {mine}, not on the loopback alone")


def hold_strangers(checks, room):
    """Requests that are not from the desk's own page."""
    token, body = room.token, b'{"name":"a"}'
    strangers = {
        "another host": ("GET", "/", None, {"Host": "mill.example"}),
        "no host": ("GET", "/", None, {"Host": None}),
        "another host with this port": ("GET", "/", None, {"Host": f"mill.example:{room.port}"}),
        "another port": ("GET", "/", None, {"Host": "127.0.0.1:1"}),
        "no token": ("GET", "/api/desk", None, {}),
        "a wrong token": ("GET", "/api/desk", None, {"X-Desk-Token": "x" * 32}),
        "a token that is no ASCII": ("GET", "/api/desk", None, {"X-Desk-Token": "\xe9" * 32}),
        "another origin": ("POST", "/api/trials", body, {"Origin": "http://mill.example", "X-Desk-Token": token}),
        "null as origin": ("POST", "/api/trials", body, {"Origin": "null", "X-Desk-Token": token}),
        "https as origin": ("POST", "/api/trials", body, {"Origin": f"https://127.0.0.1:{room.port}", "X-Desk-Token": token}),
        "from another site": ("GET", "/api/desk", None, {"Sec-Fetch-Site": "cross-site", "X-Desk-Token": token}),
        "from the same site": ("GET", "/api/desk", None, {"Sec-Fetch-Site": "same-site", "X-Desk-Token": token}),
        "no token, to change": ("POST", "/api/trials", body, {}),
        "the page by POST": ("POST", "/", body, {}),
    }
    for what, (method, path, sent, headers) in strangers.items():
        checks.hold(room.ask(method, path, sent, **headers)[0] == 403, f"{what}: let through")
    for path in ("/../server.py", "/%2e%2e/server.py", "/server.py", "/page/index.html", "/token", "/api/trial/../frames", "/api/trial/A", "/api"):
        checks.hold(room.get(path)[0] in (404, 422), f"{path} is there")
    for method in ("PUT", "DELETE", "OPTIONS", "HEAD"):
        checks.hold(room.ask(method, "/api/desk", b"{}", token=token)[0] == 501, f"{method} is answered")


BAD_BODIES = {
    "a large body": b'{"name":"' + b"x" * 5_000 + b'"}',
    "no JSON": b"{{",
    "a list": b"[]",
    "a number": b"7",
    "nothing": b"",
    "deep brackets": b"[" * 4_000,
    "letters that are none": b"\xff\xfe{}",
    "no name": b"{}",
    "an empty name": b'{"name":""}',
    "a name with a newline": b'{"name":"a\\nstep\\t64"}',
    "a name with a tab": b'{"name":"a\\tb"}',
    "a name too long": b'{"name":"' + b"x" * 41 + b'"}',
    "a name that is no text": b'{"name":["a"]}',
    "a trial to copy that is not there": b'{"name":"a","copy":"Q"}',
    "a path to copy": b'{"name":"a","copy":"../../season/stand"}',
}
BAD_CHANGES = [
    ("step", {"count": 65}),
    ("step", {"count": 0}),
    ("step", {"count": 1.5}),
    ("step", {"count": True}),
    ("step", {"count": "1\n"}),
    ("step", {"count": None}),
    ("step", {"count": 1, "end": LAST_CLOCK + 1}),
    ("draw", {"hatch": 10, "litres": 1}),
    ("draw", {"hatch": 0, "litres": 1}),
    ("draw", {"hatch": 1, "litres": 100_001}),
    ("draw", {"hatch": 1, "litres": -1}),
    ("draw", {"hatch": 1}),
    ("back", {"count": -1}),
    ("back", {"count": 10**30}),
    ("mark", {"name": "a\nb"}),
    ("name", {"name": ""}),
]


def hold_bodies(checks, room, key):
    """Bodies that ask for nothing that can be done; none of them comes into a journal."""
    journal = room.trials / f"{key}.journal"
    before = journal.read_bytes()
    for what, body in BAD_BODIES.items():
        checks.hold(room.ask("POST", "/api/trials", body, room.token)[0] == 422, f"{what}: taken")
    checks.hold(room.ask("POST", "/api/trials", b'{"name":"a"}', room.token, Content_Type="text/plain")[0] == 422, "another type is taken")
    checks.hold(room.ask("POST", "/api/trials", b'{"name":"a"}', room.token, Content_Length=None)[0] == 422, "no length is taken")
    for what, asked in BAD_CHANGES:
        checks.hold(room.post(f"/api/trial/{key}/{what}", at=0, **asked)[0] == 422, f"{what} {asked}: taken")
    checks.hold(room.post("/api/trial/Q/step", at=0, count=1)[0] == 422, "a trial that is not there is stepped")
    checks.hold(room.post(f"/api/trial/{key}/flood", at=0)[0] == 404, "a change that is none is made")
    for at in (None, 1, -1, "0", False, True):
        checks.hold(room.post(f"/api/trial/{key}/step", at=at, count=1)[0] == 409, f"a change at the serial {at!r} is made")
    checks.hold(journal.read_bytes() == before and len(list(room.trials.glob("*.journal"))) == 1, "what was refused came into a journal")


def hold_long_head(checks, room):
    """A head without end is cut off."""
    with socket.create_connection(("127.0.0.1", room.port)) as talk:
        talk.sendall(b"GET / HTTP/1.1\r\nHost: x\r\nA: " + b"b" * 70_000 + b"\r\n\r\n")
        checks.hold(b" 431 " in talk.recv(100), "a header without end is read")


def hold_twice(checks, room, key):
    """The same request twice is made once; a seventh trial is refused."""
    at = room.now(key)["serial"]
    checks.hold(room.post(f"/api/trial/{key}/draw", at=at, hatch=4, litres=300)[0] == 200, "a hatch cannot be drawn")
    checks.hold(room.post(f"/api/trial/{key}/draw", at=at, hatch=4, litres=300)[0] == 409, "a request that is repeated is made again")
    keys = [room.new(f"trial {number}") for number in range(5)]
    checks.hold(room.post("/api/trials", name="one too many")[0] == 422, "a seventh trial is begun")
    for other in keys:
        room.post(f"/api/trial/{other}/drop")
    checks.hold(room.new("again") not in {key, *keys}, "a letter is used twice")
    dropped = [path.name for path in room.trials.glob("*.journal.dropped")]
    checks.hold(len(dropped) == 5, f"of five dropped trials {len(dropped)} journals stay")


# ---- what happens to machines


def wait_for(what):
    """Waits until something is so."""
    while not what():
        time.sleep(0.01)


def hold_torn(checks, room, key):
    """The power goes while a line is written: that line was never made, and later ones are."""
    room.change(key, "step", count=20)
    water = room.water(key)
    room.kill()
    journal = room.trials / f"{key}.journal"
    journal.write_bytes(journal.read_bytes() + b"step\t4")
    room.start()
    checks.hold(room.water(key) == water, "a torn line was made, or lines before it were not")
    room.change(key, "step", count=5)
    water = room.water(key)
    room.kill()
    room.start()
    checks.hold(room.water(key) == water and room.now(key)["made"] == 25, "what came after a torn line is lost")


def hold_engine_killed(checks, room, key):
    """An engine that ends is worked again, and the change is made."""
    room.change(key, "back", count=5)
    room.kill_engines()
    told = room.change(key, "step", count=5)
    checks.hold("\nagain\t" in "\n" + told and water_in(told) == room.water(key), "a killed engine is not worked again")
    room.change(key, "back", count=5)
    checks.hold(water_in(room.change(key, "step", count=5)) == water_in(told), "with and without the kill the water is another")
    room.kill_engines()
    checks.hold(water_in(room.get(f"/api/trial/{key}/frames")[1]) == water_in(told), "a page that opens after a kill sees other water")
    room.kill_engines()
    checks.hold(room.get(f"/api/trial/{key}/arrows")[1].endswith("end\n"), "no arrows after a kill")
    for what, asked in (("back", {"count": 1_000}), ("mark", {"name": "here"})):
        room.kill_engines()
        answer = room.change(key, what, **asked)
        checks.hold(answer.endswith("end\n") and water_in(answer) == water_in(told), f"{what}, which needs no engine, after a kill: {answer!r}")


# programs in the engine's place: one that ends at once, and one that never answers
NO_ENGINES = (["/bin/false"], ["/bin/sleep", "1000"])


def hold_no_engine(checks, folder, words):
    """An engine that ends, or does not answer, each time it is started: the request ends with a fault, and once an engine answers again the trial is
    that of its journal."""
    evening = Evening(folder, Season(SAMPLE))
    trial = evening.new("no engine")
    for change in (("draw", 5, 600), ("step", 20, LAST_CLOCK), ("step", 20, LAST_CLOCK)):
        "".join(trial.change(trial.serial, *change))
    for change in (("step", 5, LAST_CLOCK), ("back", 30), ("mark", "late")):
        trial.engine.child.kill()
        with mock.patch("desk.engine.words_of", lambda name: words), mock.patch.object(Engine, "patience", 0.5):
            try:
                "".join(trial.change(trial.serial, *change))
                told = "made"
            except Gone:
                told = "gone"
        checks.hold(told == "gone", f"{change} is {told} with {words[0]} for an engine")
        water, made = water_in("".join(trial.all())), trial.made()
        again = Trial(folder, trial.key, trial.season)
        checks.hold((again.made(), water_in("".join(again.all()))) == (made, water), f"after {change} the trial is not that of its journal")
        again.close()
    checks.hold(trial.made() == 15 and trial.marks == [("late", 15)], f"{trial.made()} steps stand, with the marks {trial.marks}")
    evening.close()


def stop(room):
    """Every engine of a room hangs from now on."""
    for engine in room.engines():
        os.kill(engine, signal.SIGSTOP)


def hold_hang(checks, folder):
    """An engine that hangs is ended after the server's patience, here a short one: what stood is worked again from the journal's lines, the change is
    made, and the answer says so; a page that opens meanwhile sees the same water."""
    with Room(folder) as room:
        room.start(more=["--patience", "3"])
        key = room.new("hangs")
        room.change(key, "draw", hatch=5, litres=600)
        room.change(key, "step", count=20)
        stop(room)
        told = room.change(key, "step", count=5)
        checks.hold("\nagain\t20\n" in "\n" + told and told.endswith("end\n") and room.now(key)["made"] == 25, f"an engine that hangs: {told[-300:]!r}")
        room.change(key, "back", count=5)
        checks.hold(water_in(room.change(key, "step", count=5)) == water_in(told), "with and without the hang the water is another")
        stop(room)
        checks.hold(room.water(key) == water_in(told), "a page that opens while an engine hangs sees other water")
        room.kill()
        room.start()
        checks.hold(room.water(key) == water_in(told), "after a hang the journal gives other water")


def hold_sleep(checks, room, key):
    """The laptop is closed after a line is in the journal and before the engine has made it: the answer comes whole when it is opened."""
    room.change(key, "back", count=5)
    told, journal = [], room.trials / f"{key}.journal"
    size = journal.stat().st_size
    stop(room)
    asked = {"at": room.now(key)["serial"], "count": 5}
    asking = threading.Thread(target=lambda: told.append(room.post(f"/api/trial/{key}/step", **asked)))
    asking.start()
    wait_for(lambda: journal.stat().st_size > size)
    checks.hold(not told, "an engine that is stopped answers")
    for engine in room.engines():
        os.kill(engine, signal.SIGCONT)
    asking.join()
    slept = water_in(told[0][1])
    room.change(key, "back", count=5)
    checks.hold(water_in(room.change(key, "step", count=5)) == slept, "a sleep in the middle leaves other water")


def hold_full_disk(checks, room, key):
    """Where the journal cannot grow nothing is done, and what stood stands."""
    water, serial = room.water(key), room.now(key)["serial"]
    journal = room.trials / f"{key}.journal"
    size = journal.stat().st_size
    room.kill()
    room.start(preexec_fn=lambda: resource.setrlimit(resource.RLIMIT_FSIZE, (size + 4, size + 4)))
    status, told = room.post(f"/api/trial/{key}/step", at=serial, count=5)
    checks.hold(status == 422 and "journal" in json.loads(told)["fault"], f"a full disk is answered by {status}: {told}")
    checks.hold(journal.stat().st_size == size, "a full disk leaves a part of a line")
    checks.hold(room.water(key) == water and room.now(key)["serial"] == serial, "a change is made that the journal has not")
    checks.hold(room.post("/api/trials", name="no room")[0] == 422, "a trial is begun on a full disk")
    room.kill()
    room.start()
    checks.hold(room.post(f"/api/trial/{key}/step", at=serial, count=5)[0] == 200, "after the disk has room again nothing goes on")


def hold_second(checks, room):
    """A second desk over the same trials is not opened, and says where the first is; nor is one over a folder that cannot be."""
    told = subprocess.run([DESK, room.season, room.trials, "--no-browser"], capture_output=True, text=True)
    checks.hold(told.returncode == 1 and f":{room.port}/" in told.stderr, f"a second desk over the same trials: {told.stderr}")
    told = subprocess.run([DESK, room.season, room.season / "season.sheet" / "no", "--no-browser"], capture_output=True, text=True)
    checks.hold(told.returncode == 1 and "Traceback" not in told.stderr, f"trials where none can be: {told.stderr}")


def hold_other_sheet(checks, room):
    """Trials of another sheet are left aside, with a word, and never made on it."""
    room.kill()
    sheet = room.season / "season.sheet"
    sheet.write_bytes(sheet.read_bytes().replace(b"rain\t0\t", b"rain\t1\t", 1))
    room.start()
    told = json.loads(room.get("/api/desk")[1])
    aside = [words for words in told["aside"] if "another sheet" in words]
    checks.hold(told["trials"] == [] and aside == told["aside"] != [], f"trials of another sheet: {told}")
    sheet.write_bytes((SAMPLE / "season.sheet").read_bytes())
    room.kill()
    (room.trials / "Z.journal").write_bytes(b"no journal\n")
    room.start()
    told = json.loads(room.get("/api/desk")[1])
    checks.hold(told["trials"] and len(told["aside"]) == 1, f"a file that is no journal: {told['aside']}")


# ---- random evenings


def standing_again(season, told, stand):
    """The water of a fresh engine that makes only the standing steps of a trial, of its frames as the page reads them."""
    engine = Engine.laid(season.sheet_text, stand.text)
    rates = None
    for line in told.splitlines():
        word, *fields = line.split("\t")
        if word == "frame":
            clock = fields[1]
        elif word == "rates" and rates is None:
            rates = fields
        elif word == "account" and fields[3] != "0":
            return None
        elif word == "now":
            break
        elif word == "rates":
            for hatch, (old, new) in enumerate(zip(rates, fields), 1):
                if old != new:
                    engine.ask("draw", hatch, new)
            rates = fields
            engine.ask("step", 1, clock, 0)
    water = stands.water_of(engine.stand())
    engine.close()
    return water


def random_change(rng, room, key):
    """A change that a warden might make."""
    now = room.now(key)
    kind = rng.random()
    if kind < 0.3:
        return "draw", {"hatch": rng.randint(1, 9), "litres": rng.choice((0, 50, 300, 900))}
    if kind < 0.65:
        return "step", {"count": rng.randint(1, 40), "end": rng.choice((LAST_CLOCK, LAST_CLOCK, now["clock"] + rng.randint(0, 60_000)))}
    if kind < 0.7:
        return "mark", {"name": f"mark {rng.randint(1, 5)}"}
    return "back", {"count": rng.choice((1, 5, rng.randint(0, now["made"] + 3)))}


def rates_in(text):
    """What hatches run at: of each frame in an answer, and at its end now."""
    return [line.split("\t")[1:] for line in text.splitlines() if line.startswith("rates\t")]


def hold_evening(checks, room, seed, changes):
    """A random evening: each take-back gives the state that was there and the rates when the earliest step taken back began, no frame has an open
    account, and what stands is what a fresh engine makes of the standing steps."""
    rng, season = random.Random(seed), Season(room.season)
    key = room.new(f"evening {seed}")
    stand = stands.read(room.trials / f"{key}.stand")
    for at in range(changes):
        what, asked = random_change(rng, room, key)
        if rng.random() < 0.08:
            room.kill_engines()
        stood = rates_in(room.get(f"/api/trial/{key}/frames")[1])
        told = room.change(key, what, **asked)
        if what == "back" and asked["count"] and "refused" not in told:
            checks.hold(rates_in(told) == [stood[-1 - asked["count"]]], f"evening {seed}, change {at}: after {what} {asked} hatches run otherwise")
        checks.hold("DIFFERS" not in told and told.endswith("end\n"), f"evening {seed}, change {at}: {what} {asked} says {told[-200:]}")
        if what == "back" or at == changes - 1:
            frames = room.get(f"/api/trial/{key}/frames")[1]
            again = standing_again(season, frames, stand)
            checks.hold(again == water_in(frames), f"evening {seed}, change {at}: other water than by the standing steps")
    water = room.water(key)
    copy = room.new("its copy", copy=key)
    checks.hold(room.water(copy) == water, f"evening {seed}: a copy has other water")
    room.kill()
    room.start()
    checks.hold(room.water(key) == water == room.water(copy), f"evening {seed}: the journal gives other water")
    for each in (key, copy):
        room.post(f"/api/trial/{each}/drop")


def hold_far_back(checks, room):
    """Beyond the records the standing steps are worked again: the water that was there, and the rates when the earliest step taken back began."""
    key, hatch, waters = room.new("far back"), 5, []
    for litres, count in ((100, 10), (100, 20), (200, 40)):
        room.change(key, "draw", hatch=hatch, litres=litres)
        told = room.change(key, "step", count=count)
        waters.append(water_in(told))
    room.change(key, "draw", hatch=hatch, litres=300)
    told = room.change(key, "back", count=60)
    checks.hold(water_in(told) == waters[0] and "\tsame\t" in told, "far back is other water")
    checks.hold(rates_in(told)[-1][hatch - 1] == "100", f"far back hatches run at {rates_in(told)}")


def hold_refused_step(checks, folder):
    """A step that is refused ends a series: the steps before it stand, and are shown; the keeper's run stops there likewise."""
    with Room(folder / "refused", one_square(folder / "one")) as room:
        room.start()
        key = room.new("too much")
        room.change(key, "draw", hatch=1, litres=60_000)
        told = room.change(key, "step", count=5)
        shown = told.count("frame\t"), "\nrefused\t8\t" in told, room.now(key)["made"]
        checks.hold(shown == (1, True, 1), f"a step above 100 m is answered by {told!r}")
        room.change(key, "back", count=1)
        checks.hold("\nrow\t0\n" in room.get(f"/api/trial/{key}/frames")[1], "the step before a refused one is not taken back")
        room.change(key, "draw", hatch=1, litres=10)
        checks.hold("refused" not in room.change(key, "step", count=5), "after a refused step nothing goes on")
        (room.season / "season.log").write_text("hatch\t1\t0\t0\n0\t1\t60000\n5000\t1\t0\n", encoding="ascii")
        told = room.run_season()
        saved = stands.read(room.season / "stand").told
        checks.hold(told.returncode == 1 and saved["how"] == "refused 8" and saved["clock"] == SECOND, f"the keeper's run above 100 m: {saved}")
        checks.hold("100 m deep" in told.stderr and "100 m deep" in saved["why"], f"the keeper's run above 100 m says {told.stderr!r}")


# ---- the keeper


def hold_log(checks, room):
    """A saved log is said only where it can be, and through `hatchlog` gives the desk's depths."""
    key, update = room.new("for a log"), Season(room.season).sheet.run["update"]
    room.change(key, "step", count=1)
    status, told = room.get(f"/api/trial/{key}/log")
    checks.hold(status == 422 and "multiples" in json.loads(told)["fault"], "a log is saved at a clock that it cannot name")
    for hatch, litres in ((7, 200), (5, 350)):
        if room.now(key)["clock"] % update == 0:
            room.change(key, "draw", hatch=hatch, litres=litres)
        end = (room.now(key)["clock"] // update + 1) * update
        while room.now(key)["clock"] < end:
            told = room.change(key, "step", count=64, end=end)
    log = room.folder / "trial.log"
    log.write_text(room.get(f"/api/trial/{key}/log")[1])
    printed = printed_of_named("hatchlog", room.season / "season.sheet", log)
    frames = room.get(f"/api/trial/{key}/frames")[1]
    (*_, last) = frames_of([line + "\n" for line in frames.splitlines() if re.match(r"frame|rates|row", line)], Season(room.season).sheet.rows)
    checks.hold(printed.endswith(answer_of(last)), "hatchlog gives a saved log other depths than the desk")
    return log


def hold_keep(checks, room, log):
    """A trial is adopted only after a yes, and only where its beginning is the season's; the run then goes on by it."""
    before = files_of(room.season)
    told = subprocess.run([SEASON, "keep", room.season, log], input="no\n", capture_output=True, text=True)
    same = files_of(room.season)["season.log"] == before["season.log"]
    checks.hold(told.returncode == 1 and "+" in told.stdout and same, "a log is adopted without a yes")
    other = room.folder / "other.log"
    other.write_text(log.read_text().replace("120000\t3\t160", "120000\t3\t170"))
    told = subprocess.run([SEASON, "keep", room.season, other], input="yes\n", capture_output=True, text=True)
    checks.hold(told.returncode == 1 and "beginning" in told.stderr, f"a log of another beginning is adopted: {told.stderr}")
    told = subprocess.run([SEASON, "keep", room.season, log], input="yes\n", capture_output=True, text=True)
    checks.hold(told.returncode == 0 and (room.season / "season.log").read_bytes() == log.read_bytes(), f"a log is not adopted: {told.stderr}")
    checks.hold(room.run_season().returncode == 0, "the season does not go on by an adopted log")
    stand, printed = stands.read(room.season / "stand"), printed_of_named("hatchlog", room.season / "season.sheet", log)
    lines = [f"{name}\t{stand.told[name]}\n" for name in ("clock", "steps")]
    checks.hold(all(line in printed for line in lines), "the season's run is not that of its log")


def long_season(folder):
    """The sample season with a log that goes on for an hour."""
    shutil.copytree(SAMPLE, folder)
    with open(folder / "season.log", "a", encoding="ascii") as log:
        log.write(f"{HOUR // 2}\t2\t0\n{HOUR}\t1\t0\n")
    return folder


def head_of(folder):
    """What the keeper's run last said of itself."""
    found = stands.read(folder / "stand")
    return found.told if found else {"steps": 0}


def started(folder):
    """The keeper's run of a folder under way."""
    return subprocess.Popen([SEASON, folder], stdout=subprocess.DEVNULL, stderr=subprocess.DEVNULL)


def hold_keeper(checks, folder):
    """The keeper's run: told before, stopped by a file and by Ctrl-C, killed, gone on with: the same bytes as an unbroken one."""
    whole, broken = (long_season(folder / name) for name in ("whole", "broken"))
    told = subprocess.run([SEASON, whole], capture_output=True, text=True)
    end = head_of(whole)
    checks.hold(told.returncode == 0 and end["how"] == "done" and end["clock"] == HOUR, f"an unbroken run ends so: {told.stderr[-300:]}")
    bounds = f"at least {end['least']:,} and at most {end['most']:,} steps"
    checks.hold(bounds in told.stderr.splitlines()[0], "the steps are not told before the run")
    checks.hold(end["least"] <= end["steps"] <= end["most"], f"{end['steps']} steps are not between the figures told before")
    run = started(broken)
    wait_for(lambda: head_of(broken)["steps"] > 100)
    second = subprocess.run([SEASON, broken], capture_output=True, text=True)
    checks.hold(second.returncode == 1 and "under way" in second.stderr, "a second run of the season is let in")
    (broken / "stop").touch()
    checks.hold(run.wait() == 1 and head_of(broken)["how"] == "stopped", "a file stop does not stop the run")
    checks.hold(subprocess.run([SEASON, broken], capture_output=True).returncode == 1, "the run goes on where a file stop is")
    (broken / "stop").unlink()
    for ends in (signal.SIGKILL, signal.SIGINT, signal.SIGKILL, signal.SIGTERM):
        before = head_of(broken)["steps"]
        run = started(broken)
        wait_for(lambda: run.poll() is not None or head_of(broken)["steps"] > before + 60)
        if run.poll() is None:
            os.kill(run.pid, ends)
        run.wait()
    checks.hold(subprocess.run([SEASON, broken], capture_output=True).returncode == 0, "a run that was stopped and killed does not come to its end")
    texts = [stands.read(one / "stand").text for one in (whole, broken)]
    checks.hold(texts[0] == texts[1], "a run that was stopped and killed leaves other bytes than an unbroken one")
    hold_grown(checks, broken, texts[0])


def hold_grown(checks, folder, text):
    """A log that has only grown goes on from where the season stands; another one is not run unasked."""
    steps = head_of(folder)["steps"]
    with open(folder / "season.log", "a", encoding="ascii") as log:
        log.write(f"{HOUR + 60_000}\t1\t0\n")
    told = subprocess.run([SEASON, folder], capture_output=True, text=True)
    checks.hold(told.returncode == 0 and f"{steps:,} steps of them made" in told.stderr, "a log that has grown is run from its beginning")
    log = folder / "season.log"
    log.write_text(log.read_text().replace("0\t1\t120", "0\t1\t130", 1))
    told = subprocess.run([SEASON, folder], capture_output=True, text=True)
    checks.hold(told.returncode == 1 and "--anew" in told.stderr, "a season that stands by another log is run over")
    checks.hold(subprocess.run([SEASON, "--anew", folder], capture_output=True).returncode == 0, "a season cannot be run anew")
    checks.hold(stands.read(folder / "stand").text != text, "a season that is run anew is as before")


BAD_LOGS = {
    "a hatch in a wall": "hatch\t1\t13\t19\n",
    "a hatch twice": "hatch\t1\t0\t0\nhatch\t1\t0\t1\n",
    "a hatch after a clock": "hatch\t1\t0\t0\n0\t1\t5\nhatch\t2\t0\t1\n",
    "a hatch that is not named": "0\t1\t5\n",
    "a clock between two": "hatch\t1\t0\t0\n1\t1\t5\n",
    "clocks that fall": "hatch\t1\t0\t0\n60000\t1\t5\n30000\t1\t5\n",
    "too many litres": "hatch\t1\t0\t0\n0\t1\t100001\n",
    "steps taken back": "hatch\t1\t0\t0\n0\t1\t5\nback\t0\n",
    "no newline at its end": "hatch\t1\t0\t0",
    "no line at all": "evening\n",
}


def hold_bad_logs(checks, folder):
    """A log that cannot be a season's is said in words."""
    season = Season(SAMPLE)
    for what, text in BAD_LOGS.items():
        try:
            logs.read(text.encode("ascii"), season.sheet)
            told = ""
        except logs.NoLog as why:
            told = str(why)
        checks.hold(told.startswith("line "), f"a season's log with {what} is taken")
    told = subprocess.run([SEASON, folder], capture_output=True, text=True)
    checks.hold(told.returncode == 1 and "season.sheet" in told.stderr, "a folder that is no season is run")


def hold_alone(checks, folder):
    """bin/desk alone opens a sample and the browser; a hatch is drawn, and one key moves water. Nothing of it stays, and the sample is as it was."""
    before = files_of(SAMPLE)
    with Room(folder) as room:
        browser, opened = folder / "browser", folder / "opened"
        browser.write_text(f'#!/bin/sh\necho "$1" >{opened}\n')
        browser.chmod(0o755)
        room.start(words=[DESK, "--port", "0"], env={**os.environ, "TMPDIR": str(folder), "BROWSER": f"{browser} %s"})
        wait_for(lambda: opened.exists() and opened.read_text().endswith("\n"))
        checks.hold(opened.read_text() == f"http://127.0.0.1:{room.port}/\n", f"the browser is sent to {opened.read_text()!r}")
        (told,) = json.loads(room.get("/api/desk")[1])["trials"]
        checks.hold(told["begins"] > 0 and told["made"] == 0, f"the sample opens with {told}")
        frames = room.change(told["key"], "step", count=5)
        checks.hold(frames.count("frame\t") == 5 and "\t600\t" in frames, "the sample's hatch is not drawn, or no water moves")
        checks.hold(any(folder.glob("desk-*")), "the sample has no place of its own")
        room.server.send_signal(signal.SIGINT)
        checks.hold(room.server.wait() == 128 + signal.SIGINT and not any(folder.glob("desk-*")), "the sample leaves something behind")
    checks.hold(files_of(SAMPLE) == before, "the sample is changed")
    told = subprocess.run([DESK, folder, "--no-browser"], capture_output=True, text=True)
    checks.hold(told.returncode == 1 and "season.sheet" in told.stderr, "a folder that is no season is opened")


def main():
    checks = Checks("desk_server")
    seed = int(sys.argv[2]) if sys.argv[1:2] == ["--seed"] else 1
    built("desk", "hatchlog")
    hold_samples(checks)
    hold_refusals(checks)
    hold_stand(checks)
    with tempfile.TemporaryDirectory() as folder, Room(Path(folder) / "desk") as room:
        room.run_season()
        before = files_of(room.season)
        room.start()
        hold_page(checks, room)
        hold_strangers(checks, room)
        key = room.new("one")
        hold_bodies(checks, room, key)
        hold_long_head(checks, room)
        hold_twice(checks, room, key)
        hold_torn(checks, room, key)
        hold_engine_killed(checks, room, key)
        for words in NO_ENGINES:
            hold_no_engine(checks, Path(folder) / Path(words[0]).name, words)
        hold_hang(checks, Path(folder) / "hang")
        hold_sleep(checks, room, key)
        hold_full_disk(checks, room, key)
        hold_evening(checks, room, seed, 30)
        hold_second(checks, room)
        log = hold_log(checks, room)
        checks.hold(files_of(room.season) == before, "the desk changed the season's files")
        hold_keep(checks, room, log)
        hold_other_sheet(checks, room)
        hold_keeper(checks, Path(folder))
        hold_bad_logs(checks, Path(folder))
        hold_alone(checks, Path(folder) / "alone")
        hold_refused_step(checks, Path(folder))
        with Room(Path(folder) / "wide", large_season(Path(folder) / "large")) as wide:
            wide.start()
            hold_evening(checks, wide, seed, 30)
            hold_far_back(checks, wide)
    checks.end()


if __name__ == "__main__":
    main()
