#!/usr/bin/env python3
"""desk_pace.py: how long the desk takes, as a median of several times: forty steps with a frame each and back, by the engine alone and through the
server with journal and account; a new trial; steps beyond the records taken back. On the sample season, and on a meadow of 64 by 64 squares."""
import statistics
import tempfile
import threading
import time
from http.client import HTTPConnection
from json import dumps, loads
from pathlib import Path

from begin import ended
from desk.engine import Engine
from desk.evening import Evening
from desk.opening import SAMPLE
from desk.season import Season
from desk.server import Server
from meadow.programs import built
from meadow.rule.ranges import LAST_CLOCK
from meadow.sheets.lines import HOUR, SECOND, Sheet, Unreadable

# squares a side, times that each act is timed, and steps of a warden's look
LARGE, TIMES, FORTY = 64, 9, 40


def large_sheet():
    """A meadow of 64 by 64 squares of 5 m that falls to the south, wet all over, with a wall in its middle."""
    sheet = Sheet(LARGE, LARGE, 5, shortest=100, longest=8 * SECOND, update=30 * SECOND, edge=50)
    for row, column in sheet.squares:
        if not (24 <= row < 34 and 38 <= column < 48):
            bed = 3_200_000 - 22_000 * row - 4_000 * abs(column - 28)
            sheet.put((row, column), bed, 350, 20_000, "e" if (row, column) == (LARGE - 1, 28) else "o", rate=2_000)
    return sheet.text(2 * HOUR)


def large_season(folder):
    """Its season, with nine hatches in the north."""
    folder.mkdir()
    (folder / "season.sheet").write_text(large_sheet(), encoding="ascii")
    (folder / "season.log").write_text("".join(f"hatch\t{number}\t3\t{6 * number}\n" for number in range(1, 10)), encoding="ascii")
    return folder


def median(does, times=TIMES):
    """The median time of an act in ms."""
    taken = []
    for _ in range(times):
        start = time.perf_counter()
        does()
        taken.append(time.perf_counter() - start)
    return statistics.median(taken) * 1_000


def by_the_engine(season):
    """What is timed of the engine alone, and its times."""
    engine = Engine.fresh(season.sheet_text, season.log.hatches)
    engine.ask("draw", 5, 600)
    engine.ask("step", FORTY, LAST_CLOCK, 0)
    size = []

    def forty_and_back():
        size.append(sum(map(len, engine.ask("step", FORTY, LAST_CLOCK, 1))))
        engine.ask("back", FORTY)

    both = median(forty_and_back)
    yield "forty steps, one frame, and back", median(lambda: (engine.ask("step", FORTY, LAST_CLOCK, 0), engine.ask("back", FORTY)))
    yield f"forty steps, a frame each ({size[0] // 1024} KB), and back", both
    engine.ask("step", FORTY, LAST_CLOCK, 0)
    yield "all arrows", median(lambda: engine.ask("arrows"))
    yield "the state as text", median(engine.stand)
    engine.close()


class Client:
    """Requests to a server, as the page makes them."""

    def __init__(self, server):
        self.server, self.serial, self.key = server, 0, None

    def ask(self, path, **asked):
        """The text of an answer."""
        talk = HTTPConnection(*self.server.server_address[:2])
        talk.request("POST", path, dumps(asked), {"X-Desk-Token": self.server.token, "Content-Type": "application/json"})
        answer = talk.getresponse().read().decode("utf-8")
        talk.close()
        return answer

    def new(self):
        """Another trial, and the one before dropped."""
        if self.key:
            self.ask(f"/api/trial/{self.key}/drop")
        self.key, self.serial = loads(self.ask("/api/trials", name="timed"))["key"], 0

    def change(self, what, **asked):
        """A change of the trial, which must be made."""
        if not self.ask(f"/api/trial/{self.key}/{what}", at=self.serial, **asked).endswith("\nend\n"):
            raise Unreadable(f"the desk does not {what}")
        self.serial += 1


def by_the_server(season, folder):
    """What is timed through the server, and its times."""
    evening = Evening(folder, season)
    server = Server(0, evening)
    threading.Thread(target=server.serve_forever, daemon=True).start()
    client = Client(server)
    yield "a new trial", median(client.new)
    client.change("draw", hatch=5, litres=600)
    client.change("step", count=FORTY)
    taken = {"step": [], "back": []}
    for _ in range(TIMES):
        for what, times in taken.items():
            times.append(median(lambda: client.change(what, count=FORTY), 1))
    yield "forty steps, a frame each", statistics.median(taken["step"])
    yield "forty steps taken back", statistics.median(taken["back"])
    room = evening.trial(client.key).now().room
    while evening.trial(client.key).made() <= room + FORTY:
        client.change("step", count=FORTY)
    made = evening.trial(client.key).made()
    yield f"{made - 5} of {made} steps taken back, beyond the records", median(lambda: client.change("back", count=made - 5), 1)
    server.shutdown()
    server.server_close()
    evening.close()


def main():
    built("desk")
    with tempfile.TemporaryDirectory() as room:
        for name, folder in (("the sample season", SAMPLE), ("64 by 64 squares", large_season(Path(room) / "large"))):
            season = Season(folder)
            print(f"{name}, {season.sheet.rows} by {season.sheet.columns}")
            for by, times in (("engine", by_the_engine(season)), ("server", by_the_server(season, Path(room) / f"{folder.name}.trials"))):
                for what, taken in times:
                    print(f"  {by}: {what:<58}{taken:>9.1f} ms", flush=True)
    return 0


if __name__ == "__main__":
    ended(main, "desk_pace")
