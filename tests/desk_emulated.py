"""The desk's page where the machine is no x86-64: scripts are told that it is an Arm one, have no kit, and start each engine by Debian's emulator. From
`bin/desk SEASON` to the first frame, and forty steps and back, on the sample and on 64 by 64 squares: the water's name is as it was, and every engine is
emulated.

No time passes or fails the gate. `bin/test desk_emulated --pace` does it five times over, prints the medians, emulated and not, and holds those that
are emulated to what was asked."""
import os
import statistics
import sys
import tempfile
import time
from pathlib import Path

from around import EMULATOR, arm_path
from browser import LAPTOP, Page, draw_hatch, led
from desk_pace import large_season
from desks import SAMPLE, Room
from meadow.counted import Checks
from meadow.programs import built

FORTY = 40
# what was asked, in seconds: to the first frame, and forty steps by the squares of a side
MOST_FIRST = 2
MOST_FORTY = {30: 1, 64: 1.5}
# from a key to the last frame that it makes, drawn, in ms
TIMED = """
const [key, shiftKey, made, done] = arguments, start = performance.now();
const look = () => here() && madeOf(here()) === made && !desk.inLine && !desk.busy && !isQueued ? done(performance.now() - start) : requestAnimationFrame(look);
document.body.dispatchEvent(new KeyboardEvent('keydown', { key, shiftKey, bubbles: true }));
look();
"""


def opened(page, around):
    """How long it takes from the command to the first frame in a browser that is open, and the processor's time of server and engines."""
    start = time.perf_counter()
    page.room.start(env={**os.environ, **around})
    page.open()
    return time.perf_counter() - start, spent(page.room)


def spent(room):
    """The processor's time of a room's server and of all its engines, those that have ended too, in seconds."""
    stats = [Path(f"/proc/{process}/stat").read_text().rsplit(")", 1)[1].split() for process in (room.server.pid, *room.engines())]
    return sum(int(field) for fields in stats for field in fields[11:15]) / os.sysconf("SC_CLK_TCK")


def first_frames(page, around, times):
    """Both times of several openings; the last stays open."""
    taken = []
    for _ in range(times):
        page.room.kill()
        taken.append(opened(page, around))
    return taken


def is_within(taken, most):
    """Whether an act takes less than was asked: by the clock, or where more programs want to run than there are cores, by the processor's time."""
    by_clock, by_processor = zip(*taken)
    is_busy = os.getloadavg()[0] > os.cpu_count()
    return statistics.median(by_clock) < most or is_busy and statistics.median(by_processor) < most


def timed(page, key, shift, made):
    """How long a key takes until so many steps stand and are drawn, and the processor's time of server and engines, in seconds."""
    before = spent(page.room)
    taken = page.driver.execute_async_script(TIMED, key, shift, made) / 1_000
    return taken, spent(page.room) - before


def forty_and_back(checks, page, times):
    """The times of forty steps and of forty taken back, several times over; the water's name is the same after each."""
    page.room.new("timed")
    page.open()
    page.js("(document.getElementById('pace').value = '0')")
    draw_hatch(page, 5, 600)
    timed(page, " ", False, FORTY)
    page.idle()
    water, steps, backs = page.js("here().water"), [], []
    for _ in range(times):
        steps.append(timed(page, " ", False, 2 * FORTY))
        page.idle()
        backs.append(timed(page, "ArrowLeft", True, FORTY))
        page.idle()
        checks.hold(page.js("here().water") == water and page.js("here().same") == "same", "forty steps and back leave other water, emulated")
    return steps, backs


def had(checks, webdriver, folder, season, around, times):
    """A season opened, and forty steps and back, so many times over: the times of each, and the squares of a side."""
    with Room(folder, season) as room, Page(webdriver, room) as page:
        page.size(*LAPTOP)
        firsts = first_frames(page, around, times)
        steps, backs = forty_and_back(checks, page, times)
        engines = [Path(f"/proc/{engine}/cmdline").read_bytes() for engine in room.engines()]
        checks.hold(engines and all((EMULATOR.encode() in words) == bool(around) for words in engines), f"engines are {engines}")
        return page.js("desk.ground.rows"), firsts, steps, backs


def hold_pace(checks, webdriver, folder, season, around):
    """What was asked, on a season; the words that tell the medians."""
    side, firsts, steps, backs = had(checks, webdriver, folder, season, around, 5)
    if around:
        checks.hold(is_within(firsts, MOST_FIRST), f"the first frame takes {firsts} s")
        checks.hold(is_within(steps, MOST_FORTY[side]), f"forty steps on {side} by {side} squares take {steps} s")
    how = f"{side} by {side}, {'emulated' if around else 'not emulated'}"
    told = []
    for what, taken in (("to the first frame", firsts), ("forty steps", steps), ("forty back", backs)):
        by_clock, by_processor = (f"{statistics.median(times):.2f} s ({min(times):.2f}..{max(times):.2f})" for times in zip(*taken))
        told.append(f"{how}: {what} {by_clock}, of the processor {by_processor}")
    return told


def main():
    checks = Checks("desk_emulated")
    webdriver = led(checks)
    built("desk")
    with tempfile.TemporaryDirectory() as name:
        folder = Path(name)
        (folder / "arm").mkdir()
        on_arm, seasons = {"PATH": arm_path(folder / "arm")}, (SAMPLE, large_season(folder / "large"))
        for season in seasons:
            if sys.argv[1:] == ["--pace"]:
                for how, around in (("here", {}), ("on-arm", on_arm)):
                    print(*hold_pace(checks, webdriver, folder / f"{season.name}-{how}", season, around), sep="\n", flush=True)
            else:
                had(checks, webdriver, folder / f"{season.name}-desk", season, on_arm, 1)
    checks.end()


if __name__ == "__main__":
    main()
