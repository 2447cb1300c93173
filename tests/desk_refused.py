"""Every number by which the program `desk` refuses, as docs/PROTOCOL.md lists them, provoked through the desk: by a change that a page asks for, by the
saved state that a trial begins with, or by the season's own files when the desk is opened. Each is answered in words that say what to do, and what
stood stands."""
import json
import re
import subprocess
import tempfile
from pathlib import Path

from damaged import A_HATCH, A_SHOWER, BASES, after, field, last_gone
from desk import refusals, stands
from desk.files import name_of
from desk.journal import Journal
from desk.trials import FORM, KIND
from desk_refusals import PUDDLE, TOO_DEEP, TOO_MUCH, odd_week, saved, soaking
from desks import DESK, SEASON, Room, water_in
from meadow.counted import Checks
from meadow.programs import TOP, built
from meadow.rule.ranges import LAST_CLOCK
from meadow.rule.refusals import Refused
from meadow.words.reasons import NOT_FOUND
from plain_desk import MOST_GIVEN

LOG = "hatch\t1\t0\t0\n"
SHUT, DRAWN, WIDE = ("1 0 0 0",), ("1 0 0 10",), ("1 0 0 100000",)
ONE_STEP = ("step", {"count": 1})
# what is tried, the number, the sheet, the state that the trial begins with, and the change
CHANGES = [
    # the first of the two steps is given more than can be counted, and stands
    ("a step after too much was given", 6, PUDDLE, saved(given=MOST_GIVEN, hatches=DRAWN), ("step", {"count": 2})),
    ("a step past a week", 7, odd_week(), saved(clock=LAST_CLOCK - 1, hatches=SHUT), ONE_STEP),
    ("a step that gets too deep", 8, PUDDLE, saved(hatches=WIDE), ONE_STEP),
    ("a step with too much outflow", 9, BASES["exit"], saved(out=10**15, hatches=SHUT, squares=("0 10000 0",)), ONE_STEP),
    ("more steps taken back than were made", 10, PUDDLE, saved(hatches=SHUT), ("back", {"count": 1})),
    ("a hatch that the season does not name", 12, PUDDLE, saved(hatches=SHUT), ("draw", {"hatch": 2, "litres": 5})),
    ("a step that soaks too much", 15, soaking(), saved(soak=10**15, hatches=SHUT), ONE_STEP),
]
# what a request has out of range is said before the engine has it: the number that the engine would give, the change, and words of the answer
REQUESTS = [
    (4, ("draw", {"hatch": 1, "litres": 100_001}), "litres is not a whole number from 0 to 100,000"),
    (5, ("step", {"count": 1, "end": LAST_CLOCK + 1}), "end is not a whole number from 0 to 604,800,000"),
    (12, ("step", {"count": 65}), "count is not a whole number from 1 to 64"),
]
BEGINNINGS = [
    (3, saved(hatches=SHUT, squares=(TOO_DEEP,))),
    (4, saved(hatches=(TOO_MUCH,))),
    (6, saved(length=0, hatches=SHUT)),
    (12, saved(hatches=SHUT).replace("soak\t", "soaked\t")),
]
SHEETS = [
    (1, field(1, "side", 0)(PUDDLE), "the side of a square is 0: write 1 to 100"),
    (2, field(3, "roughness", 0)(PUDDLE), "the roughness is 0: write 1 to 10,000"),
    (3, field(3, "depth", 100_000_001)(PUDDLE), "the depth is 100,000,001: write 0 to 100,000,000"),
    (4, field(4, "rate", 1_000_001)(after(A_SHOWER)(PUDDLE)), "the rain's rate is 1,000,001: write 0 to 1,000,000"),
    (5, field(2, "update", 0)(PUDDLE), "the update time is 0: write 1 to 3,600,000"),
    (12, last_gone(3)(PUDDLE), "line 3"),
]


def season_of(folder, sheet, state=None):
    """A season's folder with a hatch and, where it is given, a state in which it stands."""
    folder.mkdir()
    (folder / "season.sheet").write_text(sheet, encoding="ascii")
    (folder / "season.log").write_text(LOG, encoding="ascii")
    if state:
        (folder / "stand").write_bytes(stand_of(sheet, state).bytes())
    return folder


def stand_of(sheet, state):
    """A saved state as the keeper's run would leave it, whatever the state is."""
    return stands.stand_of(state.encode("ascii"), sheet.encode("ascii"), LOG.encode("ascii"), how="stopped", steps=1, clock=1_000, end=1_000)


def hold_change(checks, folder, words, number, sheet, state, change):
    """A change that is refused: its number and words, and what stood before it stands, after a restart too."""
    with Room(folder / f"by-{number}", season_of(folder / f"season-{number}", sheet, state)) as room:
        room.start()
        key = room.new("refused")
        before, made = room.water(key), change[1].get("count", 1) - 1
        told = room.change(key, change[0], **change[1])
        wanted = f"\nrefused\t{number}\t{refusals.change_words(Refused(number))}\nnow\t"
        checks.hold(number in refusals.OF_A_CHANGE and wanted in "\n" + told and told.endswith("end\n"), f"{words} is answered by {told!r}")
        stood = room.now(key)["made"], room.water(key) == before
        checks.hold(stood == (made, made == 0), f"after {words} {stood[0]} steps stand, or other water")
        room.kill()
        room.start()
        checks.hold(room.water(key) == water_in(told), f"after {words} the journal gives other water")


def hold_requests(checks, room, key):
    """What is out of range in a request is said in words, and comes into no journal."""
    for number, (what, asked), words in REQUESTS:
        status, told = room.post(f"/api/trial/{key}/{what}", at=room.now(key)["serial"], **asked)
        checks.hold(status == 422 and json.loads(told)["fault"] == words, f"{what} {asked}, which the engine refuses by {number}: {status}, {told}")


def hold_beginnings(checks, folder):
    """A saved state that the engine refuses: no trial is begun from it, the season is not shown, the keeper's run does not go on, and a trial that
    began so is left aside; each says why."""
    with Room(folder / "begun", season_of(folder / "season-begun", PUDDLE)) as room:
        room.start()
        key = room.new("from the sheet's start")
        hold_requests(checks, room, key)
        for number, state in BEGINNINGS:
            (room.season / "stand").write_bytes(stand_of(PUDDLE, state).bytes())
            words = f"is refused by {number}"
            asked = [room.post("/api/trials", name="from a bad state"), room.get("/api/season")]
            for status, told in asked:
                said = json.loads(told)["fault"]
                right = status == 422 and words in said and refusals.OF_A_BEGINNING[number] in said and "--anew" in said
                checks.hold(right, f"a saved state that is refused by {number}: {status}, {told}")
            told = room.run_season()
            checks.hold(told.returncode == 1 and words in told.stderr and "Traceback" not in told.stderr, f"the keeper's run says {told.stderr!r}")
        hold_aside(checks, room, stand_of(PUDDLE, BEGINNINGS[0][1]))
        checks.hold(room.now(key)["name"] == "from the sheet's start", "a trial from before is lost")


def hold_aside(checks, room, stand):
    """A trial from a state that is refused is left aside when the desk is opened, in words; the others stand."""
    room.kill()
    (room.trials / "Z.stand").write_bytes(stand.bytes())
    Journal.begun(room.trials / "Z.journal", (KIND, FORM, name_of(PUDDLE.encode("ascii")), stand.told["state"], "of a bad state"))
    room.start()
    (said,) = json.loads(room.get("/api/desk")[1])["aside"]
    checks.hold(said.startswith("trial Z is left aside") and "is refused by 3" in said, f"a trial from a bad state: {said!r}")


def hold_season(checks, season, *words):
    """A season's folder that cannot be opened or run: both programs say why."""
    for program in ([DESK, season, "--no-browser"], [SEASON, season]):
        told = subprocess.run(program, capture_output=True, text=True)
        missing = [word for word in words if word not in told.stderr]
        right = told.returncode == 1 and not missing and NOT_FOUND not in told.stderr and "Traceback" not in told.stderr
        checks.hold(right, f"{program[0].name} of a season says {told.stderr!r}, and not {missing}")


def hold_sheets(checks, folder):
    """A season's sheet that is refused is said when the desk is opened: number, place, and what to write there."""
    for number, sheet, words in SHEETS:
        hold_season(checks, season_of(folder / f"sheet-{number}", sheet), f"season.sheet is refused by {number}: ", words)
    hold_season(checks, season_of(folder / "rows", after(A_HATCH, 64)(PUDDLE)), "line 1", "more than 64 rows of inflow")
    hold_season(checks, season_of(folder / "long", PUDDLE + "x" * 2**20), "season.sheet has more than 1,048,576 bytes")


def listed():
    """The numbers of the protocol's table of refusals."""
    table = (TOP / "docs" / "PROTOCOL.md").read_text(encoding="utf-8").split("| number | when |")[1]
    found = set()
    for cell in re.findall(r"^\| ([\d, to]+) \|", table, re.M):
        first, _, last = cell.partition(" to ")
        found |= set(range(int(first), int(last) + 1)) if last else set(map(int, cell.split(",")))
    return found


def main():
    checks = Checks("desk_refused")
    built("desk")
    with tempfile.TemporaryDirectory() as name:
        folder = Path(name)
        for case in CHANGES:
            hold_change(checks, folder, *case)
        hold_beginnings(checks, folder)
        hold_sheets(checks, folder)
    provoked = {number for _, number, *_ in CHANGES} | {number for cases in (REQUESTS, BEGINNINGS, SHEETS) for number, *_ in cases}
    checks.hold(provoked == listed(), f"docs/PROTOCOL.md lists {sorted(listed())}, and {sorted(provoked)} are provoked")
    checks.end()


if __name__ == "__main__":
    main()
