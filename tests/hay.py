"""Nobody's hay: what a warden could be misled by is told, on one hay meadow (tests/support/hay_meadow.py) and by every tool that should tell it."""
import copy
import re
import shutil
import signal
import subprocess
import sys
import tempfile
import xml.etree.ElementTree as tree
from pathlib import Path

from hay_meadow import HOUSE, bed, hay_meadow, survey
from meadow.counted import Checks
from meadow.peaks.courses import looks_at
from meadow.peaks.heights import Heights
from meadow.peaks.hours import WET
from meadow.peaks.wholes import runs_of, whole_of
from meadow.programs import REACHED, TOP, printed
from meadow.rule.steps import fresh, inner_step
from meadow.sheets.lines import MINUTE, Answer, Sheet
from meadow.sheets.reading import meadow_of, read
from meadow.surveys.making import suiting_shortest
from meadow.surveys.mouths import mouth_rules
from meadow.words.cautions import standing_words
from meadow.words.doubts import odd_places
from meadow.words.units import depth, square

SLIP = "likely a slip: "
USUAL = ["--end", "0:30", "--roughness", "0.035", "--exit", "16", "23", "--hatch", "1", "2", "0:00", "0:30", "900"]


class Room:
    """An empty folder in which tools are run."""

    def __init__(self, folder):
        self.folder = Path(folder)

    def write(self, name, text):
        """A file, and its name."""
        (self.folder / name).write_text(text)
        return name

    def ran(self, *words, **how):
        """What a command of the project says; its first word is a tool's name or a path from the project's root."""
        tool = TOP / "tools" / f"{words[0]}.py"
        command = [sys.executable, tool] if tool.exists() else [TOP / words[0]]
        return subprocess.run([*command, *words[1:]], capture_output=True, text=True, cwd=self.folder, **how)

    def without_python(self):
        """A folder of commands that has all that bash scripts need, and no Python."""
        folder = self.folder / "commands"
        if not folder.exists():
            folder.mkdir()
            for name in ("bash", "env", "cat", "head", "mktemp", "rm", "dirname", "basename", "sed", "find", "uname", "paste", "readlink", "sh", "rt"):
                (folder / name).symlink_to(shutil.which(name))
        return folder

    def slips(self, *words):
        """What a command says is likely a slip, on either stream."""
        done = self.ran(*words)
        return [line.removeprefix(SLIP) for line in (done.stdout + done.stderr).splitlines() if line.startswith(SLIP)]

    def on_map(self, *words):
        """All that a map says, as one line."""
        return " ".join(part.text for part in tree.fromstring(self.ran("map", *words).stdout).iter() if part.tag.endswith("}text") and part.text)


def all_tell(checks, room, name, wanted, what):
    """Each of tell, bin/meadow and the map says a slip of a sheet."""
    for tool in ("tell", "bin/meadow"):
        said = room.slips(tool, name)
        checks.hold(any(wanted in slip for slip in said), f"{what}: {tool} does not say {wanted!r}: {said}")
    said = room.on_map(name)
    checks.hold(wanted in said, f"{what}: the map does not say {wanted!r}")


def pits(checks, room):
    """The letter's own accident: a house saved as height 0, in millimetres, or as a number that stands for no data."""
    for house, wanted in (
        (0, "bed 0 at row 7, column 9 and 19 more squares, 500 m², 52.35 m or more below all ground beside it: surveys write no data so"),
        (52_450, "a pit at row 7, column 9 and 19 more squares, 500 m², 52.30 m or more below all ground beside it"),
        (152_450_000, "a spike at row 7, column 9 and 19 more squares, 500 m², 99.83 m or more above all ground beside it"),
    ):
        all_tell(checks, room, room.write("house.sheet", hay_meadow(house).text(30 * MINUTE)), wanted, f"a house at {house} µm")
    sound = hay_meadow()
    checks.hold(odd_places(sound) == [] and len(odd_places(hay_meadow(0))) == 20, "the wrong squares are marked")
    name = room.write("sound.sheet", sound.text(30 * MINUTE))
    checks.hold(room.slips("tell", name) == [], f"the sound meadow has slips: {room.slips('tell', name)}")
    room.write("zero.asc", survey("0"))
    said = room.slips("make_sheet", "zero.asc", "zero.sheet", *USUAL)
    checks.hold(any("bed 0 at row 7, column 9" in slip for slip in said), f"make_sheet takes a house at 0 for ground: {said}")
    for no_data in ("-9999", "-99", "9999", "-32768"):
        room.write("unnamed.asc", survey(no_data, "-1"))
        done = room.ran("make_sheet", "unnamed.asc", "unnamed.sheet", *USUAL)
        wanted = f"row 7, column 9 and 19 more squares: a bed of {no_data} m, and the others lie from 51.600 to 52.965 m: it is likely no height"
        right = done.returncode == 1 and wanted in done.stderr and f"write NODATA_value {no_data}" in done.stderr and "--datum" not in done.stderr
        checks.hold(right, f"a house saved as {no_data}: {done.stderr}")
    room.write("unnamed.asc", survey("0", "-1"))
    done = room.ran("make_sheet", "unnamed.asc", "unnamed.sheet", *USUAL, "--datum", "50")
    checks.hold("a bed of 0 m" in done.stderr and "NODATA_value 0" in done.stderr, f"a house saved as 0 over a datum: {done.stderr}")
    room.write("wild.asc", survey("5245", "-1"))
    done = room.ran("make_sheet", "wild.asc", "wild.sheet", *USUAL)
    checks.hold("no datum takes both" in done.stderr, f"a house 5 km up: {done.stderr}")


def changed(sheet):
    """The meadow changed since it was run, in ways that leave its squares, its clock and its water account as they were."""
    other_hatch, moved, tripled, edition = (copy.deepcopy(sheet) for _ in range(4))
    other_hatch.inflow = [(2, 2, *sheet.inflow[0][2:])]
    moved.squares[12, 5]["bed"] += 1_000
    for place in tripled.ground():
        tripled.squares[place]["roughness"] *= 3
    edition.run["edition"] = 2
    return {"another hatch": other_hatch, "a bed moved": moved, "n tripled": tripled, "another edition": edition}


def anothers(checks, room):
    """Another sheet's answer: what is not what `meadow` gives this sheet is neither drawn nor told."""
    sheet = hay_meadow()
    (room.folder / "hay.out").write_bytes(printed("meadow", sheet.text(10 * MINUTE).encode()))
    name = room.write("hay.sheet", sheet.text(10 * MINUTE))
    for tool in ("map", "tell", "standing", "depths"):
        checks.hold(room.ran(tool, name, "hay.out").returncode == 0, f"{tool} does not take the sheet's own answer")
    for what, other in changed(sheet).items():
        name = room.write("changed.sheet", other.text(10 * MINUTE))
        for tool in ("map", "tell", "standing", "depths"):
            done = room.ran(tool, name, "hay.out")
            right = done.returncode == 1 and "another sheet's" in done.stderr and "µm" in done.stderr
            checks.hold(right, f"{tool} takes the answer to a sheet with {what}: {done.stderr}")


def side_files(checks, room):
    """A trial leaves no mark on the season: each sheet has a side file of its own, and neither is written over without a word."""
    room.write("season.asc", survey())
    room.write("elsewhere.asc", survey().replace("432100", "999999"))
    first = room.ran("make_sheet", "season.asc", "season.sheet", *USUAL)
    before = {path.name: path.read_bytes() for path in room.folder.glob("season*")}
    trial = room.ran("make_sheet", "elsewhere.asc", "season.trial", *USUAL)
    after = {path.name: path.read_bytes() for path in room.folder.glob("season*")}
    checks.hold(first.returncode == trial.returncode == 0, f"no sheet is made: {first.stderr}{trial.stderr}")
    checks.hold(all(after[name] == text for name, text in before.items()), "a trial marks the season")
    corner = room.ran("depths", "season.sheet").stdout.splitlines()[2:3]
    checks.hold(corner == ["xllcorner 432100"], f"the season lies at {corner} after a trial")
    (room.folder / "season.again.place").write_bytes(before["season.sheet.place"])
    refused = room.ran("make_sheet", "elsewhere.asc", "season.again", *USUAL)
    checks.hold(refused.returncode == 1 and "season.again.place is there already" in refused.stderr, f"a side file is written over: {refused.stderr}")
    checks.hold(not (room.folder / "season.again").exists(), "a sheet is made without its side file")
    over = room.ran("make_sheet", "season.asc", "season.asc", *USUAL, "--replace")
    checks.hold(over.returncode == 1 and (room.folder / "season.asc").read_text() == survey(), "a survey is written over by its own sheet")
    (room.folder / "old.sheet").write_bytes(before["season.sheet"])
    (room.folder / "old.place").write_bytes(before["season.sheet.place"])
    told = room.ran("depths", "old.sheet").stderr
    checks.hold("if old.place is this sheet's, give it that name" in told, f"an older side file is passed over: {told}")


def held(checks, room):
    """Steps held at the shortest: told by tell with an answer, by bin/meadow and by the map; a shortest that suits the side is not held."""
    # the figures of docs/VALIDATION.md's short table
    figures = {500: ("732 m³ gone by exits", "257 at the end"), 20: ("1,278 m³ gone by exits", "181 at the end")}
    for shortest, wanted in ((500, "held at the shortest, 500 ms, for 27 min of 30 min, and the water asks for "), (20, None)):
        name = room.write("held.sheet", hay_meadow(shortest=shortest).text(30 * MINUTE))
        run = room.ran("bin/meadow", name)
        room.write("held.out", run.stdout)
        checks.hold(all(figure in run.stderr for figure in figures[shortest]), f"a shortest of {shortest} ms: {run.stderr}")
        said = {"bin/meadow": run.stderr, "tell": room.ran("tell", name, "held.out").stdout, "the map": room.on_map(name, "held.out")}
        for tool, words in said.items():
            right = "held at the shortest" not in words if wanted is None else wanted in words and "run with a shorter one" in words
            checks.hold(right, f"a shortest of {shortest} ms: {tool} says {words}")
    full = hay_meadow(shortest=500)
    full.inflow = [(*full.inflow[0][:4], 14)] * 64
    said = room.ran("bin/meadow", room.write("full.sheet", full.text(30 * MINUTE))).stderr
    right = re.search(r"mind: likely held at the shortest, 500 ms: 3,3\d\d steps of at most 3,600: .*: run with a shorter one", said)
    checks.hold(right and "the longest for " in said, f"64 rows of inflow, and steps held: {said}")
    for side, wanted in ((1, 1), (2, 3), (5, 20), (10, 80), (25, 500), (100, 500)):
        checks.hold(suiting_shortest(side) == wanted, f"squares of {side} m have a shortest of {suiting_shortest(side)} ms")
    room.write("five.asc", survey())
    room.ran("make_sheet", "five.asc", "five.sheet", *USUAL)
    run = read((room.folder / "five.sheet").read_text())[0].run
    checks.hold((run["shortest"], run["edge"], run["tolerance"]) == (20, 20, 10), f"make_sheet chooses {run}")


def small_meadow(**run):
    """Three rows of four squares of 10 m that fall to an exit, and a hatch for two of five minutes."""
    sheet = Sheet(3, 4, 10, **{"shortest": 400, "longest": 5_000, "edge": 50, "tolerance": 10, **run})
    for row, column in sheet.squares:
        if (row, column) != (1, 1):
            sheet.put((row, column), 2_000_000 - 60_000 * row - 40_000 * column, 350, mark="e" if (row, column) == (2, 3) else "o")
    sheet.inflow = [(0, 0, 30_000, 2 * MINUTE, 4_000)]
    return sheet


def by_hand(sheet, end):
    """Of a run by document 01 in Python: the water at every state, with its clock, from the start on."""
    m = meadow_of(sheet)
    fresh(m)
    states = [(list(m.depths), m.clock)]
    while m.clock < end:
        inner_step(m)
        states.append((list(m.depths), m.clock))
    return states


def wet_by_hand(sheet, states):
    """The time of the steps at whose end a square is wet, by its place."""
    wet = {}
    for (_, before), (depths, clock) in zip(states, states[1:]):
        for place in (divmod(at, sheet.columns) for at, deep in enumerate(depths) if deep >= WET):
            wet[place] = wet.get(place, 0) + clock - before
    return wet


def courses(checks):
    """How long squares were wet and steps held, against the run worked in Python; every look is a state of that run."""
    for shortest, longest in ((400, 5_000), (3_000, 5_000), (5_000, 5_000)):
        sheet, end = small_meadow(shortest=shortest, longest=longest), 5 * MINUTE
        states = by_hand(sheet, end)
        with runs_of(sheet.text(end)) as runs:
            whole = whole_of(sheet.text(end), {name: run.whole().decode() for name, run in runs.items()})
        course, wet = whole.course, wet_by_hand(sheet, states)
        looks = [steps for steps, (_, clock) in enumerate(states) if clock % MINUTE == 0]
        checks.hold([answer.clock for answer in course.answers] == [states[steps][1] for steps in looks[1:]], f"{shortest} ms: other looks")
        checks.hold(whole.hours.wet() == wet != {}, f"{shortest} ms: squares are wet for {whole.hours.wet()}, not {wet}")
        most = MINUTE // shortest
        made = [steps - before for steps, before in zip(looks[1:], looks)]
        wanted = [at for at, steps in enumerate(made) if steps == most and shortest < longest]
        checks.hold(course.held_looks() == wanted and (shortest != 3_000 or wanted != []), f"{shortest} ms: held before {course.held_looks()}, not {wanted}")
    none = small_meadow()
    none.inflow *= 64
    checks.hold(looks_at(none, 5 * MINUTE) == [] and looks_at(small_meadow(), 0) == [], "looks where no log can be laid")
    checks.hold(len(looks_at(small_meadow(), 604_800_000)) <= 120 and looks_at(small_meadow(), 604_800_000)[-1] == 604_800_000, "too many looks at a week")


def only_the_end(checks, room):
    """Dry at its end, and drowned before: bin/meadow's line and the map say how high it stood, when, and for how long."""
    sheet, end = hay_meadow(), 180 * MINUTE
    name = room.write("three-hours.sheet", sheet.text(end))
    run = room.ran("bin/meadow", name)
    heights = Heights(printed("highest", sheet.text(end).encode()).decode())
    ever = sum(peak.depth >= WET for peak in heights.peaks.values())
    place, peak = max(heights.peaks.items(), key=lambda found: found[1].depth)
    line = run.stderr.splitlines()[1]
    squares = f"1 cm deep or deeper: {ever} squares at some time, none at the end, the longest for "
    for wanted in (f"highest {depth(peak.depth)} at {square(place)}, after", squares):
        checks.hold(wanted in line, f"bin/meadow does not say {wanted!r}: {line}")
        checks.hold(wanted in room.on_map(name), f"the map does not say {wanted!r}")
    picture = tree.fromstring(room.ran("map", name).stdout)
    kinds = [part.get("class") for part in picture.iter()]
    checks.hold(kinds.count("dried") == ever > 100, f"{kinds.count('dried')} squares are drawn as dried, and {ever} are")
    told = [part.text for part in picture.iter() if part.tag.endswith("}title")]
    were = sum(text.startswith("row") and "; highest " in text for text in told)
    checks.hold(were == sum(peak.depth > 0 for peak in heights.peaks.values()), f"{were} squares tell a pointer how high they stood")
    wet = [text for text in told if text.startswith("row") and "1 cm deep or deeper for" in text]
    checks.hold(len(wet) == ever, f"{len(wet)} squares tell a pointer for how long they were wet, and {ever} were")
    soaked = Sheet(1, 1, 10)
    soaked.put((0, 0), 0, 350, 26_000, rate=1_000_000)
    said = room.ran("bin/meadow", room.write("soaked.sheet", soaked.text(10 * MINUTE))).stderr
    wanted = "dry now, after 10 min; highest 2.6 cm at row 0, column 0, at the start; 1 cm deep or deeper: 1 square at some time, none at the end, the longest for 50 s; 60 steps"
    checks.hold(wanted in said, f"a square that has soaked dry: {said}")
    dry = hay_meadow(litres=0)
    checks.hold("all dry, after" in room.ran("bin/meadow", room.write("dry.sheet", dry.text(30 * MINUTE))).stderr, "a meadow that never was wet is dry now")


def standing(checks, room):
    """Squares that stand and slips are told by bin/meadow too; a house that is walled only in outline is not said to be dry."""
    pond = (TOP / "samples" / "held-pond.sheet").read_text()
    said = room.ran("bin/meadow", room.write("pond.sheet", pond)).stderr
    checks.hold("mind: 22 squares stand, 1 steep; row 3, column 6 is the steepest: the rule holds their water" in said, f"bin/meadow: {said}")
    checks.hold("likely a slip: 925 m² of ground lie within 60 m of an exit" in said, f"bin/meadow does not tell a slip: {said}")
    one = [(0, 1, 5, 1, 1)]
    checks.hold(standing_words(one) == "1 square stands, 0 steep: the rule holds its water, not the ground", f"one square: {standing_words(one)}")
    outline = hay_meadow()
    for row, column in HOUSE:
        if (row - 1, column) in HOUSE and (row + 1, column) in HOUSE and (row, column - 1) in HOUSE and (row, column + 1) in HOUSE:
            outline.put((row, column), bed(row, column), 350)
    for rain, wanted in ((20_000, True), (0, False)):
        outline.rain = [(0, 30 * MINUTE, rain)]
        said = room.on_map(room.write("outline.sheet", outline.text(30 * MINUTE)))
        checks.hold(("6 squares inside walls on all sides have water: close them if they are a house" in said) == wanted, f"an outline, rain {rain}: {said}")
        checks.hold(("closed: no water enters these squares" in said) == wanted, f"an outline, rain {rain}: the map says that no water enters")


def mouths(checks, room):
    """The edge slope: the ditch's own, or asked for; ground near an exit that drains like a cliff is told of."""
    cliff = room.write("cliff.sheet", hay_meadow(edge=10_000).text(10 * MINUTE))
    all_tell(checks, room, cliff, "of ground lie within 60 m of an exit, and the edge slope is 10,000: such an exit drains like a cliff", "a cliff")
    room.write("mouth.asc", survey())
    done = room.ran("make_sheet", "mouth.asc", "mouth.sheet", *USUAL)
    wanted = "edge slope 20, as the ground falls to the exit at row 16, column 23 (1 in 500); slope tolerance 10"
    checks.hold(wanted in done.stdout, f"make_sheet: {done.stdout}{done.stderr}")
    up = [word if word != "16" else "0" for word in USUAL]
    done = room.ran("make_sheet", "mouth.asc", "up.sheet", *up)
    right = done.returncode == 1 and "the ground does not fall to the exit at row 0, column 23" in done.stderr and "give --run edge: 10 for" in done.stderr
    checks.hold(right, f"an exit at the top: {done.stderr}")
    done = room.ran("make_sheet", "mouth.asc", "up.sheet", *up, "--run", "edge", "30")
    checks.hold(done.returncode == 0 and read((room.folder / "up.sheet").read_text())[0].run["edge"] == 30, f"an edge slope that is said: {done.stderr}")
    gentle = Sheet(1, 20, 5)
    for column in range(20):
        gentle.put((0, column), 1_000_000 + 1_500 * column, 350, mark="e" if column == 0 else "o")
    checks.hold(mouth_rules(gentle, {})[0] == {"edge": 3, "tolerance": 1}, f"a ditch of 3 in 10,000: {mouth_rules(gentle, {})}")
    gentle.put((0, 19), 900_000, 350, mark="e")
    rules = mouth_rules(gentle, {"tolerance": 0})[0]
    checks.hold(rules == {"edge": 3, "tolerance": 0}, f"of two ditches, and with a tolerance that is said: {rules}")


def holes(checks, room):
    """A hole in a survey and a gap in a wall are told by every tool."""
    hole, gap = hay_meadow(), hay_meadow()
    hole.squares[3, 18] = {"mark": "x"}
    gap.squares |= {(3, column): {"mark": "x"} for column in (15, 16, 17, 19, 20)}
    said = "closed alone amid open ground: row 3, column 18, 25 m²: a hole in a survey becomes a wall"
    all_tell(checks, room, room.write("hole.sheet", hole.text(10 * MINUTE)), said, "a hole")
    said = "open alone in a line of closed squares: row 3, column 18, 25 m²"
    all_tell(checks, room, room.write("gap.sheet", gap.text(10 * MINUTE)), said, "a gap")
    text = survey().splitlines(True)
    row = text[9].split()
    text[9] = " ".join([*row[:18], "-9999", *row[19:]]) + "\n"
    room.write("hole.asc", "".join(text))
    said = room.slips("make_sheet", "hole.asc", "holed.sheet", *USUAL)
    checks.hold(any("closed alone amid open ground: row 3, column 18" in slip for slip in said), f"make_sheet makes a wall of a hole: {said}")


# what is asked of make_sheet, and the first words of what it says
ASKED = [
    (["--hatch", "1", "2", "0:00", "0:30", "-50"], "--hatch 1 2 0:00 0:30 -50: it gives 0 to 100,000 litres a second; an exit lets water out"),
    (["--hatch", "1", "2", "0:00", "0:30", "50 l/s"], "a hatch's inflow: '50 l/s' is no number: write 50, without its unit"),
    (["--hatch", "1", "24", "0:00", "0:30", "50"], "--hatch 1 24 0:00 0:30 50: row 1, column 24 is off the grid: rows go from 0 to 17"),
    (["--rain", "0:00", "0:30", "1001"], "--rain 0:00 0:30 1001: it gives 0 to 1,000,000 µm an hour, which are 1,000 mm"),
    (["--rain", "0:00", "169:00", "5"], "--rain 0:00 169:00 5: a run lasts a week at the most"),
    (["--end", "1800"], "'1800' is no time: write hours and minutes, as 0:10, or also seconds, as 0:01:30; 1800 seconds are 0:30:00"),
    (["--end", "200:00"], "--end 200:00: a run lasts a week at the most, 168:00"),
    (["--exit", "5", "5"], "the exit at row 5, column 5 is not on the rim"),
    (["--depth", "101"], "--depth 101: the depth in m is 101 at row 0, column 0, and must be 0 to 100; in metres"),
    (["--soak", "-1"], "--soak -1: the soak rate in mm/h is -1 at row 0, column 0, and must be 0 to 1,000"),
    (["--run", "shortest", "20000"], "--run: the longest step, 10,000 ms, is under the shortest, 20,000 ms"),
    (["--run", "edge", "a"], "--run edge a: it is a whole number, in the sheet's own unit"),
    (["--roughness", "0,035"], "--roughness 0,035: a decimal has a point: write 0.035"),
    (["--soak", "loam"], "--soak loam: it is no number, and there is no such file"),
]
# a survey that is none of ours, and the first words of what is said of it
SURVEYS = {
    "oblong.asc": (survey().replace("cellsize 5", "dx 5\ndy 4.9").encode(), "oblong.asc: it has dx 5 and dy 4.9 for one cellsize: make its squares square"),
    "degrees.asc": (
        survey().replace("432100", "9.18").replace("215000", "48.78").replace("cellsize 5", "cellsize 0.000045").encode(),
        "squares of 0.000045 at 9.18 48.78: this grid is in degrees, and a sheet in metres",
    ),
    "hay.tif": (b"II*\0\x08\0\0\0" + bytes(range(256)), "hay.tif is a GeoTIFF: make an ESRI ASCII grid of it, by gdal_translate -of AAIGrid hay.tif hay.asc"),
}


def arguments(checks, room):
    """A wrong word is told as it was said, and a survey of another kind by its kind; the .prj file goes with the sheet."""
    room.write("hay.asc", survey())
    for words, wanted in ASKED:
        done = room.ran("make_sheet", "hay.asc", "asked.sheet", *USUAL, *words)
        checks.hold(done.returncode == 1 and done.stderr.startswith(f"make_sheet: {wanted}"), f"{words}: {done.stderr}")
    for name, (given, wanted) in SURVEYS.items():
        (room.folder / name).write_bytes(given)
        done = room.ran("make_sheet", name, "other.sheet", *USUAL)
        checks.hold(done.returncode == 1 and done.stderr.startswith(f"make_sheet: {wanted}"), f"{name}: {done.stderr}")
    room.write("hay.prj", "LOCAL_CS[\"a grid of our own\"]\n")
    room.ran("make_sheet", "hay.asc", "with.sheet", *USUAL)
    done = room.ran("depths", "with.sheet", "--to", "depths.asc")
    right = done.returncode == 0 and (room.folder / "depths.prj").read_text() == "LOCAL_CS[\"a grid of our own\"]\n"
    checks.hold(right, f"the .prj file does not come back: {done.stderr}")
    checks.hold((room.folder / "depths.asc").read_text() == room.ran("depths", "with.sheet").stdout, "--to writes other depths")
    again = room.ran("depths", "--csv", "with.sheet", "--to", "depths.asc")
    checks.hold(again.returncode == 1 and "depths.asc is there already" in again.stderr, f"depths are written over: {again.stderr}")


def helps(checks, room):
    """Every script answers --help, and ends well."""
    scripts = [path for path in sorted((TOP / "tools").glob("*.py")) if path.stem != "begin"]
    for script in (*scripts, *(TOP / "bin" / name for name in ("boards", "drowned", "hatchlog", "highest", "hours_wet", "meadow", "run", "speed", "setup", "test"))):
        command = [sys.executable, script] if script.suffix else [script]
        done = subprocess.run([*command, "--help"], capture_output=True, text=True, cwd=room.folder)
        right = done.returncode == 0 and (script.stem in done.stdout or "usage" in done.stdout)
        checks.hold(right, f"{script.name} --help: status {done.returncode}, {done.stdout[:60]!r}{done.stderr[:60]!r}")


def long_run():
    """A run of half an hour in steps of a millisecond, far longer than anybody waits here."""
    return hay_meadow(shortest=1, longest=1, update=1_000).text(30 * MINUTE)


def ends_when_told(checks, room):
    """A long run: the most steps beforehand, a sign of life with clock, steps and time left, and the programs end with a signal."""
    name = room.write("long.sheet", long_run())
    for number in (signal.SIGTERM, signal.SIGINT):
        run = subprocess.Popen([TOP / "bin" / "meadow", name], stdout=subprocess.PIPE, stderr=subprocess.PIPE, text=True, cwd=room.folder)
        before, life = run.stderr.readline(), run.stderr.readline()
        while life and not life.startswith("at "):
            life = run.stderr.readline()
        started = [int(child) for child in Path(f"/proc/{run.pid}/task/{run.pid}/children").read_text().split()]
        run.send_signal(number)
        status = run.wait(10)
        checks.hold(re.match(r"run to 30 min: at most 1,800,000 steps on 412 squares, up to some 3 min", before), f"before a long run: {before!r}")
        checks.hold(re.match(r"at [^;]* of 30 min, [\d,]+ steps; \d+ s so far, some .* left\n", life), f"a long run's sign of life: {life!r}")
        checks.hold(len(started) == 4 and not any(Path(f"/proc/{child}").exists() for child in started), f"signal {number} leaves some of {started}")
        checks.hold(status == 128 + number and run.stdout.read() == "", f"signal {number}: status {status}")


def tells_on_the_way(checks):
    """Of a long run `meadow` tells steps and clock between its slices, those of the run in Python, which knows no slices and ends alike. Of a short
    run nothing is told; a refusal in a later slice is the answer; and tools keep to themselves what is told."""
    program = [TOP / "bin" / "run", "meadow"]
    sheet, end = small_meadow(shortest=20, longest=20, update=1_000), 4 * MINUTE
    run = subprocess.run(program, input=sheet.text(end).encode(), capture_output=True, check=True)
    told = [tuple(map(int, REACHED.fullmatch(line).groups())) for line in run.stderr.splitlines(keepends=True)]
    checks.hold(5 < len(told) <= 12 and told[-1] == (12_000, end), f"a run of 12,000 steps in slices: {told}")
    states = {clock: (steps, depths) for steps, (depths, clock) in enumerate(by_hand(sheet, end))}
    checks.hold(all(states[clock][0] == steps for steps, clock in told), f"the run in Python makes other steps than are told: {told}")
    water = {divmod(at, sheet.columns): deep for at, deep in enumerate(states[end][1])}
    answer = Answer(run.stdout.decode())
    checks.hold(all(water[place] == deep for place, deep in answer.depths.items()) and answer.steps == states[end][0], "a run in slices ends otherwise")
    short = subprocess.run(program, input=small_meadow().text(end).encode(), capture_output=True, check=True)
    checks.hold(short.stderr == b"" and short.stdout != b"", f"of a short run is told {short.stderr!r}")
    sheet.inflow = [(0, 0, 2 * MINUTE, 4 * MINUTE, 100_000)] * 64
    late = subprocess.run(program, input=sheet.text(end).encode(), capture_output=True, check=True)
    checks.hold(late.stdout == b"refused\t8\t0\n" and late.stderr.count(b"reached") > 5, f"a refusal in a later slice: {late.stdout!r} {late.stderr!r}")
    heard = subprocess.run([sys.executable, TOP / "tools" / "why.py", "/dev/stdin"], input=sheet.text(end), capture_output=True, text=True)
    checks.hold("reached" not in heard.stdout + heard.stderr, f"a tool passes on what meadow tells: {heard.stderr!r}")


def read_once(checks, room):
    """The sheet is read once: a pipe will do, and one that never ends is refused."""
    text = (TOP / "samples" / "document-01.sheet").read_text()
    done = subprocess.run([TOP / "bin" / "meadow", "/dev/stdin"], input=text, capture_output=True, text=True, cwd=room.folder)
    checks.hold(done.returncode == 0 and done.stdout == (TOP / "samples" / "document-01.out").read_text(), f"a pipe: {done.stderr}")
    done = room.ran("bin/meadow", "/dev/zero", timeout=60)
    checks.hold((done.returncode, done.stdout) == (1, "refused\t12\t0\n"), f"a sheet without an end: {done.stdout!r}")
    checks.hold("it has more than 65,536 bytes" in done.stderr, f"a sheet without an end: {done.stderr}")
    room.write("plain.sheet", text)
    none = {"PATH": str(room.without_python())}
    done = room.ran("bin/meadow", "plain.sheet", env=none)
    checks.hold((done.returncode, done.stdout, done.stderr) == (0, (TOP / "samples" / "document-01.out").read_text(), ""), f"without Python: {done.stderr}")
    done = room.ran("bin/meadow", "/dev/zero", env=none, timeout=60)
    checks.hold((done.returncode, done.stdout) == (1, "refused\t12\t0\n"), f"without Python, a sheet without an end: {done.stdout!r}{done.stderr}")


def goes_on(checks, room):
    """A run laid anew on another's depths is another run, and no page promises that it goes on from its end."""
    sheet = small_meadow()
    half, whole = (Answer(printed("meadow", sheet.text(end).encode()).decode()) for end in (2 * MINUTE, 4 * MINUTE))
    again = small_meadow()
    for place, deep in half.depths.items():
        again.squares[place]["depth"] = deep
    again.inflow = []
    later = Answer(printed("meadow", again.text(2 * MINUTE).encode()).decode())
    checks.hold(later.depths != whole.depths, "a run laid anew on another's depths is that run, and the page may say so")
    page = (TOP / "docs" / "TOOLS.md").read_text(encoding="utf-8")
    checks.hold("goes on from another's end" not in page and "is another run" in page, "docs/TOOLS.md promises that a run goes on from another's end")


PARTS = (pits, anothers, side_files, held, only_the_end, standing, mouths, holes, arguments, helps, ends_when_told, read_once, goes_on)


def main():
    checks = Checks("hay")
    courses(checks)
    tells_on_the_way(checks)
    with tempfile.TemporaryDirectory() as folder:
        for part in PARTS:
            part(checks, Room(folder))
    checks.end()


if __name__ == "__main__":
    main()
