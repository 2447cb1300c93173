"""The map of each sample has a wall for each closed square, an exit for each exit, water just where the answer has it, a sign for each
hatch and standing square, and the answer's volumes; each square tells its depth; the shades are right in black and white; an answer that
is not the sheet's, a part of one and a refusal have no map. The map of a log has the water at its end and the log's hatches, with the rates
that stand; what was not printed of the log has none. The map of a winter has in each square how many sheets drowned it, the more the darker;
what was not printed of a list of that meadow, or for that depth, has none. Ground that was guessed has its mark on each kind of map, by the list
beside the sheet; another sheet's list is refused."""
import subprocess
import sys
import tempfile
import xml.etree.ElementTree as tree
from itertools import pairwise
from pathlib import Path

from meadow.counted import Checks
from meadow.logs.entries import written
from meadow.logs.nights import blocks_of
from meadow.maps.often import SHARES
from meadow.maps.shades import CLASSES, HIGH_GROUND, LOW_GROUND, grey, ground
from meadow.peaks.tally import Drowned, Tally, tally_of
from meadow.programs import TOP
from meadow.sheets.lines import DEPTH, MINUTE, Answer, Sheet, answer_text, refused_text
from meadow.sheets.reading import read

TOOL = TOP / "tools" / "map.py"
SAMPLES = TOP / "samples"
KINDS = ("wall", "exit", "wet", "film", "dry", "standing", "drawn", "shut", "edition")
# the kinds that tell a pointer what they are
TELLING = ("wall", "wet", "film", "dry", "drawn", "shut")
# the samples that have standing squares, and how many; and those that have hatches: drawn and shut at the end
STANDING = {"held-pond": 22}
HATCHES = {"walled-meadow": (0, 9), "dry-weather": (1, 0)}
# in grey a class of water differs from the next by at least this much of 255, and dry ground is at least this bright
CLEAR_STEP, NEARLY_WHITE = 25, 235
# and a number from the square that it stands on by so much
CLEAR_NUMBER = 100
WINTER = SAMPLES / "winter"


def drawn(*files):
    return subprocess.run([sys.executable, TOOL, *files], capture_output=True, text=True)


def expected(sheet, answer):
    """How many of each kind the map must have."""
    marks = [square["mark"] for square in read(sheet.read_text())[0].squares.values()]
    depths = Answer(answer.read_text()).depths.values()
    film = sum(0 < depth < 1_000 for depth in depths)
    wet = sum(depth >= 1_000 for depth in depths)
    counts = (marks.count("x"), marks.count("e"), wet, film, len(depths) - wet - film, STANDING.get(sheet.stem, 0))
    return dict(zip(KINDS, (*counts, *HATCHES.get(sheet.stem, (0, 0)), 0)))


def found(svg):
    kinds = [part.get("class") for part in tree.fromstring(svg).iter() if part.get("class")]
    return {kind: kinds.count(kind) for kind in KINDS}


def letters(svg):
    """All that the map says, line by line."""
    return [part.text for part in tree.fromstring(svg).iter() if part.tag.endswith("}text") or part.tag.endswith("}title")]


def whole_words(svg):
    """All that the map says, with the lines that were too long put together again."""
    return " ".join(filter(None, letters(svg)))


def hold_samples(checks):
    sheets = sorted(SAMPLES.glob("*.sheet"))
    checks.hold(sheets != [], "samples/ has no sheet")
    for sheet in sheets:
        answer = sheet.with_suffix(".out")
        made = drawn(sheet, answer)
        if checks.hold(made.returncode == 0, f"{sheet.name} is not drawn: {made.stderr}"):
            counts, wanted = found(made.stdout), expected(sheet, answer)
            for kind in KINDS:
                checks.hold(counts[kind] == wanted[kind], f"{sheet.name}: {counts[kind]} of {kind} drawn, not {wanted[kind]}")
            checks.hold(drawn(sheet).stdout == made.stdout, f"{sheet.name}: run by the tool itself it has another map")
            checks.hold("viewBox" in tree.fromstring(made.stdout).attrib, f"{sheet.name}: the map has no viewBox")
            told = sum(part.tag.endswith("}title") for part in tree.fromstring(made.stdout).iter())
            checks.hold(told == sum(counts[kind] for kind in TELLING), f"{sheet.name}: {told} squares and hatches tell a pointer what they are")


def hold_words(checks):
    """What the maps of three samples say, each worked from the stored answer by hand."""
    wanted = {
        "walled-meadow": [
            "walled-meadow: water after 3 min",
            "on the meadow: 1,364 m³",
            "gone by exits: 0.4 m³",
            "deepest 45 cm at row 27, column 4",
            "clock 3 min, after 153 steps",
            "row 12, column 18: closed",
            "hatch 9 at 18,4: 720 l/s from 1 min 20 s to 2 min 50 s",
            "rain 80 mm/h from 1 to 2 min",
            "ground 1.70 to 3.25 m, contours every 20 cm",
            "100 m",
            "N",
            "3.20",
            "no square stands",
        ],
        "soaking-meadow": ["soaking-meadow: water after 1 h 10 min", "soaked: 126 m³", "row 8, column 0: 1.2 cm deep, ground 0.70 m", "2,400 m²"],
        "held-pond": ["standing, falls by 1 mm or more: 1", "standing, falls by less: 21", "900 m²"],
    }
    for name, lines in wanted.items():
        said = letters(drawn(SAMPLES / f"{name}.sheet", SAMPLES / f"{name}.out").stdout)
        for line in lines:
            checks.hold(any(line == part or part.startswith(f"{line};") for part in said), f"the map of {name} does not say: {line}")
    held = " ".join(filter(None, letters(drawn(SAMPLES / "held-pond.sheet").stdout)))
    checks.hold("22 squares stand, 1 steep; row 3, column 6 is the steepest" in held, "the held pond's map does not say in words that squares stand")


def hold_grey(checks):
    """Right in black and white: dry ground nearly white, each class of water clearly darker than the one before."""
    darkest = min(grey(ground(bed, 0, 1)) for bed in (0, 1))
    checks.hold(darkest >= NEARLY_WHITE, f"dry ground is {darkest:.0f} of 255 bright")
    checks.hold(LOW_GROUND != HIGH_GROUND, "low and high ground have one shade")
    shades = [darkest, *(grey(colour) for _, colour, _ in CLASSES)]
    for brighter, darker in pairwise(shades):
        checks.hold(brighter - darker >= CLEAR_STEP, f"in grey {brighter:.0f} and {darker:.0f} are hard to tell apart")
    svg = drawn(SAMPLES / "walled-meadow.sheet").stdout
    walls = {part.get("fill") for part in tree.fromstring(svg).iter() if part.get("class") == "wall"}
    checks.hold(walls == {"url(#wall)"} and 'id="wall"' in svg, "walls are not hatched")
    film = tree.fromstring(drawn(SAMPLES / "soaking-meadow.sheet").stdout)
    fills = [part.get("fill") for part in film.iter() if part.get("class") == "film"]
    checks.hold(fills and all(grey(fill) >= NEARLY_WHITE for fill in fills), "a film hides its ground")


def hold_classes(checks, room):
    """Depths at both ends of each class, before any step: each has its own class's shade, and a film is one from 1 µm on."""
    depths = [0, 1, 999, *(least + off for least, _, _ in CLASSES for off in (0, 1)), *(least - 1 for least, _, _ in CLASSES[1:])]
    sheet = Sheet(1, len(depths), 1)
    for column, depth in enumerate(depths):
        sheet.put((0, column), 0, 300, depth)
    path = Path(room) / "classes.sheet"
    path.write_text(sheet.text(0))
    squares = [part for part in tree.fromstring(drawn(path).stdout).iter() if part.get("class") in ("wet", "film", "dry")]
    for depth, part in zip(depths, squares, strict=True):
        shades = [colour for least, colour, _ in CLASSES if least <= depth]
        wanted = ("wet", shades[-1]) if shades else ("film" if depth else "dry", ground(0, 0, 0))
        checks.hold((part.get("class"), part.get("fill")) == wanted, f"{depth} µm are drawn as {part.get('class')}, {part.get('fill')}")


def hold_hatches(checks, room):
    """A hatch is drawn at the end's clock where it gives water in the last millisecond before it."""
    sheet = Sheet(1, 3, 10)
    for column in range(3):
        sheet.put((0, column), 1_000 * column, 300)
    sheet.put((0, 0), 0, 300, mark="e")
    drawn_rows = [(0, MINUTE, 5), (0, 2 * MINUTE, 5), (MINUTE - 1, 2 * MINUTE, 5)]
    shut_rows = [(0, MINUTE - 1, 5), (MINUTE, 2 * MINUTE, 5), (0, MINUTE, 0)]
    for row, kind in [*((row, "drawn") for row in drawn_rows), *((row, "shut") for row in shut_rows)]:
        sheet.inflow = [(0, 1, *row)]
        path = Path(room) / "hatch.sheet"
        path.write_text(sheet.text(MINUTE))
        made = drawn(path).stdout
        checks.hold(found(made)[kind] == 1, f"a hatch with {row} is not {kind}")
        checks.hold("rotate(180" in made, "the arrow of an exit in the west does not point west")


def hold_edition(checks, room):
    """The held pond as a sheet of edition 3: no square stands, and the map says why."""
    held, end = read((SAMPLES / "held-pond.sheet").read_text())
    held.run["edition"] = 3
    path = Path(room) / "edition.sheet"
    path.write_text(held.text(end))
    counts = found(drawn(path).stdout)
    checks.hold((counts["standing"], counts["edition"]) == (0, 1), f"the map of edition 3 has {counts}")


def guessed_of(sheet_file, *places):
    """Writes the list beside a sheet, of its own beds at some places."""
    sheet, _ = read(sheet_file.read_text())
    Path(f"{sheet_file}.guessed").write_text("".join(f"{row}\t{column}\t{sheet.bed((row, column))}\t1\n" for row, column in places))


def hold_guessed(checks, room):
    """A mark in each square that was guessed, on the maps of a sheet, of a log and of a winter; none without a list; the words by hand."""
    cases = [
        (SAMPLES / "held-pond.sheet", [SAMPLES / "held-pond.out"], [(1, 1), (3, 1)], "row 1, column 1: 68 cm deep, ground 0.51 m, guessed", "50 m²"),
        (
            SAMPLES / "walled-evening.sheet",
            ["--log", SAMPLES / "walled-evening.log"],
            [(5, 1), (1, 0)],
            "row 5, column 1: 6.5 cm deep, ground 2.12 m, guessed",
            "3,200 m²",
        ),
        (
            WINTER / "1-november.sheet",
            [WINTER / "winter.list.out", "--often"],
            [(0, 1), (1, 0)],
            "row 0, column 1: drowned in 2 of 6 sheets; deepest 12 cm, by sheet 6; ground 2.92 m, guessed",
            "3,200 m²",
        ),
    ]
    for source, more, places, told, area in cases:
        sheet = Path(room) / source.name
        sheet.write_bytes(source.read_bytes())
        bare = drawn(sheet, *more).stdout
        checks.hold(bare != "" and "guessed" not in bare, f"{source.name}: without a list something is guessed")
        guessed_of(sheet, *places)
        made = drawn(sheet, *more)
        if checks.hold(made.returncode == 0, f"{source.name}: guessed ground is not drawn: {made.stderr}"):
            marks = [(part.text, part.get("pointer-events")) for part in classed(made.stdout, "guessed")]
            checks.hold(marks == [("?", "none")] * 2, f"{source.name}: guessed ground is marked by {marks}")
            said = letters(made.stdout)
            checks.hold(any(words and words.startswith(told) for words in said), f"{source.name}: the map does not say: {told}")
            checks.hold(sum(", guessed" in words for words in said if words) == 2, f"{source.name}: other ground is said to be guessed")
            checks.hold("ground guessed, not surveyed" in said and area in said, f"{source.name}: the legend does not say what the mark means")


def hold_lists(checks, room):
    """A list that is not the sheet's is refused in words."""
    sheet = Path(room) / "house.sheet"
    sheet.write_text(house().text(MINUTE))
    wrong = {
        "house.sheet.guessed has a bed of 5 for square 0 2, and the sheet a bed of 0": "0\t2\t5\t1\n",
        "a bed of 0 for square 0 1, and the sheet no bed": "0\t1\t0\t1\n",
        "a bed of 0 for square 0 3, and the sheet no bed": "0\t0\t0\t1\n0\t3\t0\t1\n",
        "no bed for square 0 0, and the sheet a bed of 0": "0\t0\t-\t-\n",
        "house.sheet.guessed, line 2: '0\\t2\\t0' is no line of repair's list": "0\t0\t0\t1\n0\t2\t0\n",
    }
    for why, text in wrong.items():
        Path(f"{sheet}.guessed").write_text(text)
        made = drawn(sheet)
        refused = made.returncode == 1 and made.stdout == "" and why in made.stderr and made.stderr.count("\n") == 1
        checks.hold(refused, f"a list with {why} is taken: {made.stderr!r}")
    Path(f"{sheet}.guessed").write_text("0\t2\t0\t1\n")
    checks.hold(drawn(sheet).returncode == 0, "the right list is not taken")
    Path(f"{sheet}.guessed").unlink()


def house():
    """Three squares of which the middle is a walled house, with 1 cm of water in the west."""
    sheet = Sheet(1, 3, 10)
    sheet.put((0, 0), 0, 300, 10_000)
    sheet.put((0, 2), 0, 300)
    return sheet


def hold_pairs(checks, room):
    """An answer that is not the sheet's is refused in words; among them 10 cm of water inside a walled house."""
    sheet, answer = Path(room) / "house.sheet", Path(room) / "house.out"
    sheet.write_text(house().text(MINUTE))
    depths, totals = {(0, 0): 10_000, (0, 2): 0}, {"outflow": 0, "soaked": 0, "steps": 6, "clock": MINUTE}
    right = answer_text(depths, totals)
    wrong = {
        "a depth for square 0 1, which is closed": answer_text({**depths, (0, 1): 100_000}, totals),
        "no depth for square 0 2, which is not closed": answer_text({(0, 0): 10_000}, totals),
        "a depth for square 1 0, which is off the grid": answer_text({**depths, (1, 0): 0}, totals),
        "its clock is 120000, the sheet's end 60000": answer_text(depths, {**totals, "clock": 2 * MINUTE}),
        "its water account is off by 1 µm": answer_text({**depths, (0, 2): 1}, totals),
        "square 0 0 has 9,999 µm, and meadow gives this sheet 10,000 µm": answer_text({(0, 0): 9_999, (0, 2): 1}, totals),
        "meadow gives this sheet other totals": answer_text(depths, {**totals, "steps": 7}),
        "it has no line clock": right[: right.index("clock")],
        "a line is doubled": right.replace("steps", "soak\t0\nsteps"),
        "number 12, line 3": refused_text(12, 3),
        "no line of an answer": right.replace("0\t10000", "0\t1 cm"),
    }
    answer.write_text(right)
    checks.hold(drawn(sheet, answer).returncode == 0, "the right answer is not drawn")
    for why, text in wrong.items():
        answer.write_text(text)
        for tool in ("map", "standing"):
            made = subprocess.run([sys.executable, TOOL.with_name(f"{tool}.py"), sheet, answer], capture_output=True, text=True)
            refused = made.returncode == 1 and made.stdout == "" and why in made.stderr and made.stderr.count("\n") == 1
            checks.hold(refused, f"{tool}.py takes an answer with {why}: {made.stderr!r}")


def hold_refused(checks, room):
    """A sheet that meadow refuses has no map, with an old answer or without."""
    sheet = Path(room) / "refused.sheet"
    text = (SAMPLES / "held-pond.sheet").read_text()
    cases = {"number 12, line 1": text.replace("\n", "\r\n"), "number 5, line 0": text.replace("run\t10\t500", "run\t10\t0")}
    for why, damaged in cases.items():
        sheet.write_bytes(damaged.encode("ascii"))
        for files in ((sheet,), (sheet, SAMPLES / "held-pond.out")):
            made = drawn(*files)
            checks.hold(made.returncode == 1 and made.stdout == "" and why in made.stderr, f"a sheet with {why} is drawn: {made.stderr!r}")


def hold_evening(checks):
    """The sample log: water, walls and hatches at its end; what was tried and taken back is not on the map."""
    sheet, log, told = (SAMPLES / f"walled-evening.{kind}" for kind in ("sheet", "log", "log.out"))
    made = drawn(sheet, "--log", log)
    if not checks.hold(made.returncode == 0, f"the sample log is not drawn: {made.stderr}"):
        return
    depths = blocks_of(told.read_text())[0][-1].depths.values()
    film = sum(0 < depth < 1_000 for depth in depths)
    wet = sum(depth >= 1_000 for depth in depths)
    wanted = dict(zip(KINDS, (2, 1, wet, film, len(depths) - wet - film, 0, 1, 2, 0)))
    checks.hold(found(made.stdout) == wanted, f"the sample log is drawn with {found(made.stdout)}, not {wanted}")
    checks.hold(drawn(sheet, told, "--log", log).stdout == made.stdout, "of what is stored the sample log has another map")
    said = whole_words(made.stdout)
    for words in (
        "walled-evening: water after 30 min",
        "clock 30 min, after 180 steps; 72 taken back",
        "on the meadow: 2,586 m³",
        "hatch 1 at 0,1: 800 l/s from 0 to 20 min",
        "hatch 2 at 2,1: 600 l/s from 5 to 20 min",
        "hatch 3 at 4,1: 300 l/s from 10 to 30 min",
        "row 3, column 5: closed",
    ):
        checks.hold(words in said, f"the map of the sample log does not say: {words}")
    checks.hold("4,000" not in said and "1,500" not in said, "the map of the sample log tells of what was taken back")


def hold_log_hatches(checks, room):
    """Rates that stand, hatches of one square, hatches never drawn, and the sheet's own beside them; a back into an opening cuts it off."""
    sheet, log = Path(room) / "log.sheet", Path(room) / "log.log"
    meadow = Sheet(1, 4, 10, shortest=10_000, longest=10_000)
    for column in range(4):
        meadow.put((0, column), 0, 300)
    meadow.inflow = [(0, 3, 0, 5 * MINUTE, 7), (0, 2, 0, MINUTE, 9)]
    sheet.write_text(meadow.text(MINUTE))
    named = ["hatch 4 0 0", "hatch 2 0 1", "hatch 9 0 1"]
    cases = [
        # two lines at one clock; hatch 2 is drawn, changed and drawn on; hatch 9 never
        (
            ["0 4 10", "0 2 20", "60000 2 30", "120000 2 30", "180000 4 0"],
            [
                "hatch 2 at 0,1: 20 l/s from 0 to 1 min, 30 l/s from 1 to 3 min",
                "hatch 4 at 0,0: 10 l/s from 0 to 3 min",
                "hatch 9 at 0,1: shut all the time",
                "hatch a at 0,2: 9 l/s from 0 to 1 min",
                "hatch b at 0,3: 7 l/s from 0 to 5 min",
            ],
            (3, 1),
        ),
        # back by 8 steps of 10 s, from 3 min into the second minute, at the rate that stood there, and on
        (
            ["0 4 10", "60000 4 50", "120000 4 90", "180000 4 0", "back 8", "120000 4 5", "180000 4 0"],
            [
                "hatch 4 at 0,0: 10 l/s from 0 to 1 min, 50 l/s from 1 to 2 min, 5 l/s from 2 to 3 min",
                "clock 3 min, after 18 steps; 8 taken back",
            ],
            (2, 2),
        ),
        (
            ["0 4 10", "60000 4 50", "120000 4 90", "back 3"],
            ["hatch 4 at 0,0: 10 l/s from 0 to 1 min, 50 l/s from 1 min to 1 min 30 s"],
            (2, 2),
        ),
        (["0 4 10", "60000 4 50", "back 6"], ["hatch 4 at 0,0: shut all the time", "log: water after 0 min"], (0, 4)),
        (["back 0"], ["hatch 2 at 0,1: shut all the time"], (0, 4)),
    ]
    for lines, wanted, signs in cases:
        log.write_text(written(*named, *lines))
        made = drawn(sheet, "--log", log)
        if checks.hold(made.returncode == 0, f"{lines}: not drawn: {made.stderr}"):
            said, counts = whole_words(made.stdout), found(made.stdout)
            for words in wanted:
                checks.hold(words in said, f"{lines}: the map does not say: {words}")
            checks.hold((counts["drawn"], counts["shut"]) == signs, f"{lines}: {counts['drawn']} hatches drawn, {counts['shut']} shut")
    checks.hold(">2+9<" in made.stdout, "two hatches of one square have not one sign")


def hold_log_pairs(checks, room):
    """What was not printed of this sheet and this log is refused in words, and so are a log that is refused and one that prints nothing."""
    sheet, log, told = (SAMPLES / f"walled-evening.{kind}" for kind in ("sheet", "log", "log.out"))
    text, lines = told.read_text(), log.read_text().splitlines(True)
    blocks = [block.text for block in blocks_of(text)[0]]
    wrong = {
        "has the clock 300000, the answer 0": "".join([blocks[0], *blocks[:-1]]),
        "takes 36 steps back, the answer another number": "".join([*blocks[:4], blocks[3], *blocks[5:]]),
        "asks for another number": "".join(blocks[:-1]),
        "it has 13 answers": text + blocks[-1],
        "cut off": text[:-20],
        "no depth for square 7 6": text.replace(f"{DEPTH}\t7\t6\t", f"{DEPTH}\t9\t6\t"),
        "its water account is off by 1 µm": text[: text.rindex("out\t")] + text[text.rindex("out\t") :].replace("out\t25957", "out\t25958"),
        "number 10, line 0": blocks[0] + refused_text(10, 0),
        "number 12, line 0": refused_text(12, 0),
    }
    answer = Path(room) / "wrong.out"
    for why, damaged in wrong.items():
        answer.write_text(damaged)
        made = drawn(sheet, answer, "--log", log)
        refused = made.returncode == 1 and made.stdout == "" and why in made.stderr and made.stderr.count("\n") == 1
        checks.hold(refused, f"what was printed with {why} is drawn: {made.stderr!r}")
    other = Path(room) / "other.log"
    cases = {
        "number 10, line 0": lines[:4] + ["back\t1\n"],
        "number 12, line 1": ["nothing\n"],
        "nothing is printed of this log": lines[:3],
    }
    for why, damaged in cases.items():
        other.write_text("".join(damaged))
        made = drawn(sheet, "--log", other)
        checks.hold(made.returncode == 1 and made.stdout == "" and why in made.stderr, f"a log with {why} is drawn: {made.stderr!r}")
    # a rate changed since: the same clocks and steps, another amount of water
    other.write_text(log.read_text().replace("0\t1\t800", "0\t1\t801"))
    made = drawn(sheet, told, "--log", other)
    checks.hold(made.returncode == 1 and "water account is off" in made.stderr, f"a log with a rate changed since is drawn: {made.stderr!r}")


def classed(svg, *kinds):
    """The parts of some classes, in their order."""
    return [part for part in tree.fromstring(svg).iter() if part.get("class") in kinds]


def hold_winter(checks):
    """The sample winter: each square's number is the answer's, walls and the exit are there, each square tells a pointer; the words by hand."""
    sheets, answer = sorted(WINTER.glob("*.sheet")), WINTER / "winter.list.out"
    made = drawn("--often", sheets[0], answer, "--depth", "100000")
    if not checks.hold(made.returncode == 0, f"the sample winter is not drawn: {made.stderr}"):
        return
    tally = tally_of(answer.read_text())
    counts = [drowned.count for _, drowned in sorted(tally.squares.items())]
    numbers = [int(part.text) for part in classed(made.stdout, "count")]
    checks.hold(numbers == [count for count in counts if count > 0], f"the numbers on the winter's map are {numbers}")
    kinds = [part.get("class") for part in classed(made.stdout, "drowned", "never")]
    checks.hold(kinds == ["drowned" if count else "never" for count in counts], "the winter's map has not each drowned square in its place")
    checks.hold((len(classed(made.stdout, "wall")), len(classed(made.stdout, "exit"))) == (2, 1), "the winter's map has not its walls and its exit")
    told = sum(part.tag.endswith("}title") for part in tree.fromstring(made.stdout).iter())
    checks.hold(told == len(counts) + 2, f"{told} squares of the winter's map tell a pointer what they are")
    said = whole_words(made.stdout)
    for words in (
        "winter: how often each square was 10 cm deep or deeper",
        "how many of the 6 sheets had it 10 cm deep or deeper at any time of their run",
        "most often at row 6, column 1, in 6 of 6 sheets",
        "deepest of all: 63 cm at row 6, column 1, by sheet 3 of the list",
        "6 sheets run, 0 refused",
        "row 0, column 1: drowned in 2 of 6 sheets; deepest 12 cm, by sheet 6; ground 2.92 m",
        "row 0, column 0: never drowned; deepest 3.0 cm, by sheet 5; ground 3.19 m",
        "row 3, column 5: closed",
        "54,400 m²",
    ):
        checks.hold(words in said, f"the winter's map does not say: {words}")
    checks.hold(drawn("--often", sheets[-1], answer, "--depth", "100000").stdout == made.stdout, "by another sheet of the winter it has another map")
    plain = whole_words(drawn("--often", sheets[0], answer).stdout)
    checks.hold("winter: how often each square was as deep as was asked" in plain, "without a depth the winter's map says one")


def hold_shares(checks, room):
    """Shares at both ends of each class, by hand; in grey each is clearly darker than the one before, and its number clearly to be read."""
    wanted = {
        8: {0: None, 1: 0, 2: 0, 3: 1, 4: 1, 5: 2, 6: 2, 7: 3, 8: 4},
        1: {0: None, 1: 4},
        3: {1: 1, 2: 2, 3: 4},
        200: {1: 0, 50: 0, 51: 1, 100: 1, 101: 2, 150: 2, 151: 3, 199: 3, 200: 4},
    }
    path, answer = Path(room) / "shares.sheet", Path(room) / "shares.out"
    for ran, classes in wanted.items():
        sheet, tally = Sheet(1, len(classes), 1), Tally()
        tally.ran = ran
        for column, count in enumerate(classes):
            sheet.put((0, column), 0, 300)
            tally.squares[0, column] = Drowned(count, 5 + count, 1)
        path.write_text(sheet.text(0))
        answer.write_text(tally.text())
        fills = [part.get("fill") for part in classed(drawn("--often", path, answer).stdout, "drowned", "never")]
        shades = [ground(0, 0, 0) if share is None else SHARES[share][0] for share in classes.values()]
        checks.hold(fills == shades, f"of {ran} sheets {list(classes)} are drawn as {fills}, not {shades}")
    for brighter, darker in pairwise([grey(ground(1, 0, 1)), *(grey(fill) for fill, _, _ in SHARES)]):
        checks.hold(brighter - darker >= CLEAR_STEP, f"in grey {brighter:.0f} and {darker:.0f} are hard to tell apart")
    for fill, ink, name in SHARES:
        checks.hold(abs(grey(fill) - grey(ink)) >= CLEAR_NUMBER, f"the number of {name} is hard to read")


def hold_often_pairs(checks, room):
    """What is no answer to a list of this meadow, or not for this depth, is refused in words, and so are a list of which nothing was run and
    wrong words."""
    sheet, stored = WINTER / "1-november.sheet", (WINTER / "winter.list.out").read_text()
    first, rest = stored.split("\n", 1)
    answer = Path(room) / "often.out"
    wrong = {
        "it has no depth for square 0 0": rest,
        "a depth for square 3 5, which is closed": stored.replace("\n3\t6\t", "\n3\t5\t0\t9\t1\n3\t6\t"),
        "a depth for square 8 6, which is off the grid": stored.replace("\n6\t0\n", "\n8\t6\t0\t9\t1\n6\t0\n"),
        "cut off": first + "\n",
        "doubled": first + "\n" + stored,
        "not ended": stored[:-1],
        "more sheets than were run": stored.replace("\n6\t0\n", "\n5\t1\n1\t12\n"),
        "a line is missing": stored.replace("\n6\t0\n", "\n6\t1\n"),
        "no line of what drowned prints": (SAMPLES / "walled-evening.out").read_text(),
        "refused this list": refused_text(12, 1),
        "no sheet of this list was run": "0\t1\n1\t12\n",
    }
    for why, text in wrong.items():
        answer.write_text(text)
        made = drawn("--often", sheet, answer)
        refused = made.returncode == 1 and made.stdout == "" and why in made.stderr and made.stderr.count("\n") == 1
        checks.hold(refused, f"an answer with {why} is drawn: {made.stderr!r}")
    answer.write_text(stored)
    # the deepest square that is not counted had 80,895 µm, the shallowest that is had 123,823
    for depth, right in ((80_895, False), (80_896, True), (123_823, True), (123_824, False)):
        made = drawn("--often", sheet, answer, "--depth", str(depth))
        checks.hold((made.returncode == 0) == right, f"the winter's map for a depth of {depth} µm: {made.stderr!r}")
    for words in (("--often", sheet), (sheet, answer, "--depth", "1"), ("--often", sheet, answer, "--log", answer)):
        checks.hold(drawn(*words).returncode == 2, f"map.py takes {words}")


def main():
    checks = Checks("map")
    hold_samples(checks)
    hold_evening(checks)
    hold_words(checks)
    hold_winter(checks)
    hold_grey(checks)
    with tempfile.TemporaryDirectory() as room:
        hold_classes(checks, room)
        hold_hatches(checks, room)
        hold_edition(checks, room)
        hold_guessed(checks, room)
        hold_lists(checks, room)
        hold_pairs(checks, room)
        hold_refused(checks, room)
        hold_log_hatches(checks, room)
        hold_log_pairs(checks, room)
        hold_shares(checks, room)
        hold_often_pairs(checks, room)
    checks.end()


if __name__ == "__main__":
    main()
