"""tools/make_sheet.py on beds, plans and tables whose sheet is worked by hand, and on what cannot be one; beds that were not seen, left as `?`
or given by `repair`, and tools/repair.py, which says from which neighbours; tools/depths.py takes answers back to the map that the beds came
from, micrometre by micrometre."""
import shutil
import subprocess
import sys
import tempfile
from pathlib import Path

from meadow.counted import Checks
from meadow.programs import TOP
from meadow.sheets.lines import Answer
from meadow.sheets.reading import read
from meadow.surveys.grids import grid_in

SAMPLES = TOP / "samples"
HEAD = "ncols 3\nnrows 2\nxllcorner 432100.50\nyllcorner -12.25\ncellsize 10\nNODATA_value -9999\n"
BEDS = "1.2 1.1 -9999\n1.15 1.0500004 1.0000005\n"
FILES = {
    "beds.asc": HEAD + BEDS,
    "beds.csv": "1,2;1,1;\n1,15;1,0500004;1,0000005\n",
    "commas.csv": "1.2,1.1,-9999\n1.15,1.0500004,1.0000005\n",
    "centre.asc": HEAD.replace("xllcorner 432100.50", "XLLCENTER 432105.50").replace("yllcorner", "yllcenter").replace("-12.25", "-7.25") + BEDS,
    "wrapped.asc": HEAD.replace("\n", "\r\n") + BEDS.replace(" ", "\r\n"),
    "high.asc": HEAD + "101.2 101.1 -9999\n101.15 101.0500004 101.0000005\n",
    "alps.asc": HEAD + "1201.2 1201.1 -9999\n1201.15 1201.05 1200.5\n",
    "polder.asc": HEAD + "-1.2 -1.1 -9999\n-1.15 -1.05 -2.5\n",
    "full.asc": HEAD + BEDS.replace("-9999", "1.3"),
    "plan.txt": "oox\nooe\n",
    "spaced.txt": "o, o, x\no, o, e\n",
    "wall.txt": "oox\nxoe\n",
    "wall-unseen.txt": "ooo\noxe\n",
    "open.txt": "ooo\nooe\n",
    "odd.txt": "ooq\nooe\n",
    "short.txt": "oox\noo\n",
    "one-row.txt": "oox\n",
    "n.asc": HEAD + "0.03 0.03333 -9999\n0.035 0.035 0.03\n",
    "few.asc": HEAD + "1.2 1.1\n",
    "letters.asc": HEAD + BEDS.replace("1.1 ", "1,1 "),
    "no-corner.asc": HEAD.replace("yllcorner -12.25\n", "") + BEDS,
    "uneven.csv": "1.2,1.1\n1.15\n",
    "half.asc": HEAD.replace("cellsize 10", "cellsize 2.5") + BEDS,
    "unseen.csv": "1,2;?;\n1,15;?;1,0000005\n",
    "unseen.asc": HEAD + "1.2 ? -9999\n1.15 ? 1.0000005\n",
    "bare-mouth.csv": "1.2,1.1,\n1.15,1.0500004,?\n",
    "later.csv": "1.5,?,?,\n,,?,1.25\n",
    "both.csv": "1.5,?,1.5\n",
    "walled.csv": "1.5,,?\n",
    "twice-unseen.csv": "1.5,??\n",
    "all-but-one.csv": "\n".join(["1.5" + ",?" * 7, *[",".join("?" * 8)] * 3]) + "\n",
    "unseen-n.csv": "0.03,?,0.03\n0.03,0.03,0.03\n",
    "large.csv": "\n".join([",".join(["1"] * 33)] * 32) + "\n",
    "empty.csv": "",
}
# tabs shown as spaces
SHEET = """grid 2 3 10
run 10 80 10000 60000 600000 67 1
cell 0 0 o 1200000 350 0 0
cell 0 1 o 1100000 350 0 0
cell 0 2 x
cell 1 0 o 1150000 350 0 0
cell 1 1 o 1050000 350 0 0
cell 1 2 e 1000001 350 0 0
rain 0 600000 20000
rain 90000 120000 1500
inflow 0 0 60000 300000 30
"""
PLACE = "ncols 3\nnrows 2\nxllcorner 432100.50\nyllcorner -12.25\ncellsize 10\nNODATA_value -9999\ndatum 0\n"
RUN = ["--end", "0:10", "--roughness", "0.035"]
TABLES = ["--rain", "0:00", "0:10", "20", "--rain", "0:01:30", "0:02", "1.5", "--hatch", "0", "0", "0:01", "0:05", "30"]
USUAL = [*RUN, "--exit", "1", "2", *TABLES]
OF_A_CSV = ["--side", "10", "--corner", "432100.50", "-12.25"]
NO_CORNER = PLACE.replace("432100.50", "0").replace("-12.25", "0")


def edited(*changes):
    """The usual sheet with some texts changed."""
    text = SHEET
    for old, new in changes:
        text = text.replace(old, new)
    return text


# what is given, the sheet, and the side file
MADE = [
    (["beds.asc", *USUAL], SHEET, PLACE),
    (["beds.csv", *USUAL, *OF_A_CSV], SHEET, PLACE),
    (["commas.csv", *USUAL, "--side", "10"], SHEET, NO_CORNER),
    (["centre.asc", *USUAL], SHEET, PLACE),
    (["wrapped.asc", *USUAL], SHEET, PLACE),
    (["beds.asc", *RUN, *TABLES, "--plan", "plan.txt"], SHEET, PLACE),
    (["full.asc", *RUN, *TABLES, "--plan", "spaced.txt"], SHEET, PLACE),
    (["beds.asc", *RUN, *TABLES, "--plan", "wall.txt"], edited(("cell 1 0 o 1150000 350 0 0", "cell 1 0 x")), PLACE),
    (["high.asc", *USUAL, "--datum", "100"], SHEET, PLACE.replace("datum 0", "datum 100")),
    (
        ["beds.asc", *USUAL, "--roughness", "n.asc", "--depth", "0.0123454", "--soak", "2.5"],
        edited(("350 0 0", "350 12345 2500"), ("1200000 350", "1200000 300"), ("1100000 350", "1100000 333"), ("1000001 350", "1000001 300")),
        PLACE,
    ),
    (
        ["beds.asc", *USUAL, "--run", "edge", "50", "--run", "longest", "20000"],
        edited(("80 10000 60000 600000 67", "80 20000 60000 600000 50")),
        PLACE,
    ),
]
# what is given, and what is said of it
REFUSED = [
    (["beds.csv", *USUAL], "give --side"),
    (["beds.asc", *USUAL, "--side", "10"], "an ESRI grid says its own side and corner"),
    (["beds.asc", *RUN, "--exit", "0", "2"], "the exit at row 0, column 2 is on a closed square without a bed: open it in a plan"),
    (["unseen.asc", *RUN, "--plan", "wall-unseen.txt", "--exit", "1", "1"], "the exit at row 1, column 1 is on a closed square without a bed"),
    (["beds.asc", *USUAL, "--roughness", "unseen-n.csv"], "unseen-n.csv, row 1: '?' in column 2 is no number"),
    (["twice-unseen.csv", *RUN, "--side", "10"], "twice-unseen.csv, line 1: '??' is no number"),
    (["walled.csv", *RUN, "--side", "10", "--repair"], "1 bed cannot be guessed, since no open way leads to a known one: row 0, column 2: measure"),
    (["unseen.csv", *USUAL, "--side", "10", "--repair", "--roughness", "35"], "--roughness 35: n is 35 at row 0, column 0"),
    (["unseen.asc", *USUAL], "the survey did not see the ground before the exit at row 1, column 2, nor its edge slope: give --run edge"),
    (["bare-mouth.csv", *USUAL, "--side", "10"], "the survey did not see the ground before the exit at row 1, column 2"),
    (["beds.asc", *RUN, "--plan", "odd.txt"], "odd.txt, row 1: 'q' is no mark"),
    (["beds.asc", *RUN, "--plan", "short.txt"], "short.txt, row 2: it has 2 letters, and the beds have 3 columns"),
    (["beds.asc", *RUN, "--plan", "one-row.txt"], "one-row.txt: it has 1 rows, and the beds have 2"),
    (["beds.asc", *RUN, "--exit", "2", "2"], "the exit at row 2, column 2 is off the grid"),
    (["beds.asc", *RUN, "--exit", "-1", "2"], "'-1' is no row"),
    (["alps.asc", *USUAL], "row 0, column 0: a bed of 1201.2 m is not 0 to 1,000 m above 0 m: give --datum 1200"),
    (["polder.asc", *USUAL], "give --datum -3"),
    (["few.asc", *USUAL], "few.asc: 2 rows of 3 columns are 6 numbers, and it has 2"),
    (["letters.asc", *USUAL], "letters.asc, line 7: '1,1' is no number"),
    (["no-corner.asc", *USUAL], "it says no yllcorner"),
    (["uneven.csv", *RUN, "--side", "10"], "uneven.csv, row 2: it has 1 squares, and the first row 2"),
    (["empty.csv", *RUN, "--side", "10"], "empty.csv: it is empty"),
    (["half.asc", *USUAL], "squares of 2.5 m: a side is 1 to 100 whole metres"),
    (["large.csv", *RUN, "--side", "10"], "32 rows of 33 are too many"),
    (["beds.asc", *USUAL, "--roughness", "plan.txt"], "plan.txt, line 1: 'oox' is no number"),
    (["beds.asc", *USUAL, "--roughness", "35"], "--roughness 35: n is 35 at row 0, column 0, and must be 0.0001 to 1; 0.035 is a meadow's"),
    (["beds.asc", *USUAL, "--depth", "uneven.csv"], "uneven.csv, row 2"),
    (["beds.asc", *USUAL, "--depth", "large.csv"], "large.csv: it has 32 rows of 33, and the beds 2 of 3"),
    (["beds.asc", *USUAL, "--hatch", "0", "0", "0:01", "0:05", "30.5"], "30.5 is between 30 and 31"),
    (["beds.asc", *USUAL, "--hatch", "0", "2", "0:01", "0:05", "30"], "--hatch 0 2 0:01 0:05 30: row 0, column 2 is closed: move the hatch"),
    (["beds.asc", *USUAL, "--rain", "0:05", "0:01", "20"], "--rain 0:05 0:01 20: it ends before it begins"),
    (["beds.asc", *USUAL, "--rain", "5", "10", "20"], "'5' is no time"),
    (["beds.asc", *USUAL, "--end", "0:10:30"], "--end 0:10:30 is no multiple of the update time, 0:01: write 0:10 or 0:11"),
    (["beds.asc", *USUAL, "--run", "end", "5"], "a run line has no 'end'"),
    (["beds.asc", *USUAL, "--run", "edge", "10001"], "--run edge 10001: the edge slope is 0 to 10,000"),
    (["nosuch.asc", *USUAL], "No such file"),
]
# what is given, the sheet with beds that were not seen, the one that `repair` makes of it, its list, and what is said of each guess
UNSEEN_SHEET = edited(("1100000 350", "? 350"), ("1050000 350", "? 350"))
GUESSED_SHEET = edited(("1100000 350", "1200000 350"), ("1050000 350", "1000001 350"))
TWO_GUESSES = "0 1 1200000 1\n1 1 1000001 1\n"
TWO_SAID = [
    "2 beds guessed in 1 round, each the lowest beside it",
    "row 0, column 1: guessed 1.20 m, the bed to the west (row 0, column 0)",
    "row 1, column 1: guessed 1.00 m, the bed to the east (row 1, column 2)",
]
OPENED = edited(("cell 0 2 x", "cell 0 2 o ? 350 0 0"))
OPENED_SAID = ["1 bed guessed in 1 round", "row 0, column 2: guessed 1.00 m, the bed to the south (row 1, column 2)"]
SMALL = "grid {} 10\nrun 10 80 10000 60000 600000 10000 1\n"
# where the ground before an exit was not seen its edge slope is asked for; of the guessed ground it is the same
EDGE = ["--run", "edge", "67"]
UNSEEN = [
    (["unseen.csv", *USUAL, *EDGE, *OF_A_CSV], UNSEEN_SHEET, GUESSED_SHEET, TWO_GUESSES, TWO_SAID),
    (["unseen.asc", *USUAL, *EDGE], UNSEEN_SHEET, GUESSED_SHEET, TWO_GUESSES, TWO_SAID),
    (["unseen.asc", *RUN, *EDGE, *TABLES, "--plan", "plan.txt"], UNSEEN_SHEET, GUESSED_SHEET, TWO_GUESSES, TWO_SAID),
    (["beds.asc", *RUN, *EDGE, *TABLES, "--plan", "open.txt"], OPENED, OPENED.replace("o ?", "o 1000001"), "0 2 1000001 1\n", OPENED_SAID),
    (["beds.csv", *RUN, *EDGE, *TABLES, *OF_A_CSV, "--plan", "open.txt"], OPENED, OPENED.replace("o ?", "o 1000001"), "0 2 1000001 1\n", OPENED_SAID),
    (
        ["bare-mouth.csv", *USUAL, *EDGE, *OF_A_CSV],
        edited(("1000001", "?")),
        edited(("1000001", "1050000")),
        "1 2 1050000 1\n",
        ["row 1, column 2: guessed 1.05 m, the bed to the west (row 1, column 1)"],
    ),
    (
        ["later.csv", *RUN, "--side", "10"],
        SMALL.format("2 4") + "cell 0 0 o 1500000 350 0 0\ncell 0 1 o ? 350 0 0\ncell 0 2 o ? 350 0 0\ncell 0 3 x\n"
        "cell 1 0 x\ncell 1 1 x\ncell 1 2 o ? 350 0 0\ncell 1 3 o 1250000 350 0 0\n",
        SMALL.format("2 4") + "cell 0 0 o 1500000 350 0 0\ncell 0 1 o 1500000 350 0 0\ncell 0 2 o 1250000 350 0 0\ncell 0 3 x\n"
        "cell 1 0 x\ncell 1 1 x\ncell 1 2 o 1250000 350 0 0\ncell 1 3 o 1250000 350 0 0\n",
        "0 1 1500000 1\n0 2 1250000 2\n1 2 1250000 1\n",
        [
            "3 beds guessed in 2 rounds",
            "row 0, column 1: guessed 1.50 m, the bed to the west (row 0, column 0)\n",
            "row 0, column 2: guessed 1.25 m, the bed to the south (row 1, column 2, itself guessed)\n",
            "row 1, column 2: guessed 1.25 m, the bed to the east (row 1, column 3)\n",
        ],
    ),
    (
        ["both.csv", *RUN, "--side", "10"],
        SMALL.format("1 3") + "cell 0 0 o 1500000 350 0 0\ncell 0 1 o ? 350 0 0\ncell 0 2 o 1500000 350 0 0\n",
        SMALL.format("1 3") + "cell 0 0 o 1500000 350 0 0\ncell 0 1 o 1500000 350 0 0\ncell 0 2 o 1500000 350 0 0\n",
        "0 1 1500000 1\n",
        ["row 0, column 1: guessed 1.50 m, the bed to the east (row 0, column 2) and the west (row 0, column 0)\n"],
    ),
]


def ran(tool, *words, room):
    return subprocess.run([sys.executable, TOP / "tools" / f"{tool}.py", *words], capture_output=True, text=True, cwd=room)


def hold_made(checks, room):
    """Each sheet and side file as worked by hand."""
    for at, (given, sheet, place) in enumerate(MADE):
        made = ran("make_sheet", given[0], f"{at}.sheet", *given[1:], room=room)
        if checks.hold(made.returncode == 0, f"{given} makes no sheet: {made.stderr}"):
            for kind, wanted in (("sheet", sheet.replace(" ", "\t")), ("sheet.place", place)):
                written = (room / f"{at}.{kind}").read_text()
                checks.hold(written == wanted, f"{given} makes another {kind}: {written}")
            checks.hold("run to 10 min: at most 7,500 steps" in made.stdout, f"{given}: the sheet is not told")
    made = ran("make_sheet", "full.asc", "0.sheet", *RUN, room=room)
    checks.hold(made.returncode == 1 and "is there already" in made.stderr, "a sheet that is there is written over")
    checks.hold((room / "0.sheet").read_text() == SHEET.replace(" ", "\t"), "a sheet that is there is not left as it was")
    made = ran("make_sheet", "full.asc", "1.sheet", *RUN, "--replace", room=room)
    checks.hold(made.returncode == 0 and "0\t2\to\t1300000" in (room / "1.sheet").read_text(), "--replace does not write over")


def hold_unseen(checks, room):
    """Beds that were not seen stay `?`, and the command that gives them is said; it gives them, and says from which neighbours."""
    for at, (given, sheet, mended, guesses, said) in enumerate(UNSEEN):
        made = ran("make_sheet", given[0], f"u{at}.sheet", *given[1:], room=room)
        text = (room / f"u{at}.sheet").read_text() if made.returncode == 0 else made.stderr
        checks.hold(text == sheet.replace(" ", "\t"), f"{given} makes {text}")
        holes = sheet.count("?")
        wanted = f"{holes} bed{'s' * (holes > 1)} not seen", f"python3 tools/repair.py u{at}.sheet u{at}-mended.sheet\n"
        checks.hold(all(words in made.stdout for words in wanted), f"{given}: it is not said how beds are given: {made.stdout}")
        checks.hold(not (room / f"u{at}.sheet.guessed").exists(), f"{given}: something is said to be guessed")
        made = ran("repair", f"u{at}.sheet", f"u{at}-mended.sheet", room=room)
        hold_guessed(checks, room, given, made, f"u{at}-mended.sheet", mended, guesses, said)
        checks.hold((room / f"u{at}-mended.sheet.place").read_text() == (room / f"u{at}.sheet.place").read_text(), f"{given}: mended it lies elsewhere")


def hold_guessed(checks, room, given, made, name, sheet, guesses, said):
    """A sheet with beds that were given, its list, and the words."""
    if checks.hold(made.returncode == 0, f"{given}: beds are not given: {made.stderr}"):
        for path, wanted in ((name, sheet), (f"{name}.guessed", guesses)):
            written = (room / path).read_text()
            checks.hold(written == wanted.replace(" ", "\t"), f"{given} gives another {path}: {written}")
        for words in (f"made {name}", f"{name}.guessed", *said):
            checks.hold(words in made.stdout, f"{given}: it is not said: {words!r}, but {made.stdout}")


def hold_repaired(checks, room):
    """With --repair the sheet is whole at once, and told; without guesses an older list of its name goes."""
    for at, (given, _, mended, guesses, said) in enumerate(UNSEEN):
        made = ran("make_sheet", given[0], f"r{at}.sheet", *given[1:], "--repair", room=room)
        hold_guessed(checks, room, given, made, f"r{at}.sheet", mended, guesses, said)
        checks.hold("run to 10 min: at most 7,500 steps" in made.stdout and "not seen" not in made.stdout, f"{given}: the sheet is not told")
    made = ran("make_sheet", "beds.asc", "r0.sheet", *USUAL, "--repair", "--replace", room=room)
    checks.hold(made.returncode == 0 and (room / "r0.sheet").read_text() == SHEET.replace(" ", "\t"), f"--repair of known beds: {made.stderr}")
    checks.hold(not (room / "r0.sheet.guessed").exists() and "guessed" not in made.stdout, "the list of an older sheet stays")
    made = ran("make_sheet", "unseen.csv", "fall.sheet", *USUAL, *OF_A_CSV, "--repair", room=room)
    checks.hold((room / "fall.sheet").read_text() == GUESSED_SHEET.replace(" ", "\t"), "the edge slope is not that of the guessed ground")
    (room / "left.sheet.guessed").write_text("0\t1\t5\t1\n")
    for given in ([], ["--repair"]):
        made = ran("make_sheet", "unseen.asc", "left.sheet", *USUAL, *EDGE, *given, room=room)
        checks.hold(made.returncode == 1 and "left.sheet.guessed is there already" in made.stderr, f"a list is written over: {made.stdout}")
    checks.hold((room / "left.sheet.guessed").read_text() == "0\t1\t5\t1\n", "a list that is there does not stay")
    checks.hold(not (room / "left.sheet").exists(), "a sheet is written beside a list that is there")
    made = ran("make_sheet", "unseen.asc", "left.sheet", *USUAL, *EDGE, "--replace", room=room)
    checks.hold(made.returncode == 0 and not (room / "left.sheet.guessed").exists(), "the list of an older sheet stays beside one with ?")
    made = ran("make_sheet", "all-but-one.csv", "many.sheet", "--side", "10", *RUN, "--repair", room=room)
    lines = made.stdout.splitlines()
    checks.hold("31 beds guessed in 10 rounds" in made.stdout, f"very many guesses: {made.stdout}")
    told = lines[-2].startswith("row 2, column 4: ") and lines[-1] == "and 11 more: many.sheet.guessed lists them"
    checks.hold(told, f"very many guesses: {lines[-2:]}")


def hold_not_mended(checks, room):
    """What tools/repair.py cannot mend, or must not write over, is said, and nothing is written."""
    parted = SMALL.format("1 3") + "cell 0 0 x\ncell 0 1 o ? 350 0 0\ncell 0 2 o ? 350 0 0\n"
    damaged = {"parted": parted, "rough": UNSEEN_SHEET.replace("? 350", "? 0"), "cut": UNSEEN_SHEET.replace("? 350", "?")}
    for name, text in damaged.items():
        (room / f"{name}.sheet").write_text(text.replace(" ", "\t"))
    cases = [
        (["parted.sheet", "none.sheet"], "2 beds cannot be guessed, since no open way leads to a known one: row 0, column 1; row 0, column 2: "),
        (["rough.sheet", "none.sheet"], "line 4: row 0, column 1: the roughness is 0: write 1 to 10,000"),
        (["cut.sheet", "none.sheet"], "line 4: it has 6 fields after its word and should have 7: say the rate"),
        (["0.sheet", "none.sheet"], "every bed of 0.sheet is known: there is nothing to mend"),
        (["u0.sheet", "u0.sheet"], "u0.sheet is the sheet itself: take another name"),
        (["u0.sheet", "u0.sheet", "--replace"], "u0.sheet is the sheet itself: take another name"),
        (["u0.sheet", "rough.sheet"], "rough.sheet is there already: take another name, or give --replace"),
        (["none", "none.sheet"], "No such file"),
    ]
    for given, why in cases:
        made = ran("repair", *given, room=room)
        checks.hold(made.returncode == 1 and why in made.stderr and made.stdout == "", f"repair.py {given}: {made.stderr!r}, not {why!r}")
    checks.hold(not list(room.glob("none.*")), "repair.py writes where it cannot mend")
    checks.hold((room / "u0.sheet").read_text() == UNSEEN_SHEET.replace(" ", "\t"), "the survey's own sheet is not left as it was")
    made = ran("repair", "u0.sheet", "rough.sheet", "--replace", room=room)
    checks.hold(made.returncode == 0, f"repair.py --replace does not write over: {made.stderr}")


def hold_refused(checks, room):
    """What cannot be a sheet is said in words, and nothing is written."""
    for given, why in REFUSED:
        made = ran("make_sheet", given[0], "refused.sheet", *given[1:], room=room)
        checks.hold(made.returncode == 1 and why in made.stderr and made.stdout == "", f"{given}: {made.stderr!r}, not {why!r}")
        checks.hold(not list(room.glob("refused.*")), f"{given}: something is written")


def hold_grid(checks, room):
    """The walled meadow's depths as an ESRI grid: every micrometre, NODATA just at closed squares, the corner digit by digit."""
    for kind in ("sheet", "out"):
        shutil.copy(SAMPLES / f"walled-meadow.{kind}", room)
    sheet, _ = read((room / "walled-meadow.sheet").read_text())
    answer = Answer((room / "walled-meadow.out").read_text())
    bare = ran("depths", "walled-meadow.sheet", room=room)
    checks.hold(bare.returncode == 0 and "the corner is taken as 0 0" in bare.stderr, "that there is no side file is not said")
    shape = "ncols 30\nnrows 30\nxllcorner 5.500\nyllcorner 1234567.25\ncellsize 10\nNODATA_value -9999\n"
    (room / "walled-meadow.sheet.place").write_text(shape + "datum 100.5\n")
    made = ran("depths", "walled-meadow.sheet", "walled-meadow.out", room=room)
    checks.hold(made.returncode == 0 and made.stderr == "", f"depths.py: {made.stderr}")
    checks.hold(made.stdout.startswith(shape), "the head is not that of the side file")
    checks.hold(bare.stdout.splitlines()[6:] == made.stdout.splitlines()[6:], "run by the tool itself it has other depths")
    (room / "depths.asc").write_text(made.stdout)
    grid = grid_in(room / "depths.asc")
    for place in sheet.squares:
        told = grid.at(place)
        right = told is None if place not in answer.depths else told * 1_000_000 == answer.depths[place]
        checks.hold(right, f"depths.py: square {place} has {told}, and the answer {answer.depths.get(place)}")


def hold_csv(checks, room):
    """The CSV's lines: the middle of square 27 4 lies 45 m east and 25 m north of the corner, and heights count from the datum."""
    lines = ran("depths", "--csv", "walled-meadow.sheet", "walled-meadow.out", room=room).stdout.splitlines()
    depth = Answer((room / "walled-meadow.out").read_text()).depths[27, 4]
    bed = read((room / "walled-meadow.sheet").read_text())[0].bed((27, 4))
    checks.hold(lines[0] == "row,column,east_m,north_m,ground_m,depth_m,level_m" and len(lines) == 871, f"the CSV has {len(lines)} lines")
    heights = [f"{micrometres / 1e6:.6f}" for micrometres in (bed + 100_500_000, depth, bed + depth + 100_500_000)]
    wanted = ",".join(["27", "4", "50.500", "1234592.25", *heights])
    checks.hold(wanted in lines, f"the CSV has no line {wanted}")
    checks.hold(not any(line.startswith("12,18,") for line in lines), "the CSV has a closed square")


def hold_round(checks, room):
    """Depths taken back into a sheet on the same beds are the answer's own."""
    (room / "next.asc").write_text(ran("depths", "0.sheet", room=room).stdout)
    made = ran("make_sheet", "beds.asc", "next.sheet", *USUAL, "--depth", "next.asc", room=room)
    checks.hold(made.returncode == 0, f"depths are not taken back: {made.stderr}")
    answer = subprocess.run([TOP / "bin" / "run", "meadow"], input=(room / "0.sheet").read_bytes(), stdout=subprocess.PIPE, check=True).stdout
    after, _ = read((room / "next.sheet").read_text())
    checks.hold({place: after.depth(place) for place in after.ground()} == Answer(answer.decode()).depths, "depths taken back are others")


def hold_pairs(checks, room):
    """Another sheet's answer and another sheet's side file are refused."""
    other = ran("depths", "0.sheet", "walled-meadow.out", room=room)
    checks.hold(other.returncode == 1 and "another sheet's" in other.stderr and other.stdout == "", "another sheet's answer is taken")
    shutil.copy(room / "0.sheet.place", room / "walled-meadow.sheet.place")
    other = ran("depths", "walled-meadow.sheet", room=room)
    checks.hold(other.returncode == 1 and "is another sheet's" in other.stderr and other.stdout == "", "another sheet's side file is taken")
    (room / "0.sheet.place").write_text(PLACE.replace("datum 0\n", ""))
    other = ran("depths", "0.sheet", room=room)
    checks.hold(other.returncode == 1 and "line 7" in other.stderr, "a side file without a datum is taken")


def main():
    checks = Checks("make_sheet")
    with tempfile.TemporaryDirectory() as folder:
        room = Path(folder)
        for name, text in FILES.items():
            (room / name).write_bytes(text.encode())
        hold_made(checks, room)
        hold_unseen(checks, room)
        hold_repaired(checks, room)
        hold_not_mended(checks, room)
        hold_refused(checks, room)
        hold_grid(checks, room)
        hold_csv(checks, room)
        hold_round(checks, room)
        hold_pairs(checks, room)
    checks.end()


if __name__ == "__main__":
    main()
