"""tools/office_grid.py on grids as map programs write them, whose office's form is worked by hand; on what cannot be brought into it; and on the
road back: the corner digit by digit, the datum, the .prj file. Sets of samples go out to a corner and come back byte for byte."""
import random
import subprocess
import sys
import tempfile
from decimal import Decimal
from pathlib import Path

from meadow.counted import Checks
from meadow.programs import TOP
from meadow.surveys.bringing import brought, text_back
from meadow.surveys.grids import esri
from meadow.surveys.office import office_text, read_office
from meadow.surveys.places import Place
from meadow.surveys.sets import GRIDS, Set, moved_back, moved_out

SAMPLES = TOP / "samples"
HEAD = "ncols 3\nnrows 2\nxllcorner 432100.50\nyllcorner -12.25\ncellsize 10\nNODATA_value -9999\n"
OURS_HEAD = "ncols 3\nnrows 2\nxllcorner 0\nyllcorner 0\ncellsize 10\nNODATA_value -9999\n"
ROWS = "1.2 1.1 -9999\n1.15 1.0500004 1.0000005\n"
OURS = OURS_HEAD + "1.200000 1.100000 -9999\n1.150000 1.050000 1.000001\n"
PLACE = HEAD + "datum 0\n"
PROJECTION = 'PROJCS["Gauß-Krüger / a grid",\n    UNIT["metre",1]]\n'
FLOAT_NO_DATA = "-3.4028234663852886e+38"
FILES = {
    "theirs.asc": HEAD + ROWS,
    "gdal.asc": "ncols        3\nnrows        2\nxllcorner    432100.500000000000\nyllcorner    -12.250000000000\ncellsize     10.000000000000\n"
    f"NODATA_value  {FLOAT_NO_DATA}\n 1.2 1.1 {FLOAT_NO_DATA}\n 1.15 1.0500004 1.0000005\n",
    "large.asc": HEAD.upper() + ROWS,
    "centre.asc": HEAD.replace("xllcorner 432100.50", "XLLCENTER 432105.50").replace("yllcorner", "yllcenter").replace("-12.25", "-7.25") + ROWS,
    "crlf.asc": (HEAD + ROWS).replace("\n", "\r\n"),
    "wrapped.asc": HEAD + ROWS.replace(" ", "\n"),
    "tabs.asc": (HEAD + ROWS).replace(" ", "\t"),
    "nan.asc": HEAD.replace("-9999", "nan") + ROWS.replace("-9999", "nan"),
    "nought.asc": HEAD.replace("-9999", "0") + ROWS.replace("-9999", "0.000"),
    "unsaid.asc": HEAD.replace("NODATA_value -9999\n", "") + ROWS,
    "mark.asc": "\ufeff" + HEAD + ROWS,
    "short.asc": HEAD + ROWS.replace("1.1 ", "11e-1 ").replace("1.15", "+1.15"),
    "high.asc": HEAD + "101.2 101.1 -9999\n101.15 101.0500004 101.0000005\n",
    "alps.asc": HEAD + "1201.2 1201.1 -9999\n1201.15 1201.05 1200.5\n",
    "polder.asc": HEAD + "-1.2 -1.1 -9999\n-1.15 -1.05 -2.5\n",
    "n.asc": HEAD + "300 333.0 -9999\n350 350.000 3e2\n",
    "half-n.asc": HEAD + "300 333.5 -9999\n350 350 300\n",
    "low-n.asc": HEAD + "300 0 -9999\n350 350 300\n",
    "rate.asc": HEAD + "0 1000 -9999\n1000000 5 6\n",
    "fast.asc": HEAD + "0 1000 -9999\n1000001 5 6\n",
    "deep.asc": HEAD + "0 100 -9999\n100.0000004 5 6\n",
    "too-deep.asc": HEAD + "0 100 -9999\n100.0000005 5 6\n",
    "below.asc": HEAD + "0 100 -9999\n-0.1 5 6\n",
    "elsewhere.asc": HEAD.replace("432100.50", "432100.51") + ROWS,
    "wider.asc": HEAD.replace("ncols 3", "ncols 2") + "1 1\n1 1\n",
    "half.asc": HEAD.replace("cellsize 10", "cellsize 2.5") + ROWS,
    "nearly.asc": HEAD.replace("cellsize 10", "cellsize 9.999999999997") + ROWS,
    "long.asc": HEAD.replace("ncols 3", "ncols 65") + " ".join(["1"] * 130) + "\n",
    "oblong.asc": HEAD.replace("cellsize 10", "dx 10\ndy 5") + ROWS,
    "few.asc": HEAD + "1.2 1.1\n",
    "letters.asc": HEAD + ROWS.replace("1.1 ", "1,1 "),
    "no-corner.asc": HEAD.replace("yllcorner -12.25\n", "") + ROWS,
    "beds.csv": "1.2,1.1,\n1.15,1.05,1\n",
    "empty.asc": "",
    "set.place": PLACE.replace("datum 0", "datum 100.5"),
    "odd.place": PLACE + "proj 4\n",
    "with.asc": HEAD + ROWS,
    "with.prj": PROJECTION,
    "other.asc": HEAD + ROWS,
    "other.prj": "LOCAL\n",
    "not-ours.asc": OURS.replace("1.15", " 1.15"),
    "ours.asc": OURS,
    "ours-n.asc": OURS_HEAD + "300 333 -9999\n350 350 300\n",
}
# a bed, and what else is given: all become one grid, and where it lies
SAME_BED = [f"{name}.asc" for name in ("theirs", "gdal", "large", "centre", "crlf", "wrapped", "tabs", "nan", "nought", "unsaid", "mark", "short")]
# which grid, what is given, and what is made
MADE = [
    ("bed", ["high.asc", "--datum", "100"], OURS),
    ("bed", ["polder.asc", "--datum", "-2.5"], OURS_HEAD + "1.300000 1.400000 -9999\n1.350000 1.450000 0.000000\n"),
    ("depth", ["theirs.asc", "--place", "set.place"], OURS),
    ("depth", ["deep.asc", "--place", "set.place"], OURS_HEAD + "0.000000 100.000000 -9999\n100.000000 5.000000 6.000000\n"),
    ("roughness", ["n.asc", "--place", "set.place"], FILES["ours-n.asc"]),
    ("rate", ["rate.asc", "--place", "set.place"], OURS_HEAD + "0 1000 -9999\n1000000 5 6\n"),
]
# what is given, and what is said of it
REFUSED = [
    (["bed", "alps.asc"], "row 0, column 0: a bed of 1201.2 m is not 0 to 1,000 m above 0 m: give --datum 1200"),
    (["bed", "polder.asc"], "give --datum -3"),
    (["bed", "half.asc"], "squares of 2.5 m: a side is 1 to 100 whole metres"),
    (["bed", "nearly.asc"], "squares of 9.999999999997 m: a side is 1 to 100 whole metres"),
    (["bed", "long.asc"], "2 rows of 65 are too many: 64 each and 4,096 squares at most"),
    (["bed", "oblong.asc"], "oblong.asc: it has dx 10 and dy 5 for one cellsize: make its squares square"),
    (["bed", "few.asc"], "2 rows of 3 columns are 6 numbers, and it has 2"),
    (["bed", "letters.asc"], "letters.asc, line 7: '1,1' is no number"),
    (["bed", "no-corner.asc"], "it says no yllcorner"),
    (["bed", "beds.csv"], "beds.csv is no ESRI grid"),
    (["bed", "empty.asc"], "empty.asc: it is empty"),
    (["bed", "nosuch.asc"], "No such file"),
    (["bed", "theirs.asc", "--datum", "low"], "the datum: 'low' is no number"),
    (["depth", "theirs.asc"], "there is no made.asc.place: bring the bed first"),
    (["depth", "theirs.asc", "--place", "none.place"], "there is no none.place"),
    (["depth", "theirs.asc", "--place", "odd.place"], "odd.place, line 8: it should be a line of a .prj file"),
    (["depth", "theirs.asc", "--place", "set.place", "--datum", "100"], "only a bed has a datum"),
    (["depth", "elsewhere.asc", "--place", "set.place"], "it lies at 432100.51 -12.25, and set.place says 432100.5 -12.25"),
    (["depth", "wider.asc", "--place", "set.place"], "set.place is another grid's"),
    (["depth", "too-deep.asc", "--place", "set.place"], "row 1, column 0: a depth of 100.0000005 m is not 0 to 100 m"),
    (["depth", "below.asc", "--place", "set.place"], "row 1, column 0: a depth of -0.1 m is not 0 to 100 m"),
    (["depth", "with.asc", "--place", "set.place"], "its .prj file is not the one that set.place has of the bed"),
    (["roughness", "half-n.asc", "--place", "set.place"], "row 0, column 1: a roughness is a whole number, and this is 333.5"),
    (["roughness", "low-n.asc", "--place", "set.place"], "row 0, column 1: a roughness of 0 is not 1 to 10,000"),
    (["rate", "fast.asc", "--place", "set.place"], "row 1, column 0: a rate of 1000001 is not 0 to 1,000,000"),
    (["--back", "bed", "ours.asc"], "there is no ours.asc.place"),
    (["--back", "bed", "theirs.asc", "--place", "set.place"], "theirs.asc, line 3: this is no bed in the office's form"),
    (["--back", "bed", "not-ours.asc", "--place", "set.place"], "not-ours.asc, line 8: this is no bed in the office's form"),
    (["--back", "roughness", "ours.asc", "--place", "set.place"], "ours.asc, line 7: this is no roughness in the office's form"),
    (["--back", "bed", "ours.asc", "--place", "set.place", "--datum", "5"], "give no --datum on the way back"),
    (["--back", "bed", "nosuch.asc", "--place", "set.place"], "No such file"),
]
# which grid of ours, by the side file with a datum of 100.5 m, and the rows at the survey's corner
BACK = [
    ("bed", "ours.asc", "101.700000 101.600000 -9999\n101.650000 101.550000 101.500001\n"),
    ("depth", "ours.asc", "1.200000 1.100000 -9999\n1.150000 1.050000 1.000001\n"),
    ("roughness", "ours-n.asc", "300 333 -9999\n350 350 300\n"),
]
CORNERS = [("0", "0"), ("432100.5", "215000"), ("-1234567.125", "9876543.750")]


def ran(room, *words):
    return subprocess.run([sys.executable, TOP / "tools" / "office_grid.py", *words], capture_output=True, text=True, cwd=room)


def made(room, name, given, out="made.asc"):
    """The tool on a grid, with the words after it."""
    return ran(room, name, given[0], out, *given[1:])


def hold_made(checks, room):
    """Each grid and its side file as worked by hand."""
    for given in SAME_BED:
        told = made(room, "bed", [given])
        if checks.hold(told.returncode == 0 and "2 rounded to the micrometre" in told.stdout, f"{given}: {told.stdout}{told.stderr}"):
            checks.hold((room / "made.asc").read_text() == OURS, f"{given} becomes {(room / 'made.asc').read_text()}")
            place = esri((room / "made.asc.place").read_text().replace("datum 0\n", "0 " * 6), given)
            checks.hold((place.corner, place.side) == ((Decimal("432100.5"), Decimal("-12.25")), 10), f"{given} lies at {place.corner}")
            (room / "made.asc").unlink()
            (room / "made.asc.place").unlink()
    for name, given, wanted in MADE:
        told = made(room, name, [*given, "--replace"])
        checks.hold(told.returncode == 0, f"{name} {given}: {told.stderr}")
        checks.hold((room / "made.asc").read_text() == wanted, f"{name} {given} becomes {(room / 'made.asc').read_text()}")
        (room / "made.asc").unlink()
    checks.hold((room / "set.place").read_text() == FILES["set.place"], "the side file is not left as it was")
    (room / "made.asc.place").unlink()


def hold_refused(checks, room):
    """What cannot be brought is said in words, and nothing is written."""
    for given, why in REFUSED:
        at = 3 if given[0] == "--back" else 2
        told = ran(room, *given[:at], "made.asc", *given[at:])
        checks.hold(told.returncode == 1 and why in told.stderr and told.stdout == "", f"{given}: {told.stderr!r}, not {why!r}")
        checks.hold(not list(room.glob("made.*")), f"{given}: something is written")
    checks.hold(ran(room, "height", "theirs.asc", "made.asc").returncode == 2, "another grid than the four is taken")


def hold_kept(checks, room):
    """What is there already is not written over without --replace; the same text again is no harm."""
    for _ in range(2):
        checks.hold(made(room, "bed", ["theirs.asc"]).returncode == 0, "a grid is not made, or not made again")
    for words, there in ((["high.asc", "--datum", "100"], "made.asc.place"), (["polder.asc", "--datum", "-3"], "made.asc")):
        told = made(room, "bed", words)
        checks.hold(told.returncode == 1 and f"{there} is there already" in told.stderr, f"{there} is written over: {told.stderr}")
    checks.hold((room / "made.asc").read_text() == OURS and (room / "made.asc.place").read_text() == PLACE, "what is there is not left as it was")
    checks.hold(made(room, "bed", ["high.asc", "--datum", "100", "--replace"]).returncode == 0, "--replace does not write over")
    checks.hold((room / "made.asc.place").read_text() == PLACE.replace("datum 0", "datum 100"), "--replace leaves the side file")


def hold_back(checks, room):
    """The corner digit by digit, beds from the survey's own height, and the .prj file byte for byte."""
    for name, given, rows in BACK:
        told = ran(room, "--back", name, given, "back.asc", "--place", "set.place", "--replace")
        checks.hold(told.returncode == 0 and (room / "back.asc").read_text() == HEAD + rows, f"{name} comes back as {told.stderr}")
    checks.hold(not (room / "back.prj").exists(), "a .prj file is written where the survey has none")
    checks.hold(made(room, "bed", ["with.asc"], "put.asc").returncode == 0, "a grid with a .prj file is not brought")
    checks.hold((room / "put.asc.place").read_text() == PLACE + "".join(f"prj {line}\n" for line in PROJECTION.splitlines()), "the .prj file is not kept")
    told = ran(room, "--back", "bed", "put.asc", "back.asc", "--replace")
    checks.hold(told.returncode == 0 and (room / "back.prj").read_text() == PROJECTION, f"the .prj file does not come back: {told.stderr}")
    told = made(room, "depth", ["with.asc", "--place", "put.asc.place"], "depth.asc")
    checks.hold(told.returncode == 0, f"a depth with the bed's .prj file is not brought: {told.stderr}")
    told = made(room, "depth", ["other.asc", "--place", "put.asc.place"], "other-depth.asc")
    checks.hold(told.returncode == 1 and "its .prj file is not the one" in told.stderr, "a depth with another .prj file is brought")


def as_a_gis(chance, text):
    """A grid as some map program writes it, with the same numbers."""
    heads, rows = text.splitlines()[:6], text.splitlines()[6:]
    empty = chance.choice(("-9999", "-32768", FLOAT_NO_DATA, "nan"))
    rows = [" ".join(empty if word == "-9999" else word + "0" * chance.randint(0, 3) * ("." in word) for word in row.split()) for row in rows]
    heads[4:] = [heads[4] + ".0" * chance.randint(0, 1), f"NODATA_value {empty}"]
    lines = [chance.choice((line, line.upper() if "nan" not in line else line)) for line in heads] + [" " + row for row in rows]
    return "".join(line + chance.choice(("\n", "\r\n", " \n")) for line in lines)


def hold_samples(checks):
    """The sets of samples, taken to a corner and a datum, written as a map program writes them, and brought again: the same bytes, and the sheet."""
    chance = random.Random(104)
    for path in sorted(SAMPLES.rglob("*.sheet")):
        sheet = path.read_text()
        ours = moved_out(sheet)
        for corner in CORNERS:
            place = Place(tuple(map(Decimal, corner)), Decimal("12.5"))
            texts = {}
            for name, kind in GRIDS.items():
                theirs = esri(as_a_gis(chance, text_back(read_office(getattr(ours, name), kind), name, place)), path.name)
                checks.hold(theirs.corner == place.corner, f"the {name} of {path.name} lies at {theirs.corner}")
                texts[name] = office_text(brought(theirs, name, place.datum), kind)
                checks.hold(texts[name] == getattr(ours, name), f"the {name} of {path.name} at {corner} comes back as another")
            checks.hold(moved_back(Set(ours.note, **texts)) == sheet, f"{path.name} at {corner} does not come back")


def main():
    checks = Checks("office_grid")
    with tempfile.TemporaryDirectory() as folder:
        room = Path(folder)
        for name, text in FILES.items():
            (room / name).write_bytes(text.encode())
        hold_made(checks, room)
        hold_refused(checks, room)
        hold_kept(checks, room)
        hold_back(checks, room)
    hold_samples(checks)
    checks.end()


if __name__ == "__main__":
    main()
