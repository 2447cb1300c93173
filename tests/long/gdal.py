"""A real GDAL reads the grids that tools/depths.py writes, each depth to the micrometre, NODATA at closed squares alone and the corner where
it was; and tools/make_sheet.py reads grids that GDAL writes of them. It reads the grids of the survey office's sets that the built `to_survey`
makes, every number exactly; what it writes of them at a survey's corner tools/office_grid.py brings back byte for byte, so that the built
`from_survey` gives the sheet, and takes to that corner again."""
import json
import subprocess
import sys
import tempfile
from array import array
from decimal import Decimal
from pathlib import Path

from meadow.counted import Checks
from meadow.programs import TOP, printed_of_named
from meadow.sheets.lines import Sheet
from meadow.sheets.pairs import pair_in
from meadow.sheets.reading import read
from meadow.surveys.office import METRES, read_office
from meadow.surveys.places import Place, place_file, place_text
from meadow.surveys.sets import GRIDS, MOST_SQUARES, Set, moved_out, set_paths

SAMPLES = TOP / "samples"
# corners with and without decimals, and on both sides of 0
CORNERS = [("0", "0"), ("432100.5", "215000"), ("-1234567.125", "9876543.75")]
# a projection that GDAL writes as a .prj file
PROJECTION = "EPSG:27700"
EXACT = ("-oo", "DATATYPE=Float64")
NO_DATA = -9999


def ran(*words):
    return subprocess.run([str(word) for word in words], check=True, stdout=subprocess.PIPE, text=True).stdout


def tool(name, *words):
    return ran(sys.executable, TOP / "tools" / f"{name}.py", *words)


def deep():
    """Depths at the ends of their range: 0, 1 µm, just below and at 100 m, and digits that 32-bit numbers lose."""
    sheet = Sheet(2, 4, 7)
    for place, depth in zip(sorted(sheet.squares), (0, 1, 99_999_999, 100_000_000, 16_777_217, 12_345_678, 999_999)):
        sheet.put(place, 100_000_000 - depth, 300, depth)
    return sheet.text(0)


def values_in(path, room):
    """Every number of a grid as GDAL reads it, row by row."""
    raw = room / "raw.img"
    ran("gdal_translate", "-q", *EXACT, "-of", "ENVI", "-ot", "Float64", path, raw)
    numbers = array("d")
    numbers.frombytes(raw.read_bytes())
    if sys.byteorder != "little":
        numbers.byteswap()
    return list(numbers)


def hold_head(checks, name, sheet, corner, path):
    """Size, kind, NODATA and where the grid lies, as GDAL says them."""
    told = json.loads(ran("gdalinfo", "-json", *EXACT, path))
    (band,) = told["bands"]
    west, north = float(corner[0]), float(Decimal(corner[1]) + sheet.rows * sheet.side)
    checks.hold(told["driverShortName"] == "AAIGrid", f"{name}: GDAL takes it for {told['driverShortName']}")
    checks.hold(told["size"] == [sheet.columns, sheet.rows], f"{name}: GDAL has {told['size']}")
    checks.hold(told["geoTransform"] == [west, sheet.side, 0, north, 0, -sheet.side], f"{name}: GDAL puts it at {told['geoTransform']}")
    checks.hold((band["type"], band["noDataValue"]) == ("Float64", NO_DATA), f"{name}: GDAL has {band['type']}, NODATA {band['noDataValue']}")


def hold_values(checks, name, pair, numbers):
    """Each depth to the micrometre and no farther off than a 64-bit number must be, and NODATA at closed squares alone."""
    for place, number in zip(sorted(pair.sheet.squares), numbers, strict=True):
        wanted = pair.answer.depths.get(place)
        right = number == NO_DATA if wanted is None else number == wanted / 1_000_000
        checks.hold(right, f"{name}: square {place} is {number!r} to GDAL, and {wanted} µm in the answer")


def hold_sheet(checks, path, room):
    """A sheet's depths as GDAL reads them, with each corner."""
    pair = pair_in(path)
    for corner in CORNERS:
        place_file(path).write_text(place_text(pair.sheet, Place(tuple(map(Decimal, corner)))))
        grid = room / "depths.asc"
        grid.write_text(tool("depths", path))
        name = f"{path.name} at {' '.join(corner)}"
        hold_head(checks, name, pair.sheet, corner, grid)
        hold_values(checks, name, pair, values_in(grid, room))


def hold_back(checks, room):
    """A grid that GDAL has written, as beds of a sheet: its heights, its closed squares and its corner are those that we wrote."""
    path = room / "held-pond.sheet"
    place_file(path).write_text(place_text(read(path.read_text())[0], Place((Decimal("432100.5"), Decimal("215000")))))
    ours, theirs, made = room / "ours.asc", room / "theirs.asc", room / "made.sheet"
    ours.write_text(tool("depths", path))
    ran("gdal_translate", "-q", *EXACT, "-of", "AAIGrid", "-co", "DECIMAL_PRECISION=6", ours, theirs)
    tool("make_sheet", theirs, made, "--end", "0:10", "--roughness", "0.03")
    depths, sheet = pair_in(path).answer.depths, read(made.read_text())[0]
    for place in sheet.squares:
        checks.hold(sheet.squares[place].get("bed") == depths.get(place), f"square {place} is {sheet.squares[place]} by way of GDAL")
    head = dict(line.split() for line in place_file(made).read_text().splitlines())
    checks.hold((Decimal(head["xllcorner"]), Decimal(head["yllcorner"])) == (Decimal("432100.5"), 215000), f"by way of GDAL the corner is {head}")


def highest():
    """Beds, roughness and rates at the ends of their ranges, and water; an exit and a wall."""
    sheet = Sheet(3, 3, 100)
    places = sorted(sheet.squares)
    ground = zip((0, 1, 999_999_999, 1_000_000_000, 16_777_217, 123_456_789, 536_870_913, 1), (1, 10_000, 9_999, 350, 2, 3, 4, 5))
    for at, (bed, roughness) in enumerate(ground):
        sheet.put(places[at], bed, roughness, 7 * at, "e" if at == 0 else "o", rate=(0, 1, 999_999, 1_000_000)[at % 4])
    return sheet.text(0)


def set_made(checks, path, room):
    """The set that the built program makes of a sheet."""
    files = set_paths(str(room), "made").values()
    told = printed_of_named("to_survey", path, *files)
    made = Set(*(Path(file).read_text() for file in files))
    checks.hold((told, made) == ("", moved_out(path.read_text())), f"{path.name} is moved to another set: {told!r}")
    return made


def hold_office(checks, path, room):
    """Each grid of a sheet's set as GDAL reads it: its head, and every number exactly."""
    ours = set_made(checks, path, room)
    sheet, _ = read(path.read_text(), MOST_SQUARES)
    for part, kind in GRIDS.items():
        grid, name = room / "office.asc", f"the {part} of {path.name}"
        grid.write_text(getattr(ours, part))
        hold_head(checks, name, sheet, CORNERS[0], grid)
        unit = 1_000_000 if kind is METRES else 1
        for place, told, wanted in zip(sorted(sheet.squares), values_in(grid, room), read_office(getattr(ours, part), kind).numbers, strict=True):
            right = told == NO_DATA if wanted is None else told == wanted / unit
            checks.hold(right, f"{name}: square {place} is {told!r} to GDAL, and {wanted} in the set")


def at_a_corner(ours, part, corner, sheet, room):
    """A grid of a set at a corner and with a projection, as GDAL writes it."""
    grid, theirs = room / "office.asc", room / f"{part}-theirs.asc"
    grid.write_text(getattr(ours, part))
    west, south = (Decimal(number) for number in corner)
    box = (west, south + sheet.rows * sheet.side, west + sheet.columns * sheet.side, south)
    how = ("-of", "AAIGrid", "-a_srs", PROJECTION, "-a_ullr", *box, "-co", "DECIMAL_PRECISION=9", "-co", "FORCE_CELLSIZE=TRUE")
    ran("gdal_translate", "-q", *EXACT, *how, grid, theirs)
    return theirs


def hold_brought(checks, path, room):
    """What GDAL writes of a set at a corner is brought back byte for byte, and the set is the sheet's; the grids go to the corner again."""
    ours, sheet = moved_out(path.read_text()), read(path.read_text(), MOST_SQUARES)[0]
    for corner in CORNERS:
        texts, side_file = {}, room / "set.place"
        for part in GRIDS:
            theirs = at_a_corner(ours, part, corner, sheet, room)
            made, back = room / f"{part}.asc", room / f"{part}-back.asc"
            tool("office_grid", part, theirs, made, "--place", side_file, "--replace")
            texts[part] = made.read_text()
            name = f"the {part} of {path.name} at {' '.join(corner)}"
            checks.hold(texts[part] == getattr(ours, part), f"{name} is another by way of GDAL")
            tool("office_grid", "--back", part, made, back, "--place", side_file, "--replace")
            hold_head(checks, name, sheet, corner, back)
            kept = [file.with_suffix(".prj").read_text().split() for file in (theirs, back)]
            checks.hold(kept[0] == kept[1] != [], f"{name} has another .prj file")
        files = set_paths(str(room), "brought")
        for part, file in files.items():
            Path(file).write_text(texts.get(part, ours.note))
        checks.hold(printed_of_named("from_survey", *files.values()) == path.read_text(), f"{path.name} does not come back by way of GDAL")


def main():
    checks = Checks("gdal")
    with tempfile.TemporaryDirectory() as folder:
        room = Path(folder)
        (room / "deep.sheet").write_text(deep())
        for sample in sorted(SAMPLES.glob("*.sheet")):
            (room / sample.name).write_text(sample.read_text())
        for path in sorted(room.glob("*.sheet")):
            hold_sheet(checks, path, room)
        hold_back(checks, room)
        (room / "highest.sheet").write_text(highest())
        for path in sorted(room.glob("*.sheet")):
            hold_office(checks, path, room)
            hold_brought(checks, path, room)
    checks.end()


if __name__ == "__main__":
    main()
