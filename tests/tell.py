"""tools/tell.py on sheets, steps and an account worked by hand, on what is likely a slip, on ground that was guessed, on the samples, and on answers
that are wrong."""
import re
import subprocess
import sys
import tempfile
from pathlib import Path

from meadow.counted import Checks
from meadow.programs import TOP
from meadow.sheets.account import account, lines_of
from meadow.sheets.lines import HOUR, MINUTE, Answer, Sheet, answer_text
from meadow.words import units

TOOL = TOP / "tools" / "tell.py"
SAMPLES = TOP / "samples"
BALANCED = "balanced to the micrometre"
SLIP = "likely a slip: "


def told(*files):
    return subprocess.run([sys.executable, TOOL, *files], capture_output=True, text=True)


def amounts(said):
    """Of each line its name and its micrometres."""
    lines = [line for line in said.splitlines() if line.endswith("over one square") and " m³" in line]
    return {line[:14].strip(): int(line.split("m³")[1].split("µm")[0].replace(",", "")) for line in lines}


def hold_by_hand(checks):
    """Two squares of 10 m and a wall for an hour: 1 mm and 2 mm at the start, rain of 3,600 µm/h, a hatch of 1 l/s for the first minute.
    Rain gives 3,600 each, the hatch 60,000 l over 100 m² = 600 µm; together 10,800. The wall's rain is not counted."""
    sheet = Sheet(1, 3, 10, tolerance=10, shortest=1_000, longest=10_000, update=MINUTE)
    sheet.put((0, 0), 0, 300, 1_000, rate=500)
    sheet.put((0, 1), 0, 300, 2_000, "e")
    sheet.rain, sheet.inflow = [(0, HOUR, 3_600)], [(0, 0, 0, MINUTE, 1)]
    for last, right in ((5_000, True), (5_001, False), (4_999, False)):
        totals = {"outflow": 1_300, "soaked": 500, "steps": 1, "clock": HOUR}
        made = account(sheet, HOUR, Answer(answer_text({(0, 0): 4_000, (0, 1): last}, totals)))
        said = "".join(f"{line}\n" for line in lines_of(made))
        wanted = {"on the meadow": 4_000 + last, "gone by exits": 1_300, "soaked": 500, "there is": 5_800 + last}
        wanted |= {"at the start": 3_000, "rain": 7_200, "hatches": 600, "came": 10_800}
        checks.hold(amounts(said) == wanted, f"an account with {last} in the east: not as worked by hand")
        checks.hold(f"{(4_000 + last) / 10_000:.3f} m³" in said, f"an account with {last} in the east: its m³")
        checks.hold((made.off() == 0) == right and (BALANCED in said) == right, f"an account with {last} in the east: balanced or not")


def hold_steps(checks, room):
    """The steps of sheets worked by hand: an evening of an hour in spans of a minute, 60 of them; a span of 1 s in steps of 300 or 700 ms
    has 4 or 2; a run that ends where it begins has none; a sheet with bad rules is said to be none."""
    cases = [
        ((1_000, MINUTE, MINUTE, HOUR), "at most 3,600 steps, at least 60"),
        ((300, 700, 1_000, 3_000), "at most 12 steps, at least 6"),
        ((300, 700, 1_000, 0), "at most 0 steps, at least 0"),
    ]
    text = Path(room) / "sheet"
    for (shortest, longest, update, end), wanted in cases:
        sheet = Sheet(1, 1, 10, shortest=shortest, longest=longest, update=update)
        sheet.put((0, 0), 0, 300)
        text.write_text(sheet.text(end))
        said = told(text)
        checks.hold(said.returncode == 0 and f": {wanted}\n" in said.stdout, f"steps of {shortest} to {longest} ms: {said.stdout!r}")
    text.write_text(Sheet(1, 1, 10, shortest=0).text(MINUTE))
    checks.hold(told(text).returncode == 1 and "number 5" in told(text).stderr, "steps are told of a sheet with a shortest of 0")


def meadow(**run):
    """Two rows of seven squares of 10 m from 1.57 to 2.00 m, with an exit in the far corner: no slip in it."""
    sheet = Sheet(2, 7, 10, **{"edge": 50, **run})
    for row, column in sheet.squares:
        sheet.put((row, column), 2_000_000 - 40_000 * column - 190_000 * row, 350, mark="e" if (row, column) == (1, 6) else "o")
    return sheet


def hold_words(checks, room):
    """A sheet in a person's units, each line worked by hand: 20 mm/h for 1/6 h are 3.3 mm, 30 l/s for 240 s are 7.2 m³; beyond the end of
    ten minutes nothing is counted."""
    sheet = meadow()
    sheet.put((1, 0), 1_700_000, 300, 50_000, rate=10_000)
    sheet.rain = [(0, 10 * MINUTE, 20_000), (5 * MINUTE, 20 * MINUTE, 6_000)]
    sheet.inflow = [(0, 1, MINUTE, 5 * MINUTE, 30), (0, 0, 0, 90_000, 1_000), (0, 0, 90_000, HOUR, 10)]
    wanted = [
        "2 by 7 squares of 10 m, 1,400 m²: 0 closed, 1 exit",
        "ground 1.57 to 2.00 m, n 0.03 to 0.035, soaking 0 to 10 mm/h",
        "water at the start: 5.0 m³, deepest 5.0 cm",
        "rain 20 mm/h for 10 min: 3.3 mm in all",
        "rain 6 mm/h from 5 to 20 min: 0.5 mm in all",
        "hatch 0,0: 1,000 l/s from 0 to 1 min 30 s, 10 l/s from 1 min 30 s to 1 h, 95.1 m³ (number 1 on the map)",
        "hatch 0,1: 30 l/s from 1 to 5 min, 7.2 m³ (number 2 on the map)",
        "run to 10 min: at most 1,200 steps, at least 60",
    ]
    text = Path(room) / "sheet"
    text.write_text(sheet.text(10 * MINUTE))
    said = told(text).stdout.splitlines()
    said = [line for line in said if not line.startswith(SLIP)]
    checks.hold(said == wanted, f"the sheet in words is {said}")


# an amount as people say it, at the ends of each scale: nothing that there is is said to be nothing
SAID = [
    *((units.depth, amount, said) for amount, said in ((0, "0 mm"), (1, "under 0.1 mm"), (99, "under 0.1 mm"), (100, "0.1 mm"), (9_949, "9.9 mm"))),
    *((units.depth, amount, said) for amount, said in ((10_000, "1.0 cm"), (100_000, "10 cm"), (454_000, "45 cm"), (1_000_000, "1.00 m"))),
    *((units.volume, amount, said) for amount, said in ((0, "0 m³"), (0.0009, "under 0.001 m³"), (0.001, "0.001 m³"), (0.4145, "0.4 m³"))),
    *((units.volume, amount, said) for amount, said in ((99.94, "99.9 m³"), (100, "100 m³"), (1_364.2, "1,364 m³"))),
    *((units.time, ms, said) for ms, said in ((0, "0 min"), (500, "0.5 s"), (90_000, "1 min 30 s"), (3_600_000, "1 h"), (4_200_000, "1 h 10 min"))),
    (units.time, 604_800_000, "168 h"),
    (units.rain_depth, 30_000, "30.0 mm"),
    (units.rain_depth, 99, "under 0.1 mm"),
    (units.steps, 1, "1 step"),
    (units.steps, 1_200, "1,200 steps"),
    (units.rain_rate, 1_000_000, "1,000 mm/h"),
    (units.roughness, 350, "0.035"),
    (units.height, 1_567_000, "1.57"),
]
SPANS = {(60_000, 300_000): "1 to 5 min", (0, 90_000): "0 to 1 min 30 s", (10_000, 100_000): "10 s to 1 min 40 s", (3_600_000, 7_200_000): "1 to 2 h"}


def hold_units(checks):
    """Amounts and spans of time as people say them."""
    for say, amount, wanted in SAID:
        checks.hold(say(amount) == wanted, f"{say.__name__} of {amount} is said as {say(amount)}")
    for span, wanted in SPANS.items():
        checks.hold(units.span(*span) == wanted, f"{span} is said as {units.span(*span)}")


def house_in_outline():
    """Five by five squares under rain, and in their middle one that is walled round; the wall reaches no rim."""
    sheet = Sheet(5, 5, 10)
    for row, column in sheet.squares:
        if max(abs(row - 2), abs(column - 2)) != 1:
            sheet.put((row, column), 1_000_000 + 10_000 * row, 350)
    sheet.rain = [(0, MINUTE, 20_000)]
    return sheet


def edited(change, **run):
    """The meadow without a slip, changed."""
    sheet = meadow(**run)
    change(sheet)
    return sheet


def basin(holes=(), bed=0, **run):
    """Seven rows of nine squares of 10 m from 2.60 to 3.00 m, where some squares have another bed."""
    sheet = Sheet(7, 9, 10, **{"edge": 50, **run})
    for row, column in sheet.squares:
        sheet.put((row, column), 3_000_000 - 50_000 * column, 350)
    for place in holes:
        sheet.put(place, bed, 350)
    return sheet


def closed(sheet, *places):
    """A sheet with some squares closed."""
    sheet.squares |= {place: {"mark": "x"} for place in places}
    return sheet


def relief_slips():
    """Beds that are likely no heights, and walls that are likely none: the sheet, and what is said of it; None: nothing."""
    house = [(2, 3), (2, 4), (3, 3)]
    # the ground beside it is at least 2.75 m high, and the step that parts a pit 2 m
    yield basin(house), "bed 0 at row 2, column 3 and 2 more squares, 300 m², 2.75 m or more below all ground beside it: surveys write no data so"
    yield basin(house, 1), "a pit at row 2, column 3 and 2 more squares, 300 m², 2.75 m or more below all ground beside it, and water drains into it"
    yield basin([(2, 3)], 800_000), "a pit at row 2, column 3, 100 m², 2.00 m or more below"
    yield basin([(2, 3)], 800_001), None
    yield basin([(2, 3)], 4_900_000), "a spike at row 2, column 3, 100 m², 2.00 m or more above all ground beside it: mend its bed"
    yield basin([(2, 3)], 4_899_999), None
    # of a 0 it is told from 50 cm on
    low = basin([(2, 3)])
    for square in low.squares.values():
        square["bed"] = max(0, square["bed"] - 2_300_000)
    yield low, "bed 0 at row 2, column 3, 100 m², 0.50 m or more below"
    for square in low.squares.values():
        square["bed"] = max(0, square["bed"] - 1)
    yield low, None
    # a 0 is told of up to half of the ground, a pit up to a quarter
    half = [(row, column) for row in range(7) for column in range(4)]
    yield basin(half), "bed 0 at row 0, column 0 and 27 more squares"
    yield basin(half, 1), None
    # a channel to an exit is no pit, and the same without its exit is one
    ditch = basin([(3, column) for column in range(9)], 500_000)
    yield ditch, "a pit at row 3, column 0 and 8 more squares"
    ditch.squares[3, 8]["mark"] = "e"
    yield ditch, None
    yield closed(basin(), (3, 4)), "closed alone amid open ground: row 3, column 4, 100 m²: a hole in a survey becomes a wall"
    yield closed(basin(), (3, 4), (3, 5)), None
    yield closed(basin(), (0, 4)), None
    wall = [(3, column) for column in (1, 2, 3, 5)]
    yield closed(basin(), *wall), "open alone in a line of closed squares: row 3, column 4, 100 m²: water goes through as by a door"
    yield closed(basin(), *((column, row) for row, column in wall)), "open alone in a line of closed squares: row 4, column 3, 100 m²"
    yield closed(basin(), (3, 3), (3, 5), (2, 3), (2, 5)), None
    # a lane between two houses, two squares long
    yield closed(basin(), *wall, *((4, column) for _, column in wall)), None


def set_all(name, value):
    """A change of a field of every square."""
    return lambda sheet: [square.update({name: value}) for square in sheet.squares.values()]


def slips():
    """What is likely a slip: the sheet, its end, and what is said of it; None: nothing."""
    yield from ((sheet, 10 * MINUTE, wanted) for sheet, wanted in relief_slips())
    nothing = lambda sheet: None
    rain = lambda rate: lambda sheet: sheet.rain.append((0, MINUTE, rate))
    hatch = lambda *row: lambda sheet: sheet.inflow.append(row)
    yield edited(nothing), 10 * MINUTE, None
    yield edited(rain(99)), 10 * MINUTE, "line 17: 0.099 mm/h is hardly rain"
    yield edited(rain(100)), 10 * MINUTE, None
    yield edited(rain(300_000)), 10 * MINUTE, None
    yield edited(rain(300_001)), 10 * MINUTE, "line 17: 300.001 mm/h is more than falls"
    yield edited(set_all("roughness", 99)), 10 * MINUTE, "n is 0.0099 at row 0, column 0 and 13 other squares, outside 0.01 to 1"
    yield edited(set_all("roughness", 100)), 10 * MINUTE, None
    yield edited(set_all("roughness", 10_000)), 10 * MINUTE, None
    yield edited(set_all("bed", 1_570_000)), 10 * MINUTE, "the ground is all flat, at 1.57 m"
    yield edited(nothing, update=1_000), 9_000, "line 2: the run to 9 s is shorter than its longest step, 10 s"
    yield edited(nothing, update=1_000), 10_000, None
    # 60 m west of the exit; one square more is 70 m by the diagonal's length
    yield edited(hatch(1, 0, 0, MINUTE, 30)), 10 * MINUTE, "hatch 1,0 is 60 m from the exit at row 1, column 6: the edge slope 50 decides"
    cliff = "1,300 m² of ground lie within 60 m of an exit{}, and the edge slope is 10,000: such an exit drains like a cliff"
    yield edited(hatch(1, 0, 0, MINUTE, 30), edge=10_000), 10 * MINUTE, cliff.format(", hatch 1,0 among them")
    yield edited(nothing, edge=10_000), 10 * MINUTE, cliff.format("")
    yield edited(nothing, edge=9_999), 10 * MINUTE, None
    yield edited(hatch(1, 0, 0, MINUTE, 30), edge=0), 10 * MINUTE, None
    yield edited(hatch(0, 0, 0, MINUTE, 30)), 10 * MINUTE, None
    yield edited(hatch(0, 0, 10 * MINUTE, 20 * MINUTE, 30)), 10 * MINUTE, "line 17: this inflow gives nothing in a run to 10 min"
    yield edited(nothing, shortest=1_001, longest=1_001), 10 * MINUTE, "line 2: every step lasts 1.001 s, long for squares of 10 m"
    yield edited(nothing, shortest=1_000, longest=1_000), 10 * MINUTE, None
    yield edited(nothing, tolerance=50), 10 * MINUTE, "the slope tolerance 50 is not below the edge slope 50"
    yield edited(nothing, tolerance=49), 10 * MINUTE, None
    yield edited(nothing, edition=3), 10 * MINUTE, "edition 3 is there to be compared"
    yield house_in_outline(), 10 * MINUTE, "walled in on all sides: row 2, column 2, 100 m²: rain wets a house that is walled only in outline"


def hold_slips(checks, room):
    """Each slip is said just where it begins, and a sheet without one is left alone."""
    text = Path(room) / "sheet"
    for sheet, end, wanted in slips():
        text.write_text(sheet.text(end))
        said = told(text)
        found = [line for line in said.stdout.splitlines() if line.startswith(SLIP)]
        right = found == [] if wanted is None else len(found) == 1 and wanted in found[0]
        checks.hold(said.returncode == 0 and right, f"{wanted or 'no slip'}: {found}{said.stderr}")


def hold_guesses(checks, room):
    """Ground that was guessed is told after the slips, by the list beside the sheet; another sheet's list is refused."""
    path = Path(room) / "guessed.sheet"
    sheet = Sheet(1, 4, 10)
    for column, bed in enumerate((3_000_000, 2_000_000, 2_000_000, 2_000_000)):
        sheet.put((0, column), bed, 300)
    path.write_text(sheet.text(MINUTE))
    checks.hold("guessed" not in told(path).stdout, "without a list something is said to be guessed")
    Path(f"{path}.guessed").write_text("0\t1\t2000000\t2\n0\t2\t2000000\t1\n")
    said = told(path).stdout.splitlines()[-3:]
    wanted = [
        "2 beds guessed in 2 rounds, each the lowest beside it: look at them before you trust the water",
        "row 0, column 1: guessed 2.00 m, the bed to the east (row 0, column 2, itself guessed)",
        "row 0, column 2: guessed 2.00 m, the bed to the east (row 0, column 3)",
    ]
    checks.hold(said == wanted, f"of guessed ground it is said: {said}")
    sheet.squares[0, 3]["bed"] = 1_000_000
    path.write_text(sheet.text(MINUTE))
    said = told(path).stdout.splitlines()[-1]
    checks.hold(said == "row 0, column 2: guessed 2.00 m, which no neighbour has any more", f"of a guess beside a changed bed: {said}")
    Path(f"{path}.guessed").write_text("0\t1\t2000001\t1\n")
    checks.hold("guessed.sheet.guessed has a bed of 2000001 for square 0 1" in told(path).stderr, "another sheet's list is taken")


def hold_samples(checks):
    """Every sample balances; an answer to another sheet is refused."""
    for sheet in sorted(SAMPLES.glob("*.sheet")):
        said = told(sheet, sheet.with_suffix(".out"))
        checks.hold(said.returncode == 0 and said.stdout.endswith(BALANCED + "\n"), f"{sheet.name} does not balance")
        most, least = (int(number.replace(",", "")) for number in re.findall(r"at (?:most|least) ([\d,]+)", said.stdout))
        made = int(re.search(r"^steps\t(\d+)$", sheet.with_suffix(".out").read_text(), re.M)[1])
        checks.hold(least <= made <= most, f"{sheet.name} made {made} steps, {least} to {most} were told")
    other = told(SAMPLES / "held-pond.sheet", SAMPLES / "document-01.out")
    checks.hold(other.returncode == 1 and "another sheet's" in other.stderr, "another sheet's answer is taken")


def main():
    checks = Checks("tell")
    hold_units(checks)
    hold_by_hand(checks)
    with tempfile.TemporaryDirectory() as room:
        hold_steps(checks, room)
        hold_words(checks, room)
        hold_slips(checks, room)
        hold_guesses(checks, room)
    hold_samples(checks)
    checks.end()


if __name__ == "__main__":
    main()
