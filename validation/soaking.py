"""Soaking: what has soaked by the clock, rain against soaking, and where the rain of a meadow goes."""
from meadow.programs import TOP, meadow
from meadow.sheets.lines import HOUR, MINUTE, SECOND, Sheet
from meadow.sheets.reading import read
from shared import USUAL, claim, limits, table, uneven

PITS, SIDE = 9, 10
# names of step limits, with the limits
STEPS = {"usual": USUAL, "all 777 ms": limits(10, 777, 777, 60_000), "all 60 s": limits(10, 60_000, 60_000, 60_000)}
BASIN = 4
LOAM = 10_000
SAMPLE = TOP / "samples" / "soaking-meadow.sheet"


def pits(run):
    """Open squares with closed ones on every side, each with a rate and a depth of its own: no water moves, so that all of it soaks."""
    sheet = Sheet(PITS, PITS, SIDE, **run)
    for row, column in sheet.squares:
        if (row + column) % 2 == 0:
            place = row, column
            sheet.put(place, uneven(place, 900_000), 300, uneven(place, 400_000), rate=uneven((column, row), 1_000_000))
    return sheet


def soaked_by(sheet, place, clock):
    """What has soaked into a pit by a clock: what is due, until it is dry."""
    return min(sheet.depth(place), sheet.squares[place]["rate"] * clock // HOUR)


def pit_rows(ends):
    for name, run in STEPS.items():
        sheet = pits(run)
        for end in ends:
            answer = meadow(sheet.text(end))
            due = {place: soaked_by(sheet, place, end) for place in sheet.ground()}
            differ = sum(answer.depth(place) != sheet.depth(place) - due[place] for place in due)
            dry = sum(depth == 0 for depth in answer.depths.values())
            yield (name, end // MINUTE, answer.steps, len(due), dry, answer.soaked, sum(due.values()), differ)
            claim(differ == 0 and answer.soaked == sum(due.values()), f"{name}: what has soaked by {end} ms is not what is due by the clock")


def level_basin(depth, rain, until, run):
    """A level basin of loam under rain."""
    sheet = Sheet(BASIN, BASIN, SIDE, **run)
    for place in sheet.squares:
        sheet.put(place, 0, 300, depth, rate=LOAM)
    sheet.rain.append((0, until, rain))
    return sheet


def balance_rows(ends):
    """Rain at the soak rate, at half and at twice of it, on a wet basin and a dry one; per square, since all are alike."""
    squares = BASIN * BASIN
    for start, rain in ((10_000, LOAM), (0, LOAM), (0, LOAM // 2), (0, 2 * LOAM)):
        for end in ends:
            answer = meadow(level_basin(start, rain, HOUR, USUAL).text(end))
            fallen = rain * min(end, HOUR) // HOUR
            (depth,) = set(answer.depths.values())
            yield (start, rain, end // MINUTE, fallen, answer.soaked // squares, depth, start + fallen - answer.soaked // squares - depth)
            claim(squares * (start + fallen) == answer.soaked + answer.water(), "water was lost or made")
            # in a step of 10 s so much rain falls; it soaks in the next one
            last_step = rain * 10 * SECOND // HOUR + 1
            if start > 0 and rain == LOAM and end <= HOUR:
                claim(depth == start, "rain at the soak rate changes the water that stands")
            if start == 0 and rain <= LOAM:
                claim(depth <= (last_step if end <= HOUR else 0), "more than one step's rain stands on ground that could take it")


def account_rows(longest):
    """The sample with other steps: what fell, where it is."""
    for steps in longest:
        sheet, end = read(SAMPLE.read_text(encoding="ascii"))
        sheet.run.update(limits(10, 500, steps * SECOND, 60_000))
        answer = meadow(sheet.text(end))
        ((start, until, rate),) = sheet.rain
        fallen = len(sheet.ground()) * (rate * (until - start) // HOUR)
        difference = fallen - answer.water() - answer.out - answer.soaked
        yield (steps, answer.steps, fallen, answer.out, answer.soaked, answer.water(), difference)
        claim(difference == 0, "the sample's account does not balance")


def figures(long):
    ends = [MINUTE, 10 * MINUTE, HOUR] + ([6 * HOUR, 48 * HOUR] if long else [])
    heads = ["steps of", "minutes", "steps", "pits", "dry", "soaked, µm over one square", "due by the clock", "pits that differ"]
    yield from table(heads, pit_rows(ends))
    yield ""
    heads = ["water at the start, µm", "rain, µm/h", "minutes", "fallen, µm", "soaked, µm", "on the ground, µm", "difference"]
    yield from table(heads, balance_rows([MINUTE, HOUR, 61 * MINUTE] + ([90 * MINUTE] if long else [])))
    yield ""
    heads = ["longest step, s", "steps", "fallen, µm over one square", "out", "soaked", "on the ground", "difference"]
    yield from table(heads, account_rows([1, 5, 10, 20, 60] if long else [20]))
