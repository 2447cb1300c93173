"""The three editions of the rule side by side: the waves, the pond, the lake, the basin, and two meadows."""
import analytical_wave
import basin
import lake
import long_step
import pond
from meadow.programs import meadow
from meadow.rule.step_length import fresh_length
from meadow.rule.weighing import EDITIONS, WEIGHTED
from meadow.sheets.account import account
from meadow.sheets.grounds import HELD_MOUTH, LEAT, drowned_meadow, filling_pond, opened_pond
from meadow.sheets.lines import DAY, HOUR, MINUTE, SECOND, Unreadable
from meadow.sheets.reading import with_answer
from meadow.sheets.standing import standing_squares
from shared import USUAL, claim, limits, table

# source 000, Fig. 5: fixed steps of three and four times the least one of Table 1, in ms
FIXED = {25: (3 * 38, 4 * 38), 10: (3 * 6, 4 * 6)}
# a rise of the water downstream, or a change between two runs, that is told
MILLIMETRE, CENTIMETRE = 1_000, 10_000


def by(edition, sheet):
    """The sheet by an edition."""
    sheet.run["edition"] = edition
    return sheet


def drops(sheet, answer):
    """Every fall of the water's surface from a square to one beside it, in µm."""
    levels = {place: sheet.bed(place) + depth for place, depth in answer.depths.items()}
    for (row, column), level in levels.items():
        for near in ((row - 1, column), (row, column + 1), (row + 1, column), (row, column - 1)):
            if near in levels and answer.depths[row, column] > 0:
                yield max(0, level - levels[near])


# ---- the waves


def wave(side, run, edition):
    """An hour of the wave, which loses no water."""
    sheet, _ = analytical_wave.wave_sheet(side, {**run, "edition": edition})
    answer = meadow(sheet.text(HOUR))
    claim(answer.water() == sum((end - start) * litres for _, _, start, end, litres in sheet.inflow) // side**2, "the wave lost water")
    return answer


def wave_row(side, name, edition, answer):
    """The true wave falls all the way from its inlet, so that water which rises downstream is a wobble."""
    places = analytical_wave.fold(analytical_wave.WAVES[side])
    found, told = analytical_wave.compare(answer, places, side)
    wet, _, own = analytical_wave.errors(found, told)
    rises = [answer.depths[after] - answer.depths[before] for before, after in zip(places, places[1:])]
    ahead = sum(depth > 0 for depth in found) - sum(depth > 0 for depth in told)
    wobble = (sum(rise > MILLIMETRE for rise in rises), f"{max(0, *rises) / MILLIMETRE:.1f}")
    return (side, name, edition, answer.steps, f"{wet:.4f}", f"{own:.4f}", f"{found[0]:.3f}", f"{told[0]:.3f}", ahead, *wobble)


def wave_rows(long):
    for side in FIXED if long else (25,):
        if long:
            answers = {edition: wave(side, analytical_wave.OWN_STEPS, edition) for edition in EDITIONS}
            claim(len({answer.text for answer in answers.values()}) == 1, f"with the method's own steps the editions differ at D = {side}")
            yield from (wave_row(side, "the method's own", edition, answer) for edition, answer in answers.items())
        for fixed in FIXED[side] if long else FIXED[side][1:]:
            run = limits(0, fixed, fixed, 60_000)
            rows = [wave_row(side, f"all {fixed} ms", edition, wave(side, run, edition)) for edition in EDITIONS]
            first, second, third = (float(row[4]) for row in rows)
            claim(3 * first < third < second, f"Fig. 5 is otherwise at D = {side}, {fixed} ms")
            yield from rows


# ---- the pond


POND_STEPS = {
    "usual": USUAL,
    "all 200 ms": limits(0, 200, 200, 60_000),
    "all 50 ms": limits(0, 50, 50, 60_000),
    "tolerance 10, from 1 ms": limits(10, 1, 10_000, 60_000),
    "the method's own": analytical_wave.OWN_STEPS,
}


def next_step(sheet, answer):
    """The length of the pond's next step, and the most by which it changes a depth."""
    length = fresh_length(with_answer(sheet, answer))
    after = by(sheet.run["edition"], filling_pond())
    after.run.update(limits(0, length, length, length))
    after.inflow.clear()
    for place, depth in answer.depths.items():
        after.squares[place]["depth"] = depth
    moved = meadow(after.text(length)).depths
    return length, max(abs(moved[place] - depth) for place, depth in answer.depths.items())


def settled_row(name, edition):
    """The pond an hour after its hatch was drawn, fifty minutes after it was shut."""
    sheet = by(edition, filling_pond())
    sheet.run.update(POND_STEPS[name])
    answer = meadow(sheet.text(HOUR))
    return (name, edition, answer.steps, len(standing_squares(sheet, answer)), max(drops(sheet, answer)), *next_step(sheet, answer))


def settled_rows(long):
    for name in POND_STEPS if long else ("usual", "all 50 ms"):
        rows = [settled_row(name, edition) for edition in EDITIONS]
        claim(rows[0][3] > 0 and rows[0][4] < min(rows[1][4], rows[2][4]), f"edition 1 is not the calmest with {name}")
        yield from rows


def held_rows(water):
    """The held pond, which edition 1 lets nothing out of, opened by each edition."""
    for edition in EDITIONS:
        for end in (MINUTE, 10 * MINUTE, HOUR):
            sheet = by(edition, opened_pond(water, HELD_MOUTH))
            answer = meadow(sheet.text(end))
            claim((answer.out == 0) == (edition == WEIGHTED), "the held pond is not freed by editions 2 and 3 alone")
            share = f"{100 * answer.out / sum(water.values()):.1f} %"
            yield (edition, end // MINUTE, answer.steps, len(standing_squares(sheet, answer)), answer.out, share)


def mouth_rows(water):
    """Each mouth of the bank in turn, an hour after it is opened."""
    for name, start in (("as edition 1 settled it", water), ("put level by hand", pond.made_level(water))):
        for edition in EDITIONS:
            shares = []
            for mouth in pond.bank():
                after = meadow(by(edition, opened_pond(start, mouth)).text(HOUR)).depths
                shares.append(sum(depth - after[place] for place, depth in start.items()) / sum(start.values()))
            flowing = [share for share in shares if share > 0]
            yield (name, edition, len(shares), len(shares) - len(flowing), f"{100 * min(flowing):.1f} %", f"{100 * max(flowing):.1f} %")


# ---- the lake and the basin


LAKE_STEPS = {"usual": USUAL, "all 1 ms": limits(0, 1, 1, SECOND)}


def disturbed(peak):
    """The lake with one square 1 mm too high."""
    sheet = lake.lake(peak)
    sheet.squares[5, 5]["depth"] += MILLIMETRE
    return sheet


def lake_row(name, steps, sheet, end):
    """What changes on the lake; where a square would come to be more than 100 m deep the run is refused by 8."""
    sheet.run.update(LAKE_STEPS[steps])
    begins = (name, steps, sheet.run["edition"], end // SECOND)
    try:
        answer = meadow(sheet.text(end))
    except Unreadable as fault:
        claim("number 8," in str(fault), str(fault))
        return (*begins, "refused: 8", "", "")
    changed = sum(answer.depth(place) != sheet.depth(place) for place in sheet.ground())
    return (*begins, answer.steps, changed, max(drops(sheet, answer)))


def lake_rows():
    for name, peak in (("all under water", 40_000_000), ("an island", 60_000_000)):
        rows = [lake_row(name, "usual", by(edition, lake.lake(peak)), HOUR) for edition in EDITIONS]
        claim(all(row[5] == 0 for row in rows), f"the lake moved: {name}")
        yield from rows
    for steps, end in (("usual", MINUTE), ("usual", HOUR), ("all 1 ms", SECOND)):
        rows = [lake_row("one square 1 mm too high", steps, by(edition, disturbed(40_000_000)), end) for edition in EDITIONS]
        claim(rows[0][6] < MILLIMETRE and all(row[6] == "" or row[6] > 100 * MILLIMETRE for row in rows[1:]), "the disturbed lake is not as told")
        yield from rows


def basin_rows(long):
    for end in [10 * MINUTE, HOUR] + ([DAY] if long else []):
        for edition in EDITIONS:
            sheet = by(edition, basin.basin())
            answer = meadow(sheet.text(end))
            told = account(sheet, end, answer)
            claim(told.ground == told.came() and told.exits == 0, f"water was lost or won by {end} ms, edition {edition}")
            yield (end // MINUTE, edition, answer.steps, told.ground, told.came(), told.ground - told.came())


# ---- meadows


def meadow_rows(long):
    """The level meadow with a hatch in its corner, as in the section on long steps."""
    for name in ("the method's own", "usual", "all 10 s") if long else ("usual",):
        for end in (30 * MINUTE, HOUR):
            for edition in EDITIONS:
                answer = meadow(by(edition, long_step.level_meadow(long_step.RUNS[name])).text(end))
                depths = answer.depths
                steepest = max(abs(depth - near) for place, depth in depths.items() for near in long_step.beside(depths, place))
                wet = sum(depth > 0 for depth in depths.values())
                yield (name, end // MINUTE, edition, answer.steps, wet, max(depths.values()), steepest, long_step.lone(depths))


def walled_rows(long):
    """The sample walled-meadow by each edition, and how far it is off edition 1's."""
    for name, run in (("usual", USUAL), ("the method's own", analytical_wave.OWN_STEPS))[: 2 if long else 1]:
        first = None
        for edition in EDITIONS:
            answer = meadow(by(edition, drowned_meadow(**run)).text(3 * MINUTE))
            first = first or answer
            off = {place: abs(depth - first.depth(place)) for place, depth in answer.depths.items()}
            most = f"{max(off.values()) / MILLIMETRE:.1f}"
            yield (name, edition, answer.steps, answer.depth((23, LEAT)), answer.out, most, sum(each > CENTIMETRE for each in off.values()))


def figures(long):
    heads = ["D, m", "steps of", "edition", "steps", "error, m", "error on the wave's own squares"]
    heads += ["at the inlet, m", "the wave there, m", "squares ahead", "rises downstream", "greatest, mm"]
    yield from table(heads, wave_rows(long))
    yield ""
    yield "The pond after an hour:"
    yield ""
    yield from table(["steps of", "edition", "steps", "standing squares", "greatest drop, µm", "next step, ms", "changes a depth by, µm"], settled_rows(long))
    water = pond.settled()
    yield ""
    yield "The held pond, settled by edition 1 and opened by each:"
    yield ""
    yield from table(["edition", "minutes", "steps", "standing squares", "out, µm", "of the pond"], held_rows(water))
    if long:
        yield ""
        yield "Each mouth in turn, an hour after it is opened:"
        yield ""
        yield from table(["water at the start", "edition", "mouths", "let nothing out", "least of the others", "most"], mouth_rows(water))
    yield ""
    yield "The lake at rest:"
    yield ""
    yield from table(["lake", "steps of", "edition", "seconds", "steps", "squares changed", "greatest drop, µm"], lake_rows())
    yield ""
    yield "The closed basin:"
    yield ""
    heads = ["minutes", "edition", "steps", "on the ground, µm over one square", "by the tables", "difference"]
    yield from table(heads, basin_rows(long))
    yield ""
    yield "The level meadow with a hatch in its corner:"
    yield ""
    heads = ["steps of", "minutes", "edition", "steps", "wet squares", "deepest, µm", "greatest drop, µm", "lone squares"]
    yield from table(heads, meadow_rows(long))
    yield ""
    yield "The sample walled-meadow after three minutes:"
    yield ""
    heads = ["steps of", "edition", "steps", "row 23, column 4, µm", "out, µm", "off edition 1 by at most, mm", "squares off by over 1 cm"]
    yield from table(heads, walled_rows(long))
