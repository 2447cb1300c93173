"""A basin under rain and inflow, closed or with exits and soaking ground: the water account balances to the micrometre."""
from meadow.programs import meadow
from meadow.rule.weighing import EDITIONS
from meadow.sheets.account import account
from meadow.sheets.lines import DAY, HOUR, MINUTE, Sheet
from shared import claim, table, uneven

SIDE = 7
RAIN = [(0, 90_001, 20_017), (30_500, 1_800_000, 7_333), (700_000, 700_001, 999_983)]
INFLOW = [(2, 3, 0, 600_001, 17), (2, 3, 59_999, 1_200_000, 23), (9, 6, 1, 3_333_333, 5), (4, 1, 10, 13, 99_991)]
CLOSED = {(0, 0), (5, 4), (5, 5), (11, 2)}
EXITS = {(7, 0), (11, 5), (3, 8)}
MOST_RATE = 40_000


def basin(leaks=False, edition=1):
    """The basin; one that leaks has exits and soaks, each square at its own rate."""
    sheet = Sheet(12, 9, SIDE, edition=edition)
    for place in sheet.squares:
        if place not in CLOSED:
            mark, rate = ("e" if place in EXITS else "o", uneven(place, MOST_RATE)) if leaks else ("o", 0)
            sheet.put(place, uneven(place, 800_000), 100 + uneven(place, 500), uneven(place, 3_000), mark, rate=rate)
    sheet.rain, sheet.inflow = RAIN, INFLOW
    return sheet


def figures(long):
    sheet, rows = basin(), []
    for end in [MINUTE, 10 * MINUTE, HOUR] + ([DAY] if long else []):
        answer = meadow(sheet.text(end))
        told = account(sheet, end, answer)
        rows.append((end // MINUTE, answer.steps, told.ground, told.came(), told.ground - told.came()))
        claim(told.ground == told.came() and told.exits == 0, f"water was lost or won by {end} ms")
    yield from table(["minutes", "steps", "on the ground, µm over one square", "by the tables", "difference"], rows)
    yield from leaking(long)


def leaking(long):
    """The same basin with exits and soaking ground, by each edition: what there is against what came."""
    rows = []
    for edition in EDITIONS:
        sheet = basin(True, edition)
        for end in [10 * MINUTE, HOUR] + ([DAY] if long else []):
            told = account(sheet, end, meadow(sheet.text(end)))
            there_is, came = told.there_is(), told.came()
            rows.append((edition, end // MINUTE, told.ground, told.exits, told.soaked, there_is, came, there_is - came))
            claim(there_is == came, f"water was lost or won by {end} ms in edition {edition}")
            claim(told.exits > 0 and told.soaked > 0, "nothing has left by the exits, or soaked")
    yield ""
    yield from table(["edition", "minutes", "on the ground", "gone by exits", "soaked", "there is", "by the tables", "difference"], rows)
