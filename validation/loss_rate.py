"""The loss of source 001 (HiPIMS): 12.5 mm an hour on all ground, under an hour of rain, on a hollow of our own."""
from meadow.sheets.account import account
from meadow.sheets.lines import HOUR, SECOND, Sheet
from shared import answers_at, claim, limits, table

# chapter 8: squares of 2 m, n 0.045, rain for one of two hours; totals in mm of its trials and of its two storms
SIDE, ROUGHNESS, LOSS = 2, 450, 12_500
TOTALS = (10, 30, 46, 80)
# ours: a street block of 32 m that falls by 2 % to its middle
SIZE, FALL = 16, 40_000
STEPS = limits(1, 50, 10_000, 10 * SECOND)


def hollow(total, rate):
    """The hollow, closed all round, under an hour's rain of a total in mm."""
    sheet = Sheet(SIZE, SIZE, SIDE, **STEPS)
    for row, column in sheet.squares:
        away = max(abs(2 * row + 1 - SIZE), abs(2 * column + 1 - SIZE)) // 2
        sheet.put((row, column), 1_000_000 + FALL * away, ROUGHNESS, rate=rate)
    sheet.rain.append((0, HOUR, 1_000 * total))
    return sheet


def loss_row(total):
    """What is left after two hours with the loss and without it, as depths over all ground and at the deepest."""
    found = []
    for rate in (LOSS, 0):
        sheet = hollow(total, rate)
        one, two = answers_at(sheet, (HOUR, 2 * HOUR))
        told = account(sheet, 2 * HOUR, two)
        claim(told.off() == 0, f"water was lost or won under {total} mm")
        found.append((one, two))
    (wet_one, wet_two), (_, dry_two) = found
    over = lambda amount: f"{amount / SIZE**2 / 1_000:.1f}"
    most = min(total, 2 * LOSS / 1_000)
    claim(wet_two.soaked / SIZE**2 <= 1_000 * most, "more soaked than the rate allows")
    deepest = (max(answer.depths.values()) / 1_000 for answer in (wet_one, wet_two, dry_two))
    return (total, over(wet_one.soaked), over(wet_two.soaked), f"{most:g}", *(f"{depth:.0f}" for depth in deepest))


def figures(long):
    heads = ["rain in an hour, mm", "lost in 1 h, mm", "in 2 h", "at most", "deepest after 1 h, mm", "after 2 h", "after 2 h without loss"]
    yield from table(heads, (loss_row(total) for total in (TOTALS if long else TOTALS[:1])))
