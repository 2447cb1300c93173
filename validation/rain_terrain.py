"""The hypothetical terrain of source 003 (CA2D): two ponds with a crest between them, under an hour of rain."""
from meadow.sheets.lines import HOUR, MINUTE, SECOND, Sheet
from shared import USUAL, answers_at, claim, limits, table

ROWS, COLUMNS, SIDE, ROUGHNESS, RAIN = 20, 30, 50, 100, 20_000
# fall from one square to the next in µm: 0.2 % along the rows, 0.1 % to the north
ALONG, LATERAL = SIDE * 2_000, SIDE * 1_000
# columns of the pond's valley and of the crest: ours, since the text does not say them
VALLEY, RIDGE = 13, 17
# on the northern side, which is the lower one
POINTS = {"pond": (0, VALLEY), "left": (0, RIDGE - 1), "crest": (0, RIDGE), "right": (0, RIDGE + 1)}
OUTLET = (0, COLUMNS - 1)
# the surface goes on beyond the outlet as the ground falls to it, in ten-thousandths
EDGE = 20
# minutes: the snapshots of Fig. 4
SNAPSHOTS = (40, 60, 100, 200)
LINES = {
    "usual": USUAL,
    "shortest 500, update 1 s": limits(1, 500, 10_000, SECOND),
    "tolerance 0, shortest 10, update 1 s": limits(0, 10, SECOND, SECOND),
}
# the line that freezes takes long, and stands still between the last two of these times
FROZEN, FROZEN_TIMES = "tolerance 0, shortest 10, update 1 s", (40, 60, 100, 120)


def bed(row, column):
    """In µm: down to the valley, up to the crest, down to the outlet; and down to the north everywhere."""
    profile = abs(column - VALLEY) if column <= RIDGE else 2 * RIDGE - VALLEY - column
    return 2_000_000 + ALONG * profile + LATERAL * row


def terrain(**run):
    """The terrain under an hour of rain, closed all round but for the outlet."""
    sheet = Sheet(ROWS, COLUMNS, SIDE, **{"edge": EDGE, **run})
    for row, column in sheet.squares:
        sheet.put((row, column), bed(row, column), ROUGHNESS, mark="e" if (row, column) == OUTLET else "o")
    sheet.rain.append((0, HOUR, RAIN))
    return sheet


def to_the_crest():
    """The depth of the pond when it is full to the crest, in µm."""
    return bed(*POINTS["crest"]) - bed(*POINTS["pond"])


def rows(name, edition, minutes):
    """The four points' depths in mm at each time, what has gone by the outlet, and how many squares have 1 cm of water."""
    answers = answers_at(terrain(**LINES[name], edition=edition), [minute * MINUTE for minute in minutes])
    fallen = ROWS * COLUMNS * RAIN
    for minute, answer in zip(minutes, answers):
        depths = (f"{answer.depths[place] / 1_000:.1f}" for place in POINTS.values())
        wet = sum(depth >= 10_000 for depth in answer.depths.values())
        yield (name, edition, minute, answer.steps, *depths, f"{100 * answer.out / fallen:.1f} %", wet)


def claim_as_told(usual):
    """The pond rises past the crest, falls a little and then stays; nothing of it leaves before."""
    pond, crest = [float(row[4]) for row in usual], [float(row[6]) for row in usual]
    full = to_the_crest() / 1_000
    claim(pond[0] < pond[1] < full < pond[2] and full < pond[3] < pond[2], "the pond does not rise past the crest and then fall to it")
    claim(max(crest[:2]) < 5 < min(crest[2:]), "the crest is not passed between 60 and 100 minutes")


def figures(long):
    heads = ["steps of", "edition", "minutes", "steps", *(f"{name}, mm" for name in POINTS), "gone by the outlet", "squares 1 cm deep"]
    usual = list(rows("usual", 1, SNAPSHOTS))
    claim_as_told(usual)
    more = []
    if long:
        more += [*rows("usual", 3, SNAPSHOTS), *rows("shortest 500, update 1 s", 1, SNAPSHOTS), *rows(FROZEN, 1, FROZEN_TIMES)]
        claim(more[-1][4:] == more[-2][4:], "nothing is frozen")
    yield from table(heads, usual + more)
