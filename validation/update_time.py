"""The update time on the walled meadow: under a flood that rises fast it matters, since the step length is held between."""
from meadow.programs import meadow
from meadow.sheets.grounds import LEAT, drowned_meadow
from meadow.sheets.lines import MINUTE, SECOND
from shared import table

END = 3 * MINUTE
# in the leat, below the last hatch
LOOKED_AT = (23, LEAT)
# step limits, and the update times tried in the short and in the long form
TRIED = {
    "usual": ({}, (1, 10, 60), (1, 2, 5, 10, 20, 60)),
    "the method's own": ({"tolerance": 0, "shortest": 1, "longest": 60_000}, (60,), (1, 10, 60)),
}


def farthest(depths, others):
    """The greatest difference between two answers, and the square that has it."""
    off = {place: abs(depth - others[place]) for place, depth in depths.items()}
    most = max(off, key=lambda place: (off[place], place))
    return off[most], most


def answer_with(run, update):
    """The sample `walled-meadow` with other limits and another update time, in seconds."""
    return meadow(drowned_meadow(**run, update=update * SECOND).text(END))


def figures(long):
    """Each set of limits against its answer with the longest update time."""
    rows = []
    for name, (run, short_form, long_form) in TRIED.items():
        usual = answer_with(run, 60).depths
        for update in long_form if long else short_form:
            answer = answer_with(run, update)
            most, (row, column) = farthest(answer.depths, usual)
            at = f"row {row}, column {column}" if most else ""
            rows.append((name, update, answer.steps, f"{answer.depths[LOOKED_AT] / 1_000:.1f}", f"{most / 1_000:.1f}", at, answer.out))
    heads = ["steps of", "update time, s", "steps", f"row {LOOKED_AT[0]}, column {LOOKED_AT[1]}, mm", "off 60 s by at most, mm", "at", "out, µm"]
    yield from table(heads, rows)
