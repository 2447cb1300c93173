"""A sheet in a person's units: its ground, its rain and hatches with what they give, and the steps that its run can need."""
from ..rule.bounds import step_bounds
from ..rule.steps import ran
from ..sheets.lines import CLOSED, RAIN
from ..sheets.reading import meadow_of
from .doubts import doubts
from .faults import rows_with_lines
from .hatches import hatches_of
from .units import area, depth, height, millimetres, rain_depth, rain_rate, roughness, span, time, volume


def between(least, most, said):
    """One value, or the two that others lie between."""
    return said(least) if least == most else f"{said(least)} to {said(most)}"


def grid_line(sheet):
    """The shape, and how much of it is closed."""
    marks = [values["mark"] for values in sheet.squares.values()]
    exits = f"{len(sheet.exits())} exit{'' if len(sheet.exits()) == 1 else 's'}"
    return f"{sheet.rows} by {sheet.columns} squares of {sheet.side} m, {area(len(marks), sheet.side)}: {marks.count(CLOSED)} closed, {exits}"


def ground_line(sheet):
    """Heights, roughness and soaking of all that is not closed."""
    if not sheet.ground():
        return "every square is closed"
    ends = {name: [sheet.squares[place][name] for place in sheet.ground()] for name in ("bed", "roughness", "rate")}
    beds, rough, soak = ((min(values), max(values)) for values in ends.values())
    soaks = f"soaking {between(*soak, millimetres)} mm/h" if soak[1] else "no soaking"
    return f"ground {between(*beds, height)} m, n {between(*rough, roughness)}, {soaks}"


def start_line(sheet):
    """The water at the start."""
    depths = [sheet.depth(place) for place in sheet.ground()]
    water = sum(depths) * sheet.side**2 / 1_000_000
    return f"water at the start: {volume(water)}, deepest {depth(max(depths))}" if any(depths) else "no water at the start"


def rain_lines(sheet, end):
    """Each row of rain with what it gives by the end."""
    for _, values in rows_with_lines(sheet, RAIN):
        when = f"for {time(values['to'])}" if values["from"] == 0 else f"from {span(values['from'], values['to'])}"
        fallen = values["rate"] * ran(values["from"], values["to"], end) / 3_600_000
        yield f"rain {rain_rate(values['rate'])} {when}: {rain_depth(fallen)} in all"


def hatch_lines(sheet, end):
    """Each hatch with what it gives by the end, and its number on the map."""
    for hatch in hatches_of(sheet):
        row, column = hatch.place
        yield f"hatch {row},{column}: {hatch.openings()}, {volume(hatch.cubic_metres(end))} (number {hatch.number} on the map)"


def steps_line(sheet, end):
    """The most and the least steps of a run from a fresh start, whose clock 0 is a multiple of every U."""
    most, least = step_bounds(meadow_of(sheet), end)
    return f"run to {time(end)}: at most {most:,} steps, at least {least:,}"


def telling(sheet, end):
    """The sheet line by line, then what in it is likely a slip."""
    yield grid_line(sheet)
    yield ground_line(sheet)
    yield start_line(sheet)
    yield from rain_lines(sheet, end)
    yield from hatch_lines(sheet, end)
    yield steps_line(sheet, end)
    yield from (f"likely a slip: {doubt}" for doubt in doubts(sheet, end))
