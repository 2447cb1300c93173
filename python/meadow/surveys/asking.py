"""What is asked of a sheet on a command line, judged in the words of what was asked and not in those of a line that is never written."""
import re
from pathlib import Path

from ..rule.ranges import MOST_ROWS_OF_A_TABLE, RANGES, fine
from ..sheets.lines import CLOSED, HOUR, INFLOW, MINUTE, RAIN, SECOND, SHEET_LINES, Unreadable
from ..sheets.reading import number_well
from ..words.faults import SAID, good_ends
from ..words.units import square
from .making import MANNING, METRE, MILLIMETRE_AN_HOUR, spread

# a field of a square: the word that asks for it, its range, what it is called, and how its number is made of a person's
OF_A_SQUARE = {
    "roughness": ("--roughness", "roughness", "n", MANNING, "0.035 is a meadow's"),
    "depth": ("--depth", "depth", "the depth in m", METRE, "in metres"),
    "rate": ("--soak", "soak rate", "the soak rate in mm/h", MILLIMETRE_AN_HOUR, "in mm an hour"),
}


def asked(word, *values):
    """A word of the command line with its values."""
    return " ".join([word, *map(str, values)])


def run_number(name, text):
    """A field of the run line."""
    if not number_well(text):
        raise Unreadable(f"{asked('--run', name, text)}: it is a whole number, in the sheet's own unit")
    return int(text)


def spread_asked(name, text, shape):
    """A number for every square, or the grid of a file of that name."""
    decimal = re.fullmatch(r"(\d+),(\d+)", text)
    if decimal and not Path(text).exists():
        raise Unreadable(f"{asked(f'--{name}', text)}: a decimal has a point: write {decimal[1]}.{decimal[2]}")
    try:
        return spread(text, shape)
    except FileNotFoundError:
        raise Unreadable(f"{asked(f'--{name}', text)}: it is no number, and there is no such file") from None


def clock_text(ms):
    """A time as it is asked for: h:min, with seconds where there are some."""
    hours, rest = divmod(ms, HOUR)
    minutes, rest = divmod(rest, MINUTE)
    return f"{hours}:{minutes:02d}" + (f":{rest // SECOND:02d}" if rest else "")


def hold_squares_asked(sheet, given):
    """Roughness, depth and soak rate of each square."""
    for name, (word, range_name, called, times, hint) in OF_A_SQUARE.items():
        least, most = RANGES[range_name]
        for place in sheet.ground():
            value = sheet.squares[place][name]
            if not fine(range_name, value):
                said = f"{asked(word, getattr(given, word.removeprefix('--')))}: {called} is {value / times:g} at {square(place)}"
                raise Unreadable(f"{said}, and must be {least / times:g} to {most / times:,g}; {hint}")


def hold_exits_asked(sheet):
    """Exits stand on the rim."""
    for row, column in sheet.exits():
        if 0 < row < sheet.rows - 1 and 0 < column < sheet.columns - 1:
            raise Unreadable(f"the exit at {square((row, column))} is not on the rim: move it there, or leave it out")


def hold_table_asked(rows, asked_for, kind, word):
    """Rows of rain or of hatches: how many, their times, and how much."""
    if len(rows) > MOST_ROWS_OF_A_TABLE:
        raise Unreadable(f"{word} is said {len(rows)} times, and at most {MOST_ROWS_OF_A_TABLE} are taken: put some together")
    names = [field.name for field in SHEET_LINES[kind]]
    for row, given in zip(rows, asked_for):
        values, said = dict(zip(names, row)), asked(word, *given)
        start, stop, amount = row[-3:]
        if not fine("to", max(start, stop)):
            raise Unreadable(f"{said}: a run lasts a week at the most, 168:00")
        if start > stop:
            raise Unreadable(f"{said}: it ends before it begins: swap the two times, or mend one")
        if not fine(names[-1], amount):
            least, most = RANGES[names[-1]]
            unit = "litres a second; an exit lets water out" if kind == INFLOW else f"µm an hour, which are {most // MILLIMETRE_AN_HOUR:,} mm"
            raise Unreadable(f"{said}: it gives {least} to {most:,} {unit}")
        yield values, said


def hold_tables_asked(sheet, given):
    """Rain, and hatches on squares that are not closed."""
    list(hold_table_asked(sheet.rain, given.rain, RAIN, "--rain"))
    for values, said in hold_table_asked(sheet.inflow, given.hatch, INFLOW, "--hatch"):
        place = values["row"], values["column"]
        if place not in sheet.squares:
            raise Unreadable(f"{said}: {square(place)} is off the grid: rows go from 0 to {sheet.rows - 1}, columns from 0 to {sheet.columns - 1}")
        if sheet.squares[place]["mark"] == CLOSED:
            raise Unreadable(f"{said}: {square(place)} is closed: move the hatch, or open the square")


def hold_run_asked(sheet, end, given):
    """The fields of the run line, and the end."""
    for name, value in sheet.run.items():
        if not fine(name, value):
            least, most = RANGES[name]
            thing, unit = SAID[name]
            raise Unreadable(f"{asked('--run', name, value)}: {thing} is {least:,} to {most:,}" + (f" ({unit})" if unit else ""))
    if sheet.run["shortest"] > sheet.run["longest"]:
        raise Unreadable(f"--run: the longest step, {sheet.run['longest']:,} ms, is under the shortest, {sheet.run['shortest']:,} ms")
    if not fine("end", end):
        raise Unreadable(f"{asked('--end', given.end)}: a run lasts a week at the most, 168:00")
    if end % sheet.run["update"]:
        nearest = " or ".join(clock_text(good) for good in good_ends(end, sheet.run["update"]))
        raise Unreadable(f"{asked('--end', given.end)} is no multiple of the update time, {clock_text(sheet.run['update'])}: write {nearest}")


def hold_asked(sheet, end, given):
    """All that was asked for can stand in a sheet."""
    hold_run_asked(sheet, end, given)
    hold_squares_asked(sheet, given)
    hold_exits_asked(sheet)
    hold_tables_asked(sheet, given)
