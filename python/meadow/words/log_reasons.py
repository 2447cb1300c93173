"""Why `hatchlog` refused a sheet or a log, in words: which of the two files it is about, the line, and what to write there.

Number and line are the program's own. A refusal other than 12 has no line: it is about the first line of the log of which nothing was
printed and should have been. Where no place is found that fits the number, that is said.
"""
import re
from difflib import get_close_matches

from ..logs.entries import BACK, HATCH, LOG_LINES, RATE, entry_of, parted, written
from ..logs.evening import MOST_HATCHES
from ..logs.nights import Night, told_of_texts
from ..rule.ranges import LAST_CLOCK, MOST_ROWS_OF_A_TABLE, fine
from ..sheets.lines import HOUR, MINUTE
from ..sheets.reading import Lines, number_well, read
from .faults import good_ends, out_of_range, place_faults
from .opening import file_faults, is_the_sheets
from .reasons import IN_THE_RUN, NOT_FOUND, reasons
from .sense import deepest
from .slips import REMARKS, mended, number_slip, shown
from .units import depth, square, steps, time

# how a line of each kind is written
FORMS = {kind: "→".join([*([kind] if kind else []), *(field.name for field in fields)]) for kind, fields in LOG_LINES.items()}
# what a person calls a field, and its unit; all others go by their own name
SAID = {"number": ("hatch's number", ""), "clock": ("clock", " of ms"), "litres": ("litres", " of litres a second")}
# hours and minutes, as people write a clock
HOURS_AND_MINUTES = re.compile(r"(\d+):([0-5]\d)")
DECIMAL = re.compile(r"\d*[.,]\d+")
THOUSANDS = re.compile(r"\d{1,3}(,\d{3})+")


# ---- a line of the log that cannot be read


def word_slip(word):
    """The slip where a line begins neither with a word of a log nor with a number."""
    if word == "":
        return "it is blank: delete it"
    if word.startswith(REMARKS):
        return "a log has no room for remarks: delete it"
    if word.lower() in (HATCH, BACK):
        return f"the word {word} is not in small letters: write {word.lower()}"
    near = get_close_matches(word.lower(), (HATCH, BACK), 1)
    do = f"did you mean {near[0]}?" if near else f"a line begins with {HATCH}, with {BACK} or with a clock in ms"
    return f"its word is {shown(word)}: {do}"


def field_slip(name, text):
    """The slip of a field that is no number."""
    said, unit = SAID.get(name, (name, ""))
    hours = HOURS_AND_MINUTES.fullmatch(text)
    if name == "clock" and hours:
        return f"the clock: {text} is in hours and minutes: write {int(hours[1]) * HOUR + int(hours[2]) * MINUTE}, which is in ms"
    if text.startswith("-"):
        return f"the {said}: {text} has a sign, and no number is below 0"
    if DECIMAL.fullmatch(text) and not THOUSANDS.fullmatch(text):
        return f"the {said}: {text} is a decimal: write a whole number{unit}"
    return number_slip(said, text)


def line_slips(line, every):
    """The slips of a line that cannot be read."""
    line, slips = mended(line, every)
    slips = [slip.replace("SHEET", "LOG") for slip in slips]
    if entry_of(line):
        return slips
    kind, fields = parted(line)
    said = [field for field in fields if field]
    names = [field.name for field in LOG_LINES[kind]]
    if said != fields and len(said) == len(names):
        slips.append("it has a tab too many, two in a row or one at its end: delete it")
        fields = said
    if kind == RATE and not fields[0][:1].isdigit() and not fields[0].startswith(("+", "-")):
        return [*slips, word_slip(fields[0])]
    if len(fields) != len(names):
        whole = [*([kind] if kind else []), *fields]
        slips.append(f"it has {len(whole)} fields and should have {len(names) + bool(kind)}: {FORMS[kind]}")
    return slips + [field_slip(name, text) for name, text in zip(names, fields) if not number_well(text)]


# ---- a line that can be read


def hatch_slips(night, line, number, _row, _column):
    """Of 12: a hatch that cannot be named here."""
    if night.answers:
        yield f"hatches are named before the first clock and the first {BACK}: move it to the log's beginning"
    if not 1 <= number <= MOST_HATCHES:
        yield f"the hatch's number is {number:,}: number hatches 1 to {MOST_HATCHES}"
    if number in night.places:
        yield f"hatch {number} is named in line {night.places[number][0]} already: give this one another number"


def rate_slips(night, line, clock, number, _litres):
    """Of 12: a hatch that is not named, or a clock that is none."""
    update = night.sheet.run["update"]
    named = f"named are {', '.join(map(str, sorted(night.places)))}" if night.places else "none is named"
    if not 1 <= number <= MOST_HATCHES:
        yield f"the hatch's number is {number:,}: hatches have the numbers 1 to {MOST_HATCHES}, and {named}"
    elif number not in night.places:
        yield f"hatch {number} is not named, and {named}: say {HATCH}→{number}→row→column at the log's beginning"
    if not fine("clock", clock):
        yield f"the clock, {clock:,} ms, is after a week: write at most {LAST_CLOCK // update * update}"
    elif clock % update != 0:
        nearest = " or ".join(f"{good} ({time(good)})" for good in good_ends(clock, update) if good >= night.end)
        yield f"the clock, {clock:,} ms, is no multiple of the update time, {update:,} ms: write {nearest}"
    if clock < night.end:
        next_clock = -(-night.end // update) * update
        back = f", also after the {BACK} of line {max(night.moved)}" if night.moved else ""
        yield f"the clock, {time(clock)}, is below the run's, {time(night.end)}{back}: write {next_clock} ({time(next_clock)}) or later"


def unread_reasons(night, text, line):
    """Of 12: what the line is, what it may be, and its likely slips."""
    lines = Lines(text)
    every = lines.lines + ([lines.rest] if lines.rest else [])
    if "\0" in text:
        return [f"line {line}: the file is saved as UTF-16, or is no text: save it as plain text or UTF-8"]
    entry = entry_of(every[line - 1])
    if entry is None:
        slips = line_slips(every[line - 1], every)
    else:
        slips = list({HATCH: hatch_slips, RATE: rate_slips}.get(entry.kind, lambda *_: [])(night, line, *entry.numbers))
    if line > len(lines.lines):
        slips.append("the last line has no newline at its end: press Enter after it")
    forms = [FORMS[RATE], FORMS[BACK]] if night.answers else [FORMS[HATCH], FORMS[RATE], FORMS[BACK]]
    ends = [f"line {line} is {shown(every[line - 1]) or 'blank'}", f"line {line} may be {', or '.join(forms)}"]
    return [*(f"line {line}: {slip}" for slip in slips or [NOT_FOUND]), *ends]


def row_reasons(night, entries):
    """Of 4: the first hatch on no good square or one too many, or else litres out of range."""
    rows = len(night.sheet.inflow)
    for line, entry in entries.items():
        if entry and entry.kind == HATCH and not night.answers:
            rows += 1
            values = dict(zip(("number", "row", "column"), entry.numbers))
            faults = [str(fault) for fault in place_faults(night.sheet, line, values)]
            if rows > MOST_ROWS_OF_A_TABLE:
                own = f"the sheet has {len(night.sheet.inflow)} inflow lines of its own, and with this hatch there are {rows}"
                faults.append(f"line {line}: {own}: at most {MOST_ROWS_OF_A_TABLE} are taken, so put some of the sheet's together")
            if faults:
                return faults
    entry = entries.get(night.stopped)
    if entry and entry.kind == RATE:
        return [str(fault) for fault in out_of_range(night.stopped, {"litres": entry.numbers[2]}, f"hatch {entry.numbers[1]}: ")]
    return []


def back_reasons(night, entries):
    """Of 10: how many steps can be taken back."""
    (count,) = entries[night.stopped].numbers
    squares = len(night.sheet.squares)
    most = f"with {squares:,} square{'' if squares == 1 else 's'} at most {night.slots()} are kept"
    do = f"write {BACK}→{night.kept} or less" if night.kept else "no step can be taken back here"
    return [f"line {night.stopped}: it would take {steps(count)} back, and {night.kept} are kept; {night.steps:,} stand, and {most}: {do}"]


def run_reasons(night, number, sheet_text, text, entries):
    """Of 8 and 9: between which multiples of the update time it happens, by runs to clocks before the line's, halving."""
    clock, hatch, _ = entries[night.stopped].numbers
    update, before = night.sheet.run["update"], "".join(text.splitlines(True)[: night.stopped - 1])

    def by_clock(at):
        """The evening with a line at another clock."""
        log = before + written(f"{at} {hatch} 0")
        return Night(night.sheet, log, told_of_texts(sheet_text, log))

    good, bad = -(-night.end // update), clock // update
    while bad - good > 1:
        middle = (good + bad) // 2
        good, bad = (good, middle) if by_clock(middle * update).refused else (middle, bad)
    first = by_clock(good * update)
    from_clock = night.end if first.refused else good * update
    what, do = IN_THE_RUN[number]
    yield f"line {night.stopped}: {what} between {time(from_clock)} and {time((good if first.refused else bad) * update)}: {do}"
    answer = first.answer
    if answer and answer.depths:
        place, deep = deepest(answer)
        yield f"at {time(from_clock)} the deepest is {square(place)}, with {depth(deep)}"


def log_reasons(sheet_text, text, told):
    """Why a line of the log was refused, the likeliest first."""
    night = Night(read(sheet_text)[0], text, told)
    number, line = night.refused
    entries = {at: entry_of(said) for at, said in enumerate(Lines(text).lines, 1)}
    if number == 12:
        return unread_reasons(night, text, line)
    if number == 4:
        return row_reasons(night, entries) or [NOT_FOUND]
    if number == 10:
        return back_reasons(night, entries)
    if number in IN_THE_RUN:
        return list(run_reasons(night, number, sheet_text, text, entries))
    return [NOT_FOUND]


def both_reasons(files, texts, told, refused):
    """The words for which file it is, and why: of the names of a sheet and a log, their texts, what was printed and the refusal at its end."""
    if tuple(refused) == (12, 0):
        return "", list(file_faults("log", *files)) or [NOT_FOUND]
    if is_the_sheets(texts[0], refused):
        return f", of the sheet {files[0]}", reasons(texts[0], *refused)
    return f", of the log {files[1]}", log_reasons(*texts, told)
