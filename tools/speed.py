#!/usr/bin/env python3
"""speed.py FIGURES: the tables of docs/SPEED.md, from the lines that bin/speed keeps of a run.

    python3 tools/speed.py FIGURES      prints them
    python3 tools/speed.py --write      puts those of bin/speed's last run into the page, and draws its picture anew

A line is the way, native or emulated, the padding before the code, its kind and its fields. An engine's time at a place is the median of its turns
there; a table has the median over places and in brackets the least and the most. A table is known on the page by its first head.
"""
import re
import sys
from collections import defaultdict
from pathlib import Path
from statistics import median
from typing import NamedTuple

from begin import ended
import pictures
from meadow.programs import TOP
from meadow.sheets.lines import Unreadable

PAGE = TOP / "docs" / "SPEED.md"
LAST_RUN = TOP / "target" / "outside" / "speed.figures"
WAYS = ("native", "emulated")
SQUARES = 64 * 64
TENTH, HALF, ALL, NONE = "10 in 100", "50 in 100", "100 in 100", "dry"
SHARES = (NONE, "1 in 100", TENTH, HALF, ALL)
# the engine of the library that all are held against
OURS, RIVAL, BOUNDS, AT_REST = "wet walk", "rival", "rival, bounds", "pond at rest"
# what is asked of a step, native: a program that the wet walk is held against, a meadow, how often its time at most, and how much it matters
TARGETS = (
    (RIVAL, TENTH, 1.1, "must hold"),
    (RIVAL, HALF, 1.0, "must hold"),
    (RIVAL, ALL, 0.8, "must hold"),
    (BOUNDS, TENTH, 1.6, "must hold"),
    (RIVAL, TENTH, 1.0, "wanted"),
    (RIVAL, AT_REST, 2.5, "wanted"),
)
# the program whose step all other programs' steps are held against, and how often its time they may take
RUN, MOST_OF_A_RUN = "meadow", 1.1


class Table(NamedTuple):
    """A table of the page."""

    heads: list
    rows: list

    def text(self):
        lines = [self.heads, ["---"] * len(self.heads), *self.rows]
        return "".join("|---" * len(line) + "|\n" if line[0] == "---" else f"| {' | '.join(line)} |\n" for line in lines)


class Measured:
    """What was measured in one way: for each kind of line its fields, with the padding before them."""

    def __init__(self, way, lines):
        self.way, self.lines = way, lines
        turns = defaultdict(list)
        for padding, meadow, engine, time in lines["time"]:
            turns[meadow, engine, padding].append(float(time) / 1000)
        self.times = {key: median(times) for key, times in turns.items()}
        self.paddings = sorted({key[2] for key in self.times})
        self.engines = list(dict.fromkeys(line[2] for line in lines["time"]))
        self.meadows = list(dict.fromkeys(line[1] for line in lines["time"]))

    def over_places(self, meadow, engine):
        """Microseconds of a step at each place."""
        return [self.times[meadow, engine, padding] for padding in self.paddings]

    def ratios(self, meadow, engine):
        """How many times as long as an engine ours takes, at each place."""
        return [a / b for a, b in zip(self.over_places(meadow, OURS), self.over_places(meadow, engine))]

    def others(self):
        """The engines that ours is held against."""
        return [engine for engine in self.engines if engine != OURS]

    def programs(self, kind):
        """What each turn of a step took, by sheet and program."""
        turns = defaultdict(lambda: defaultdict(list))
        for _, sheet, program, taken in self.lines[kind]:
            turns[sheet][program].append(float(taken))
        return turns


def figures(text):
    """What was measured, by way."""
    kinds = {way: defaultdict(list) for way in WAYS}
    for line in text.splitlines():
        way, padding, kind, *fields = line.split("\t")
        kinds[way][kind].append((int(padding), *fields))
    return {way: Measured(way, lines) for way, lines in kinds.items() if lines}


def figure(value):
    """A number to three places that count."""
    return f"{value:,.0f}" if value >= 100 else f"{value:.1f}" if value >= 10 else f"{value:.2f}"


def spread(values):
    return f"{figure(median(values))} ({figure(min(values))}..{figure(max(values))})"


# ---------------------------------------------------------------- the tables


def machines(found):
    """On what, and at how many places of the code."""
    rows = [[way, each.lines["machine"][0][1], str(len(each.paddings))] for way, each in found.items()]
    yield Table(["measured", "on", "places of the code"], rows)


def document_02(found):
    """Document 02's meadow, both ways in one table."""
    first = next(iter(found.values()))
    rows = []
    for engine in first.engines:
        cells = [[spread(each.over_places(TENTH, engine)), "" if engine == OURS else spread(each.ratios(TENTH, engine))] for each in found.values()]
        rows.append([engine, *sum(cells, [])])
    heads = [[f"µs a step, {way}", f"{OURS} / it"] for way in found]
    yield Table(["document 02's meadow", *sum(heads, [])], rows)


def shares(found):
    """Times and ratios by how much is wet."""
    for way, each in found.items():
        rows = [[engine, *(spread(each.over_places(share, engine)) for share in SHARES)] for engine in each.engines]
        yield Table([f"µs a step, {way}", *SHARES], rows)
        rows = [[engine, *(spread(each.ratios(share, engine)) for share in SHARES)] for engine in each.others()]
        yield Table([f"{OURS} / it, {way}", *SHARES], rows)


def other_meadows(found):
    """The same on meadows of other kinds, each a row."""
    for way, each in found.items():
        others = [meadow for meadow in each.meadows if meadow not in SHARES]
        rows = [[meadow, *(spread(each.over_places(meadow, engine)) for engine in each.engines)] for meadow in others]
        yield Table([f"other meadows, µs a step, {way}", *each.engines], rows)
        rows = [[meadow, *(spread(each.ratios(meadow, engine)) for engine in each.others())] for meadow in others]
        yield Table([f"other meadows, {OURS} / it, {way}", *each.others()], rows)


def counts(found):
    """Executed instructions, where they were counted."""
    each = found.get("emulated")
    if not each or not each.lines["count"]:
        return
    counted = {(meadow, engine): int(count) for _, meadow, engine, count in each.lines["count"]}
    rows = [[name, *(f"{counted[meadow, engine] / SQUARES:.1f}" for engine in each.engines)] for name, meadow in (("a dry square", NONE), ("a wet square", ALL))]
    rows += [[f"a step, {meadow}", *(f"{counted[meadow, engine]:,}" for engine in each.engines)] for meadow in each.meadows]
    yield Table(["instructions", *each.engines], rows)


def calls(found):
    """Single steps against steps of a run."""
    for way, each in found.items():
        taken = defaultdict(list)
        for _, grid, engine, call, step in each.lines["call"]:
            taken[grid, engine].append((float(call) / 1000, float(step) / 1000))
        rows = []
        for (grid, engine), times in taken.items():
            call, step = zip(*times)
            rows.append([f"{grid}, {engine}", spread(call), spread(step), spread([a - b for a, b in times])])
        yield Table([f"dry ground, µs, {way}", "a call of one step", "a step of a run", "the difference"], rows)


def against_a_run(taken, program):
    """How many times as long as a run's step a program's takes, turn by turn."""
    return [a / b for a, b in zip(taken[program], taken[RUN])]


def program_rows(each):
    """For each sheet and program what a step takes, and how often that of a run."""
    for sheet, taken in each.programs("program").items():
        for program, times in taken.items():
            yield [f"{sheet}, {program}", spread([time / 1000 for time in times]), spread(against_a_run(taken, program))]


def programs(found):
    """Steps of the programs."""
    for way, each in found.items():
        yield Table([f"32 by 32, {way}", "µs a step", f"it / {RUN}"], list(program_rows(each)))
    if "emulated" in found and found["emulated"].lines["executed"]:
        rows = []
        for sheet, taken in found["emulated"].programs("executed").items():
            rows += [[f"{sheet}, {name}", f"{count[0]:,.0f}", f"{count[0] / taken[RUN][0]:.2f}"] for name, count in taken.items()]
        yield Table(["32 by 32, instructions", "a step", f"it / {RUN}"], rows)


def judged(asked, values):
    return f"{spread(values)}: {'holds' if median(values) <= asked else 'not'}"


def targets(found):
    """What is asked of the library on a bare machine."""
    each = found.get("native")
    if not each:
        return
    rows = [[f"of the {engine}; {meadow}: {matters}", figure(asked), judged(asked, each.ratios(meadow, engine))] for engine, meadow, asked, matters in TARGETS]
    for sheet, taken in each.programs("program").items():
        for program in (program for program in taken if program != RUN):
            rows.append([f"a step of `{program}`, of one of `{RUN}`; {sheet}: asked", figure(MOST_OF_A_RUN), judged(MOST_OF_A_RUN, against_a_run(taken, program))])
    yield Table(["target", "asked, at most", "is, native"], rows)


def places(found):
    """Where in its page of 4,096 bytes each engine's function begins; the same in both ways."""
    each = next(iter(found.values()))
    begins = defaultdict(list)
    for _, name, place in each.lines["place"]:
        begins[name].append(place)
    yield Table(["bytes laid before the code", *(f"{padding:,}" for padding in each.paddings)], [[name, *at] for name, at in begins.items()])


def states(found):
    """What the meadows were like."""
    each = next(iter(found.values()))
    rows = [[meadow, f"{int(steps):,}", start, end, sent] for _, meadow, steps, start, end, sent in dict.fromkeys(("", *line[1:]) for line in each.lines["state"])]
    yield Table(["meadow", "steps at each place", "wet at the start, in 100", "at the end", "sent water in the last step"], rows)


TABLES = (machines, document_02, shares, other_meadows, states, counts, calls, programs, targets, places)


def tables(text):
    """All tables of a run's figures."""
    found = figures(text)
    return [table for make in TABLES for table in make(found)]


def written(page, table):
    """The page with a table in the place of the one that has its first head."""
    old = re.compile(rf"^\| {re.escape(table.heads[0])} \|.*\n(?:\|.*\n)+", re.M)
    if len(old.findall(page)) != 1:
        raise Unreadable(f"docs/SPEED.md has not one table with the head {table.heads[0]!r}")
    return old.sub(lambda _: table.text(), page)


def write():
    """Puts the last run's tables into the page, and the picture that is drawn from them beside it."""
    page = PAGE.read_text(encoding="utf-8")
    for table in tables(LAST_RUN.read_text(encoding="utf-8")):
        page = written(page, table)
    PAGE.write_text(page, encoding="utf-8")
    (pictures.FOLDER / "wet-shares.svg").write_text(pictures.PICTURES["wet-shares.svg"](), encoding="utf-8")


def main():
    if len(sys.argv) != 2:
        print("usage: speed.py FIGURES | --write", file=sys.stderr)
        return 2
    if sys.argv[1] == "--write":
        write()
        return 0
    for table in tables(Path(sys.argv[1]).read_text(encoding="utf-8")):
        print(f"\n{table.text()}", end="")
    return 0


if __name__ == "__main__":
    ended(main, "speed")
