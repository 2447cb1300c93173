#!/usr/bin/env python3
"""program_speed.py [short] WAY..: what a step takes in each program that makes steps, on the same sheet; a way is `native` or `emulated`.

A program runs the sheet to two ends that lie many steps apart, and the difference of its processor times, by the steps between, is a step: what is
read and printed is the same both times. The desk, which prints a frame for a line, answers as many lines of 64 steps as of one. Programs take turns,
and each turn gives a line of figures for tools/speed.py; where the emulator counts, one more says the instructions of a step.
"""
import os
import subprocess
import sys
import tempfile
from pathlib import Path
from random import Random

from begin import ended
from meadow.programs import TOP, built, words_of
from meadow.rule.ranges import LAST_CLOCK
from meadow.sheets.lines import Sheet, Unreadable

# a step in ms, steps from one multiple of the update time to the next, squares along a side and along a block's, steps to the first end
STEP, SPAN, SIZE, BLOCK, FEW, ROUGHNESS = 100, 50, 32, 8, 500, 350
# the most steps of a desk's line
SERIES = 64
# turns, and the steps between the two ends: so many spans, and so many lines of the desk
STEPS = SPAN * (SERIES - 1)
NATIVE, EMULATED, SHORT, COUNTED = (9, 6 * STEPS), (3, STEPS), (1, STEPS), (1, STEPS)
# the words that emulate, where bin/speed has others
EMULATOR = os.environ.get("EMULATOR", "qemu-x86_64").split()
COUNTER, LOG = TOP / "target" / "outside" / "count.so", TOP / "target" / "outside" / "count.log"


def uneven(chance, bed, depth):
    """A sheet of uneven ground under a depth of water that is uneven too."""
    sheet = Sheet(SIZE, SIZE, 10, tolerance=100, shortest=STEP, longest=STEP, update=SPAN * STEP)
    for place in sheet.squares:
        sheet.put(place, bed + chance.randrange(300_000), ROUGHNESS, depth and depth + chance.randrange(depth))
    return sheet


def tenth_wet():
    """Dry ground with a channel of six or seven squares in each block of eight by eight, and a hatch at its head."""
    chance = Random(2)
    sheet = uneven(chance, 20_000_000, 0)
    for block in range((SIZE // BLOCK) ** 2):
        row, column = BLOCK * (block // (SIZE // BLOCK)) + chance.randrange(1, 7), BLOCK * (block % (SIZE // BLOCK)) + 1
        for part in range(6 + block % 2):
            sheet.put((row, column + part), 10_000_000 - 20_000 * part, ROUGHNESS, 200_000 + chance.randrange(200_000))
        sheet.inflow.append((row, column, 0, LAST_CLOCK, 200))
    return sheet


def all_wet():
    """Uneven ground under half a metre of water and more."""
    return uneven(Random(1), 1_000_000, 500_000)


MEADOWS = {"a tenth wet": tenth_wet, "all wet": all_wet}


class Room:
    """A folder with what the programs are given of one sheet, for the few steps of the first end or for the many of the other."""

    def __init__(self, folder, sheet, between):
        self.folder, self.sheet, self.between = Path(folder), sheet, between

    def put(self, name, text):
        """A file's name, written."""
        (self.folder / name).write_text(text, encoding="ascii")
        return self.folder / name

    def sheet_file(self, steps):
        return self.put(f"{steps}.sheet", self.sheet.text(steps * STEP))

    def names(self, name, *lines):
        """A program's standard input that is lines of text."""
        return self.put(name, "".join(f"{line}\n" for line in lines))

    def listed(self, steps):
        return self.names(f"{steps}.list", 10_000, self.sheet_file(steps))

    def logged(self, steps):
        log = self.put(f"{steps}.log", f"hatch\t1\t0\t0\n0\t1\t0\n{steps * STEP}\t1\t0\n")
        return self.names(f"{steps}.logged", self.sheet_file(steps), log)

    def boarded(self, steps):
        boards = self.put("boards", "".join(f"{row}\t{row}\t100000\n" for row in range(0, SIZE, 4)))
        return self.names(f"{steps}.boarded", self.sheet_file(steps), boards)

    def asked(self, steps):
        """The desk's lines, of one step each or of as many as a line can have."""
        sheet = self.sheet.text(0)
        lines = f"step\t{1 if steps == FEW else SERIES}\t{LAST_CLOCK}\t0\n" * (self.between // (SERIES - 1))
        return self.put(f"{steps}.lines", f"sheet\t{len(sheet)}\n{sheet}{lines}")


PROGRAMS = {"meadow": Room.sheet_file, "highest": Room.sheet_file, "drowned": Room.listed, "boards": Room.boarded, "hatchlog": Room.logged, "desk": Room.asked}


def ran(words, given):
    """The processor's seconds of a program with a file at its standard input; what it refuses is an error."""
    with open(given, "rb") as its_input, tempfile.TemporaryFile() as its_output:
        process = subprocess.Popen(words, stdin=its_input, stdout=its_output, stderr=subprocess.DEVNULL)
        _, status, used = os.wait4(process.pid, 0)
        process.returncode = os.waitstatus_to_exitcode(status)
        its_output.seek(0)
        if process.returncode or b"refused" in its_output.read():
            raise Unreadable(f"{words[-1]} refuses {given.name}, or fails")
    return used.ru_utime + used.ru_stime


def counted(words, given):
    """The instructions of the same, by the emulator's plugin."""
    ran([*EMULATOR, "-plugin", COUNTER, "-d", "plugin", "-D", LOG, *words[len(EMULATOR) :]], given)
    lines = (line.split("\t") for line in LOG.read_text(encoding="utf-8", errors="replace").splitlines())
    return sum(int(line[1]) for line in lines if line[0] == "executed")


def words_by(way, name):
    """What starts a program; where bin/run starts it by the emulator, that of bin/speed takes its place."""
    words = [word for word in words_of(name) if not word.endswith("qemu-x86_64")]
    return [*EMULATOR, *words] if way == "emulated" else words


class Timed:
    """One program on one sheet."""

    def __init__(self, room, name, way):
        self.name, self.words, self.between = name, words_by(way, name), room.between
        self.given = [PROGRAMS[name](room, steps) for steps in (FEW + room.between, FEW)]

    def step(self, measured):
        """What a step takes."""
        many, few = (measured(self.words, given) for given in self.given)
        return (many - few) / self.between


def measure(way, meadow, plan, kind, by, unit):
    """Prints a line for each turn of each program."""
    turns, steps = plan
    with tempfile.TemporaryDirectory() as folder:
        room = Room(folder, MEADOWS[meadow](), steps)
        timed = [Timed(room, name, way) for name in PROGRAMS]
        for each in timed * turns:
            print(f"{way}\t0\t{kind}\t{meadow}\t{each.name}\t{each.step(by) * unit:.1f}", flush=True)


def main():
    short = sys.argv[1:2] == ["short"]
    built(*PROGRAMS)
    for meadow in MEADOWS:
        for way in sys.argv[1 + short :]:
            measure(way, meadow, SHORT if short else NATIVE if way == "native" else EMULATED, "program", ran, 1e9)
            if way == "emulated" and not short and COUNTER.exists():
                measure(way, meadow, COUNTED, "executed", counted, 1)
    return 0


if __name__ == "__main__":
    ended(main, "program_speed")
