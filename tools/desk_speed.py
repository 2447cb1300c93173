#!/usr/bin/env python3
"""desk_speed.py: how long the program `desk` takes on 32 by 32 and on 64 by 64 squares that are wet nearly all over, with nine hatches drawn: from
a line sent to the last byte of its answer, in ms, as the median of 21 times and in brackets the least and the most."""
import statistics
import time

from begin import ended
from meadow.programs import Asked, built
from meadow.rule.ranges import LAST_CLOCK
from meadow.sheets.lines import Sheet

SIZES, TIMES, FORTY, HATCHES = (32, 64), 21, 40, range(1, 10)
DONE = b"done\n"
FORTY_SHOWN, FORTY_HIDDEN = (f"step\t{FORTY}\t{LAST_CLOCK}\t{every}\n".encode() for every in (1, 0))
BACK = f"back\t{FORTY}\n".encode()


def wet_meadow(size):
    """A meadow that falls to an exit in the south, 2 cm deep all over, with a wall in its middle."""
    sheet = Sheet(size, size, 5, shortest=100, longest=8_000, update=30_000, edge=50)
    wall, mouth = range(size // 2, size // 2 + size // 8), (size - 1, size // 2)
    for row, column in sheet.squares:
        if row not in wall or column not in wall:
            bed = 22_000 * (size - row) + 4_000 * abs(column - size // 2)
            sheet.put((row, column), bed, 350, 20_000, "e" if (row, column) == mouth else "o", rate=2_000)
    return sheet.text(0).encode()


def asked(desk, given):
    """What a line took in ms, and its answer."""
    start = time.perf_counter()
    answer = desk.ask(given)
    taken = (time.perf_counter() - start) * 1_000
    if not answer.endswith(DONE):
        raise ValueError(f"the desk answers {answer[-40:]!r} to {given[:40]!r}")
    return taken, answer


def with_text(word, text):
    """A line and its text."""
    return b"%s\t%d\n" % (word, len(text)) + text


def begun(size):
    """A desk with a meadow on it, nine hatches drawn and forty steps made."""
    desk = Asked("desk", (DONE, b"refused"))
    asked(desk, with_text(b"sheet", wet_meadow(size)))
    for line in ("hatch\t{}\t1\t{}\n", "draw\t{}\t{}\n"):
        for number in HATCHES:
            asked(desk, line.format(number, 3 * number).encode())
    asked(desk, FORTY_HIDDEN)
    return desk


def times_of(size):
    """What is timed, and its times."""
    desk, taken = begun(size), {}

    def timed(what, given):
        time_taken, answer = asked(desk, given)
        taken.setdefault(what, []).append(time_taken)
        return answer

    for _ in range(TIMES):
        timed("forty steps, a frame each", FORTY_SHOWN)
        timed("forty steps taken back", BACK)
        timed("forty steps, one frame", FORTY_HIDDEN)
        timed("all arrows", b"arrows\n")
        stand = timed("the state saved", b"stand\n")
        asked(desk, BACK)
    for _ in range(TIMES):
        timed("a saved state laid", with_text(b"lay", stand.removesuffix(DONE)))
    desk.end()
    return taken


def main():
    built("desk")
    for size in SIZES:
        print(f"{size} by {size}")
        for what, taken in times_of(size).items():
            print(f"  {what:<28}{statistics.median(taken):>8.2f} ({min(taken):.2f}..{max(taken):.2f})", flush=True)
    return 0


if __name__ == "__main__":
    ended(main, "desk_speed")
