#!/usr/bin/env python3
"""make.py [FOLDER]: makes the sample sheets, the sample log, and a winter's sheets with their list and with level boards for one of them, and the
answer to each by documents 01 and 02 in Python, and a season for the desk, in samples/ or in another folder."""
import sys
from pathlib import Path

sys.path.insert(0, str(Path(__file__).resolve().parent.parent / "python"))

from meadow.boards import answers as boards
from meadow.boards import texts
from meadow.logs.answers import answered
from meadow.logs.entries import written
from meadow.peaks import winters
from meadow.peaks.lists import listed
from meadow.programs import ended
from meadow.sheets.grounds import (
    COARSE_LEAT,
    HELD_MOUTH,
    MILLIMETRE,
    coarse_meadow,
    drowned_meadow,
    filling_pond,
    opened_pond,
    walled_meadow,
    worked,
)
from meadow.sheets.lines import HOUR, MINUTE, SECOND, Sheet


def document_01():
    """The sheet that document 01 works by hand."""
    sheet = Sheet(1, 2, 1, tolerance=100, shortest=SECOND, longest=SECOND, update=SECOND)
    sheet.put((0, 0), 0, 100, 1 * MILLIMETRE)
    sheet.put((0, 1), 0, 100)
    return sheet.text(SECOND)


def dry_weather():
    """The walled meadow on a dry day: one hatch gives what the ditch can carry."""
    sheet = walled_meadow(20 * MILLIMETRE)
    sheet.inflow.append((2, 4, 0, 10 * MINUTE, 40))
    return sheet.text(10 * MINUTE)


def held_pond():
    """A pond that has settled for an hour, and then a mouth opened beside a square that stands."""
    settled = worked(filling_pond().text(HOUR)).depths
    return opened_pond(settled, HELD_MOUTH).text(10 * MINUTE)


# soak rates in µm an hour, each an order of magnitude
CLAY, LOAM, SAND = 1_000, 10_000, 100_000


def soaking_meadow():
    """Rain of 30 mm an hour for an hour on a meadow that falls to the south and to a leat in the west: clay along the leat, where the
    rain stands and runs off, loam in the middle, which takes a part of it, and sand in the east, which takes all; then ten minutes without."""
    sheet = Sheet(9, 10, 10, longest=20 * SECOND, edge=50)
    for row, column in sheet.squares:
        leat = column == 0
        bed = (1_000 + 30 * (8 - row) + 20 * column - 300 * leat) * MILLIMETRE
        rate = CLAY if column < 3 else LOAM if column < 7 else SAND
        mark = "e" if leat and row == 8 else "o"
        sheet.put((row, column), bed, 300 if leat else 350, 0, mark, rate=rate)
    sheet.rain.append((0, HOUR, 30_000))
    return sheet.text(70 * MINUTE)


def evening():
    """An evening at three hatches of the leat. At ten minutes the third is tried, first at 4 m³ a second and then at 1.5, each time for six
    minutes, which are 36 steps; each time they are taken back; then it is drawn a little, and the evening goes on to half an hour."""
    return written(
        f"hatch 1 0 {COARSE_LEAT}",
        f"hatch 2 2 {COARSE_LEAT}",
        f"hatch 3 4 {COARSE_LEAT}",
        "0 1 800",
        f"{5 * MINUTE} 2 600",
        f"{10 * MINUTE} 3 4000",
        f"{16 * MINUTE} 3 4000",
        "back 36",
        f"{10 * MINUTE} 3 1500",
        f"{16 * MINUTE} 3 1500",
        "back 36",
        f"{10 * MINUTE} 3 300",
        f"{20 * MINUTE} 1 0",
        f"{20 * MINUTE} 2 0",
        f"{30 * MINUTE} 3 0",
    )


def winter_sheet(leat, snow, rain, hatches):
    """An hour at the coarse meadow: mm of water in the leat, and of melted snow all over; rain as (from, to, mm an hour), and hatches of the
    leat as (row, from, to, litres a second), both in minutes."""
    sheet = coarse_meadow(leat * MILLIMETRE, edge=50, longest=20 * SECOND)
    for place in sheet.ground():
        sheet.squares[place]["depth"] += snow * MILLIMETRE
    sheet.rain += [(start * MINUTE, end * MINUTE, rate * MILLIMETRE) for start, end, rate in rain]
    sheet.inflow += [(row, COARSE_LEAT, start * MINUTE, end * MINUTE, litres) for row, start, end, litres in hatches]
    return sheet.text(HOUR)


# the season's hatches in the north of the walled meadow: columns, and names
SEASON_ROW = 3
SEASON_HATCHES = {
    6: "Mill stile",
    8: "Long ham",
    11: "Old orchard",
    14: "Ash bed",
    17: "Middle mead",
    20: "Wheel-house",
    23: "Cow leaze",
    26: "Far ham",
    28: "Parson's",
}


def season_sheet():
    """The walled meadow on a wet spring day: clay that takes little, and rain that doubles after a quarter of an hour."""
    sheet = walled_meadow(120 * MILLIMETRE, shortest=100, longest=8 * SECOND, update=30 * SECOND, edge=50)
    for place in sheet.ground():
        sheet.squares[place]["rate"] = 2 * CLAY
    sheet.rain += [(0, 15 * MINUTE, 6_000), (15 * MINUTE, HOUR, 12_000)]
    return sheet.text(2 * HOUR)


def season_log():
    """The season's first ten minutes: four hatches drawn one after the other, and the first of them shut again."""
    named = [f"hatch {number} {SEASON_ROW} {column}" for number, column in enumerate(SEASON_HATCHES, 1)]
    drawn = ["0 1 120", "0 2 120", "0 8 90", f"{2 * MINUTE} 3 160", f"{5 * MINUTE} 1 0", f"{10 * MINUTE} 8 90"]
    return written(*named, *drawn)


SAMPLES = {
    "document-01": document_01,
    "dry-weather": dry_weather,
    "held-pond": held_pond,
    "soaking-meadow": soaking_meadow,
    "walled-evening": lambda: coarse_meadow(60 * MILLIMETRE, edge=50).text(30 * MINUTE),
    "walled-meadow": lambda: drowned_meadow().text(3 * MINUTE),
}
# each over the sheet of its name
LOGS = {"walled-evening": evening}
# a winter at one meadow, and how deep a square is that counts as drowned
WINTER = {
    "1-november": lambda: winter_sheet(60, 0, [(0, 30, 25)], []),
    "2-december": lambda: winter_sheet(60, 0, [(0, 60, 6)], [(0, 0, 30, 900), (2, 10, 30, 600)]),
    "3-christmas": lambda: winter_sheet(100, 0, [(10, 40, 60)], [(0, 0, 30, 600), (4, 0, 40, 5_500)]),
    "4-january": lambda: winter_sheet(20, 0, [], [(0, 0, 60, 40)]),
    "5-february": lambda: winter_sheet(60, 30, [(0, 60, 12)], [(2, 20, 40, 500)]),
    "6-march": lambda: winter_sheet(100, 0, [(0, 20, 10)], [(0, 0, 60, 2_500), (2, 0, 60, 2_000), (4, 0, 60, 2_000)]),
}
DROWNED = 100 * MILLIMETRE
# level boards down the leat, along the ditch, on the low meadow and round the wheel house, each with its mark in mm
CHRISTMAS_BOARDS = [
    *((0, 1, 90), (2, 1, 50), (4, 1, 150), (5, 1, 300), (6, 1, 400), (7, 1, 500)),
    *((6, 2, 300), (6, 4, 300), (6, 6, 100)),
    *((7, 3, 300), (7, 6, 250)),
    *((2, 5, 30), (5, 5, 10), (3, 4, 20), (3, 6, 15), (4, 6, 25)),
]


def make_boards(folder):
    """The boards of the Christmas sheet, and what they show."""
    text = texts.written((row, column, mark * MILLIMETRE) for row, column, mark in CHRISTMAS_BOARDS)
    sheet = folder / "3-christmas.sheet"
    sheet.with_suffix(".boards").write_text(text, encoding="ascii")
    sheet.with_suffix(".boards.out").write_text(boards.answered(sheet.read_bytes(), text.encode("ascii")), encoding="ascii")


def make_winter(folder):
    """The sheets, and their list by the names that they have from the project's folder."""
    folder.mkdir(exist_ok=True)
    sheets = {f"samples/winter/{name}.sheet".encode("ascii"): made().encode("ascii") for name, made in WINTER.items()}
    for name, text in sheets.items():
        (folder / Path(name.decode("ascii")).name).write_bytes(text)
    given = listed(DROWNED, *sheets)
    (folder / "winter.list").write_bytes(given)
    (folder / "winter.list.out").write_text(winters.answered(given, sheets.get), encoding="ascii")


def make_season(folder):
    """The season's folder as the keeper has it before the first run."""
    folder.mkdir(exist_ok=True)
    (folder / "season.sheet").write_text(season_sheet(), encoding="ascii")
    (folder / "season.log").write_text(season_log(), encoding="ascii")
    names = "".join(f"{number}\t{name}\n" for number, name in enumerate(SEASON_HATCHES.values(), 1))
    (folder / "season.names").write_text(names, encoding="ascii")


def main():
    folder = Path(sys.argv[1]) if len(sys.argv) > 1 else Path(__file__).resolve().parent
    for name, made in SAMPLES.items():
        text = made()
        (folder / f"{name}.sheet").write_text(text, encoding="ascii")
        (folder / f"{name}.out").write_text(worked(text).text, encoding="ascii")
        print(name)
    for name, made in LOGS.items():
        log, sheet = made(), folder / f"{name}.sheet"
        (folder / f"{name}.log").write_text(log, encoding="ascii")
        (folder / f"{name}.log.out").write_text(answered(sheet.read_bytes(), log.encode("ascii")), encoding="ascii")
        print(f"{name}.log")
    make_winter(folder / "winter")
    make_boards(folder / "winter")
    print("winter")
    make_season(folder / "season")
    print("season")
    return 0


if __name__ == "__main__":
    ended(main, "make")
