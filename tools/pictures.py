#!/usr/bin/env python3
"""pictures.py: makes the pictures of README, docs/METHOD.md, docs/SPEED.md and docs/TOOLS.md in docs/pictures/.

The map is that of the sample `walled-meadow`, the square is the one worked in docs/METHOD.md, the times are those of the table in
docs/SPEED.md, the winter is the sample list, the boards are those of its Christmas sheet.
"""
from begin import ended
from meadow.boards.answers import shown_of
from meadow.maps.drawing import svg
from meadow.maps.often import often_svg
from meadow.maps.staffs import staffs_svg
from meadow.peaks.lists import list_in
from meadow.peaks.tally import tally_of
from meadow.peaks.wholes import whole_in
from meadow.programs import TOP
from meadow.rule.worked_square import AMOUNTS, DROPS
from meadow.sheets.grounds import worked
from meadow.sheets.pairs import balanced, bytes_as_text, pair_of
from meadow.sheets.reading import read

WATER, WALL, GROUND, INK, PALE = "#9ecae1", "#4a4a4a", "#e9ddb8", "#222222", "#777777"
COLOURS = ("#08519c", "#31a354", "#8c6d31", "#d94801", "#6a51a3")
SPEED = TOP / "docs" / "SPEED.md"
# between two lines of a scale, in µs
PARTS = (10, 50, 100, 500, 1_000, 5_000)


class Drawing:
    """An SVG picture, put together shape by shape."""

    def __init__(self, width, height):
        self.parts = [
            f'<svg xmlns="http://www.w3.org/2000/svg" width="{width}" height="{height}" font-family="sans-serif" font-size="13">',
            '<defs><marker id="tip" markerUnits="userSpaceOnUse" markerWidth="14" markerHeight="12" refX="12" refY="6" orient="auto">'
            f'<path d="M0 0L14 6L0 12z" fill="{INK}"/></marker></defs>',
            f'<rect width="{width}" height="{height}" fill="#ffffff"/>',
        ]

    def box(self, x, y, width, height, fill, edge=INK):
        self.parts.append(f'<rect x="{x}" y="{y}" width="{width}" height="{height}" fill="{fill}" stroke="{edge}"/>')

    def write(self, x, y, text, anchor="middle", fill=INK, size=13):
        self.parts.append(f'<text x="{x}" y="{y}" text-anchor="{anchor}" fill="{fill}" font-size="{size}">{text}</text>')

    def line(self, path, tip=True, colour=INK, width=1.5):
        end = ' marker-end="url(#tip)"' if tip else ""
        self.parts.append(f'<path d="{path}" fill="none" stroke="{colour}" stroke-width="{width}"{end}/>')

    def text(self):
        return "\n".join([*self.parts, "</svg>"]) + "\n"


def one_square():
    """The square that docs/METHOD.md works, with its neighbours: two lower, one higher, one closed."""
    size, middle = 120, 250
    north, east, south, west = DROPS
    picture = Drawing(620, 500)
    places = {"north": (0, -1), "east": (1, 0), "south": (0, 1), "west": (-1, 0)}
    fills = {"north": WATER, "east": WATER, "south": GROUND, "west": WALL}
    for name, (across, down) in places.items():
        picture.box(middle + across * size - size / 2, middle + down * size - size / 2, size, size, fills[name])
    picture.box(middle - size / 2, middle - size / 2, size, size, "#6baed6")
    picture.write(middle, middle - 6, "the square")
    picture.write(middle, middle + 12, "d = 250,000 µm")
    picture.write(middle, middle - size - 20, "lower")
    picture.write(middle + size, middle - 30, "a little lower")
    picture.write(middle, middle + size + 6, "higher")
    picture.write(middle - size, middle + 4, "closed", fill="#ffffff")
    picture.line(f"M{middle} {middle - 34}V{middle - 84}", width=4)
    picture.line(f"M{middle + 40} {middle + 32}H{middle + 84}", width=2)
    notes = [
        (middle + 76, 66, f"north: V = {north:,}, leaves {AMOUNTS['north']:,}"),
        (middle + size + 76, middle + 4, f"east: V = {east:,},"),
        (middle + size + 76, middle + 22, f"leaves {AMOUNTS['east']:,}"),
        (middle + 76, 446, f"south: it is higher, so V = {south}"),
        (16, middle + 84, f"west: closed, so V = {west}"),
    ]
    for x, y, text in notes:
        picture.write(x, y, text, "start")
    picture.write(16, 484, "Beyond the rim an exit has a drop of its own depth; every other square has none.", "start", PALE)
    return picture.text()


def ring():
    """A record room of four slots after six steps and one take-back."""
    picture = Drawing(660, 250)
    slots = [("slot 0, the newest", "step 5"), ("slot 1", "step 6, taken back"), ("slot 2", "step 3"), ("slot 3", "step 4")]
    width, left, top = 150, 20, 80
    for place, (name, step) in enumerate(slots):
        x = left + place * (width + 4)
        kept = "taken back" not in step
        picture.box(x, top, width, 60, WATER if kept else "#f2f2f2")
        picture.write(x + width / 2, top - 10, name, fill=PALE)
        picture.write(x + width / 2, top + 35, step, fill=INK if kept else PALE)
    picture.line("M557 144C557 225 80 225 80 146")
    picture.write(330, 234, "after the last slot comes slot 0")
    picture.write(left, 24, "K = 4, six steps made, the sixth taken back: kept is 3 (steps 3, 4 and 5).", "start")
    picture.write(left, 44, "Steps 1 and 2 lost their places to 5 and 6. The next step is written to slot 1.", "start")
    return picture.text()


def step_times():
    """What docs/SPEED.md calls the time of a step, and by engine pairs of how many squares in a hundred are wet and the median in µs."""
    lines = iter(SPEED.read_text(encoding="utf-8").splitlines())
    head, *shares = next(line for line in lines if line.startswith("| µs a step")).strip("|").split("|")
    wet = [0 if share.strip() == "dry" else int(share.split()[0]) for share in shares]
    next(lines)
    times = {}
    for line in lines:
        if not line.startswith("|"):
            return head.strip(), times
        engine, *spreads = (cell.strip() for cell in line.strip("|").split("|"))
        times[engine] = list(zip(wet, (float(spread.split()[0].replace(",", "")) for spread in spreads)))


def apart(heights, least):
    """Heights in their order, moved down where one is too near to the one above it."""
    placed = []
    for height in sorted(heights):
        placed.append(max(height, placed[-1] + least) if placed else height)
    return placed


def wet_shares():
    """The time of a step by how much of the meadow is wet, a line for each engine."""
    left, bottom, width, height = 70, 350, 420, 300
    picture, (head, times) = Drawing(680, 400), step_times()
    most = max(time for line in times.values() for _, time in line)
    part = next(part for part in PARTS if most < 7 * part)
    parts = int(most // part) + 1
    for mark in range(parts + 1):
        y = bottom - height * mark / parts
        picture.line(f"M{left} {y:.0f}H{left + width}", False, "#dddddd", 1)
        picture.write(left - 8, round(y + 4), f"{mark * part:,}", "end", PALE)
    for share in (0, 1, 10, 50, 100):
        picture.write(left + width * share / 100, bottom + 18 + 14 * (share == 1), share, fill=PALE)
    picture.write(left + width / 2, bottom + 42, "squares wet in a hundred", fill=PALE)
    picture.write(16, 24, f"{head}; 64 by 64 squares", "start")
    across, up = width / 100, height / (parts * part)
    at = {engine: [(left + across * wet, bottom - up * time) for wet, time in line] for engine, line in times.items()}
    order = sorted(at, key=lambda engine: at[engine][-1][1])
    for engine, y in zip(order, apart([at[engine][-1][1] for engine in order], 17)):
        colour = COLOURS[list(times).index(engine) % len(COLOURS)]
        picture.line("M" + "L".join(f"{x:.0f} {y:.1f}" for x, y in at[engine]), False, colour, 2)
        picture.write(left + width + 10, round(y + 4), engine, "start", colour)
    return picture.text()


def walled_meadow():
    """The map of the sample with its answer."""
    sheet, answer = (TOP / "samples" / f"walled-meadow.{kind}" for kind in ("sheet", "out"))
    whole = whole_in(sheet, answer)
    return svg(whole.pair, sheet.stem, whole)


def winter():
    """The map of how often each square drowned in the sample winter."""
    folder = TOP / "samples" / "winter"
    depth, names = list_in((folder / "winter.list").read_bytes())
    sheet, _ = read(bytes_as_text(TOP / names[0].decode("ascii")))
    return often_svg(sheet, tally_of(bytes_as_text(folder / "winter.list.out")), "winter", depth)


def boards():
    """The display panel of the sample boards; the water at the end is worked in Python, since no answer of `meadow` to a winter's sheet is stored."""
    sheet, boards_text, told = (bytes_as_text(TOP / "samples" / "winter" / f"3-christmas.{kind}") for kind in ("sheet", "boards", "boards.out"))
    pair = balanced(pair_of(*read(sheet), worked(sheet)))
    return staffs_svg(shown_of(sheet, boards_text, told), pair, "3-christmas")


PICTURES = {
    "walled-meadow.svg": walled_meadow,
    "square.svg": one_square,
    "ring.svg": ring,
    "wet-shares.svg": wet_shares,
    "winter.svg": winter,
    "boards.svg": boards,
}
FOLDER = TOP / "docs" / "pictures"


def main():
    for name, made in PICTURES.items():
        (FOLDER / name).write_text(made(), encoding="utf-8")
        print(f"docs/pictures/{name}")
    return 0


if __name__ == "__main__":
    ended(main, "pictures")
