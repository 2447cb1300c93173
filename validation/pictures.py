#!/usr/bin/env python3
"""pictures.py [NAME ..]: makes the pictures of docs/FIGURES.md, all or those named, under docs/pictures/, from runs of the programs."""
import sys
from pathlib import Path

sys.path.insert(0, str(Path(__file__).resolve().parent.parent / "python"))

from analytical_wave import WAVES, compare, fold, wave_depth, wave_sheet
from charts import BLUE, GREEN, GREY, RED, Chart
from ditch_mouth import BED_EDGE, BELOW_EDGE, FLOW, SQUARES, normal_depth, profile
from editions import FIXED, wave as wave_by
from long_step import RUNS, level_meadow
from meadow.maps.drawing import svg
from meadow.programs import TOP, ended, meadow
from meadow.sheets.grounds import HELD_MOUTH, opened_pond
from meadow.sheets.lines import HOUR, MINUTE, SECOND
from meadow.sheets.pairs import pair_of
from meadow.sheets.reading import read
from paper_pictures import PAPER_PICTURES
from pond import settled
from shared import limits
from soaking import SAMPLE

FOLDER = TOP / "docs" / "pictures"


def wave():
    side = 25
    sheet, places = wave_sheet(side)
    found, _ = compare(meadow(sheet.text(HOUR)), places, side)
    chart = Chart(range(0, 3_751, 750), [0, 0.5, 1, 1.5, 2, 2.5], "distance from the inlet, m", "depth, m, after 3,600 s")
    chart.dots([((i + 0.5) * side, depth) for i, depth in enumerate(found)], BLUE)
    chart.line([(x, wave_depth(x, HOUR / SECOND)) for x in (*range(0, 3_600, 25), *range(3_576, 3_601, 2), 3_750)], RED)
    chart.name(150, 1.0, "line: the analytical wave", RED)
    chart.name(150, 0.8, "dots: meadow, squares of 25 m", BLUE)
    return chart.text()


def editions():
    """The wave by each edition in steps of four times the least, as source 000's Fig. 5 has it."""
    side, fixed = 10, FIXED[10][1]
    places = fold(WAVES[side])
    chart = Chart(range(0, 3_751, 750), [0, 1, 2, 3, 4, 5, 6], "distance from the inlet, m", f"depth, m, after 3,600 s in steps of {fixed} ms")
    for edition, colour in ((2, RED), (3, GREEN), (1, BLUE)):
        found, _ = compare(wave_by(side, limits(0, fixed, fixed, 60_000), edition), places, side)
        chart.line([((i + 0.5) * side, depth) for i, depth in enumerate(found)], colour)
    chart.line([(x, wave_depth(x, HOUR / SECOND)) for x in (*range(0, 3_600, 25), *range(3_576, 3_601, 2), 3_750)], GREY, "4 3")
    chart.name(1_600, 5.2, "dashes: the analytical wave", GREY)
    chart.name(1_600, 4.7, "blue: edition 1", BLUE)
    chart.name(1_600, 4.2, "red: edition 2, Manning in each direction", RED)
    chart.name(1_600, 3.7, "green: edition 3, without the limit Vmin + P", GREEN)
    return chart.text()


def ditch_mouth():
    side = 10
    centres = [(column + 0.5) * side for column in range(SQUARES)]
    points = lambda depths: [(x, depth / 1e6) for x, depth in zip(centres, depths)]
    names = "distance along the ditch, m; its exit is at 320 m", f"depth, m, at {FLOW} l/s for each metre of width"
    chart = Chart(range(0, 321, 40), [0, 0.02, 0.04, 0.06, 0.08, 0.1, 0.12, 0.14], *names)
    chart.line([(0, normal_depth() / 1e6), (320, normal_depth() / 1e6)], GREY, "4 3")
    chart.dots(points(profile(side, further=SQUARES)), RED)
    chart.dots(points(profile(side)), BLUE)
    for edge in (2 * BED_EDGE, BED_EDGE, BED_EDGE // 2):
        chart.line(points(profile(side, {**BELOW_EDGE, "edge": edge})), GREEN)
    chart.name(10, 0.06, "dashes: normal depth", GREY)
    chart.name(10, 0.05, "red: the ditch goes on beyond 320 m", RED)
    chart.name(10, 0.04, "blue: an exit at 320 m, edge slope 10,000", BLUE)
    chart.name(10, 0.03, f"green: edge slopes {BED_EDGE // 2} (deepest), {BED_EDGE}, {2 * BED_EDGE}", GREEN)
    return chart.text()


def map_of(name, sheet, end):
    """The map of a run to an end."""
    return svg(pair_of(sheet, end, meadow(sheet.text(end))), name)


PICTURES = {
    "wave.svg": wave,
    "held-pond.svg": lambda: map_of("held pond", opened_pond(settled(), HELD_MOUTH), 10 * MINUTE),
    "ditch-mouth.svg": ditch_mouth,
    "editions.svg": editions,
    "usual-steps.svg": lambda: map_of("usual steps", level_meadow(RUNS["usual"]), 30 * MINUTE),
    "long-steps.svg": lambda: map_of("steps of 60 s", level_meadow(RUNS["all 60 s"]), 30 * MINUTE),
    "soaking-meadow.svg": lambda: map_of("soaking meadow", *read(SAMPLE.read_text(encoding="ascii"))),
    **PAPER_PICTURES,
}


def main():
    FOLDER.mkdir(exist_ok=True)
    for name in sys.argv[1:] or PICTURES:
        (FOLDER / name).write_text(PICTURES[name](), encoding="utf-8")
        print(f"docs/pictures/{name}")
    return 0


if __name__ == "__main__":
    ended(main, "pictures")
