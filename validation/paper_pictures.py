"""The pictures of the other papers' own cases, and of which run line suits which pond."""
import beach
import drained_plane
import plane_wetting
import rain_terrain
from charts import BLUE, GREEN, GREY, RED, Chart
from meadow.maps.shades import CLASSES, class_of
from meadow.rule.weighing import EDITIONS
from meadow.sheets.lines import MINUTE
from meadow.words.run_lines import suited
from shared import USUAL, answers_at, limits

COLOURS = dict(zip(EDITIONS, (BLUE, RED, GREEN)))
# pixels: a square of a snapshot, and what stands round each
PIXEL, MARGIN, TITLE = 9, 20, 22
UNDER = "#fbf9f0"


def wetting():
    """The wave of source 002 and ours at four of its times."""
    side, times = 50, (500, 1_400, 2_300, 3_600)
    chart = Chart(range(0, 5_001, 500), [0, 0.2, 0.4, 0.6, 0.8, 1.0, 1.2], "distance from the inlet, m", "depth, m, after 500, 1,400, 2,300 and 3,600 s")
    for (found, _), t in zip(plane_wetting.answers(side, times), times):
        chart.dots([((at + 0.5) * side, depth) for at, depth in enumerate(found) if depth], BLUE)
        behind = [*range(0, int(plane_wetting.front(t)), 25), plane_wetting.front(t)]
        chart.line([(x, plane_wetting.wave_depth(x, t)) for x in behind], RED)
    chart.name(2_500, 1.1, "lines: the wave of eq. 16", RED)
    chart.name(2_500, 1.02, f"dots: meadow, squares of {side} m", BLUE)
    return chart.text()


def beach_flood():
    """The flood on the beach at 1,100 s: the smoothest and the roughest ground, in short steps and in steps of a second."""
    t = 1_100
    chart = Chart(range(0, 5_001, 500), [0, 1, 2, 3, 4, 5, 6], "distance inland, m", f"level, m, after {t:,} s")
    xs = [at * beach.SIDE for at in range(beach.SQUARES)]
    chart.line(list(zip(xs, beach.beds())), GREY)
    for roughness in (100, 800):
        flood = beach.followed(roughness, (t,))
        chart.line([pair for pair, bed in zip(zip(xs, flood[t][0]), beach.beds()) if pair[1] > bed], GREEN)
        for shortest, colour in ((1_000, RED), (10, BLUE)):
            ((depths, _),) = beach.flooded(roughness, flood, shortest, (t,))
            chart.dots([(x, depth + bed) for x, depth, bed in zip(xs, depths, beach.beds()) if depth], colour)
    chart.name(2_400, 5.6, "blue: shortest step 10 ms", BLUE)
    chart.name(2_400, 5.2, "red: shortest step 1 s", RED)
    chart.name(2_400, 4.8, "green: with nothing rounded", GREEN)
    chart.name(3_750, 3.2, "grey: the beach", GREY)
    chart.name(150, 2.6, "n 0.08", BLUE)
    chart.name(1_750, 4.0, "n 0.01", BLUE)
    return chart.text()


def terrain_depths():
    """The depths at the four points over time, as source 003's Fig. 5 has them."""
    minutes = range(0, 201, 5)
    chart = Chart(range(0, 201, 20), [0, 0.1, 0.2, 0.3, 0.4, 0.5], "minutes after the rain began", "depth, m")
    answers = answers_at(rain_terrain.terrain(), [minute * MINUTE for minute in minutes])
    names = zip(rain_terrain.POINTS.items(), (BLUE, GREEN, RED, GREY))
    for (name, place), colour in names:
        points = [(minute, answer.depths[place] / 1e6) for minute, answer in zip(minutes, answers)]
        chart.line(points, colour, "5 3" if name == "right" else "none")
    chart.name(150, 0.45, "pond", BLUE)
    chart.name(150, 0.15, "left of the crest", GREEN)
    chart.name(122, 0.055, "crest (red) and right of it (dashes)", RED)
    return chart.text()


def terrain_snapshots():
    """The terrain at the four times of source 003's Fig. 4, in the map's own shades."""
    wide, high = rain_terrain.COLUMNS * PIXEL, rain_terrain.ROWS * PIXEL
    width, height = 2 * wide + 3 * MARGIN, 2 * (high + TITLE + MARGIN) + MARGIN
    drawn = [f'<svg xmlns="http://www.w3.org/2000/svg" width="{width}" height="{height}" font-family="sans-serif" font-size="12">']
    drawn.append(f'<rect width="{width}" height="{height}" fill="#ffffff"/>')
    answers = answers_at(rain_terrain.terrain(), [minute * MINUTE for minute in rain_terrain.SNAPSHOTS])
    for at, (minute, answer) in enumerate(zip(rain_terrain.SNAPSHOTS, answers)):
        left, top = MARGIN + at % 2 * (wide + MARGIN), TITLE + at // 2 * (high + TITLE + MARGIN)
        drawn.append(f'<text x="{left}" y="{top - 6}">after {minute} min</text>')
        for (row, column), depth in answer.depths.items():
            reached = class_of(depth)
            fill = UNDER if reached is None else CLASSES[reached][1]
            drawn.append(f'<rect x="{left + column * PIXEL}" y="{top + row * PIXEL}" width="{PIXEL}" height="{PIXEL}" fill="{fill}"/>')
        drawn.append(f'<rect x="{left}" y="{top}" width="{wide}" height="{high}" fill="none" stroke="#555555"/>')
    x = MARGIN
    for colour, name in ((UNDER, "under 1 mm"), *(shade[1:] for shade in CLASSES[:4])):
        drawn.append(f'<rect x="{x}" y="{height - MARGIN - 8}" width="12" height="12" fill="{colour}" stroke="#555555"/>')
        drawn.append(f'<text x="{x + 18}" y="{height - MARGIN + 2}">{name}</text>')
        x += 115
    return "\n".join(drawn + ["</svg>"]) + "\n"


def drained():
    """Depths along the middle row of the drained plane, by each edition."""
    side, step = 10, 50
    chart = Chart(range(0, 201, 20), [1.4, 1.6, 1.8, 2, 2.2, 2.4], "distance along the middle row, m", f"depth, m, after 5 min in steps of {step} ms, squares of {side} m")
    for edition in (2, 3, 1):
        (answer,) = answers_at(drained_plane.plane(side, **limits(0, step, step, MINUTE), edition=edition), (drained_plane.EARLY,))
        row = sorted((column, depth) for (row, column), depth in answer.depths.items() if row == 10)
        chart.line([((column + 0.5) * side, depth / 1e6) for column, depth in row], COLOURS[edition])
    chart.name(90, 2.34, "red: edition 2, Manning in each direction", RED)
    chart.name(90, 2.27, "green: edition 3, without the limit Vmin + P", GREEN)
    chart.name(90, 2.2, "blue: edition 1", BLUE)
    return chart.text()


def run_lines():
    """What has gone of the drained plane over an hour, by usual steps, by suited ones and by short ones."""
    minutes = range(0, 61, 2)
    fields = suited(10, drained_plane.ROUGHNESS, drained_plane.DEEP)
    lines = ((USUAL, 1, RED, "none"), (USUAL, 3, RED, "5 3"), (fields, 1, BLUE, "none"), (fields, 3, BLUE, "5 3"))
    chart = Chart(range(0, 61, 5), [0, 20, 40, 60, 80, 100], "minutes", "% of the water gone: a plane of 200 m under 3 m, squares of 10 m, drained at a corner")
    for run, edition, colour, dashes in lines:
        sheet = drained_plane.plane(10, **run, edition=edition)
        whole = sum(sheet.depth(place) for place in sheet.ground())
        answers = answers_at(sheet, [minute * MINUTE for minute in minutes])
        chart.line([(minute, 100 * answer.out / whole) for minute, answer in zip(minutes, answers)], colour, dashes)
    chart.name(22, 40, f"blue: suited steps (shortest {fields['shortest']} ms, update time 1 s)", BLUE)
    chart.name(22, 30, "red: usual steps (shortest 500 ms, update time 60 s)", RED)
    chart.name(22, 20, "whole lines: edition 1; dashes: edition 3", GREY)
    return chart.text()


PAPER_PICTURES = {
    "plane-wetting.svg": wetting,
    "beach.svg": beach_flood,
    "terrain-depths.svg": terrain_depths,
    "terrain-snapshots.svg": terrain_snapshots,
    "drained-plane.svg": drained,
    "run-lines.svg": run_lines,
}
