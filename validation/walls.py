"""The walled wheel house: whatever ground is tried inside or around it, no water enters, and nothing inside changes an answer outside."""
from meadow.programs import meadow
from meadow.sheets.lines import HOUR, MINUTE, Sheet
from shared import claim, table, uneven

SIZE = 18
WALL = range(6, 12)
INSIDE = [(row, column) for row in WALL[1:-1] for column in WALL[1:-1]]
AROUND = [
    (row, column)
    for row in range(WALL[0] - 1, WALL[-1] + 2)
    for column in range(WALL[0] - 1, WALL[-1] + 2)
    if row not in WALL or column not in WALL
]
HIGHEST = 1_000_000_000
END = 30 * MINUTE


def house(inside=None, around=None, rain=()):
    """A meadow under a flood with a walled house. `inside` and `around` give beds of their squares; without `inside` all is closed."""
    sheet = Sheet(SIZE, SIZE, 10)
    for place in sheet.squares:
        walled = place[0] in WALL and place[1] in WALL
        if not walled:
            sheet.put(place, 1_000_000 + uneven(place, 400_000), 350)
    for place in AROUND if around else []:
        sheet.put(place, around(place), 350)
    for place in INSIDE if inside else []:
        sheet.put(place, inside(place), 350)
    sheet.rain += rain
    sheet.inflow += [(2, 2, 0, 30 * MINUTE, 4_000), (15, 9, 0, 30 * MINUTE, 3_000)]
    return sheet


def tried(name, sheet, alone):
    """A row of the table: water inside, water outside, and how many answers outside differ from `alone` (None: not compared)."""
    answer = meadow(sheet.text(END))
    inside = [answer.depths.get(place, 0) for place in INSIDE]
    outside = {place: depth for place, depth in answer.depths.items() if place not in INSIDE}
    differ = "other ground" if alone is None else sum(alone[place] != depth for place, depth in outside.items())
    return (name, max(inside), min(outside.values()), max(outside.values()), differ)


def figures(_long):
    alone = meadow(house().text(END)).depths
    pit, tower = (lambda place: 0), (lambda place: HIGHEST)
    uneven_floor = lambda place: uneven(place, 2_000_000)
    rows = [
        tried("house all closed", house(), alone),
        tried("floor at 0 m, a pit", house(inside=pit), alone),
        tried("floor at 1,000 m", house(inside=tower), alone),
        tried("uneven floor", house(inside=uneven_floor), alone),
        tried("floor at 0 m, ground around it at 0 m", house(inside=pit, around=pit), None),
        tried("floor at 0 m, ground around it at 1,000 m", house(inside=pit, around=tower), None),
        tried("floor at 0 m, uneven ground around it", house(inside=pit, around=uneven_floor), None),
    ]
    for row in rows:
        claim(row[1] == 0 and row[4] in (0, "other ground"), f"the wall let something through: {row}")
    # rain falls on every square that is not closed, an open floor too, and stays there
    rain = [(0, END, 20_000)]
    wet = meadow(house(inside=pit, rain=rain).text(END)).depths
    dry = meadow(house(rain=rain).text(END)).depths
    fallen = 20_000 * END // HOUR
    claim(all(wet[place] == fallen for place in INSIDE), "rain inside did not stay")
    differ = sum(wet[place] != depth for place, depth in dry.items())
    claim(differ == 0, "rain inside changed an answer outside")
    rows.append(("floor at 0 m, rain of 20 mm/h", fallen, min(dry.values()), max(dry.values()), differ))
    yield from table(["trial", "deepest inside, µm", "least outside, µm", "deepest outside, µm", "answers outside that differ"], rows)
