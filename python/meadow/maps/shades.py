"""The shades of a map, chosen to be read in colour and in grey: dry ground nearly white, each class of deeper water darker by a clear
step, and nothing so dark as water but signs and letters."""

# the least depth of each class of water, in µm, with its colour and its name; what is thinner is a film
CLASSES = [
    (1_000, "#b9d6ee", "1 mm to 1 cm"),
    (10_000, "#93c0e4", "1 to 5 cm"),
    (50_000, "#5a9bd0", "5 to 10 cm"),
    (100_000, "#2c74b3", "10 to 50 cm"),
    (500_000, "#124b8c", "50 cm to 1 m"),
    (1_000_000, "#06224f", "1 m and more"),
]
FILM_NAME = "a film under 1 mm"
FILM = "#2c74b3"
LOW_GROUND, HIGH_GROUND = (252, 250, 243), (247, 243, 232)
# a wall is hatched: strokes on paper
WALL_PAPER, WALL_STROKE = "#ffffff", "#555555"
CONTOUR, CONTOUR_NAME = "#8a6a35", "#4d3610"
EXIT = "#b35c00"
HATCH = "#8c2d04"
STANDING = "#c4001d"
INK, PALE = "#111111", "#666666"
LINES = "#dcdcdc"


def class_of(depth):
    """The place of a depth's class in the list; None for a film or dry ground."""
    reached = [at for at, (least, _, _) in enumerate(CLASSES) if least <= depth]
    return reached[-1] if reached else None


def ground(bed, lowest, highest):
    """The colour of dry ground, a little darker the higher it lies."""
    share = 0 if highest == lowest else (bed - lowest) / (highest - lowest)
    return "#" + "".join(f"{round(low + share * (high - low)):02x}" for low, high in zip(LOW_GROUND, HIGH_GROUND))


def grey(colour):
    """How bright a colour is in black and white, 0 to 255."""
    red, green, blue = (int(colour[at : at + 2], 16) for at in (1, 3, 5))
    return 0.299 * red + 0.587 * green + 0.114 * blue
