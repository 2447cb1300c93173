"""Document 01, "Units and ranges", with what requests of document 02 add: the least and the most of each thing, ends included."""

MOST_DEPTH = 100_000_000
LAST_CLOCK = 604_800_000
MOST_OUTFLOW = 10**15
MOST_SOAKED = 10**15
MOST_ROWS_OF_A_TABLE = 64

RANGES = {
    "rows": (1, 64),
    "columns": (1, 64),
    "side": (1, 100),
    "bed": (0, 1_000_000_000),
    "depth": (0, MOST_DEPTH),
    "last": (0, MOST_DEPTH),
    "roughness": (1, 10_000),
    "soak rate": (0, 1_000_000),
    "mark": (0, 2),
    "tolerance": (0, 10_000),
    "shortest": (1, 60_000),
    "longest": (1, 60_000),
    "update": (1, 3_600_000),
    "edge": (0, 10_000),
    "edition": (1, 3),
    "length": (1, 60_000),
    "lasted": (1, 60_000),
    "clock": (0, LAST_CLOCK),
    "end": (0, LAST_CLOCK),
    "from": (0, LAST_CLOCK),
    "to": (0, LAST_CLOCK),
    "rate": (0, 1_000_000),
    "litres": (0, 100_000),
    "outflow": (0, MOST_OUTFLOW),
    "soaked": (0, MOST_SOAKED),
}


def fine(name, value):
    """Whether a value lies in the range of the thing so named."""
    least, most = RANGES[name]
    return least <= value <= most
