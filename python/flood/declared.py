"""The exported functions and their constants as Python calls them. Made from crates/exports/src by tools/header.py, and kept true by
tests/header.py."""

VERSION = "1.0.0"
MARK_CLOSED = 0  # a wall: no water enters it or leaves it
MARK_OPEN = 1
MARK_EXIT = 2  # open, on the rim, and water may leave the grid there
RAIN_WIDTH = 3  # numbers of one rain row: from, to, rate
INFLOW_WIDTH = 5  # numbers of one inflow row: row, column, from, to, litres per second
RECORD_HEAD = 2  # numbers of a record before its squares
RECORD_SQUARE = 7  # numbers of a record for each square
RULES_NUMBERS = 7
RUN_NUMBERS = 6
STEPS_NUMBERS = 1
BOUNDS_NUMBERS = 2
SPEED_NUMBERS = 2
COUNT_NUMBERS = 1
HEADING_NUMBERS = 12
LINE_NUMBERS = 1
OUT_ROOM = 40960
RAIN_ROOM = 192  # numbers of a room for any sheet's rain
INFLOW_ROOM = 320  # numbers of a room for any sheet's inflow
MOVING = 0  # flood_arrow: the speeds are written
CLOSED = 101  # flood_arrow: what the square is instead
DRY = 102
STILL = 103
BOUNDED = 0  # flood_step_bounds: both figures are written
NOT_BOUNDED = 104  # flood_step_bounds: the clock is no multiple of U, or past the end
HEADING_RULES = 2
HEADING_END = 9
HEADING_RAIN_ROWS = 10
HEADING_INFLOW_ROWS = 11

# what each refusal is about
REFUSALS = {
    1: "shape or D out of range, an array of another size than it must have, an asked square off the grid",
    2: "mark above 2, exit off the rim, bed, roughness or soak rate of a square not closed out of range",
    3: "depth or last leaving of a square not closed out of range",
    4: "rain or inflow: odd length, over 64 rows, a value out of range, from > to, a closed or missing square",
    5: "q, step limits, U, e, edition or wet depth out of range; end not a multiple of U or out of range",
    6: "no room for a record, or a run value out of range",
    7: "the step would pass clock 604,800,000",
    8: "a new depth above 100,000,000",
    9: "outflow total above 10^15",
    10: "no step is kept to take back or to see",
    11: "the newest record cannot be right",
    12: "sheet text, with its line",
    15: "total soaked above 10^15",
}

# of each function what it gives, and its parameters; & says an array, and mut that it is written
FUNCTIONS = {
    "flood_fresh": (
        "u32",
        ("rows", "usize"),
        ("columns", "usize"),
        ("rules", "&[u64]"),
        ("marks", "&[u8]"),
        ("lasts", "&mut [u32]"),
        ("records", "&[u32]"),
        ("run", "&mut [u64]"),
    ),
    "flood_step": (
        "u32",
        ("rows", "usize"),
        ("columns", "usize"),
        ("rules", "&[u64]"),
        ("marks", "&[u8]"),
        ("beds", "&[u32]"),
        ("roughness", "&[u32]"),
        ("rates", "&[u32]"),
        ("rain", "&[u32]"),
        ("inflow", "&[u32]"),
        ("depths", "&mut [u32]"),
        ("lasts", "&mut [u32]"),
        ("records", "&mut [u32]"),
        ("run", "&mut [u64]"),
    ),
    "flood_step_wet": (
        "u32",
        ("rows", "usize"),
        ("columns", "usize"),
        ("rules", "&[u64]"),
        ("marks", "&[u8]"),
        ("beds", "&[u32]"),
        ("roughness", "&[u32]"),
        ("rates", "&[u32]"),
        ("rain", "&[u32]"),
        ("inflow", "&[u32]"),
        ("depths", "&mut [u32]"),
        ("lasts", "&mut [u32]"),
        ("records", "&mut [u32]"),
        ("run", "&mut [u64]"),
    ),
    "flood_run_to": (
        "u32",
        ("rows", "usize"),
        ("columns", "usize"),
        ("rules", "&[u64]"),
        ("end", "u64"),
        ("marks", "&[u8]"),
        ("beds", "&[u32]"),
        ("roughness", "&[u32]"),
        ("rates", "&[u32]"),
        ("rain", "&[u32]"),
        ("inflow", "&[u32]"),
        ("depths", "&mut [u32]"),
        ("lasts", "&mut [u32]"),
        ("records", "&mut [u32]"),
        ("run", "&mut [u64]"),
        ("steps", "&mut [u64]"),
    ),
    "flood_run_to_wet": (
        "u32",
        ("rows", "usize"),
        ("columns", "usize"),
        ("rules", "&[u64]"),
        ("end", "u64"),
        ("marks", "&[u8]"),
        ("beds", "&[u32]"),
        ("roughness", "&[u32]"),
        ("rates", "&[u32]"),
        ("rain", "&[u32]"),
        ("inflow", "&[u32]"),
        ("depths", "&mut [u32]"),
        ("lasts", "&mut [u32]"),
        ("records", "&mut [u32]"),
        ("run", "&mut [u64]"),
        ("steps", "&mut [u64]"),
    ),
    "flood_take_back": (
        "u32",
        ("rows", "usize"),
        ("columns", "usize"),
        ("marks", "&[u8]"),
        ("depths", "&mut [u32]"),
        ("lasts", "&mut [u32]"),
        ("records", "&[u32]"),
        ("run", "&mut [u64]"),
    ),
    "flood_step_bounds": (
        "u32",
        ("rules", "&[u64]"),
        ("clock", "u64"),
        ("end", "u64"),
        ("bounds", "&mut [u64]"),
    ),
    "flood_arrow": (
        "u32",
        ("rows", "usize"),
        ("columns", "usize"),
        ("square_side", "u64"),
        ("marks", "&[u8]"),
        ("depths", "&[u32]"),
        ("records", "&[u32]"),
        ("run", "&[u64]"),
        ("row", "usize"),
        ("column", "usize"),
        ("speeds", "&mut [f64]"),
    ),
    "flood_wet_rows": (
        "u32",
        ("rows", "usize"),
        ("columns", "usize"),
        ("marks", "&[u8]"),
        ("depths", "&[u32]"),
        ("wet_depth", "u32"),
        ("wet", "&mut [u64]"),
        ("count", "&mut [u64]"),
    ),
    "flood_read_sheet": (
        "u32",
        ("text", "&[u8]"),
        ("marks", "&mut [u8]"),
        ("beds", "&mut [u32]"),
        ("roughness", "&mut [u32]"),
        ("rates", "&mut [u32]"),
        ("depths", "&mut [u32]"),
        ("rain", "&mut [u32]"),
        ("inflow", "&mut [u32]"),
        ("heading", "&mut [u64]"),
        ("line", "&mut [u64]"),
    ),
    "flood_meadow": (
        "usize",
        ("text", "&[u8]"),
        ("out", "&mut [u8]"),
    ),
}
