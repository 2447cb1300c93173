"""Writes how C, Rust and Python call the exported functions, from the functions themselves: crates/exports/flood.h and
crates/display_exports/display.h, for Rust declared.rs and declared_boards.rs under rust/src, and for Python python/flood/declared.py. A slice
becomes a pointer and a length.

    python3 tools/header.py            prints both headers
    python3 tools/header.py --write    writes all five files
"""

import re
import sys
from pathlib import Path
from textwrap import wrap
from typing import NamedTuple

from begin import ended

ROOT = Path(__file__).resolve().parent.parent
CRATES = ROOT / "crates"
RUST = ROOT / "rust" / "src"
PYTHON = ROOT / "python" / "flood" / "declared.py"

IN_C = {"bool": "bool", "u8": "uint8_t", "u32": "uint32_t", "u64": "uint64_t", "usize": "size_t", "f64": "double", "Board": "struct flood_board"}
# how many bytes a number has, which is also what its place is a multiple of
BYTES = {"bool": 1, "u8": 1, "u32": 4, "u64": 8, "usize": 8, "f64": 8}

FUNCTION = re.compile(
    r"((?://[^\n]*\n)+)#\[unsafe\(no_mangle\)\]\npub extern \"C\" fn (\w+)\((.*?)\) -> (\w+)\n", re.DOTALL
)
SLICE = re.compile(r"&(mut )?\[(\w+)\]")
DERIVES = r"(?:#\[derive\([^\n]*\)\]\n)*"
STRUCT = re.compile(rf"((?://[^\n]*\n)+){DERIVES}#\[repr\(C\)\]\n{DERIVES}pub struct (\w+) \{{\n(.*?)\}}\n", re.DOTALL)

# ---------------------------------------------------------------- what the headers say besides the functions

# the constants that a caller needs: the name for callers, the crate, the name there, and what it is where the name does not say it. An open
# square's mark has no name in the sources: it is what no other mark is
CONSTANTS = [
    ("MARK_CLOSED", "grid", "CLOSED", "a wall: no water enters it or leaves it"),
    ("MARK_OPEN", None, "1", None),
    ("MARK_EXIT", "grid", "EXIT", "open, on the rim, and water may leave the grid there"),
    ("RAIN_WIDTH", "reckon", "RAIN_WIDTH", "numbers of one rain row: from, to, rate"),
    ("INFLOW_WIDTH", "reckon", "INFLOW_WIDTH", "numbers of one inflow row: row, column, from, to, litres per second"),
    ("RECORD_HEAD", "ledger", "HEAD_WORDS", "numbers of a record before its squares"),
    ("RECORD_SQUARE", "ledger", "SQUARE_WORDS", "numbers of a record for each square"),
    ("RULES_NUMBERS", "exports", "RULES_NUMBERS", None),
    ("RUN_NUMBERS", "exports", "RUN_NUMBERS", None),
    ("STEPS_NUMBERS", "exports", "STEPS_NUMBERS", None),
    ("BOUNDS_NUMBERS", "exports", "BOUNDS_NUMBERS", None),
    ("SPEED_NUMBERS", "exports", "SPEED_NUMBERS", None),
    ("COUNT_NUMBERS", "exports", "COUNT_NUMBERS", None),
    ("HEADING_NUMBERS", "exports", "HEADING_NUMBERS", None),
    ("LINE_NUMBERS", "exports", "LINE_NUMBERS", None),
    ("OUT_ROOM", "programs", "OUT_ROOM", None),
    ("RAIN_ROOM", "reckon", "RAIN_ROOM", "numbers of a room for any sheet's rain"),
    ("INFLOW_ROOM", "reckon", "INFLOW_ROOM", "numbers of a room for any sheet's inflow"),
    ("MOVING", "exports", "MOVING", "flood_arrow: the speeds are written"),
    ("CLOSED", "exports", "CLOSED", "flood_arrow: what the square is instead"),
    ("DRY", "exports", "DRY", None),
    ("STILL", "exports", "STILL", None),
    ("BOUNDED", "exports", "BOUNDED", "flood_step_bounds: both figures are written"),
    ("NOT_BOUNDED", "exports", "NOT_BOUNDED", "flood_step_bounds: the clock is no multiple of U, or past the end"),
]

# what a caller looks for in a heading, and what the sources put there
HEADING = {
    "RULES": "rules.square_side",
    "END": "heading.end",
    "RAIN_ROWS": "heading.rain_rows as u64",
    "INFLOW_ROWS": "heading.inflow_rows as u64",
}

# what a caller passes for the length of a table, where its name alone would mislead: of one that is read, and of a room
LENGTHS = {"rain": ("FLOOD_RAIN_NUMBERS(its rows)", "FLOOD_RAIN_ROOM"), "inflow": ("FLOOD_INFLOW_NUMBERS(its rows)", "FLOOD_INFLOW_ROOM")}

# the ends of ranges, by the names of the crate `reckon`, and of the crate `grid` for the shape
RANGES = {
    "reckon": ("MOST_SIDE", "MOST_BED", "MOST_DEPTH", "MOST_ROUGHNESS", "MOST_TOLERANCE", "MOST_EDGE", "MOST_EDITION", "MOST_LENGTH", "MOST_UPDATE", "LAST_CLOCK")
    + ("MOST_RAIN", "MOST_LITRES", "MOST_SOAK_RATE", "MOST_TABLE_ROWS"),
    "grid": ("MOST_ALONG",),
}

# the table of document 01, and what document 02 adds to it
REFUSALS = [
    (1, "SHAPE", "shape or D out of range, an array of another size than it must have, an asked square off the grid"),
    (2, "GROUND", "mark above 2, exit off the rim, bed, roughness or soak rate of a square not closed out of range"),
    (3, "WATER", "depth or last leaving of a square not closed out of range"),
    (4, "TABLE", "rain or inflow: odd length, over 64 rows, a value out of range, from > to, a closed or missing square"),
    (5, "RULES", "q, step limits, U, e, edition or wet depth out of range; end not a multiple of U or out of range"),
    (6, "RUN", "no room for a record, or a run value out of range"),
    (7, "CLOCK", "the step would pass clock 604,800,000"),
    (8, "DEPTH", "a new depth above 100,000,000"),
    (9, "OUTFLOW", "outflow total above 10^15"),
    (10, "NONE_KEPT", "no step is kept to take back or to see"),
    (11, "RECORD", "the newest record cannot be right"),
    (12, "TEXT", "sheet text, with its line"),
    (15, "SOAKED", "total soaked above 10^15"),
]

# KiB of stack that suffice for a call, as tests/stack.sh measures them, its thread's own start included
STACK = {
    "flood_fresh": 16,
    "flood_step": 176,
    "flood_step_wet": 176,
    "flood_run_to": 176,
    "flood_run_to_wet": 176,
    "flood_take_back": 16,
    "flood_step_bounds": 16,
    "flood_arrow": 16,
    "flood_wet_rows": 16,
    "flood_read_sheet": 224,
    "flood_meadow": 352,
}

TOP = """\
/* The flood program in C, release {VERSION}: numbers and arrays only. Made from crates/exports/src by tools/header.py, and kept true by
   tests/header.py. To compile and link, from the folder of the release:

       cc -std=c99 -Iinclude examples/evening.c lib/libflood.a -o evening

   or anywhere, where PKG_CONFIG_PATH has the whole path of its lib/pkgconfig: cc -std=c99 NAME.c $(pkg-config --cflags --libs flood) -o NAME.
   The library is for x86-64.

   Each function gives a refusal's number, 0 for none, unless it says otherwise. An array is followed by how many numbers it
   has. A caller owes what Rust's slices owe: each array is there, aligned and initialised, its pointer not null even where it has no
   number; and one that a call may write overlaps with no other array of that call.

   Squares go row by row from the north, each row from the west, all from 0: a square's place is row * columns + column. Rows and columns are
   1 to {MOST_ALONG}. Of each square:
     marks       FLOOD_MARK_CLOSED, FLOOD_MARK_OPEN or FLOOD_MARK_EXIT
     beds        micrometres, 0 to {MOST_BED}
     roughness   ten-thousandths of Manning's n, 1 to {MOST_ROUGHNESS}
     rates       soak rate in micrometres per hour, 0 to {MOST_SOAK_RATE}
     depths      micrometres, 0 to {MOST_DEPTH}
     lasts       what left in the step just made, in micrometres over the square; flood_fresh makes it 0, and each step writes it
   Of a closed square a step looks at the mark alone, and writes nothing there.

   Tables, each of 0 to {MOST_TABLE_ROWS} rows that follow one another without a gap; times are ms, 0 to {LAST_CLOCK}, from at most to:
     rain        from, to, micrometres per hour (0 to {MOST_RAIN}): FLOOD_RAIN_WIDTH numbers a row
     inflow      row, column, from, to, litres per second (0 to {MOST_LITRES}): FLOOD_INFLOW_WIDTH numbers a row; the square is not closed

   ROWS ARE NOT NUMBERS. A heading tells how many rows a table has; a call wants how many numbers. Five hatches are 25 numbers, and a call that is
   told 5 takes the first hatch alone, since that is a table too. Always write
       rain, FLOOD_RAIN_NUMBERS(heading[FLOOD_HEADING_RAIN_ROWS]), inflow, FLOOD_INFLOW_NUMBERS(heading[FLOOD_HEADING_INFLOW_ROWS])
   and for a table of your own
       uint32_t hatches[FLOOD_INFLOW_NUMBERS(5)]; .. hatches, FLOOD_INFLOW_NUMBERS(5)

   Rules: square_side in m, 1 to {MOST_SIDE}; tolerance in ten-thousandths, 0 to {MOST_TOLERANCE}; shortest, longest in ms, 1 to {MOST_LENGTH}, shortest
   at most longest; update (U) in ms, 1 to {MOST_UPDATE}; edge in ten-thousandths, 0 to {MOST_EDGE}; edition, 1 to {MOST_EDITION}. An end is a multiple of U.
   Run: clock and length in ms, outflow and soaked in micrometres over one square, kept (how many steps can be taken back), newest (a slot).

   A record keeps one step: FLOOD_RECORD_HEAD numbers, the length held before the step and how long the step lasted, both in ms; then, for each
   square, FLOOD_RECORD_SQUARE numbers in micrometres over the square: what left to the north, east, south and west, the last leaving before the
   step, what was added and what soaked. `records` is a ring of slots, each FLOOD_RECORD_NUMBERS(rows, columns) long; a step writes the slot after
   `newest`, slot 0 after the last. Forty steps can be taken back where it has 40 * FLOOD_RECORD_NUMBERS(rows, columns) numbers.

   These arrays have exactly so many numbers, else the call is refused by 1 before all else:
     rules       square_side, tolerance, shortest, longest, update, edge, edition
     run         clock, length, outflow, kept, newest, soaked: goes in, and the run that the call leaves comes out in it, for the next call;
                 flood_fresh only writes it, flood_arrow only reads it
     steps       the steps that a run to an end made
     bounds      the most and the least steps of a run
     speeds      east and north, in m/s
     count       the wet squares
     heading     rows, columns, the rules (from FLOOD_HEADING_RULES on, as a call takes them), and at FLOOD_HEADING_END, FLOOD_HEADING_RAIN_ROWS
                 and FLOOD_HEADING_INFLOW_ROWS the end and how many ROWS, not numbers, of rain and of inflow there are
     line        the line of a 12, else 0
   The room `out` has FLOOD_OUT_ROOM numbers or more; a sheet's rooms for rain and inflow have FLOOD_RAIN_ROOM and FLOOD_INFLOW_ROOM or
   more, its others one number a square or more; `records` as many records as are to be kept. Any other array has one number a square, but
   for `wet`: one a row of the grid, in which bit c is set where the square in column c is not closed and at least wet_depth deep.

   A refused call leaves every array as it was, but for these:
     flood_read_sheet   writes `line` unless `heading` or `line` has not its size.
     flood_run_to       refused by 7, 8, 9 or 15 has made the steps that `steps` tells; depths, lasts, records and run are those before the
                        step refused.
     flood_run_to_wet   the same.
   flood_meadow prints a refusal as it prints an answer.

   flood_step_wet and flood_run_to_wet give and write just what flood_step and flood_run_to do, on every input, refused ones too; they work
   only the sides of squares with water.

   A call does nothing but write the arrays lent to it: it takes no memory, opens nothing, waits for nothing, and ends. Its own rooms lie
   on the stack. This much of it suffices, as tests/stack.sh measures for each on the largest grid:
"""

BOARD_CONSTANTS = [("MOST_BOARDS", "display", "MOST_BOARDS", None)]

BOARD_REFUSALS = [(13, "BOARD", "over sixteen boards, a board off the grid or on a closed square, or a mark above 100,000,000")]

BOARD_STACK = {"flood_run_to_boards": 192}

BOARD_TOP = """\
/* Level boards in C: a run to an end that keeps boards. Made from crates/display and crates/display_exports by tools/header.py, and kept true by
   tests/header.py. It stands beside flood.h, whose first words hold here too: what a caller owes, what each array has, and what numbers say.
   A release's libflood.a and libflood.so have this call beside those of flood.h. Built apart, libdisplay_exports.a has this call alone and rests on
   nothing of libexports.a; a program that makes calls of both headers then links both.

   flood_run_to_boards is flood_run_to_wet with one array more, the boards, which is followed by how many there are. It gives and writes just
   what flood_run_to_wet does, but for what 13 refuses: that comes after 1 to 6 and before any step, also where no step would be made.

   A board keeps its row, its column and its mark, a depth in micrometres. Whatever else is lent in it is set anew by each call:
     highest     the greatest depth of its square over the starting state and every state after a step
     reached     whether one of these states was at least as deep as the mark; a mark of 0 is reached at the start
     first       the clock of the first such state, which may be 0; and 0 where there was none
   No board is fine, its pointer being not null all the same; several may be on one square. A board's `reached` is lent as 0 or 1.

   Refused by 1 to 6 or by 13 the call leaves the boards as they were lent, and every other array too. Refused by 7, 8, 9 or 15 it has made the
   steps that `steps` tells, and the boards hold what the states before the step refused gave.

   A board as it lies in memory, as C lays it out by itself:
"""

BOARD_STACK_WORDS = """\
   The call does nothing but write the arrays lent to it, as those of flood.h. This much of the stack suffices, as tests/stack.sh measures on the
   largest grid:
"""

MIDDLE = """\
#ifndef {guard}
#define {guard}

{included}
#ifdef __cplusplus
extern "C" {{
#endif

"""

BOTTOM = """\
#ifdef __cplusplus
}
#endif

#endif
"""

RUST_TOP = """\
//! The exported functions as a Rust program links and calls them. Made from crates/exports/src by tools/header.py, and kept true by
//! tests/header.py.

"""

PYTHON_TOP = """\
\"\"\"The exported functions and their constants as Python calls them. Made from crates/exports/src by tools/header.py, and kept true by
tests/header.py.\"\"\"

"""

BOARD_RUST_TOP = """\
//! The exported run with boards as a Rust program links and calls it, and a board. Made from crates/display and crates/display_exports by
//! tools/header.py, and kept true by tests/header.py.

"""


class Library(NamedTuple):
    """A crate of exported functions with its header and its declarations for Rust, and what these say besides: the header's first words, the
    constants, refusals and stack, and the structs that are lent, each by its crate and name."""

    crate: str
    files: tuple
    header: Path
    declared: Path
    words: str
    rust_words: str
    constants: list
    refusals: list
    stack: dict
    structs: tuple = ()

    def sources(self):
        """Where the exported functions stand: in the static library over the crate, each under its plain name."""
        return CRATES / f"{self.crate}_c" / "src"


FLOOD = Library(
    "exports",
    ("steps.rt", "bounds.rt", "sights.rt", "sheets.rt"),
    CRATES / "exports" / "flood.h",
    RUST / "declared.rs",
    TOP,
    RUST_TOP,
    CONSTANTS,
    REFUSALS,
    STACK,
)
BOARDS = Library(
    "display_exports",
    ("boards.rt",),
    CRATES / "display_exports" / "display.h",
    RUST / "declared_boards.rs",
    BOARD_TOP,
    BOARD_RUST_TOP,
    BOARD_CONSTANTS,
    BOARD_REFUSALS,
    BOARD_STACK,
    (("display", "Board"),),
)
LIBRARIES = (FLOOD, BOARDS)


# ---------------------------------------------------------------- what the sources say


def words_of(comment):
    """A comment on one line."""
    return " ".join(line.removeprefix("//").strip() for line in comment.splitlines())



def constant(crate, name):
    """The type and the number of a constant of a crate's sources, which may be a product or a sum of others of that crate; of no crate, a mark."""
    if crate is None:
        return "u8", name
    found = []
    for source in sorted((CRATES / crate / "src").rglob("*.rt")):
        found += re.findall(rf"const {name}: (\w+) = ([^;]+);", source.read_text())
    if len(found) != 1:
        sys.exit(f"header: {len(found)} constants {name} in the crate {crate}, where one is wanted")
    kind, worth = found[0]
    numbers = re.sub(r"[A-Z]\w*", lambda named: constant(crate, named.group(0))[1], worth).replace("_", "")
    if not re.fullmatch(r"\d+( [*+] \d+)*", numbers):
        sys.exit(f"header: {name} of the crate {crate} is {worth!r}, which is no number")
    return kind, str(eval(numbers))


def version():
    """The release, which stands in one file."""
    return (ROOT / "VERSION").read_text().strip()


def first_words(library):
    """What a header begins with: the release and the ends of ranges as the sources have them."""
    ends = {name: f"{int(constant(crate, name)[1]):,}" for crate, names in RANGES.items() for name in names}
    return library.words.format(VERSION=version(), **ends)


def heading_places():
    """Where the rules stand in a heading, so that they go into a call from there, and what stands after them."""
    source = (CRATES / FLOOD.crate / "src" / "answers.rt").read_text()
    for name, value in HEADING.items():
        (at,) = re.findall(rf"room\[(\d+)\] = {re.escape(value)};", source)
        yield name, int(at)


def functions(library):
    """Each exported function: its words, its name, its parameters with their types, and what it gives."""
    for file in library.files:
        for comment, name, parameters, result in FUNCTION.findall((library.sources() / file).read_text()):
            yield words_of(comment), name, re.findall(r"(\w+): ([^,]+)", parameters), result


class Struct(NamedTuple):
    """A struct that is laid out as in C: its words, its name, and its fields with their types."""

    words: str
    name: str
    fields: list

    def places(self):
        """Where each field begins, in bytes, and how many bytes the whole has: each at the next multiple of its own size."""
        at, places = 0, []
        for name, kind in self.fields:
            at += -at % BYTES[kind]
            places.append((name, at))
            at += BYTES[kind]
        return places, at + -at % max(BYTES[kind] for _, kind in self.fields)


def structs(library):
    """The structs that a library's functions are lent."""
    for crate, wanted in library.structs:
        for source in sorted((CRATES / crate / "src").rglob("*.rt")):
            for comment, name, fields in STRUCT.findall(source.read_text()):
                if name == wanted:
                    yield Struct(words_of(comment), name, re.findall(r"pub (\w+): (\w+),", fields))


def wrapped(start, pieces, end, most):
    """The pieces after the start, in lines of at most so many letters."""
    lines, line = [], start
    for at, piece in enumerate(pieces):
        piece += end if at + 1 == len(pieces) else ","
        if len(line) + 1 + len(piece) > most:
            lines.append(line)
            line = "    " + piece
        else:
            line += ("" if line.endswith("(") else " ") + piece
    return "\n".join([*lines, line])


def remark(first, words, other, end=""):
    """Words as a remark of as many lines as they need, the first and the others begun so."""
    return "\n".join(wrap(words + end, 146, initial_indent=first, subsequent_indent=other)) + "\n"


def length_of(name, kind):
    """What the length of an array is called: how many numbers there are, or how many structs."""
    return f"{name}_numbers" if kind in BYTES else f"{name}_count"


# ---------------------------------------------------------------- C


def in_c(name, kind):
    found = SLICE.fullmatch(kind)
    if not found:
        return [f"{IN_C[kind]} {name}"]
    written, element = found.groups()
    owed = f" /* {LENGTHS[name][1 if written else 0]} */" if name in LENGTHS else ""
    return [f"{'' if written else 'const '}{IN_C[element]} *{name}", f"size_t {length_of(name, element)}{owed}"]


def declared_in_c(words, name, parameters, result):
    pieces = [piece for parameter in parameters for piece in in_c(*parameter)]
    return remark("/* ", words, "   ", " */") + wrapped(f"{IN_C[result]} {name}(", pieces, ");", 120) + "\n\n"


def named(name, value, words=None):
    return f"#define FLOOD_{name} {value}" + (f" /* {words} */" if words else "") + "\n"


def stack_in_c(library):
    """How much stack suffices, a line a function."""
    return "".join(f"     {name:<18} {size:>3} KiB\n" for name, size in library.stack.items())


def struct_in_c(struct):
    """A struct, and how many bytes it has."""
    text = remark("/* ", struct.words, "   ", " */") + f"{IN_C[struct.name]} {{\n"
    text += "".join(f"    {IN_C[kind]} {name};\n" for name, kind in struct.fields) + "};\n"
    return text + named(f"{struct.name.upper()}_BYTES", struct.places()[1], "of one") + "\n"


def layout_words(struct):
    """Where each field lies, in words."""
    places, size = struct.places()
    kinds = dict(struct.fields)
    lines = [f"     {name:<11} {BYTES[kinds[name]]} byte{'' if BYTES[kinds[name]] == 1 else 's'} from byte {at} on" for name, at in places]
    return "\n".join([*lines, f"   {size} bytes in all. What lies between its fields is not looked at."]) + "\n\n"


def own_constants(library):
    """What only one library has besides the constants of the sources."""
    if library is not FLOOD:
        return ""
    text = "".join(named(f"HEADING_{name}", at) for name, at in heading_places())
    for table in ("RAIN", "INFLOW"):
        text += named(f"{table}_NUMBERS(rows)", f"(FLOOD_{table}_WIDTH * (size_t)(rows))", "of so many rows: what a call wants")
    return text + named(
        "RECORD_NUMBERS(rows, columns)", "(FLOOD_RECORD_HEAD + FLOOD_RECORD_SQUARE * (size_t)(rows) * (size_t)(columns))", "of one record"
    )


def header(library):
    lent = list(structs(library))
    text = first_words(library) + "".join(map(layout_words, lent)) + (BOARD_STACK_WORDS if lent else "")
    included = ["stddef", "stdint"] if not lent else ["stdbool", "stddef", "stdint"]
    guard = library.header.name.upper().replace(".", "_")
    text += stack_in_c(library).rstrip("\n") + " */\n"
    text += MIDDLE.format(guard=guard, included="".join(f"#include <{name}.h>\n" for name in included))
    text += named("VERSION", f'"{version()}"') + "\n" + named("DONE", 0) if library is FLOOD else ""
    for number, name, words in library.refusals:
        text += named("REFUSED_" + name, number, words)
    text += "\n"
    for name, crate, source, words in library.constants:
        text += named(name, constant(crate, source)[1], words)
    stack = "STACK_BYTES" if library is FLOOD else "BOARDS_STACK_BYTES"
    text += own_constants(library) + named(stack, f"({max(library.stack.values())} * 1024)", "suffice for every call") + "\n"
    text += "".join(map(struct_in_c, lent))
    for function in functions(library):
        text += declared_in_c(*function)
    return text + BOTTOM


# ---------------------------------------------------------------- Rust


def linked_in_rust(words, name, parameters, result):
    pieces = []
    for parameter, kind in parameters:
        found = SLICE.fullmatch(kind)
        if found:
            written, element = found.groups()
            pieces += [f"{parameter}: *{'mut' if written else 'const'} {in_rust(element)}", f"{length_of(parameter, element)}: usize"]
        else:
            pieces.append(f"{parameter}: {kind}")
    text = wrapped(f"pub fn {name}(", pieces, f") -> {result};", 110)
    return "".join(f"        {line}\n" for line in text.split("\n"))


def in_rust(kind):
    """A type as the linked functions name it, in a module of their own."""
    return kind if kind in BYTES else f"super::{kind}"


def called_in_rust(words, name, parameters, result):
    taken = [f"{parameter}: {kind}" for parameter, kind in parameters]
    given = []
    for parameter, kind in parameters:
        found = SLICE.fullmatch(kind)
        pointer = f"{parameter}.as_mut_ptr()" if found and found.group(1) else f"{parameter}.as_ptr()"
        given += [pointer, f"{parameter}.len()"] if found else [parameter]
    body = wrapped(f"linked::{name}(", given, ")", 110).split("\n")
    text = remark("/// ", words, "/// ") + wrapped(f"pub fn {name}(", taken, f") -> {result} {{", 120) + "\n    unsafe {\n"
    return text + "".join(f"        {line}\n" for line in body) + "    }\n}\n\n"


def struct_in_rust(struct):
    """A struct."""
    text = remark("/// ", struct.words, "/// ") + f"#[repr(C)]\n#[derive(Clone, Copy, Debug, PartialEq)]\npub struct {struct.name} {{\n"
    text += "".join(f"    pub {name}: {kind},\n" for name, kind in struct.fields) + "}\n\n"
    return text


def records_in_rust():
    """How large a record is, and what else only one library has."""
    text = "".join(f"pub const HEADING_{name}: usize = {at};\n" for name, at in heading_places()) + "\n"
    text += "/// The numbers of one record.\npub const fn record_numbers(rows: usize, columns: usize) -> usize {\n"
    return text + "    RECORD_HEAD + RECORD_SQUARE * rows * columns\n}\n\n"


def declared(library):
    text = library.rust_words
    for name, crate, source, words in library.constants:
        kind, number = constant(crate, source)
        text += (f"/// {words}\n" if words else "") + f"pub const {name}: {kind} = {number};\n"
    for number, name, words in library.refusals:
        text += f"pub const REFUSED_{name}: u32 = {number};\n"
    text += records_in_rust() if library is FLOOD else "\n"
    text += f"/// KiB of stack that suffice for each call.\npub const STACK: [(&str, usize); {len(library.stack)}] = [\n"
    text += "".join(f'    ("{name}", {size}),\n' for name, size in library.stack.items()) + "];\n\n"
    text += "".join(map(struct_in_rust, structs(library)))
    text += 'mod linked {\n    extern "C" {\n'
    text += "\n".join(linked_in_rust(*function) for function in functions(library)) + "    }\n}\n\n"
    return text + "".join(called_in_rust(*function) for function in functions(library)).rstrip("\n") + "\n"


# ---------------------------------------------------------------- Python


def declared_in_python():
    """The constants by name, and of each function of flood.h what it gives and its parameters with their types, as the sources have them."""
    text = PYTHON_TOP + f'VERSION = "{version()}"\n'
    for name, crate, source, words in FLOOD.constants:
        text += f"{name} = {constant(crate, source)[1]}" + (f"  # {words}" if words else "") + "\n"
    text += "".join(f"HEADING_{name} = {at}\n" for name, at in heading_places())
    text += "\n# what each refusal is about\nREFUSALS = {\n" + "".join(f'    {number}: "{words}",\n' for number, _, words in FLOOD.refusals) + "}\n"
    text += "\n# of each function what it gives, and its parameters; & says an array, and mut that it is written\nFUNCTIONS = {\n"
    for _, name, parameters, result in functions(FLOOD):
        text += f'    "{name}": (\n        "{result}",\n' + "".join(f'        ("{parameter}", "{kind}"),\n' for parameter, kind in parameters) + "    ),\n"
    return text + "}\n"


# ---------------------------------------------------------------- all files


def files():
    """Every file that is made, with its text."""
    made = {library.header: header(library) for library in LIBRARIES} | {library.declared: declared(library) for library in LIBRARIES}
    return made | {PYTHON: declared_in_python()}


def main():
    if "--write" in sys.argv[1:]:
        for path, text in files().items():
            path.write_text(text)
    else:
        print("".join(map(header, LIBRARIES)), end="")
    return 0


if __name__ == "__main__":
    ended(main, "header")
