"""The pages are true of the sources: every public function stands in docs/CONTRACTS.md, every file and name that docs/METHOD.md cites is
there, its ranges and its worked square are those of document 01 in Python, pictures and tables of crates are as made, no table has a cell too long to read,
every path and every name in backticks is there, each edit says which fact refuses it and where, README's first sheet gives README's answer,
docs/SPEED.md has the tables that bin/speed makes, and `meadow` is as large as it says."""
import os
import re
from pathlib import Path

import architecture
import edits
import pictures
import speed
from meadow.counted import Checks
from meadow.programs import TOP, printed
from meadow.rule.ranges import RANGES
from meadow.rule.worked_square import AMOUNTS
from rattle.functions import library_functions

CRATES = TOP / "crates"
METHOD = TOP / "docs" / "METHOD.md"
CONTRACTS = TOP / "docs" / "CONTRACTS.md"
DEMANDS = TOP / "docs" / "DEMANDS.md"
# "some 30 words"
MOST_WORDS = 35
SHORT_CELLS = ("CONTRACTS.md", "DEMANDS.md")
CITATIONS = ["part", "definition", "function", "law", "test"]
# a thing of METHOD's first table, and the range of document 01 in Python
UNITS = {
    "rows, and columns": "rows",
    "side of a square": "side",
    "bed": "bed",
    "depth": "depth",
    "last leaving": "last",
    "roughness": "roughness",
    "soak rate": "soak rate",
    "mark": "mark",
    "slope tolerance": "tolerance",
    "shortest step": "shortest",
    "longest step": "longest",
    "update time": "update",
    "edge slope": "edge",
    "edition": "edition",
    "clock, and times in tables": "clock",
    "rain": "rate",
    "inflow": "litres",
    "outflow total": "outflow",
    "total soaked": "soaked",
}
PATH = re.compile(r"`((?:\.ci|bin|crates|docs|examples|python|rust|samples|tests|tools|validation)/[\w./-]+?)/?`")
LINK = re.compile(r"\]\((?!http|#)([^)#]+)\)")
FENCED = re.compile(r"^```.*?^```", re.S | re.M)
NAME = re.compile(r"[A-Za-z_][\w′'-]*")
SOURCES = (".ci", "bin", "crates", "examples", "python", "rust", "samples", "tests", "tools", "validation")
# folders in which rt and cargo leave what they build
BUILT = ("out", "target")
# these tell what was, with names that have gone since
OF_THE_PAST = {"CHANGES.md", "PORT.md", "DESIGN-PASS.md", "LOOK-BACK.md"}
# names of the kit, which stand in no source of this project
OF_THE_KIT = {"rattle-kit-13f", "version"}


def cells(line):
    """The cells of a table's row."""
    return [cell.strip() for cell in re.split(r"(?<!\\)\|", line.strip().strip("|"))]


def tables(text):
    """Each table of a page: its heads, and its rows."""
    lines = text.splitlines()
    for at, line in enumerate(lines):
        if re.fullmatch(r"\|(-+\|)+", line):
            rows = []
            for row in lines[at + 1 :]:
                if not row.startswith("|"):
                    break
                rows.append(cells(row))
            yield cells(lines[at - 1]), rows


def ticked(text):
    """What stands between backticks."""
    return re.findall(r"`([^`]+)`", text)


def hold_contracts(checks, functions):
    """A row for each public function, in its crate's section, and none besides."""
    sections = re.split(r"^## ", CONTRACTS.read_text(encoding="utf-8"), flags=re.M)
    told = set()
    for section in sections:
        crate = section.split("\n", 1)[0].strip()
        for heads, rows in tables(section):
            if heads[0] == "function":
                told |= {(crate, name) for row in rows for name in ticked(row[0])}
    for crate, name in sorted(functions | told):
        checks.hold((crate, name) in told, f"docs/CONTRACTS.md has no row for {crate}::{name}")
        checks.hold((crate, name) in functions, f"docs/CONTRACTS.md has a row for {crate}::{name}, which is no public function")


def defined(path, name):
    """Whether a file of definitions or laws has a name at the beginning of a line."""
    words = r"(?:(?:pub|abbrev|unfoldable|record|data|private) )*"
    return re.search(rf"^ *{words}{re.escape(name)}(?=[\s(:{{]|$)", path.read_text(encoding="utf-8"), re.M) is not None


def hold_names(checks, cell):
    """Each file of a cell is there and has the names that follow it."""
    path = None
    for word in ticked(cell):
        if word.endswith(".antt"):
            path = CRATES / word
            checks.hold(path.exists(), f"docs/METHOD.md cites crates/{word}, which is not there")
        elif path is None or not path.exists():
            checks.hold(False, f"docs/METHOD.md cites {word} of no file that is there")
        else:
            checks.hold(defined(path, word), f"docs/METHOD.md cites {word} of {path.relative_to(TOP)}, which has no such name")


def hold_function(checks, cell):
    """A function as crate::module::name, or crate::name for one in the crate's root."""
    (word,) = ticked(cell)
    crate, *module, name = word.split("::")
    source = CRATES / crate / "src" / f"{module[0] if module else 'lib'}.rt"
    there = source.exists() and re.search(rf"\bfn {name}\(", source.read_text(encoding="utf-8"))
    checks.hold(there, f"docs/METHOD.md cites the function {word}, which is not there")


def hold_method(checks):
    """The citations, the ranges and the worked square of docs/METHOD.md."""
    found = list(tables(METHOD.read_text(encoding="utf-8")))
    cited = [row for heads, rows in found if heads == CITATIONS for row in rows]
    checks.hold(cited != [], "docs/METHOD.md cites nothing")
    for _, definition, function, law, test in cited:
        hold_names(checks, definition)
        hold_function(checks, function)
        hold_names(checks, law)
        for word in ticked(test):
            checks.hold((TOP / word).exists(), f"docs/METHOD.md cites {word}, which is not there")
    units = {row[0].split(":")[0]: row[3:] for heads, rows in found if heads[0] == "thing" for row in rows}
    for thing, name in UNITS.items():
        ends = [int(end.replace(",", "")) if end[:1].isdigit() else bound for end, bound in zip(units.get(thing, ()), RANGES[name])]
        checks.hold(ends == list(RANGES[name]), f"docs/METHOD.md has not the range of {thing}: {RANGES[name]}")
    square = {row[0]: row[-1] for heads, rows in found if heads[0] == "quantity" and heads[-1] == "is" for row in rows}
    checks.hold(square == {name: f"{value:,}" for name, value in AMOUNTS.items()}, "the square worked in docs/METHOD.md is worked wrongly")


def hold_pictures(checks):
    """The pictures of README and METHOD are what tools/pictures.py makes."""
    for name, made in pictures.PICTURES.items():
        stored = pictures.FOLDER / name
        checks.hold(stored.exists() and stored.read_text(encoding="utf-8") == made(), f"docs/pictures/{name} is not what tools/pictures.py makes")


def hold_crates(checks):
    """What is said of the crates is what tools/architecture.py makes of the sources: each says in a sentence what it is."""
    for name, words in architecture.described():
        checks.hold(words.endswith("."), f"the root of the crate {name} does not begin with a sentence")
    for page, made in architecture.pages().items():
        name = page.relative_to(TOP)
        checks.hold(page.read_text(encoding="utf-8") == made, f"the crates of {name} are not those of the sources: tools/architecture.py --write")


def hold_cells(checks):
    """No cell of the long tables has more words than a reader takes in."""
    for name in SHORT_CELLS:
        for _, rows in tables((TOP / "docs" / name).read_text(encoding="utf-8")):
            for row in rows:
                long = [cell for cell in row if len(cell.split()) > MOST_WORDS]
                checks.hold(not long, f"docs/{name} has a cell of over {MOST_WORDS} words: {long}")


def hold_paths(checks):
    """What a page names is there; NAME in a path stands for any name."""
    pages = [TOP / "README.md", *sorted((TOP / "docs").glob("*.md"))]
    for page in pages:
        text = page.read_text(encoding="utf-8")
        named = [TOP / path for path in PATH.findall(text) if "NAME" not in path]
        for path in named + [page.parent / link for link in LINK.findall(text)]:
            checks.hold(path.exists(), f"{page.relative_to(TOP)} names {path.relative_to(TOP)}, which is not there")


def hold_edits(checks):
    """Each edit says which fact refuses it, and where: by a name that its crate has, or in words. The table is made of them, and those that
    docs/DEMANDS.md cites are there."""
    found = list(edits.edits())
    for edit in found:
        name = f"{edit.crate}/must-fail/{edit.name}.edit"
        checks.hold(edit.fact and edit.where, f"crates/{name} does not say which fact refuses it, and where")
        sources = [path for path in files_below(CRATES / edit.crate) if path.suffix in (".rt", ".antt")]
        there = {path.stem for path in sources}.union(*(NAME.findall(path.read_text(encoding="utf-8")) for path in sources))
        checks.hold(" " in edit.where or edit.where in there, f"crates/{name} says {edit.where}, and its crate has no such name")
    checks.hold(edits.page() == CONTRACTS.read_text(encoding="utf-8"), "docs/CONTRACTS.md has not the table of edits that tools/edits.py makes")
    there = {f"{edit.crate}/{edit.name}" for edit in found}
    cited = [row[-1] for heads, rows in tables(DEMANDS.read_text(encoding="utf-8")) if heads[-1] == "tried by the edits" for row in rows]
    checks.hold(cited != [], "docs/DEMANDS.md cites no edit")
    for name in (name for cell in cited for name in ticked(cell)):
        checks.hold(name in there, f"docs/DEMANDS.md cites the edit {name}, which is not there")


def files_below(folder):
    """Every file of a folder, but for what rt and cargo build, which may come and go meanwhile."""
    for place, folders, names in os.walk(folder):
        folders[:] = sorted(name for name in folders if name not in BUILT)
        yield from (Path(place, name) for name in sorted(names))


def source_names():
    """Every word that stands in a source or is the name of one, but for this file, for what edits say and for what rt and cargo build."""
    names = set(NAME.findall((TOP / "crates.txt").read_text(encoding="utf-8")))
    for path in (path for folder in SOURCES for path in files_below(TOP / folder)):
        names |= {path.name, path.stem, *path.relative_to(TOP).parts}
        if path.suffix not in (".pyc", ".edit") and path != Path(__file__).resolve():
            names |= {name.rstrip("'-") for name in NAME.findall(path.read_text(encoding="utf-8"))}
    return names


def is_there(path):
    """Whether there is what a path of Rattle names: crate::module::function, crate::module, module::function, or something of a type."""
    *crate, module, name = path.split("::")
    sources = list(CRATES.glob(f"{crate[0] if crate else '*'}/src/{module}.rt"))
    if not crate:
        sources += CRATES.glob(f"{module}/src/*.rt")
    if not crate and not sources:
        return True
    return any(name in NAME.findall(source.read_text(encoding="utf-8")) for source in sources)


def hold_code(checks):
    """What a page has in backticks is in the sources: each word of it, and each path where it says."""
    names = source_names() | OF_THE_KIT
    for page in (TOP / "README.md", *sorted((TOP / "docs").glob("*.md"))):
        if page.name in OF_THE_PAST:
            continue
        for code in sorted(set(ticked(FENCED.sub("", page.read_text(encoding="utf-8"))))):
            missing = [name for name in NAME.findall(code) if name.rstrip("'-") not in names]
            checks.hold(not missing, f"{page.relative_to(TOP)} has `{code}`, and no source has {missing}")
            for path in re.findall(r"\w+(?:::\w+)+", code):
                checks.hold(is_there(path), f"{page.relative_to(TOP)} has `{path}`, which is not there")


def hold_entries(checks, functions):
    """The entry points that docs/CONTRACTS.md lists are those that the sources have; the exported ones have a section of their own."""
    (told,) = re.findall(r"^- \*\*Entry points\*\*.*$", CONTRACTS.read_text(encoding="utf-8"), re.M)
    for function in functions:
        if function.crate != "exports":
            checks.hold((function.name in ticked(told)) == function.is_entry, f"docs/CONTRACTS.md lists {function.name} as an entry point, or does not")


def hold_first_sheet(checks):
    """README's first sheet gives the answer that README shows, tabs being shown as spaces."""
    text = (TOP / "README.md").read_text(encoding="utf-8")
    sheet = re.search(r"<<'END'\n(.*?)^END$", text, re.S | re.M)
    answer = re.search(r"^The answer, tabs shown as spaces.*?^```\n(.*?)^```", text, re.S | re.M)
    if checks.hold(sheet and answer, "README.md has no first sheet with its answer"):
        told = printed("meadow", sheet[1].replace(" ", "\t").encode("ascii")).decode("ascii")
        checks.hold(told == answer[1].replace(" ", "\t"), f"README.md's first sheet gives {told!r}")


def speed_figures():
    """A run of bin/speed in its form: at the first of two places the wet walk takes half the time of each engine, at the second as long."""
    for way in speed.WAYS:
        yield f"{way}\t0\tmachine\tany"
        for padding, ours in ((0, 1_000), (512, 2_000)):
            for meadow in (*speed.SHARES, speed.AT_REST):
                for engine, time in ((speed.OURS, ours), (speed.RIVAL, 2_000), (speed.BOUNDS, 2_000)):
                    yield f"{way}\t{padding}\ttime\t{meadow}\t{engine}\t{time}"
                    yield f"{way}\t{padding}\tcount\t{meadow}\t{engine}\t4096"
        yield f"{way}\t0\texecuted\ta sheet\t{speed.RUN}\t100"


def hold_speed(checks):
    """docs/SPEED.md has each table of tools/speed.py once, so that it can be put in, and what is put in are medians over the places."""
    page, made = speed.PAGE.read_text(encoding="utf-8"), speed.tables("\n".join(speed_figures()))
    for table in made:
        told = [heads for heads, _ in tables(page) if heads[0] == table.heads[0]]
        checks.hold(len(told) == 1, f"docs/SPEED.md has {len(told)} tables with the head {table.heads[0]!r}")
    rows = [row for table in made if table.heads[0] == f"{speed.OURS} / it, native" for row in table.rows]
    checks.hold(rows == [[engine, *["0.75 (0.50..1.00)"] * len(speed.SHARES)] for engine in (speed.RIVAL, speed.BOUNDS)], f"tools/speed.py makes {rows}")
    asked = [row[-1].split(": ")[1] for table in made if table.heads[0] == "target" for row in table.rows]
    checks.hold(asked == ["holds"] * len(speed.TARGETS), f"tools/speed.py says of the targets {asked}")


def hold_size(checks):
    """README says how large the program is that may be copied elsewhere."""
    told = re.search(r"`crates/meadow/out/meadow` has some (\d+)0 kilobytes", (TOP / "README.md").read_text(encoding="utf-8"))
    size = (TOP / "crates" / "meadow" / "out" / "meadow").stat().st_size
    checks.hold(told and int(told[1]) == round(size / 10_000), f"README.md does not say that meadow has some {round(size / 1000)} kilobytes")


def main():
    checks = Checks("pages")
    functions = list(library_functions(TOP))
    checks.hold(functions != [], "there is no public function")
    hold_contracts(checks, {(function.crate, function.path) for function in functions})
    hold_entries(checks, functions)
    hold_method(checks)
    hold_pictures(checks)
    hold_crates(checks)
    hold_cells(checks)
    hold_paths(checks)
    hold_code(checks)
    hold_edits(checks)
    hold_first_sheet(checks)
    hold_speed(checks)
    hold_size(checks)
    checks.end()


if __name__ == "__main__":
    main()
