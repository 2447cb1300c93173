"""Every command of docs/TOOLS.md prints what stands below it there, and each tool has an example; README's first command prints the answer
byte for byte and ends with one line of sense, and its next makes the map; bin/meadow, bin/hatchlog, bin/drowned, bin/highest, bin/hours_wet,
bin/boards and bin/repair say what is wrong where there is no answer."""
import re
import shutil
import subprocess
import tempfile
from pathlib import Path

from damaged import CASES, answer_of, sheet_of
from meadow.counted import Checks
from meadow.logs.evening import records_kept
from meadow.peaks import heights, hours
from meadow.programs import TOP
from meadow.sheets.holes import repaired
from meadow.sheets.lines import CLOSED, SQUARE, Sheet, line_of
from meadow.sheets.reading import MOST_SQUARES
from meadow.words.reasons import IN_THE_RUN

PAGE, README = TOP / "docs" / "TOOLS.md", TOP / "README.md"
SAMPLES = TOP / "samples"
# what tools begin with, those that look after the project itself, and the one that the programs' own scripts end with; all others are for the
# warden and the keeper
OWN = {"architecture", "begin", "believed", "desk_pace", "desk_speed", "dev", "edits", "forms", "header", "manual", "pictures", "places", "program_speed", "release", "sense", "spelling", "speed", "unused", "walks", "watched"}
PROGRAMS = [f"bin/{name}" for name in ("meadow", "hatchlog", "drowned", "highest", "hours_wet", "boards", "repair", "to_survey", "from_survey")]
FOR_PEOPLE = [*PROGRAMS, *(f"tools/{path.name}" for path in sorted((TOP / "tools").glob("*.py")) if path.stem not in OWN)]
LEFT_OUT = "..."
# a sheet's only square
DRY, WALL = {"row": 0, "column": 0, "bed": 0, "roughness": 300}, {"row": 0, "column": 0, "mark": "x"}
# what the commands of the pages need beside them
FOLDERS = ("bin", "crates", "docs", "python", "samples", "tools")


def room_in(folder):
    """An empty folder with the project's own beside it."""
    room = Path(folder) / "room"
    room.mkdir()
    for name in FOLDERS:
        (room / name).symlink_to(TOP / name)
    shutil.copy2(TOP / "crates.txt", room)
    return room


def ran(command, room):
    """The status of a command, and what it prints and complains."""
    done = subprocess.run(["bash", "-c", command], cwd=room, stdin=subprocess.DEVNULL, capture_output=True, text=True)
    return done.returncode, done.stdout, done.stderr


def blocks(text):
    """The fenced blocks of a page."""
    return re.findall(r"^```\n(.*?)^```$", text, re.S | re.M)


def examples(block):
    """Each command of a block, with the lines that it prints."""
    found = []
    for line in block.splitlines():
        if line.startswith("$ "):
            found.append((line[2:], []))
        else:
            found[-1][1].append(line)
    return found


def fits(lines, wanted):
    """Whether lines are those wanted, where ... stands for any of them."""
    pattern = "".join("(?:[^\n]*\n)*" if line == LEFT_OUT else re.escape(line + "\n") for line in wanted)
    return re.fullmatch(pattern, "".join(line + "\n" for line in lines)) is not None


def hold_page(checks, room):
    """Every block of docs/TOOLS.md is commands with what they print."""
    found = blocks(PAGE.read_text(encoding="utf-8"))
    checks.hold(found != [] and all(block.startswith("$ ") for block in found), "docs/TOOLS.md has a block that is no command")
    commands = [example for block in found if block.startswith("$ ") for example in examples(block)]
    for command, wanted in commands:
        _, printed, complained = ran(command, room)
        told = (printed + complained).splitlines()
        checks.hold(fits(told, wanted), f"docs/TOOLS.md: {command} prints {told}")
    used = " ".join(command for command, _ in commands)
    for tool in FOR_PEOPLE:
        checks.hold(tool in used, f"docs/TOOLS.md has no example of {tool}")


def hold_readme(checks, room):
    """README's three commands; the first, the line of sense that it is said to end with, and the next that makes the map."""
    text = README.read_text(encoding="utf-8")
    commands = [line.split("#")[0].strip() for line in re.findall(r"^ {4}(.*)$", text, re.M)]
    first, *others = commands[:3]
    checks.hold(
        first == "bin/meadow samples/walled-meadow.sheet" and others == ["bash .ci/run", "bin/desk"],
        f"README.md begins with {commands[:3]}",
    )
    status, printed, sense = ran(first, room)
    checks.hold(status == 0 and printed == (SAMPLES / "walled-meadow.out").read_text(), "README.md's first command does not print the answer")
    checks.hold(sense.splitlines() == commands[3:6], f"README.md's first command says {sense!r}, not {commands[3:6]!r}")
    status, _, complained = ran(commands[6], room)
    checks.hold(status == 0 and complained == "" and commands[6].startswith("python3 tools/map.py"), f"README.md's next command: {complained}")
    drawn = (room / "map.svg").read_text() if (room / "map.svg").exists() else ""
    checks.hold(drawn == (TOP / "docs" / "pictures" / "walled-meadow.svg").read_text(), "README.md's next command does not make its picture")


def hold_samples(checks, room):
    """Of each sample the answer byte for byte; on standard error what there is to do, one line of sense, and then cautions and slips."""
    for sheet in sorted(SAMPLES.glob("*.sheet")):
        status, printed, sense = ran(f"bin/meadow samples/{sheet.name}", room)
        checks.hold(status == 0 and printed == sheet.with_suffix(".out").read_text(), f"bin/meadow of {sheet.name} prints something else")
        wanted = r"run to [^\n]+ steps? on [^\n]+\n[^\n]+; [\d,]+ steps?\n((mind|likely a slip): [^\n]+\n)*"
        checks.hold(re.fullmatch(wanted, sense), f"bin/meadow of {sheet.name} says {sense!r}")


def hold_refusals(checks, room):
    """A refusal is printed as it is, its reason is the last line, alone but where there was a run, and the status is 1."""
    named = {name: (base, edits, answer) for name, base, _, edits, answer in CASES}
    wanted = {"carriage-return": "carriage return", "end-no-multiple": "write 1000", "exit-off-the-rim": "row 1, column 1"}
    for name, why in {**wanted, "run-refused-too-deep": "100 m deep"}.items():
        base, edits, answer = named[name]
        (room / "damaged.sheet").write_bytes(sheet_of(base, edits).encode("ascii"))
        status, printed, sense = ran("bin/meadow damaged.sheet", room)
        checks.hold(status == 1 and printed == answer_of(answer), f"bin/meadow of {name}: status {status}, {printed!r}")
        *before, reason = sense.splitlines()
        right = reason.startswith(f"refused by {answer[0]}: ") and why in reason and len(before) == (answer[0] in IN_THE_RUN)
        checks.hold(right, f"bin/meadow of {name}: {sense!r}")
    status, printed, sense = ran("bin/meadow nosuch.sheet", room)
    checks.hold(status == 1 and printed == "" and "nosuch.sheet" in sense, f"bin/meadow of no file: status {status}, {sense!r}")
    status, printed, sense = ran("bin/meadow", room)
    checks.hold(status == 2 and "usage: bin/meadow SHEET" in sense, f"bin/meadow alone: status {status}, {sense!r}")


def hold_logs(checks, room):
    """bin/hatchlog: the sample's answer byte for byte and one line; a refusal, a file that is not there and no log are said, with the status."""
    sample = "samples/walled-evening.sheet samples/walled-evening.log"
    status, printed, sense = ran(f"bin/hatchlog {sample}", room)
    stored = (SAMPLES / "walled-evening.log.out").read_text()
    checks.hold(status == 0 and printed == stored, f"bin/hatchlog of the sample log: status {status}, or it prints something else")
    checks.hold(re.fullmatch(r"[^\n]+; [\d,]+ steps stand, [\d,]+ taken back\n", sense), f"bin/hatchlog of the sample log ends with {sense!r}")
    (room / "bad.log").write_text("hatch\t1\t0\t1\n0\t1\t5\n1\t1\t5\n")
    (room / "hatches.log").write_text("hatch\t1\t0\t1\n")
    (room / "an evening.log").write_text("back\t0\n")
    sheet = "samples/walled-evening.sheet"
    cases = [
        (f"bin/hatchlog {sheet} bad.log", 1, "refused\t12\t3\n", "refused by 12, of the log bad.log: line 3: the clock, 1 ms, is no multiple"),
        (f"bin/hatchlog {sheet} nosuch.log", 1, "refused\t12\t0\n", "refused by 12: the log nosuch.log cannot be opened"),
        (f"bin/hatchlog nosuch.sheet {sheet}", 1, "refused\t12\t0\n", "refused by 12: the sheet nosuch.sheet cannot be opened"),
        ("bin/hatchlog bad.log bad.log", 1, "refused\t12\t1\n", "refused by 12, of the sheet bad.log: line 1: "),
        (f"bin/hatchlog {sheet} hatches.log", 0, "", "nothing is printed of this log"),
        (f"bin/hatchlog {sheet} 'an evening.log'", 0, "clock\t0\n", "0 steps"),
        (f"bin/hatchlog {sheet}", 2, "", "usage: bin/hatchlog SHEET LOG"),
    ]
    hold_commands(checks, room, cases)


def hold_commands(checks, room, cases):
    """Each command ends with its status, prints what ends so, and says one line that has these words."""
    for command, wanted, ends, why in cases:
        status, printed, sense = ran(command, room)
        right = status == wanted and printed.endswith(ends) and bool(printed) == bool(ends) and why in sense and sense.count("\n") == 1
        checks.hold(right, f"{command}: status {status}, {printed[-60:]!r}, {sense!r}")


def hold_winter(checks, room):
    """bin/drowned: the sample winter byte for byte and one line; refused lists and sheets, and no sheet at all."""
    status, printed, sense = ran("bin/drowned 100000 samples/winter/*.sheet", room)
    checks.hold(status == 0 and printed == (SAMPLES / "winter" / "winter.list.out").read_text(), f"bin/drowned of the winter: status {status}")
    said = "6 sheets run, none refused; 10 cm deep or deeper: most often at row 6, column 1, in 6 of 6 sheets\n"
    checks.hold(sense == said, f"bin/drowned of the winter ends with {sense!r}")
    (room / "a sheet").write_bytes((SAMPLES / "document-01.sheet").read_bytes())
    one = "samples/winter/1-november.sheet"
    hold_commands(
        checks,
        room,
        [
            (f"bin/drowned 10cm {one}", 1, "refused\t12\t1\n", "refused by 12: the depth: 10cm has a unit: write 100000"),
            (f"bin/drowned 100000001 {one}", 1, "refused\t5\t0\n", "refused by 5: the depth is 100,000,001 µm: write 0 to 100,000,000"),
            (f"bin/drowned 5 $(yes {one} | head -n 201)", 1, "refused\t16\t0\n", "refused by 16: the list has 201 sheets"),
            (f"bin/drowned 100000 none {one}", 0, "1\t1\n1\t12\n", "1 sheet run, 1 refused; 10 cm deep or deeper: most often at row 6, column 1"),
            ("bin/drowned 5 none", 0, "0\t1\n1\t12\n", "0 sheets run, 1 refused; tools/why.py --drowned says why"),
            ("bin/drowned 1 'a sheet'", 0, "0\t0\t1\t1000\t1\n0\t1\t1\t31\t1\n1\t0\n", "1 sheet run, none refused"),
            ("bin/drowned 5", 2, "", "usage: bin/drowned DEPTH SHEET.."),
        ],
    )


def hold_heights(checks, room):
    """bin/highest: each sample with a line, and refused sheets."""
    for sheet, said in {
        "samples/walled-meadow.sheet": "deepest 45 cm at row 27, column 4, after 3 min, of a run of 3 min; 153 steps\n",
        "samples/winter/3-christmas.sheet": "deepest 63 cm at row 6, column 1, after 30 min 14 s, of a run of 1 h; 435 steps\n",
        "samples/held-pond.sheet": "deepest 69 cm at row 3, column 1, at the start, of a run of 10 min; 1,200 steps\n",
    }.items():
        status, printed, sense = ran(f"bin/highest {sheet}", room)
        checks.hold(status == 0 and printed == heights.answered((TOP / sheet).read_bytes()), f"bin/highest {sheet}: status {status}")
        checks.hold(sense == said, f"bin/highest {sheet} ends with {sense!r}")
    (room / "dry.sheet").write_text("grid\t1\t1\t1\nrun\t10\t500\t10000\t60000\t60000\t0\t1\n" + line_of(SQUARE, DRY) + "\n")
    (room / "walls.sheet").write_text("grid\t1\t1\t1\nrun\t10\t500\t10000\t60000\t60000\t0\t1\n" + line_of(SQUARE, WALL) + "\n")
    (room / "cut.sheet").write_text("grid\t1\t1\n")
    (room / "heights.out").write_text(heights.answered((SAMPLES / "document-01.sheet").read_bytes()))
    hold_commands(
        checks,
        room,
        [
            ("bin/highest dry.sheet", 0, "clock\t60000\n", "all dry from the start until 1 min; 6 steps"),
            ("bin/highest walls.sheet", 0, "clock\t60000\n", "every square closed, until 1 min; 6 steps"),
            ("bin/highest cut.sheet", 1, "refused\t12\t1\n", "refused by 12: line 1: it has 2 fields after its word and should have 3"),
            ("bin/highest none", 1, "", "none"),
            ("python3 tools/sense.py --highest dry.sheet heights.out", 1, "", "it has a depth for square 0 1, which is off the grid"),
            ("python3 tools/sense.py --highest samples/document-01.sheet dry.sheet", 1, "", "no line of what highest prints"),
            ("bin/highest", 2, "", "usage: bin/highest SHEET"),
        ],
    )


def hold_hours(checks, room):
    """bin/hours_wet: each sample with a line, and refused sheets; the sheets of one square are those of bin/highest."""
    for sheet, said in {
        "samples/walled-meadow.sheet": "126 squares, the longest for 3 min at row 0, column 4, of a run of 3 min; 153 steps\n",
        "samples/winter/3-christmas.sheet": "42 squares, the longest for 1 h at row 3, column 1, of a run of 1 h; 435 steps\n",
        "samples/held-pond.sheet": "36 squares, the longest for 10 min at row 1, column 1, of a run of 10 min; 1,200 steps\n",
    }.items():
        status, printed, sense = ran(f"bin/hours_wet {sheet}", room)
        checks.hold(status == 0 and printed == hours.answered((TOP / sheet).read_bytes()), f"bin/hours_wet {sheet}: status {status}")
        checks.hold(sense == f"1 cm deep or deeper: {said}", f"bin/hours_wet {sheet} ends with {sense!r}")
    (room / "hours.out").write_text(hours.answered((SAMPLES / "document-01.sheet").read_bytes()))
    hold_commands(
        checks,
        room,
        [
            ("bin/hours_wet dry.sheet", 0, "clock\t60000\n", "1 cm deep or deeper: no square, of a run of 1 min; 6 steps"),
            ("bin/hours_wet walls.sheet", 0, "clock\t60000\n", "1 cm deep or deeper: every square closed, of a run of 1 min; 6 steps"),
            ("bin/hours_wet cut.sheet", 1, "refused\t12\t1\n", "refused by 12: line 1: it has 2 fields after its word and should have 3"),
            ("bin/hours_wet none", 1, "", "none"),
            ("python3 tools/sense.py --hours dry.sheet hours.out", 1, "", "it has a depth for square 0 1, which is off the grid"),
            ("python3 tools/sense.py --hours samples/document-01.sheet dry.sheet", 1, "", "no line of an answer"),
            ("bin/hours_wet", 2, "", "usage: bin/hours_wet SHEET"),
        ],
    )


def hold_boards(checks, room):
    """bin/boards: the sample byte for byte and one line; refused boards and sheets, a file that is not there, and no boards."""
    sheet, boards = "samples/winter/3-christmas.sheet", "samples/winter/3-christmas.boards"
    status, printed, sense = ran(f"bin/boards {sheet} {boards}", room)
    checks.hold(status == 0 and printed == (TOP / f"{boards}.out").read_text(), f"bin/boards of the sample: status {status}")
    said = "13 of 16 marks reached, the last at row 3, column 4 after 31 min 28 s; highest 63 cm at row 6, column 1, of a run of 1 h; 435 steps\n"
    checks.hold(sense == said, f"bin/boards of the sample ends with {sense!r}")
    (room / "none.boards").write_text("")
    (room / "some boards").write_text("0\t1\t31\n")
    (room / "far.boards").write_text("0\t1\t31\n9\t9\t5\n")
    (room / "unit.boards").write_text("0\t1\t31\n0\t0\t5cm\n")
    (room / "board.out").write_text("board\t0\t1\t31\t31\t1000\nsteps\t1\nclock\t1000\n")
    one = "samples/document-01.sheet"
    hold_commands(
        checks,
        room,
        [
            (f"bin/boards {one} 'some boards'", 0, "board\t0\t1\t31\t31\t1000\nsteps\t1\nclock\t1000\n", "1 of 1 mark reached"),
            (f"bin/boards {one} none.boards", 0, "steps\t1\nclock\t1000\n", "no boards, of a run of 1 s; 1 step"),
            (f"bin/boards {one} far.boards", 1, "refused\t13\t0\n", "refused by 13, of the boards far.boards: line 2: the board at row 9, column 9"),
            (f"bin/boards {one} unit.boards", 1, "refused\t12\t2\n", "refused by 12, of the boards unit.boards: line 2: the mark: 5cm has a unit"),
            ("bin/boards far.boards far.boards", 1, "refused\t12\t1\n", "refused by 12, of the sheet far.boards: line 1: "),
            (f"bin/boards {one} nosuch", 1, "refused\t12\t0\n", "refused by 12: the boards nosuch cannot be opened"),
            (f"python3 tools/sense.py --boards board.out {one} far.boards", 1, "", "the answer is that of other boards"),
            (f"bin/boards {one}", 2, "", "usage: bin/boards SHEET BOARDS"),
        ],
    )


def hold_repair(checks, room):
    """bin/repair: what the program prints and one line; sheets that are refused, and what is not printed of a sheet."""
    beds = {"known": "70 60 x", "seen": "70 ? x", "parted": "? x ?", "some": "? 70 x ?", "cut": "70 ? x"}
    for name, row in beds.items():
        sheet = Sheet(1, len(row.split()), 1)
        for column, bed in enumerate(row.split()):
            if bed != CLOSED:
                sheet.put((0, column), bed, 300)
        text = sheet.text(0)
        (room / f"{name}.sheet").write_text(text[:-1] if name == "cut" else text)
    (room / "seen.out").write_text(repaired((room / "seen.sheet").read_bytes()))
    hold_commands(
        checks,
        room,
        [
            ("bin/repair known.sheet", 0, (room / "known.sheet").read_text(), "every bed is known: the sheet is printed as it is"),
            ("bin/repair samples/walled-meadow.sheet", 0, (SAMPLES / "walled-meadow.sheet").read_text(), "every bed is known"),
            ("bin/repair seen.sheet", 0, "x\n0\t1\t70\t1\n", "1 bed guessed in 1 round, listed after the sheet; tools/repair.py says from which"),
            ("bin/repair parted.sheet", 0, "0\t0\t-\t-\n0\t2\t-\t-\n", "no bed guessed; 2 beds cannot be guessed"),
            ("bin/repair some.sheet", 0, "0\t0\t70\t1\n0\t3\t-\t-\n", "1 bed guessed in 1 round, listed after the sheet; 1 bed cannot be guessed"),
            ("bin/repair cut.sheet", 1, "refused\t12\t5\n", "refused by 12: line 5: "),
            ("bin/repair none", 1, "", "none"),
            ("python3 tools/sense.py --repair known.sheet seen.out", 1, "", "this is not what repair prints of this sheet"),
            ("bin/repair", 2, "", "usage: bin/repair SHEET"),
        ],
    )
    why = ran("python3 tools/why.py seen.sheet", room)[1]
    checks.hold("line 4: the bed: ? stands for what the survey did not see" in why and "tools/repair.py" in why, f"why.py of a bed with ?: {why}")


def hold_kept(checks):
    """How many steps the page says can be taken back."""
    (told,) = re.findall(r"^\*\*How many steps can be taken back\*\* depends on the squares: (.*?)\. ", PAGE.read_text(encoding="utf-8"), re.M)
    figures = [tuple(map(int, re.findall(r"\d+", part))) for part in told.split(", ")]
    checks.hold(len(figures) > 3, f"docs/TOOLS.md does not say how many steps can be taken back: {told}")
    for kept, squares in figures:
        checks.hold(records_kept(squares) == kept, f"docs/TOOLS.md says {kept} steps of {squares} squares, and they are {records_kept(squares)}")
    (_, first), (last, fewest) = figures[0], figures[-1]
    checks.hold(records_kept(first + 1) < figures[0][0] and records_kept(fewest - 1) > last == records_kept(MOST_SQUARES), f"wrong ends: {told}")


def main():
    checks = Checks("tools")
    with tempfile.TemporaryDirectory() as folder:
        room = room_in(folder)
        for part in (hold_page, hold_readme, hold_samples, hold_refusals, hold_logs, hold_winter, hold_heights, hold_hours, hold_boards, hold_repair):
            part(checks, room)
    hold_kept(checks)
    checks.end()


if __name__ == "__main__":
    main()
