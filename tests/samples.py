"""The samples are what samples/make.py makes, byte for byte; the built `meadow` prints of each sheet the answer beside it, the built `hatchlog`
of each log, the built `drowned` of the winter's list, and the built `boards` of the boards beside a sheet of it. The sample evening leaves no
mark of what was tried and taken back. The season for the desk is as made."""
import subprocess
import sys
import tempfile
from pathlib import Path

from meadow.counted import Checks
from meadow.logs.answers import answered
from meadow.programs import TOP, printed, printed_of_named

SAMPLES = TOP / "samples"
KINDS = (".sheet", ".log", ".names", ".list", ".boards", ".out")


def named(folder):
    """The sheets, logs, names of hatches, lists, boards and answers of a folder by name."""
    return {path.name: path.read_bytes() for path in sorted(folder.iterdir()) if path.suffix in KINDS}


def hold_winter(checks, made):
    """The winter's sheets, list and boards are as made, and what the programs print of list and boards is stored."""
    stored = named(SAMPLES / "winter")
    for name in sorted(made.keys() | stored.keys()):
        checks.hold(made.get(name) == stored.get(name), f"samples/winter/{name} is not what samples/make.py makes")
    told = printed("drowned", stored["winter.list"], cwd=TOP)
    checks.hold(told == stored["winter.list.out"], "drowned does not print samples/winter/winter.list.out")
    boards = [name for name in stored if name.endswith(".boards")]
    for name in boards:
        path = SAMPLES / "winter" / name
        told = printed_of_named("boards", path.with_suffix(".sheet"), path)
        checks.hold(told.encode("ascii") == stored.get(f"{name}.out"), f"boards does not print samples/winter/{name}.out")
    checks.hold(boards != [], "samples/winter has no boards")


def hold_log(checks, name, stored):
    """What the program prints of a log over the sheet of its name is stored."""
    sheet = SAMPLES / f"{name.removesuffix('.log')}.sheet"
    told = printed("hatchlog", f"{sheet}\n{SAMPLES / name}\n".encode())
    checks.hold(told == stored.get(f"{name}.out"), f"hatchlog does not print samples/{name}.out")


def hold_no_mark(checks, stored):
    """The evening without its two trials, their steps and the lines that took them back: the same after its last lines, to the byte."""
    sheet, lines = stored["walled-evening.sheet"], stored["walled-evening.log"].splitlines(True)
    backs = [at for at, line in enumerate(lines) if line.startswith(b"back")]
    checks.hold(len(backs) == 2 and all(b"\t0\n" not in lines[at] for at in backs), "the sample log does not take two trials back")
    plain = answered(sheet, b"".join(lines[: backs[0] - 2] + lines[backs[1] + 1 :]))
    evening = stored["walled-evening.log.out"].decode("ascii")
    after = plain.split("clock\t600000\n")[-1]
    checks.hold("clock\t1800000\n" in after and evening.endswith(after), "what was tried and taken back leaves a mark on the sample evening")


def main():
    checks = Checks("samples")
    with tempfile.TemporaryDirectory() as room:
        subprocess.run([sys.executable, SAMPLES / "make.py", room], check=True, stdout=subprocess.DEVNULL)
        made, winter, season = (named(Path(room) / part) for part in (".", "winter", "season"))
    stored = named(SAMPLES)
    for name in sorted(made.keys() | stored.keys()):
        checks.hold(made.get(name) == stored.get(name), f"samples/{name} is not what samples/make.py makes")
    sheets = [name for name in stored if name.endswith(".sheet")]
    for name in sheets:
        answer = name.removesuffix("sheet") + "out"
        checks.hold(printed("meadow", stored[name]) == stored.get(answer), f"meadow does not print samples/{answer}")
    checks.hold(sheets != [], "samples/ has no sheet")
    logs = [name for name in stored if name.endswith(".log")]
    for name in logs:
        hold_log(checks, name, stored)
    checks.hold(logs != [], "samples/ has no log")
    hold_no_mark(checks, stored)
    hold_winter(checks, winter)
    checks.hold(season == named(SAMPLES / "season") != {}, "samples/season is not what samples/make.py makes")
    checks.end()


if __name__ == "__main__":
    main()
