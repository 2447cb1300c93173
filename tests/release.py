"""The archive that bin/release makes, as somebody meets it who has no kit: made twice, it has the same bytes; unpacked into an empty folder, with `rt`
off the path, every program prints what is stored, every command of its first page and of docs/TOOLS.md does what stands there, the desk and the
keeper's run work, and the evening of trials ends with what `meadow` prints, in C, Rust and Python. Programs, desk and season work too where scripts
are told that the machine is an Arm one, by Debian's emulator with a libc that is not the machine's own."""
import hashlib
import os
import re
import shutil
import subprocess
import sys
import tarfile
import tempfile
from pathlib import Path

import release
import tools
from around import KIT, arm_path, path_without
from desks import Room, water_in
from meadow.counted import Checks
from meadow.programs import TOP
from outward import ON_X86, built_by

CRATES = TOP / "crates"
# of Debian's package libc6-amd64-cross
CROSS_LIBC = "/usr/x86_64-linux-gnu/lib/libc.so.6"
EVENING = TOP / "samples" / "walled-evening.out"
# what a line of the first page needs besides the archive
NEEDS = {"man": "man"}


def made(folder, **around):
    """The archive that bin/release makes in a folder, called from there."""
    folder.mkdir()
    told = ran([TOP / "bin" / "release", "."], folder, **around)
    if told.returncode != 0:
        print((told.stdout + told.stderr).decode())
        return None
    (archive,) = folder.iterdir()
    return archive


def made_twice(checks, folder):
    """Two archives with the same bytes, made with other habits; the first of them."""
    if not shutil.which("git") or subprocess.run(["git", "log", "-1"], cwd=TOP, capture_output=True).returncode != 0:
        os.environ["SOURCE_DATE_EPOCH"] = "1600000000"
    archives = []
    for name, mask, around in (("one", 0o022, {}), ("two", 0o077, {"TZ": "Asia/Tokyo", "LC_ALL": "C"})):
        before = os.umask(mask)
        archives.append(made(Path(folder) / name, **around))
        os.umask(before)
    if checks.hold(all(archives), "bin/release makes no archive"):
        checks.hold(archives[0].read_bytes() == archives[1].read_bytes(), "two archives of the same commit differ")
        checks.hold(archives[0].name == f"flood-{release.version()}.tar.gz", f"the archive is called {archives[0].name}")
    return archives[0]


def unpacked(checks, archive, folder):
    """The archive's only folder, unpacked: sorted names, one time, no owner, and sums that are right."""
    with tarfile.open(archive) as tar:
        entries = tar.getmembers()
        tar.extractall(folder)
    names = [entry.name for entry in entries]
    checks.hold(names == sorted(names) and {name.split("/")[0] for name in names} == {f"flood-{release.version()}"}, "the names are not sorted in one folder")
    checks.hold(len({entry.mtime for entry in entries}) == 1, "the files have not one time")
    checks.hold({(entry.uid, entry.gid, entry.uname, entry.gname, entry.mode) for entry in entries} == {(0, 0, "", "", mode) for mode in (0o644, 0o755)}, "owners or modes")
    room = Path(folder) / names[0].split("/")[0]
    summed = dict(reversed(line.split("  ")) for line in (room / release.SUMS).read_text().splitlines())
    files = {path.relative_to(room).as_posix(): path.read_bytes() for path in room.rglob("*") if path.is_file()}
    checks.hold(summed.keys() == files.keys() - {release.SUMS}, "the sums are of other files")
    for name, data in files.items():
        checks.hold(name == release.SUMS or hashlib.sha256(data).hexdigest() == summed.get(name), f"{name} has another sum")
        built = name.startswith(("programs/", "lib/"))
        checks.hold(not built or bytes(TOP) + b"/" not in data, f"{name} names the folder in which it was built")
    return room


def ran(words, room, given=None, **around):
    """What a command does in a folder."""
    return subprocess.run(words, cwd=room, input=given, stdin=None if given else subprocess.DEVNULL, env={**os.environ, **around}, capture_output=True)


def hold_names(checks, room):
    """Every program of the sources is there, with its man page; what they are, and the release, is told."""
    names = sorted(release.programs())
    checks.hold(names == sorted(path.name for path in (room / "programs").iterdir()), f"the archive has other programs than {names}")
    told = ran(["bin/run", "--help"], room).stdout.decode()
    checks.hold(told.endswith(f"one of: {' '.join(names)}\n"), f"bin/run --help of the archive says {told!r}")
    for name in names:
        checks.hold((room / "man" / "man1" / f"{name}.1").exists(), f"the archive has no man page of {name}")
    told = ran(["bin/meadow", "--version"], room).stdout.decode()
    checks.hold(told == f"flood {release.version()}\n", f"bin/meadow --version says {told!r}")


def hold_programs(checks, room, folder, **around):
    """Every program prints what the gate holds it to."""
    for name in release.programs():
        stored, given = CRATES / name / "stdout", CRATES / name / "stdin"
        place = Path(folder) / f"data-{name}"
        place.mkdir(parents=True)
        if (CRATES / name / "data").exists():
            shutil.copytree(CRATES / name / "data", place, dirs_exist_ok=True)
        words = (CRATES / name / "args").read_text().splitlines() if (CRATES / name / "args").exists() else []
        done = ran([room / "bin" / "run", name, *words], place, given.read_bytes() if given.exists() else None, **around)
        wanted = stored.read_bytes() if stored.exists() else b""
        checks.hold(done.returncode == 0 and done.stdout == wanted, f"{name} of the archive: status {done.returncode}, or it prints something else; {done.stderr[:300]}")


def hold_desk(checks, room, folder, **around):
    """The archive's season is run, and at its desk forty steps move water and go back to the water before."""
    with Room(folder, room / "samples" / "season") as desk:
        done = ran([room / "bin" / "season", desk.season], folder, **around)
        checks.hold(done.returncode == 0, f"bin/season of the archive: status {done.returncode}, {done.stderr[-300:]}")
        desk.start([room / "bin" / "desk", desk.season, desk.trials, "--port", "0", "--no-browser"], env={**os.environ, **around})
        key = desk.new("of the archive")
        before = desk.water(key)
        desk.change(key, "draw", hatch=5, litres=600)
        moved = desk.change(key, "step", count=40)
        checks.hold(moved.count("frame\t") == 40 and water_in(moved) != before, "forty steps at the archive's desk move no water")
        checks.hold(water_in(desk.change(key, "back", count=40)) == before, "forty steps taken back at the archive's desk leave other water")


def hold_on_arm(checks, room, folder):
    """Scripts that find an Arm machine start the programs by the emulator, with the loader and the libc of Debian's package for other machines;
    no other libc is opened. Programs, season and desk do there what they do here."""
    folder.mkdir()
    around = {"PATH": arm_path(folder)}
    sheet = (room / "samples" / "document-01.sheet").read_bytes()
    done = ran([room / "bin" / "run", "meadow"], folder, sheet, QEMU_STRACE="1", **around)
    checks.hold(done.stdout == (room / "samples" / "document-01.out").read_bytes(), f"meadow on Arm: status {done.returncode}, {done.stderr[-300:]}")
    opened = re.findall(r'openat\([^"]*"([^"]*/libc\.so\.6)",[^)]*\) = \d', done.stderr.decode("utf-8", "replace"))
    checks.hold(opened == [CROSS_LIBC], f"on Arm the libc of {opened} is opened")
    hold_programs(checks, room, folder, **around)
    hold_desk(checks, room, folder / "desk", **around)


def hold_tools(checks, room):
    """The tools do what their page says, and each of them, and each script, says what it takes; none is there that wants the sources."""
    for part in (tools.hold_page, tools.hold_samples, tools.hold_refusals, tools.hold_logs, tools.hold_winter, tools.hold_heights, tools.hold_boards, tools.hold_repair):
        part(checks, room)
    for script in [*sorted((room / "bin").iterdir()), *sorted((room / "tools").glob("*.py"))]:
        words = [sys.executable, script] if script.suffix == ".py" else [script]
        done = ran([*words, "--help"], room)
        checks.hold(done.returncode == 0, f"{script.name} --help: status {done.returncode}, {done.stderr[-300:]}")
        text = script.read_text(encoding="utf-8")
        checks.hold("from rattle" not in text and '/ "crates"' not in text, f"{script.name} wants the sources")


def commands(room):
    """The commands of the archive's first page."""
    first = (room / "README.md").read_text(encoding="utf-8").split("\n## ")[0]
    return [line.split("  #")[0].strip() for line in re.findall(r"^ {4}(.*)$", first, re.M)]


def hold_first_page(checks, room):
    """Each command of the first page does its work; those that call the library end with what `meadow` prints."""
    found = commands(room)
    evenings = [command for command in found if command.endswith("samples/walled-evening.sheet")]
    checks.hold(found[0] == "bin/meadow samples/walled-meadow.sheet" and len(evenings) == 3, f"the archive's first page has the commands {found}")
    for path in ("include/flood.h", "examples/evening.c"):
        (compiled,) = re.findall(r"^ +(cc .*)$", (room / path).read_text(), re.M)
        checks.hold(any(command.startswith(compiled) for command in evenings), f"{path} is compiled by {compiled}, and the first page has {evenings}")
    for command in found:
        program = NEEDS.get(command.split()[0])
        if command in evenings or program and not shutil.which(program):
            continue
        done = ran(["bash", "-c", command], room)
        checks.hold(done.returncode == 0, f"{command}: status {done.returncode}, {done.stderr[-300:]}")
    checks.hold((room / "map.svg").read_text() == (TOP / "docs" / "pictures" / "walled-meadow.svg").read_text(), "the archive's map is another")
    for command in evenings:
        hold_evening(checks, room, command)


def hold_evening(checks, room, command):
    """An evening of trials ends with what `meadow` prints of its sheet; on another machine Python names the program instead."""
    compiler, runner, around = built_by()
    words = re.sub(r"^cc ", f"{compiler} ", command).replace("./evening", f"{runner} ./evening".lstrip())
    done = ran(["bash", "-c", words], room, **around)
    if command.startswith("python3") and not ON_X86:
        checks.hold(b"bin/meadow SHEET" in done.stderr, f"{command} does not name the program: {done.stderr[-300:]}")
        return
    checks.hold(done.returncode == 0 and done.stdout == EVENING.read_bytes(), f"{words}: status {done.returncode}, or other depths; {done.stderr[-600:]}")


def hold_shared(checks, room):
    """The flags of the file for pkg-config compile C with the shared library, which is found where it lies."""
    compiler, runner, _ = built_by()
    lines = (room / "lib" / "pkgconfig" / "flood.pc").read_text().splitlines()
    known = {"pcfiledir": str(room / "lib" / "pkgconfig")}
    for name, value in (line.split("=", 1) for line in lines if re.match(r"\w+=", line)):
        known[name] = filled(value, known)
    told = {name: filled(value, known) for name, value in (line.split(": ", 1) for line in lines if ": " in line)}
    checks.hold(told.get("Version") == release.version(), f"flood.pc has the release {told.get('Version')}")
    flags = [*told["Cflags"].split(), "examples/evening.c", *told["Libs"].split(), "-o", "shared"]
    done = ran([*compiler.split(), "-std=c99", *flags], room)
    checks.hold(done.returncode == 0, f"the flags of flood.pc: {done.stderr[-600:]}")
    done = ran([*runner.split(), "./shared", "samples/walled-evening.sheet"], room)
    checks.hold(done.stdout == EVENING.read_bytes(), f"the evening by the shared library: status {done.returncode}, {done.stderr[-300:]}")


def filled(value, known):
    """A value of flood.pc with the names in it filled in."""
    return re.sub(r"\$\{(\w+)\}", lambda name: known[name[1]], value)


def main():
    checks = Checks("release")
    with tempfile.TemporaryDirectory() as folder:
        archive = made_twice(checks, folder)
        if archive:
            os.environ["PATH"] = path_without(folder, KIT)
            checks.hold(not shutil.which(KIT), "the kit is still on the path")
            (Path(folder) / "empty").mkdir()
            room = unpacked(checks, archive, Path(folder) / "empty")
            hold_names(checks, room)
            hold_programs(checks, room, Path(folder) / "here")
            hold_desk(checks, room, Path(folder) / "desk")
            hold_on_arm(checks, room, Path(folder) / "arm")
            hold_first_page(checks, room)
            hold_shared(checks, room)
            hold_tools(checks, room)
    checks.end()


if __name__ == "__main__":
    main()
