"""The gate, the installer and bin/run themselves, in a folder of their own with stand-ins for the kit and for Debian's tools: nothing
passes that was skipped or not counted, two tests run at a time and are told in order, what cannot be installed is said, and a program is
built again when a source is newer."""
import os
import shutil
import subprocess
import tempfile
from pathlib import Path

from around import ARM, EMULATOR, KIT, path_without
from meadow.counted import Checks
from meadow.programs import TOP

VERDICT = "12 passed, 0 failed"
PROVED = "rt: ok; handles allowed: none; must-fail edits: 4 refused; every proof and must-fail edit was done in this run"
NOTE = "Proof.antt:1:1: note: large solution: the implicit argument"
LINTED = 'print("linters: 2 checks, 0 skipped, 0 failed")'
PASSES = 'print("one: 3 checks, 0 skipped, 0 failed")'
SKIPS = 'echo "two: skipped: all of it: no moon here"; echo "two: 0 checks, 1 skipped, 0 failed"'
# a test that says when it begins, ends only after another has begun, and then prints
WAITS = """touch began-{name}
for _ in $(seq 100); do [ ! -e began-{other} ] || break; sleep 0.1; done
[ -e began-{other} ] || exit 1
echo "{name} saw {other}"
echo "{name}: 1 checks, 0 skipped, 0 failed\""""


class Room:
    """A folder with some of the project's own scripts, and a folder of stand-ins that comes first on the path."""

    def __init__(self, folder):
        self.top, self.stand_ins = Path(folder) / "top", Path(folder) / "stand-ins"
        for name in (".ci/run", "bin/run", "bin/setup", "bin/test", "tests/support/started.py"):
            (self.top / name).parent.mkdir(parents=True, exist_ok=True)
            shutil.copy(TOP / name, self.top / name)
        self.stand_ins.mkdir()

    def write(self, name, body):
        """A script of the project, in Python or for bash."""
        path = self.top / name
        path.parent.mkdir(parents=True, exist_ok=True)
        path.write_text(f"{body}\n" if path.suffix == ".py" else f"#!/usr/bin/env bash\n{body}\n")
        path.chmod(0o755)

    def stand_in(self, name, body):
        """A command that is found before the real one."""
        path = self.stand_ins / name
        path.write_text(f"#!/usr/bin/env bash\n{body}\n")
        path.chmod(0o755)

    def ran(self, *words, **more):
        """The status of a command in the folder, and all that it printed."""
        kept = {name: value for name, value in os.environ.items() if name not in ("CI_ALLOW_SKIP", "RT_JOBS")}
        around = {**kept, "PATH": f"{self.stand_ins}:{os.environ['PATH']}", **more}
        pipes = {"stdin": subprocess.DEVNULL, "stdout": subprocess.PIPE, "stderr": subprocess.STDOUT}
        done = subprocess.run(words, cwd=self.top, env=around, text=True, **pipes)
        return done.returncode, done.stdout


def hold_gate(checks, room, name, passes, ends, **more):
    """Whether the gate passes, how its output ends, and that gate.log has the same lines; what it printed."""
    status, printed = room.ran("bash", ".ci/run", **more)
    lines = printed.splitlines()
    checks.hold((status == 0) == passes, f"{name}: the gate ends with {status}")
    checks.hold(lines[-len(ends) :] == ends, f"{name}: the gate ends with {lines[-2:]}")
    checks.hold((VERDICT in lines) == passes, f"{name}: the verdict is given, or not given")
    checks.hold((room.top / "gate.log").read_text() == printed and NOTE not in printed, f"{name}: gate.log has other lines")
    return printed


def gate(checks, room):
    """The gate with tests of several kinds."""
    kit = f'[ "$1" = ci ] || exit 1; echo "{NOTE}"; echo "{PROVED}"; echo "{VERDICT}"'
    room.stand_in("rt", kit)
    room.write("bin/setup", "exit 0")
    room.write("tests/outside/build.sh", "tools() { :; }; archive() { echo built >>library; }")
    hold_gate(checks, room, "no test", False, ["gate: there is no test under tests/"])
    room.write("tests/linters.py", LINTED)
    room.write("tests/one.py", PASSES)
    hold_gate(checks, room, "a test that passes", True, ["gate: 2 tests, 5 checks, 0 skipped", VERDICT])
    checks.hold((room.top / "library").read_text() == "built\n", "the static library is not built once")
    room.write("tests/two.sh", SKIPS)
    said = "gate: 1 skipped: two: all of it: no moon here"
    hold_gate(checks, room, "a skip", False, [said + "; CI_ALLOW_SKIP=1 lets them pass"])
    hold_gate(checks, room, "a skip allowed", True, [said, VERDICT], CI_ALLOW_SKIP="1")
    room.write("tests/two.sh", 'echo "two: 0 checks, 0 skipped, 0 failed"')
    hold_gate(checks, room, "nothing checked", False, ["gate: tests/two.sh checked nothing"])
    room.write("tests/two.sh", f'echo "{VERDICT[3:]}"')
    hold_gate(checks, room, "no counts", False, ["gate: tests/two.sh does not say that all its checks passed"])
    room.write("tests/two.sh", 'echo "two: 2 checks, 0 skipped, 1 failed"; exit 1')
    hold_gate(checks, room, "a failure", False, ["gate: tests/two.sh did not pass: status 1"])
    (room.top / "tests" / "two.sh").unlink()
    room.write("bin/setup", "exit 1")
    hold_gate(checks, room, "no set-up", False, ["gate: bin/setup did not pass; CI_ALLOW_SKIP=1 goes on without"])
    room.write("bin/setup", "exit 0")
    room.write("tests/linters.py", "raise SystemExit(1)")
    printed = hold_gate(checks, room, "a linter finds something", False, ["gate: tests/linters.py did not pass: status 1"])
    checks.hold(PROVED not in printed, "the gate proves all before it says what a linter found")
    room.write("tests/linters.py", LINTED)
    room.stand_in("rt", kit + "; exit 1")
    hold_gate(checks, room, "rt ci fails", False, ["gate: rt ci did not pass: status 1"])
    verdicts(checks, room)


def verdicts(checks, room):
    """What rt ci says at its end, where its status is 0."""
    kept_away = "gate: rt ci did not pass: status 0"
    ends = {
        "an edit is bad": (PROVED.replace("refused;", "refused, 3 bad;"), VERDICT, False, "gate: must-fail edits that are bad: 3"),
        "an edit is bad, none refused": (PROVED.replace("4 refused;", "0 refused, 10 bad;"), VERDICT, False, "gate: must-fail edits that are bad: 10"),
        "an edit is bad, one refused by a limit": (PROVED.replace("refused;", "refused, 1 of them only by a limit, 2 bad;"), VERDICT, False, "gate: must-fail edits that are bad: 2"),
        "no edit is bad": (PROVED.replace("refused;", "refused, 1 of them only by a limit, 0 bad;"), VERDICT, True, VERDICT),
        "rt ci does not say ok": ("rt: all proved", VERDICT, False, "gate: rt ci does not say 'rt: ok'"),
        "one failed": (PROVED, "11 passed, 1 failed", False, kept_away),
        "some crates alone": (PROVED, f"{VERDICT} (low and the crates below alone: not the gate)", False, kept_away),
        "no last line": (PROVED, "", False, kept_away),
    }
    for name, (said, last, passes, end) in ends.items():
        room.stand_in("rt", f'echo "{said}"; echo "{last}"')
        hold_gate(checks, room, name, passes, [end])
    room.stand_in("rt", f'echo "$#: $*" >>asked; ls >there; echo "{PROVED}"; echo "{VERDICT}"')
    hold_gate(checks, room, "rt ci is plain", True, [VERDICT])
    checks.hold((room.top / "asked").read_text() == "1: ci\n", f"the kit is asked {(room.top / 'asked').read_text()!r}")
    checks.hold((room.top / "there").read_text().split() == sorted([path.name for path in room.top.iterdir() if not path.name.startswith(".")]), "rt ci runs elsewhere, or something is away meanwhile")


def two_at_a_time(checks, room):
    """Tests on two cores: each sees the other begun, and what they print comes whole and in their order, whichever ends first."""
    room.stand_in("nproc", "echo 2")
    room.stand_in("rt", f'echo "{PROVED}"; echo "{VERDICT}"')
    room.write("bin/setup", "exit 0")
    room.write("tests/outside/build.sh", "tools() { :; }; archive() { :; }")
    room.write("tests/linters.py", LINTED)
    room.write("tests/one.sh", WAITS.format(name="one", other="two") + "; sleep 0.5")
    room.write("tests/two.sh", WAITS.format(name="two", other="one"))
    of_one = ["gate: tests/one.sh", "one saw two", "one: 1 checks, 0 skipped, 0 failed"]
    of_two = ["gate: tests/two.sh", "two saw one", "two: 1 checks, 0 skipped, 0 failed"]
    hold_gate(checks, room, "two at a time", True, [*of_one, *of_two, "gate: 3 tests, 4 checks, 0 skipped", VERDICT])
    for name in ("one", "two"):
        (room.top / f"began-{name}").unlink()
    room.write("tests/one.sh", WAITS.format(name="one", other="two") + "; exit 3")
    room.write("tests/two.sh", WAITS.format(name="two", other="one") + "; sleep 0.5; touch two-ended")
    hold_gate(checks, room, "one of two fails", False, [*of_one, "gate: tests/one.sh did not pass: status 3"])
    checks.hold((room.top / "two-ended").exists(), "the gate ends while a test is under way")
    room.stand_in("nproc", "echo 1")
    for name in ("one", "two"):
        room.write(f"tests/{name}.sh", f'[ ! -e under-way ] || exit 1; touch under-way; sleep 0.2; rm under-way; echo "{name}: 1 checks, 0 skipped, 0 failed"')
    hold_gate(checks, room, "one core", True, ["gate: 3 tests, 4 checks, 0 skipped", VERDICT])


def crates_at_once(checks, room):
    """How many crates rt ci takes at once is its own to choose, by the cores and the memory, or for whoever calls the gate to say."""
    room.stand_in("rt", f'echo "jobs: ${{RT_JOBS:-}}"; echo "{PROVED}"; echo "{VERDICT}"')
    room.write("bin/setup", "exit 0")
    room.write("tests/outside/build.sh", "tools() { :; }; archive() { :; }")
    room.write("tests/linters.py", LINTED)
    room.write("tests/one.py", PASSES)
    for cores, kilobytes in ((2, 24000000), (2, 8000000), (1, 24000000), (8, 64000000)):
        room.stand_in("nproc", f"echo {cores}")
        room.stand_in("awk", f"echo {kilobytes}")
        printed = room.ran("bash", ".ci/run")[1].splitlines()
        checks.hold("jobs: " in printed, f"{cores} cores and {kilobytes} kB: rt ci is told {printed[:4]}")
    checks.hold("jobs: 5" in room.ran("bash", ".ci/run", RT_JOBS="5")[1].splitlines(), "the gate does not leave RT_JOBS as it is set")


def setup(checks, room):
    """The installer where nothing is installed and nothing can be."""
    for name, body in {"dpkg-query": "exit 1", "dpkg": "exit 0", "apt-get": 'echo "E: no package rustc"; exit 100'}.items():
        room.stand_in(name, body)
    cases = [
        (ARM, 0, "E: no package rustc"),
        (ARM, 1000, "only root can install them"),
        ("sparc", 0, "this machine is sparc"),
    ]
    for machine, user, why in cases:
        room.stand_in("uname", f"echo {machine}")
        room.stand_in("id", f"echo {user}")
        status, printed = room.ran("bin/setup")
        checks.hold(status == 1 and why in printed, f"bin/setup on {machine} as user {user}: status {status}, {printed!r}")


def runner(checks, room):
    """bin/run with a kit that only says what it is asked, and a program that is a file of its own."""
    room.write("crates/low/src/lib.rt", "")
    room.write("crates/tool/src/main.rt", "")
    (room.top / "crates.txt").write_text("low:\ntool may_wait=2: low io\n")
    room.stand_in("uname", "echo x86_64")
    proves = """[ "$*" = run ] || exit 2
for name in low tool; do echo "rt: chose --jobs 2 for $name"; echo "fn $name::main: proved"; echo "logic=proved functions=3 sum=1"; done >&2
mkdir -p out
printf '#!/bin/sh\\necho ran tool\\n' >out/tool
chmod +x out/tool
echo "rt: running out/tool; to give it other input, run that file yourself" >&2
echo "what the program says of no input"
exit 3"""
    room.stand_in("rt", proves)
    status, printed = room.ran("bin/run", "nosuch")
    checks.hold(status == 2 and "one of: tool" in printed, f"bin/run nosuch: status {status}, {printed!r}")
    building = ["bin/run: low proved (functions: 3)", "bin/run: tool proved (functions: 3)", "ran tool"]
    told = lambda: room.ran("bin/run", "tool")[1].splitlines()
    checks.hold(told()[1:] == building, "bin/run does not build what is not built, crate by crate")
    checks.hold(told() == ["ran tool"], "bin/run builds what is up to date")
    words = room.ran("bin/run", "--words", "tool")[1].splitlines()
    checks.hold(words[-1:] == [str(room.top / "crates/tool/out/tool")] and "ran tool" not in words, f"bin/run --words tool says {words}")
    again = subprocess.run(words, capture_output=True, text=True).stdout
    checks.hold(again == "ran tool\n", f"the words of bin/run --words tool print {again!r}")
    os.utime(room.top / "crates/low/src/lib.rt", (2**33, 2**33))
    checks.hold(told()[1:] == building, "bin/run does not build again when a source below is newer")
    room.stand_in("rt", 'echo "rt: chose --jobs 2 for low" >&2; echo "src/lib.rt:2:1: error: no proof" >&2; exit 1')
    status, printed = room.ran("bin/run", "tool")
    checks.hold(status == 1 and "bin/run: tool is not proved:\n" in printed and "no proof" in printed and "ran tool" not in printed, f"bin/run of what is not proved: {status}, {printed!r}")
    checks.hold(sorted(path.name for path in room.top.glob(".*")) == [".ci"], "bin/run leaves something behind")
    without_the_kit(checks, room)


def without_the_kit(checks, room):
    """What is built runs without the kit on x86-64; what is not, and what wants the emulator, says so. `--build` runs nothing."""
    (room.stand_ins / "rt").unlink()
    path = os.pathsep.join([str(room.stand_ins), path_without(room.stand_ins.parent, KIT, EMULATOR)])
    room.write("crates/tool/out/tool", 'echo "ran bare"')
    os.utime(room.top / "crates/tool/out/tool", (2**33 + 10, 2**33 + 10))
    cases = {"x86_64": (0, "ran bare\n"), ARM: (1, "bin/run: tool is a program for x86-64, and on this machine it needs an emulator: Debian's")}
    for machine, wanted in cases.items():
        room.stand_in("uname", f"echo {machine}")
        status, printed = room.ran("bin/run", "tool", PATH=path)
        checks.hold(status == wanted[0] and printed.startswith(wanted[1]), f"bin/run without the kit on {machine}: status {status}, {printed!r}")
    checks.hold(room.ran("bin/run", "--build", "tool", PATH=path) == (0, ""), "bin/run --build runs what is built, or wants the kit for it")
    without_sources(checks, path, room)
    os.utime(room.top / "crates/low/src/lib.rt", (2**33 + 20, 2**33 + 20))
    status, printed = room.ran("bin/run", "tool", PATH=path)
    checks.hold(status == 1 and "there is no rt on the path to build it" in printed, f"bin/run without the kit, a source newer: status {status}, {printed!r}")


def without_sources(checks, path, room):
    """A release: the programs lie in a folder of their own and are not built, and on Arm Debian's emulator runs them, with the other libc."""
    (room.top / "crates").rename(room.top / "put-away")
    room.write("programs/tool", 'echo "ran released"')
    ran = lambda *words: room.ran("bin/run", *words, PATH=path)
    room.stand_in("uname", "echo x86_64")
    checks.hold(ran("tool") == (0, "ran released\n"), f"bin/run of a release: {ran('tool')}")
    checks.hold(ran("--words", "tool") == (0, f"{room.top}/programs/tool\n"), f"bin/run --words of a release: {ran('--words', 'tool')}")
    status, printed = ran("nosuch")
    checks.hold(status == 2 and printed.endswith("one of: tool\n"), f"bin/run nosuch of a release: status {status}, {printed!r}")
    room.stand_in("uname", f"echo {ARM}")
    room.stand_in(EMULATOR, 'echo "emulated ${!#}"')
    checks.hold(ran("tool") == (0, f"emulated {room.top}/programs/tool\n"), f"bin/run of a release on Arm: {ran('tool')}")
    (room.stand_ins / EMULATOR).unlink()
    (room.top / "put-away").rename(room.top / "crates")


def main():
    checks = Checks("gate")
    for part in (gate, two_at_a_time, crates_at_once, setup, runner):
        with tempfile.TemporaryDirectory() as folder:
            part(checks, Room(folder))
    checks.end()


if __name__ == "__main__":
    main()
