"""The archive on a Debian system for Arm: a root that debootstrap makes, with the two packages that the archive's first page names and no other libc
for x86-64. Its shell, its Python and its `qemu-x86_64` are Arm programs; a second emulator runs them here, which the kernel starts in a namespace of
our own. Every program prints what is stored, the commands of the first page do their work, the keeper's run comes to its end, and the desk's water
has the names that it has here."""
import platform
import re
import shutil
import subprocess
import tarfile
import tempfile
from pathlib import Path

import release
from around import ARM
from desks import Room, water_in
from meadow.counted import Checks
from meadow.programs import TOP, built

CRATES = TOP / "crates"
SUITE, ADDRESS, WITH = "bookworm", "http://deb.debian.org/debian", "qemu-user,libc6-amd64-cross,python3"
# the head of an Arm program, and what of it counts
HEAD = r"\x7fELF\x02\x01\x01\x00\x00\x00\x00\x00\x00\x00\x00\x00\x02\x00\xb7\x00"
COUNTS = r"\xff\xff\xff\xff\xff\xff\xff\x00\xff\xff\xff\xff\xff\xff\xff\xff\xfe\xff\xff\xff"
# in namespaces of its own: $0 is the root, and the words are run in it
IN_ROOT = f"""set -eu
mount -t binfmt_misc none /proc/sys/fs/binfmt_misc
printf %s ':arm:M::{HEAD}:{COUNTS}:/usr/bin/qemu-aarch64-static:F' >/proc/sys/fs/binfmt_misc/register
for place in proc dev; do mount --rbind "/$place" "$0/$place"; done
exec chroot "$0" /usr/bin/env -i PATH=/usr/bin:/bin LC_ALL=C.UTF-8 "$@"
"""
HATCH, LITRES, FORTY = 5, 600, 40


def made(root):
    """A Debian root for Arm, its packages unpacked and not set up."""
    words = ["debootstrap", "--arch=arm64", "--foreign", "--variant=minbase", f"--include={WITH}", SUITE, root, ADDRESS]
    subprocess.run(words, check=True, stdout=subprocess.DEVNULL)
    for package in sorted((root / "var" / "cache" / "apt" / "archives").glob("*.deb")):
        unpacked = subprocess.run(["dpkg-deb", "--fsys-tarfile", package], check=True, stdout=subprocess.PIPE).stdout
        subprocess.run(["tar", "-x", "--keep-directory-symlink", "--skip-old-files", "-C", root], input=unpacked, check=True)


def in_root(root, *words):
    """The words that run words in the root."""
    return ["unshare", "--map-root-user", "--mount", "bash", "-c", IN_ROOT, str(root), *map(str, words)]


def ran(root, *words, **how):
    """What words do in the root."""
    return subprocess.run(in_root(root, *words), capture_output=True, **how)


def archive_in(root, folder):
    """The archive, unpacked in the root: its place as the root has it."""
    subprocess.run([TOP / "bin" / "release", folder], check=True, stdout=subprocess.DEVNULL)
    (archive,) = folder.glob("*.tar.gz")
    with tarfile.open(archive) as tar:
        tar.extractall(root / "opt")
    return Path("/opt") / f"flood-{release.version()}"


def hold_programs(checks, root, room):
    """Every program prints what the gate holds it to."""
    for name in sorted(release.programs()):
        crate, place = CRATES / name, Path("/tmp") / name
        (root / "tmp" / name).mkdir()
        if (crate / "data").exists():
            shutil.copytree(crate / "data", root / "tmp" / name, dirs_exist_ok=True)
        given = (crate / "stdin").read_bytes() if (crate / "stdin").exists() else b""
        done = ran(root, "bash", "-c", 'cd "$0" && exec "$@"', place, room / "bin" / "run", name, input=given)
        wanted = (crate / "stdout").read_bytes() if (crate / "stdout").exists() else b""
        checks.hold(done.returncode == 0 and done.stdout == wanted, f"{name} on Arm: status {done.returncode}, {done.stderr[-300:]}")


def hold_first_page(checks, root, room):
    """The commands of the archive's first page, but for the manual and those that call the library."""
    first = (root / room.relative_to("/") / "README.md").read_text(encoding="utf-8").split("\n## ")[0]
    found = [line.split("  #")[0].strip() for line in re.findall(r"^ {4}(.*)$", first, re.M)]
    tried = [command for command in found if not command.startswith("man ") and not command.endswith("samples/walled-evening.sheet")]
    checks.hold(len(tried) == len(found) - 4 and tried[0] == "bin/meadow samples/walled-meadow.sheet", f"the archive's first page has the commands {found}")
    for command in tried:
        done = ran(root, "bash", "-c", 'cd "$0" && eval "$1"', room, command)
        checks.hold(done.returncode == 0, f"{command} on Arm: status {done.returncode}, {done.stderr[-300:]}")
    made_map = (root / room.relative_to("/") / "map.svg").read_text()
    checks.hold(made_map == (TOP / "docs" / "pictures" / "walled-meadow.svg").read_text(), "the map on Arm is another")


def forty_and_back(desk):
    """The names of the water of a new trial, after forty steps, and after they were taken back."""
    key = desk.new("on Arm")
    before = desk.water(key)
    desk.change(key, "draw", hatch=HATCH, litres=LITRES)
    return before, water_in(desk.change(key, "step", count=FORTY)), water_in(desk.change(key, "back", count=FORTY))


def hold_desk(checks, root, room, folder):
    """The keeper's run and the desk: the water has the names that it has here."""
    inside = Path("/tmp/desk")
    with Room(folder / "desk") as here, Room(root / "tmp" / "desk") as there:
        here.run_season()
        here.start()
        done = ran(root, room / "bin" / "season", inside / "season")
        checks.hold(done.returncode == 0, f"bin/season on Arm: status {done.returncode}, {done.stderr[-300:]}")
        there.start(in_root(root, room / "bin" / "desk", inside / "season", inside / "trials", "--port", "0", "--no-browser"))
        waters = forty_and_back(here)
        checks.hold(waters[0] == waters[2] != waters[1] and forty_and_back(there) == waters, "the desk on Arm has other water")


def main():
    checks = Checks("long/arm")
    if platform.machine() == ARM:
        checks.skip("the archive in an Arm root", "this is an Arm machine, and tests/release.py tries the archive on it")
        checks.end()
    built("desk")
    with tempfile.TemporaryDirectory() as name:
        root = Path(name) / "root"
        made(root)
        machine = ran(root, "uname", "-m", text=True)
        if machine.returncode != 0:
            checks.skip("the archive in an Arm root", f"no Arm program can be started here, which takes Linux 6.7 or newer: {machine.stderr.strip()}")
            checks.end()
        libcs = ran(root, "find", "/usr", "-name", "ld-linux-x86-64.so.2", "-type", "f", text=True).stdout.split()
        checks.hold(machine.stdout == f"{ARM}\n" and len(libcs) == 1, f"the root is {machine.stdout!r} with the loaders {libcs}")
        room = archive_in(root, Path(name) / "release")
        hold_programs(checks, root, room)
        hold_first_page(checks, root, room)
        hold_desk(checks, root, room, Path(name))
    checks.end()


if __name__ == "__main__":
    main()
