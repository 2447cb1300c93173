"""What is around a program that is started: the path without some commands, and a machine that says it is an Arm one."""
import os
from pathlib import Path

ARM = "aarch64"
KIT, EMULATOR = "rt", "qemu-x86_64"


def path_without(folder, *commands):
    """The path without these commands: a folder of it that has one is replaced by one with everything else that is in it."""
    path = []
    for at, place in enumerate(os.environ["PATH"].split(os.pathsep)):
        if any((Path(place) / command).exists() for command in commands):
            stripped = Path(folder) / f"path-{at}"
            stripped.mkdir()
            for entry in Path(place).iterdir():
                if entry.name not in commands:
                    (stripped / entry.name).symlink_to(entry)
            place = str(stripped)
        path.append(place)
    return os.pathsep.join(path)


def arm_path(folder):
    """The path of an Arm machine without the kit: scripts are told that it is one, and start the programs by Debian's emulator."""
    says = Path(folder) / "uname"
    says.write_text(f'#!/bin/sh\n[ "$1" = -m ] && echo {ARM} || exec /usr/bin/uname "$@"\n')
    says.chmod(0o755)
    return os.pathsep.join([str(folder), path_without(folder, KIT)])
