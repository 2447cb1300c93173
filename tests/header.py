"""The headers flood.h and display.h, and the declarations for Rust and Python, say what the exported functions take and give; every exported
function stands in them, with the stack that suffices for it, and a struct that is lent lies in memory as its header says. The release is that of
VERSION everywhere."""
import ctypes
import re

import header
from meadow.counted import Checks

IN_PYTHON = {"bool": ctypes.c_bool, "u32": ctypes.c_uint32, "u64": ctypes.c_uint64, "usize": ctypes.c_uint64}


def hold_library(checks, library):
    """One library: its functions are those of its sources."""
    exported = set()
    for source in library.sources().glob("*.rt"):
        exported |= set(re.findall(r"extern \"C\" fn (\w+)", source.read_text()))
    declared = set(re.findall(r"^\w+ (flood_\w+)\(", header.header(library), re.M))
    measured = set(library.stack)
    checks.hold(exported != set(), f"{library.crate} exports nothing")
    for name in sorted(exported | declared | measured):
        checks.hold(name in exported and name in declared, f"{name} is exported and not declared, or the reverse")
        checks.hold(name in exported and name in measured, f"{name} is exported and its stack not measured, or the reverse")


def hold_structs(checks, library):
    """Each struct that a library is lent is found once, and its places are those that C gives it."""
    found = list(header.structs(library))
    checks.hold([struct.name for struct in found] == [name for _, name in library.structs], f"{library.crate} is lent {found}")
    for struct in found:
        in_c = type(struct.name, (ctypes.Structure,), {"_fields_": [(name, IN_PYTHON[kind]) for name, kind in struct.fields]})
        places, size = struct.places()
        checks.hold(size == ctypes.sizeof(in_c), f"a {struct.name} has {ctypes.sizeof(in_c)} bytes in C")
        for name, at in places:
            checks.hold(at == getattr(in_c, name).offset, f"{name} of a {struct.name} lies at {getattr(in_c, name).offset} in C, not at {at}")


def hold_made(checks):
    """Every file is as made."""
    for stored, made in header.files().items():
        checks.hold(stored.exists() and stored.read_text() == made, f"{stored.name} is not what tools/header.py makes of the sources")


def hold_version(checks):
    """Cargo's two files have the release of VERSION too."""
    for name in ("Cargo.toml", "Cargo.lock"):
        told = re.findall(r'^version = "(.*)"$', (header.ROOT / "rust" / name).read_text(), re.M)
        checks.hold(told == [header.version()], f"rust/{name} has the release {told}, and VERSION {header.version()}")


def main():
    checks = Checks("header")
    hold_made(checks)
    hold_version(checks)
    for library in header.LIBRARIES:
        hold_library(checks, library)
        hold_structs(checks, library)
    checks.end()


if __name__ == "__main__":
    main()
