"""The man pages are what tools/manual.py makes of README and of the scripts' own words; every program has one, with a way to call it that is there."""
import re

import manual
from meadow.counted import Checks
from meadow.programs import TOP


def main():
    checks = Checks("manual")
    programs = {path.parent.parent.name for path in (TOP / "crates").glob("*/src/main.rt")}
    checks.hold(programs == set(manual.shows()), f"README.md's table has {sorted(manual.shows())}, and the programs are {sorted(programs)}")
    made = manual.pages()
    stored = {path: path.read_text(encoding="utf-8") for path in manual.FOLDER.glob("*")}
    for path in sorted(made.keys() | stored.keys()):
        name = path.relative_to(TOP)
        checks.hold(stored.get(path) == made.get(path), f"{name} is not what tools/manual.py makes: tools/manual.py --write")
        called = re.findall(r"^\.B (bin/\w+)", made.get(path, ""), re.M)
        checks.hold(called and all((TOP / script).exists() for script in called), f"{name} says how to call {called}")
        own = (TOP / "bin" / path.stem).exists()
        checks.hold((f"bin/{path.stem}" in called) == own, f"{name} does not say how bin/{path.stem} is called, or there is none")
    checks.hold(len(manual.table(manual.REFUSALS)) > 5, "README.md has no table of refusals")
    checks.end()


if __name__ == "__main__":
    main()
