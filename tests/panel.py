"""The two roots that crates/panel works aloud, in plain Python: decimal, place by place from the top, each digit raised while its power
still fits. docs/ROOTS.md must hold the program's output as it is.

`bin/test panel --write` writes crates/panel/stdout.
"""

from meadow.programs import TOP
from stored import hold

PAGE = TOP / "docs" / "ROOTS.md"
NAMES = {2: "square", 3: "cube"}


def worked(p, n):
    """The lines of one root, and the root."""
    lines = [f"the {NAMES[p]} root of {n}", "its places:"]

    def fits(tried):
        lines.append(f"  {tried}: its {NAMES[p]} is {tried**p}, {'fits' if tried**p <= n else 'too much'}")
        return tried**p <= n

    root, place = 0, 1
    while fits(place):
        place *= 10
    while place > 1:
        place //= 10
        lines.append(f"place {place}:")
        while fits(root + place):
            root += place
    assert root**p <= n < (root + 1) ** p
    return lines + [f"the root is {root}, and the library gives {root}"]


def shown(text):
    """That the page shows each root's lines, and nothing else, as a block of its own."""

    def hold_page(checks):
        blocks = PAGE.read_text(encoding="utf-8").split("```\n")[1::2]
        checks.hold("\n".join(blocks) == text, "docs/ROOTS.md does not hold what the program prints")

    return hold_page


if __name__ == "__main__":
    LINES = worked(2, 100 * 1_000 // 1) + [""] + worked(3, 10_000**2)
    TEXT = "".join(line + "\n" for line in LINES)
    hold("panel", TEXT, shown(TEXT))
