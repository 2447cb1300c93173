"""The rows of the program `vectors`, read from its source and worked by document 01 in Python, by each edition of the rule, held to
crates/vectors/stdout.

`bin/test vectors --write` writes that file instead.
"""

from meadow.rule.ranges import RANGES, fine
from meadow.rule.step_length import candidates
from meadow.rule.weighing import EDITIONS, weigh
from sources import constants
from stored import hold

NAMES = ("side", "tolerance", "depth", "last", "roughness", "lasted")
# a level less another
HIGHEST_DROP = RANGES["bed"][1] + RANGES["depth"][1]


def line(row, edition):
    """What the program prints of a row by an edition: four transfers, and the least of the longest step and the candidates."""
    values, drops = dict(zip(NAMES, row)), row[len(NAMES) :]
    if not all(fine(name, value) for name, value in values.items()) or len(drops) != 4 or max(drops) > HIGHEST_DROP:
        raise ValueError(f"a row of crates/vectors is out of range: {row}")
    side, tolerance, depth, last, roughness, ms = values.values()
    leaves = weigh(side, depth, last, roughness, ms, drops, edition)
    least = min([RANGES["longest"][1], *candidates(side, tolerance, depth, roughness, drops)])
    return " ".join(map(str, [*leaves, least])) + "\n"


if __name__ == "__main__":
    hold("vectors", "".join(line(row, edition) for row in constants("vectors")["VECTORS"] for edition in EDITIONS))
