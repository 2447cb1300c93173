#!/usr/bin/env python3
"""walks.py [--write]: the walks by hand of the functions that are lent a list of boards, from their tables (python/rattle/walks/tables.py): says
which of those in proofs/ are not what the tables make, or writes them."""
import sys
from pathlib import Path

from begin import ended
from rattle.walks.tables import WALKS

TOP = Path(__file__).resolve().parent.parent


def main():
    words = sys.argv[1:]
    if words not in ([], ["--write"]):
        sys.exit(__doc__)
    for walk in WALKS:
        path, text = TOP / walk.path_in_crates, walk.text()
        if words:
            path.parent.mkdir(parents=True, exist_ok=True)
            path.write_text(text, encoding="utf-8")
        elif not path.exists() or path.read_text(encoding="utf-8") != text:
            print(f"{path.relative_to(TOP)} is not what its table makes: python3 tools/walks.py --write")
    return 0


if __name__ == "__main__":
    ended(main, "walks")
