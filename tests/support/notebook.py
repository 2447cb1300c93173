"""notebook.py SHEET: what somebody sees of python/flood in a notebook, a line each: how depths come, how much one square fell in a step, and the
wet rows. Run by itself, with any Python."""
import sys
from pathlib import Path

sys.path.insert(0, str(Path(__file__).resolve().parent.parent.parent / "python"))

import flood


def main():
    meadow = flood.Meadow.open(sys.argv[1], kept=2)
    before = meadow.depths
    meadow.step()
    after = meadow.depths
    print(type(after).__module__, len(after), len(after[0]))
    print([[int(depth) for depth in row] for row in after])
    print(int(after[0][0]) - int(before[0][0]))
    # a difference of whole arrays, where there are any
    print(int((after - before).min()) if hasattr(after, "min") else None)
    after[0][0] = 7
    print(int(meadow.depths[0][0]))
    wet = meadow.wet_rows(100)
    print([int(row) for row in wet.rows], wet.count)


if __name__ == "__main__":
    main()
