"""What a script of this folder begins with: python/ is on the path, whoever starts the script and from where. Imported before anything that
stands there; `ended` ends the script, and answers --help with what stands at its head where the script has no words of its own for it."""
import sys
from pathlib import Path

sys.path.insert(0, str(Path(__file__).resolve().parent.parent / "python"))

from meadow import programs


def ended(main, name):
    """Ends a script with the status that `main` gives."""
    asked = {"-h", "--help"}.intersection(sys.argv[1:]) and "argparse" not in main.__globals__
    programs.ended((lambda: print(sys.modules["__main__"].__doc__)) if asked else main, name)
