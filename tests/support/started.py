"""started.py NAME [WORDS..]: runs tests/NAME.py with the project's modules on its path. bin/test calls this. The path is the test's own:
the tools that a test starts find their modules as they do for anybody."""
import runpy
import sys
from pathlib import Path

TOP = Path(__file__).resolve().parent.parent.parent
# tests/ comes last, since a test bears the name of the tool that it tries
FOLDERS = ("python", "tools", "validation", "tests/support", "tests")

sys.path[:1] = [str(TOP / folder) for folder in FOLDERS]
del sys.argv[0]
runpy.run_path(str(TOP / "tests" / f"{sys.argv[0]}.py"), run_name="__main__")
