"""How programs in C and Rust are built for x86-64 here and run, as tests/outside/build.sh knows it."""
import functools
import platform
import subprocess

from meadow.programs import TOP

ON_X86 = platform.machine() == "x86_64"
TARGET = "CARGO_TARGET_X86_64_UNKNOWN_LINUX_GNU"


@functools.cache
def built_by():
    """The words that compile C, those that run such a program, and what cargo must be told to do both."""
    asked = '. tests/outside/build.sh; tools; echo "${compile_c[*]}"; echo "${run_by[*]}"'
    told = subprocess.run(["bash", "-c", asked], cwd=TOP, stdout=subprocess.PIPE, check=True, text=True)
    compiler, runner = told.stdout.splitlines()
    cross = {"CARGO_BUILD_TARGET": "x86_64-unknown-linux-gnu", f"{TARGET}_LINKER": compiler, f"{TARGET}_RUNNER": runner, "RUSTC": "/usr/bin/rustc"}
    return compiler, runner, {} if ON_X86 else cross
