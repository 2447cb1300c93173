"""The built programs, and scripts that end as a reader of their output would have it."""
import contextlib
import functools
import os
import re
import signal
import subprocess
import sys
import threading
from pathlib import Path

from .rule.refusals import Refused
from .sheets.lines import Answer, Unreadable

TOP = Path(__file__).resolve().parent.parent.parent
# a line of standard error in which `meadow` tells the steps made and the clock
REACHED = re.compile(rb"reached\t(\d+)\t(\d+)\n")


def printed(name, given=b"", **how):
    """What a program prints of these bytes at its standard input; `how` says how it is started, as another user say."""
    run = Started(name, given, **how)
    try:
        return run.whole()
    finally:
        run.stop()


@functools.cache
def words_of(name):
    """The words that start a built program, as bin/run says them."""
    return subprocess.run([TOP / "bin" / "run", "--words", name], stdout=subprocess.PIPE, check=True, text=True).stdout.splitlines()


def printed_often(name, given=b"", **how):
    """The same as `printed`, for those who start a program some thousand times: bin/run is asked once."""
    return subprocess.run(words_of(name), input=given, stdout=subprocess.PIPE, check=True, **how).stdout


def printed_of_named(name, *files):
    """What a program prints of the names of files at its standard input, one a line."""
    return printed(name, "".join(f"{file}\n" for file in files).encode("utf-8", "surrogateescape")).decode("ascii")


def meadow(text):
    """What `meadow` answers to a sheet; a refusal is an error."""
    return Answer(printed("meadow", text.encode()).decode())


class Started:
    """A program under way: what it prints is kept as it comes, and so is how far it last told to have come, steps and clock."""

    def __init__(self, name, given, **how):
        pipes = dict.fromkeys(("stdin", "stdout", "stderr"), subprocess.PIPE)
        self.process = subprocess.Popen([TOP / "bin" / "run", name], start_new_session=True, **pipes, **how)
        self.parts, self.reached = [], None
        self.reader, self.hearer = (threading.Thread(target=each, daemon=True) for each in (self.read, self.hear))
        self.reader.start()
        self.hearer.start()
        # a program need not read all that it is given
        with contextlib.suppress(BrokenPipeError), self.process.stdin as its_input:
            its_input.write(given)

    def read(self):
        """Takes what is printed until there is no more."""
        while part := self.process.stdout.read1(65_536):
            self.parts.append(part)

    def hear(self):
        """Takes what is told, and passes on whatever else comes on standard error."""
        for line in self.process.stderr:
            told = REACHED.fullmatch(line)
            if told:
                self.reached = tuple(map(int, told.groups()))
            else:
                sys.stderr.write(line.decode("utf-8", "replace"))
                sys.stderr.flush()

    def ended_within(self, seconds):
        """Whether it has ended, at the latest after so many seconds."""
        self.reader.join(seconds)
        return not self.reader.is_alive()

    def whole(self):
        """All that it prints."""
        self.reader.join()
        self.hearer.join()
        if self.process.wait() != 0:
            raise subprocess.CalledProcessError(self.process.returncode, self.process.args)
        return b"".join(self.parts)

    def stop(self):
        """Ends it, and whatever it started, where it has not ended."""
        if self.process.poll() is None:
            os.killpg(self.process.pid, signal.SIGTERM)
            self.process.wait()


class Asked:
    """A program under way that answers line by line; `endings` are how the last line of an answer begins."""

    def __init__(self, name, endings):
        self.process, self.endings = subprocess.Popen(words_of(name), stdin=subprocess.PIPE, stdout=subprocess.PIPE), endings

    def ask(self, given):
        """The answer to some bytes; where the program has ended, what it said last."""
        self.process.stdin.write(given)
        self.process.stdin.flush()
        lines = []
        while line := self.process.stdout.readline():
            lines.append(line)
            if line.startswith(self.endings):
                break
        return b"".join(lines)

    def end(self, seconds=60):
        """What it prints at the end of its input, and its status."""
        rest, _ = self.process.communicate(timeout=seconds)
        return rest, self.process.returncode


def built(*names):
    """Builds programs that are to be started side by side, where they are not built yet."""
    subprocess.run([TOP / "bin" / "run", "--build", *names], check=True, stdin=subprocess.DEVNULL)


@contextlib.contextmanager
def side_by_side(given):
    """Built programs started side by side, by name with the bytes that each is given; none is left running."""
    runs = {}
    try:
        for name, text in given.items():
            runs[name] = Started(name, text)
        yield runs
    finally:
        for run in runs.values():
            run.stop()


def interrupted(number, _frame):
    """A signal that ends a script ends what it started too, on the way out."""
    raise SystemExit(128 + number)


def ended(main, name):
    """Ends a script with the status that `main` gives. What it prints is UTF-8 whatever the machine's letters are; a text that cannot be
    read is said in one line, and where nobody reads the output any more the script ends and says nothing. So it does on Ctrl-C and SIGTERM."""
    for stream in (sys.stdout, sys.stderr):
        stream.reconfigure(encoding="utf-8")
    for number in (signal.SIGINT, signal.SIGTERM):
        signal.signal(number, interrupted)
    try:
        status = main()
        sys.stdout.flush()
    except BrokenPipeError:
        os.dup2(os.open(os.devnull, os.O_WRONLY), sys.stdout.fileno())
        status = 1
    except Refused as refused:
        print(f"{name}: meadow refuses this sheet: number {refused.number}, line {refused.line}; tools/why.py says why", file=sys.stderr)
        status = 1
    except subprocess.CalledProcessError as fault:
        print(f"{name}: {' '.join(map(str, fault.cmd))} could not be run", file=sys.stderr)
        status = 1
    except (OSError, UnicodeDecodeError, Unreadable) as fault:
        print(f"{name}: {fault}", file=sys.stderr)
        status = 1
    sys.exit(status)
