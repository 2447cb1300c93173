"""One engine: the program `desk` as a child process with one meadow, asked by lines. It computes; nothing here does."""
import resource
import subprocess
import threading

from meadow.programs import words_of
from meadow.rule.refusals import Refused

# bytes of an answer and of one of its lines
MOST_ANSWER, LONGEST_LINE = 16 << 20, 1 << 16
MOST_HATCHES, MOST_STEPS = 9, 64
# an engine opens a few files while it is started, and writes none
LIMITS = {resource.RLIMIT_FSIZE: 0, resource.RLIMIT_CORE: 0, resource.RLIMIT_NOFILE: 32}


class Gone(Exception):
    """The engine has ended, or does not answer."""


class Engine:
    """A running engine; `opening` is its answer to what it was begun with."""

    # seconds in which an answer must come; one that does not answer is ended
    patience = 30

    def __init__(self):
        pipes = {"stdin": subprocess.PIPE, "stdout": subprocess.PIPE, "stderr": subprocess.DEVNULL}
        self.child = subprocess.Popen(words_of("desk"), env={}, cwd="/", start_new_session=True, **pipes)
        self.limit()
        self.opening = []

    def limit(self):
        """What the child may do; one that has ended already is found so when it is asked."""
        try:
            for kind, most in LIMITS.items():
                resource.prlimit(self.child.pid, kind, (most, most))
        except ProcessLookupError:
            pass

    @classmethod
    def fresh(cls, sheet, hatches):
        """The fresh run of a sheet with its hatches named."""
        return cls().begun(sheet, [("hatch", number, *place) for number, place in sorted(hatches.items())])

    @classmethod
    def laid(cls, sheet, stand):
        """The run of a sheet from a saved state, whose hatches come with it."""
        return cls().begun(sheet, [("lay", len(stand), stand)])

    def begun(self, sheet, lines):
        """The engine itself after the sheet and these lines; it ends where one of them is refused."""
        try:
            self.opening = self.ask("sheet", len(sheet), sheet)
            for line in lines:
                self.opening = self.ask(*line) or self.opening
        except BaseException:
            self.close()
            raise
        return self

    def lines(self, *words):
        """The answer to a line, line by line; bytes as the last word follow it. `done` is left out, and a refusal raised."""
        text = words[-1] if isinstance(words[-1], bytes) else b""
        said = "\t".join(str(word) for word in words if not isinstance(word, bytes)).encode("ascii") + b"\n"
        watch = threading.Timer(self.patience, self.child.kill)
        watch.start()
        try:
            self.child.stdin.write(said + text)
            self.child.stdin.flush()
            yield from self.answer()
        except (OSError, ValueError) as fault:
            raise Gone from fault
        finally:
            watch.cancel()

    def answer(self):
        """The lines of an answer as they come."""
        size = 0
        while True:
            line = self.child.stdout.readline(LONGEST_LINE)
            size += len(line)
            if not line.endswith(b"\n") or size > MOST_ANSWER:
                raise Gone
            if line == b"done\n":
                return
            if line.startswith(b"refused\t"):
                raise Refused(*map(int, line.split(b"\t")[1:]))
            yield line.decode("ascii")

    def ask(self, *words):
        """The whole answer to a line."""
        return list(self.lines(*words))

    def stand(self):
        """The state as text, without the steps kept."""
        return "".join(self.ask("stand")).encode("ascii")

    def close(self):
        """Ends the child, this one only."""
        self.child.kill()
        self.child.wait()
        for pipe in (self.child.stdin, self.child.stdout):
            try:
                pipe.close()
            except OSError:
                pass
