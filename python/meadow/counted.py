"""Tests that say at their end how many checks they made, skipped and failed, as the gate reads it; none at all is a failure."""
import sys


class Checks:
    """The checks of one test."""

    def __init__(self, name):
        self.name, self.made, self.skipped, self.failed = name, 0, 0, 0

    def hold(self, right, what):
        """One check; what is wrong is said where it is not right."""
        self.made += 1
        if not right:
            self.failed += 1
            print(f"{self.name}: wrong: {what}", flush=True)
        return right

    def skip(self, what, why):
        """A check that cannot be made here."""
        self.skipped += 1
        print(f"{self.name}: skipped: {what}: {why}", flush=True)

    def end(self):
        """Says the counts and ends the script."""
        if self.made + self.skipped == 0:
            self.failed = 1
            print(f"{self.name}: wrong: there was nothing to check")
        print(f"{self.name}: {self.made} checks, {self.skipped} skipped, {self.failed} failed", flush=True)
        sys.exit(1 if self.failed else 0)
