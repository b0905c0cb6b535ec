"""Tells on standard error how far a test is: on a terminal in one line that changes, and else in a line each half minute."""

import sys
import time

SECONDS = 30


class Progress:
    """Counts what is done of a number of cases."""

    def __init__(self, name, count):
        self.name, self.count, self.done, self.failed = name, count, 0, 0
        self.terminal, self.told = sys.stderr.isatty(), time.monotonic()

    def step(self, has_failed):
        """One case more is done."""
        self.done += 1
        self.failed += has_failed
        if self.terminal:
            print(f"\r\033[K{self.text()}", end="\r\033[K" if self.done == self.count else "", file=sys.stderr, flush=True)
        elif time.monotonic() - self.told >= SECONDS:
            self.told = time.monotonic()
            print(self.text(), file=sys.stderr, flush=True)

    def text(self):
        return f"{self.name}: {self.done} of {self.count}" + (f", {self.failed} failed" if self.failed else "")
