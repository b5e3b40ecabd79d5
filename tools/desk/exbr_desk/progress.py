"""A line on the terminal while work is long."""
from __future__ import annotations

import sys
import time


class Progress:
    """Shows on standard error how far work is, where that is a terminal and the work takes longer than a second."""

    def __init__(self, what: str, total: int = 0, quiet: bool = False):
        self.what, self.total, self.begun = what, total, time.monotonic()
        self.next = self.begun + 1
        self.shown = False
        self.is_on = not quiet and sys.stderr.isatty()

    def at(self, done: int) -> None:
        """Tells how much is done. It is cheap, but not so cheap that one would call it for each frame."""
        now = time.monotonic() if self.is_on else 0
        if not self.is_on or now < self.next:
            return
        self.next = now + 0.5
        part = f" of {self.total:,} ({100 * done // self.total} %)" if self.total else ""
        left = f", {(now - self.begun) * (self.total - done) / done:.0f} s left" if self.total and done else ""
        print(f"\r{self.what}: {done:,}{part}{left}\033[K", end="", file=sys.stderr, flush=True)
        self.shown = True

    def end(self) -> None:
        """Takes the line away."""
        if self.shown:
            print("\r\033[K", end="", file=sys.stderr, flush=True)
            self.shown = False
