"""A line on standard error that says how far long work has come."""

from __future__ import annotations

import sys
import time


class Progress:
    """On a terminal, after a second, a line that is written over; elsewhere a line every ten seconds."""

    def __init__(self, what: str, total: int) -> None:
        self.what = what
        self.total = total
        self.done = 0
        self.next = time.monotonic() + (1 if sys.stderr.isatty() else 10)
        self.width = 0

    def step(self, about: str = "") -> None:
        """One more is done."""
        self.done += 1
        now = time.monotonic()
        if now < self.next:
            return
        line = f"{self.done} of {self.total} {self.what}{f': {about}' if about else ''}"
        if sys.stderr.isatty():
            self.next = now + 0.2
            sys.stderr.write("\r" + line[:79].ljust(self.width))
            self.width = min(len(line), 79)
        else:
            self.next = now + 10
            sys.stderr.write(line + "\n")
        sys.stderr.flush()

    def clear(self) -> None:
        """Takes the line away, before something else is written."""
        if self.width:
            sys.stderr.write("\r" + " " * self.width + "\r")
            sys.stderr.flush()
            self.width = 0
