"""What a tool at work tells a person at a terminal, and nobody else."""
from __future__ import annotations

import sys
import time


class Progress:
    """A line on stderr that says what is being done, where stderr is a terminal and the work lasts above a second."""

    def __init__(self, tool: str) -> None:
        self.tool = tool
        self.began = time.monotonic()
        self.told = 0.0
        self.shows = sys.stderr.isatty()

    def say(self, text: str, lasts: bool = False) -> None:
        """Says what is done from here on: at once where that step lasts, else after a second, five times a second."""
        now = time.monotonic()
        if self.shows and (lasts or now - self.began > 1 and now - self.told > 0.2):
            self.told = now
            sys.stderr.write(f"\r\x1b[K{self.tool}: {text}")
            sys.stderr.flush()

    def end(self) -> None:
        """Takes the line away."""
        if self.told:
            sys.stderr.write("\r\x1b[K")
            sys.stderr.flush()
            self.told = 0.0


def tell(text: str) -> None:
    """A line on stderr that the next one replaces, where a person looks at it; empty: takes it away."""
    if sys.stderr.isatty():
        sys.stderr.write(f"\r\x1b[K{text}")
        sys.stderr.flush()
