"""How far a command is, on standard error where that is a terminal."""

import sys
import time


class Progress:
    """Shows a count, at most once a second."""

    def __init__(self, what: str):
        self.what = what
        self.is_shown = sys.stderr.isatty()
        self.start = self.last = time.monotonic()

    def __enter__(self) -> "Progress":
        return self

    def __exit__(self, *_: object) -> None:
        if self.is_shown and self.last > self.start:
            print(file=sys.stderr)

    def show(self, count: int) -> None:
        """Shows how many are done."""
        now = time.monotonic()
        if self.is_shown and now - self.last >= 1:
            self.last = now
            print(f"\r{count} {self.what}, {count / (now - self.start):.0f} a second ", end="", file=sys.stderr, flush=True)
