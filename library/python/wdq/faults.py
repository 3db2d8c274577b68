"""The ends of a run but the good one, as exceptions. docs/USAGE.md says when each occurs."""
from __future__ import annotations

import re


class Fault(Exception):
    """A run that ended with another status than 0. `printed` is what it had printed, and `snapshot` the snapshot that it had kept last."""

    def __init__(self, status: int, message: str, printed: bytes = b"", snapshot: bytes | None = None) -> None:
        super().__init__(status, message, printed, snapshot)
        self.status = status
        self.message = message
        self.printed = printed
        self.snapshot = snapshot

    def __str__(self) -> str:
        return self.message or f"wdq: status {self.status}"


class BadWords(Fault):
    """The words aren't understood: an option has a value that it can't have."""


class BadLine(Fault):
    """A line of the input is refused. `line` is its number, from 1, and `cause` says why, such as `Rev`."""

    @property
    def line(self) -> int:
        return _number_of_line(self.message)

    @property
    def cause(self) -> str:
        return self.message.rpartition(": ")[2]


class TooLong(Fault):
    """The input has more bytes than `max_bytes`."""


class StoreFull(Fault):
    """The triples have no room within `max_terms`."""


class OutOfMemory(Fault, MemoryError):
    """A request for memory was refused."""


class BadSnapshot(Fault):
    """The snapshot of `resume` is refused at `line`."""

    @property
    def line(self) -> int:
        return _number_of_line(self.message)


# Status 3 and 4 are faults of reading and writing, which a run over memory doesn't have.
BY_STATUS: dict[int, type[Fault]] = {1: BadWords, 2: BadLine, 5: TooLong, 6: StoreFull, 7: OutOfMemory, 8: BadSnapshot}


def _number_of_line(message: str) -> int:
    found = re.search(r"line (\d+)", message)
    return int(found[1]) if found else 0
