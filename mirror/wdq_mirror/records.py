"""Records of changes, as `wdq patches` prints them."""

import hashlib
import re
import typing

from .errors import Mismatch
from .home import Position
from .terms import Triple, read_triple

HEAD = re.compile(rb"# patch ([1-9][0-9]*) \+(0|[1-9][0-9]*) -(0|[1-9][0-9]*)")


class Record(typing.NamedTuple):
    """A record: its number, the triples that come and go, and its own lines."""

    number: int
    adds: list[Triple]
    removes: list[Triple]
    text: bytes

    def after(self, before: Position) -> Position:
        """The place behind this record."""
        digest = hashlib.sha256(before.digest.encode() + hashlib.sha256(self.text).digest()).hexdigest()
        return Position(self.number, digest)


class Reader:
    """Makes records of lines, one by one."""

    def __init__(self) -> None:
        self.lines: list[bytes] = []
        self.number = self.adds = self.rest = 0

    def take(self, line: bytes) -> typing.Optional[Record]:
        """Takes a line without its line feed; gives the record that it ends."""
        if not self.rest:
            head = HEAD.fullmatch(line)
            if not head:
                raise Mismatch(f"wdq printed {line[:60]!r} where the head of a record is expected: use the wdq that came with this wdq-mirror")
            self.number, self.adds, removes = map(int, head.groups())
            self.rest, self.lines = self.adds + removes, [line]
        else:
            self.lines.append(line)
            self.rest -= 1
        return self.record() if not self.rest else None

    def record(self) -> Record:
        """The record of the lines so far."""
        try:
            triples = [read_triple(line.decode()) for line in self.lines[1:]]
        except ValueError as fault:
            raise Mismatch(f"record {self.number} has a line that is not a triple: {fault}") from None
        return Record(self.number, triples[: self.adds], triples[self.adds :], b"\n".join(self.lines) + b"\n")


def read_records(lines: typing.Iterable[bytes]) -> typing.Iterator[Record]:
    """The records of lines with line feeds; what is cut off at the end is no record."""
    reader = Reader()
    for line in lines:
        if not line.endswith(b"\n"):
            return
        if record := reader.take(line[:-1]):
            yield record
