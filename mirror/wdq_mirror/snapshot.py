"""What a snapshot of wdq says, without reading its pages."""

import dataclasses
import functools
import json
import pathlib
import typing

from .errors import Mismatch
from .times import micros, now, text_of

KINDS = ["edit", "delete", "undelete", "reconcile-deleted", "reconcile-kept"]


def key(event: dict[str, typing.Any]) -> tuple[int, int, int]:
    """What events of one entity are ordered by."""
    return event["micros"], event["rev"], KINDS.index(event["kind"])


@dataclasses.dataclass
class Record:
    """What a snapshot knows of an entity."""

    state: str
    revision: int
    held: typing.Optional[int]
    reconciled: typing.Optional[tuple[int, int, int]]


@dataclasses.dataclass
class Doubt:
    """Why an entity may be wrong: a late event, or a page that couldn't be had."""

    entity: str
    cause: str
    revision: int


class Head(typing.NamedTuple):
    """The head of a snapshot: its mark, and how many records and lines led to it, those of earlier runs too."""

    mark: typing.Optional[int]
    patches: int
    # 0 in formats that don't have it, from which wdq counts on.
    lines: int


@dataclasses.dataclass
class Snapshot:
    """The head, the entries and the records of a snapshot."""

    mark: typing.Optional[int]
    patches: int
    entries: list[dict[str, typing.Any]]
    records: dict[str, Record]
    # Events that aren't applied yet.
    waiting: list[dict[str, typing.Any]] = dataclasses.field(default_factory=list)

    def doubts(self) -> list[Doubt]:
        """The entries that still matter."""
        found = []
        for entry in self.entries:
            event, cause = entry["event"], entry["entry"]
            record = self.records.get(event["entity"], Record("unknown", 0, None, None))
            if cause == "late":
                is_open = record.reconciled is None or key(event) >= record.reconciled
                revision = event["rev"]
            else:
                is_open = record.state == "kept" and record.revision == entry["rev"] != record.held
                revision = entry["rev"]
            if is_open:
                found.append(Doubt(event["entity"], cause, revision))
        return found

    @functools.cached_property
    def latest(self) -> dict[str, int]:
        """The greatest time of each entity's events that wait."""
        found: dict[str, int] = {}
        for event in self.waiting:
            found[event["entity"]] = max(found.get(event["entity"], 0), micros(event["time"]))
        return found

    @property
    def after_mark(self) -> int:
        """The time right behind the mark."""
        return self.mark + 1 if self.mark is not None else now()

    def time_of(self, entity: str) -> int:
        """The time of a reconciliation of an entity: right behind the mark, or that of the last of its events that wait."""
        return max(self.after_mark, self.latest.get(entity, 0))

    def greatest(self, entity: str) -> int:
        """The greatest revision that is known of an entity."""
        record = self.records.get(entity)
        named = [entry["event"] for entry in self.entries] + (self.waiting if entity in self.latest else [])
        return max([record.revision if record else 1, *(event["rev"] for event in named if event["entity"] == entity), 1])


def read_line(line: bytes) -> dict[str, typing.Any]:
    """What a line says, but for a page that stands behind a TAB."""
    members, tab, _ = line.rstrip(b"\n").partition(b",\t")
    return json.loads(members + b"}" if tab else members)


def event_of(value: dict[str, typing.Any]) -> dict[str, typing.Any]:
    """An event, as an event line has it."""
    kind, _, mode = value["kind"].partition("-")
    event = {"kind": kind, "entity": value["entity"], "rev": value["rev"], "time": text_of(value["micros"])}
    return {**event, "mode": mode} if mode else event


def record_of(value: dict[str, typing.Any]) -> Record:
    """A record."""
    held, reconciled = value["held"], value["reconciled"]
    return Record(value["state"], value["rev"], held and held["rev"], reconciled and key(reconciled))


def read(path: pathlib.Path) -> Snapshot:
    """Reads a snapshot."""
    snapshot = Snapshot(None, 0, [], {})
    count = 0
    try:
        with open(path, "rb") as file:
            for line in file:
                value = read_line(line)
                if "end" in value and value["end"] == count:
                    return snapshot
                count += 1
                if "snapshot" in value:
                    snapshot.mark, snapshot.patches = value["mark"], value["patches"]
                elif "kind" in value:
                    if snapshot.mark is None or value["micros"] > snapshot.mark:
                        snapshot.waiting.append(event_of(value))
                elif "entry" in value:
                    snapshot.entries.append(value)
                elif "state" in value:
                    snapshot.records[value["entity"]] = record_of(value)
    except (OSError, ValueError, KeyError, TypeError) as error:
        raise Mismatch(f"{path} can't be read ({error}): restore a backup (wdq-mirror restore)") from None
    raise Mismatch(f"{path} isn't whole: restore a backup (wdq-mirror restore)")


def read_head(path: pathlib.Path) -> Head:
    """The head of a snapshot."""
    try:
        with open(path, "rb") as file:
            head = read_line(file.readline())
        return Head(head["mark"], head["patches"], head.get("lines", 0))
    except (OSError, ValueError, KeyError) as error:
        raise Mismatch(f"{path} can't be read ({error}): restore a backup (wdq-mirror restore)") from None
