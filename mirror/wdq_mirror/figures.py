"""What `run` counts and shows."""

import collections
import dataclasses
import time
import typing

from .records import Record

GAUGES = {
    "mark": "the greatest watermark, in seconds of Unix time",
    "era": "the number of the last closed era",
    "record": "the last record that wdq made",
    "stored_record": "the last record that the store has",
    "queue": "records that wait for the store",
    "store_up": "1 if the store took the last update, else 0",
    "stream_up": "1 if the stream is connected, else 0",
    "gap": "how many gaps of the stream are open",
    "in_doubt": "entities in doubt when wdq last saved",
    "fetching": "pages that are being fetched",
}
COUNTERS = {
    "events": "events of the stream",
    "late": "events that came too late",
    "missing": "pages that couldn't be fetched",
    "reconciliations": "entities that the wiki was asked for",
    "records": "records of changes",
    "adds": "triples that came",
    "removes": "triples that went",
    "updates": "updates that the store took",
    "store_failures": "updates that failed",
    "starts": "how often wdq was started",
}
POINTS = 600


@dataclasses.dataclass
class Change:
    """A record, as the page shows it."""

    number: int
    adds: int
    removes: int
    subject: str

    @classmethod
    def of(cls, record: Record) -> "Change":
        """What a record changes."""
        triple = (record.adds or record.removes)[0]
        return cls(record.number, len(record.adds), len(record.removes), triple.subject.text)


@dataclasses.dataclass
class Figures:
    """Gauges and counters, the lag of the mark over time, and the last records."""

    gauges: dict[str, float] = dataclasses.field(default_factory=lambda: dict.fromkeys(GAUGES, 0.0))
    counters: dict[str, int] = dataclasses.field(default_factory=lambda: dict.fromkeys(COUNTERS, 0))
    lags: typing.Deque[tuple[float, float]] = dataclasses.field(default_factory=lambda: collections.deque(maxlen=POINTS))
    changes: typing.Deque[Change] = dataclasses.field(default_factory=lambda: collections.deque(maxlen=20))
    begun: float = dataclasses.field(default_factory=time.time)
    doubts: list[tuple[str, str, int]] = dataclasses.field(default_factory=list)

    def add(self, name: str, number: int = 1) -> None:
        """Counts."""
        self.counters[name] += number

    def set(self, name: str, value: float) -> None:
        """Sets a gauge."""
        self.gauges[name] = value

    def note_record(self, change: Change, queue: int) -> None:
        """Counts a record."""
        for name, count in (("records", 1), ("adds", change.adds), ("removes", change.removes)):
            self.add(name, count)
        self.set("record", change.number)
        self.set("queue", queue)
        self.changes.appendleft(change)

    def note_mark(self, micros: int) -> None:
        """Sets the mark, and keeps its lag, a point each second at most."""
        self.set("mark", micros / 1e6)
        now = time.time()
        if not self.lags or now - self.lags[-1][0] >= 1:
            self.lags.append((now, max(0.0, now - micros / 1e6)))

    def exposition(self) -> str:
        """The text that Prometheus reads."""
        text = ""
        for name, told in GAUGES.items():
            text += f"# HELP wdq_{name} {told}\n# TYPE wdq_{name} gauge\nwdq_{name} {self.gauges[name]:.17g}\n"
        for name, told in COUNTERS.items():
            text += f"# HELP wdq_{name}_total {told}\n# TYPE wdq_{name}_total counter\nwdq_{name}_total {self.counters[name]}\n"
        return text
