"""Sends records to the store, in order and each once, and refuses a store that isn't where the home says."""

import typing

from .counts import Counts
from .errors import Mismatch
from .home import Home, Position
from .records import Record, read_records
from .stores import Marks, Store

RELOAD = "run wdq-mirror reload, which fills it anew from the home's last snapshot"


def check_marks(home: Home, marks: typing.Optional[Marks]) -> Marks:
    """Refuses a store that another home filled, or in another way than the settings say."""
    mirror = home.settings.mirror
    if marks is None:
        raise Mismatch(f"the store says nothing of this mirror, so it is empty or was loaded only in part: {RELOAD}")
    if marks.home != home.identity:
        raise Mismatch(
            f"the store under {mirror.stream} holds the mirror of another home: use the right home or store, "
            f"give this home a stream and a graph of its own, or run wdq-mirror reload --clear, which takes the other one out"
        )
    if marks.graph != mirror.graph:
        raise Mismatch(f"the store's triples are in the graph {marks.graph}, and mirror.graph is {mirror.graph}: set it back, or {RELOAD}")
    if marks.counted != mirror.counts:
        now = "true" if marks.counted else "false"
        raise Mismatch(f"the store was filled with counts = {now}, and mirror.counts is the other: set it back, or {RELOAD}")
    return marks


def check_place(home: Home, marks: Marks) -> None:
    """Refuses a store whose records were others, where an era of the home ends at its place."""
    for era in home.eras():
        if era.position.number == marks.position.number and era.position.digest != marks.position.digest:
            raise Mismatch(f"the store's records up to {marks.position.number} differ from this home's: {RELOAD}")


class Sender:
    """Sends records from a place on. It passes over those that the store has."""

    def __init__(self, home: Home, store: Store, marks: Marks, start: Position):
        self.home, self.store, self.marks, self.place = home, store, marks, start
        self.counts = Counts(home.path / "counts.db", home.identity) if home.settings.mirror.counts else None
        self.articles = home.settings.articles
        self.changes: dict[str, bool] = {}
        self.records = 0
        least = marks.position.number
        if self.counts:
            if self.counts.number > least:
                raise Mismatch(f"the counts are at record {self.counts.number} and the store only at {least}: {RELOAD}")
            least = self.counts.number
        if least < start.number:
            raise Mismatch(f"the store or its counts are at record {least}, and the home keeps records only from {start.number + 1} on: {RELOAD}")

    @property
    def counted(self) -> int:
        """The last record that needs nothing any more."""
        return self.counts.number if self.counts else self.marks.position.number

    def add(self, record: Record) -> None:
        """Takes the next record."""
        if record.number != self.place.number + 1:
            raise Mismatch(f"record {self.place.number + 1} is due, and record {record.number} is here: {RELOAD}")
        self.place = record.after(self.place)
        applied = self.marks.position
        if record.number == applied.number and self.place.digest != applied.digest:
            raise Mismatch(f"the store's records up to {record.number} differ from this home's: {RELOAD}")
        if record.number <= self.counted:
            return
        self.records += 1
        for triples, is_added in ((record.removes, False), (record.adds, True)):
            for triple in map(self.articles.triple, triples):
                line = self.counts.change(triple, is_added) if self.counts else triple.sparql()
                if line and record.number > applied.number:
                    self.changes[line] = is_added

    @property
    def is_full(self) -> bool:
        """Whether an update should go."""
        words = self.home.settings.store
        return self.records >= words.batch_records or len(self.changes) >= words.batch_triples

    async def flush(self) -> None:
        """Sends what was taken. If the store fails, a second call sends the same again."""
        if not self.records:
            return
        if self.place.number > self.marks.position.number:
            marks = Marks(self.place, self.marks.home, self.marks.graph, self.marks.counted)
            removes = [line for line, comes in self.changes.items() if not comes]
            adds = [line for line, comes in self.changes.items() if comes]
            await self.store.apply(removes, adds, marks)
            self.marks = marks
        if self.counts:
            self.counts.keep(self.place.number)
        self.changes, self.records = {}, 0

    def close(self) -> None:
        """Lets the counts go."""
        if self.counts:
            self.counts.close()


async def update(home: Home, store: Store) -> tuple[int, int]:
    """Sends the records of closed eras that the store lacks; gives the store's number before and after."""
    marks = check_marks(home, await store.marks())
    check_place(home, marks)
    eras = home.eras()
    before = marks.position.number
    last = eras[-1].position
    open_era = home.file("events", eras[-1].number + 1)
    if before > last.number and not open_era.exists():
        raise Mismatch(f"the store is at record {before}, and this home only at {last.number}, as if from a backup: {RELOAD}")
    if before >= last.number and not home.settings.mirror.counts:
        return before, before
    sender = sender_from(home, store, marks)
    try:
        for era in eras:
            if era.position.number > sender.place.number:
                await send_file(home, sender, era.number)
        await sender.flush()
        return before, sender.marks.position.number
    finally:
        sender.close()


def sender_from(home: Home, store: Store, marks: Marks) -> Sender:
    """A sender from the last end of an era at or before the store's place."""
    eras = home.eras()
    least = marks.position.number
    if home.settings.mirror.counts:
        counts = Counts(home.path / "counts.db", home.identity)
        least = min(least, counts.number)
        counts.close()
    places = [era.position for era in eras if era.position.number <= least]
    return Sender(home, store, marks, places[-1] if places else eras[0].position)


async def send_file(home: Home, sender: Sender, era: int) -> None:
    """Sends the records of a closed era."""
    path = home.file("records", era)
    if not path.exists():
        raise Mismatch(f"{path} isn't there, and the store needs its records: {RELOAD}")
    with open(path, "rb") as file:
        for record in read_records(file):
            sender.add(record)
            if sender.is_full:
                await sender.flush()
