"""The home of a mirror: its folders, and what it has made so far, in an SQLite file.

The mirror's life is a row of eras. Era N takes events/N.jsonl, and makes records/N.txt and snapshots/N; era 0 is the dump. An era is closed
once its row is here; what an open era has written is made again from its events, and gives the same.
"""

import contextlib
import dataclasses
import pathlib
import sqlite3
import sys
import typing
import uuid

from . import files, settings as settings_of
from .errors import Mismatch, Unreachable, Usage
from .times import micros, text_of

FORMAT = "1"
SCHEMA = """
CREATE TABLE IF NOT EXISTS facts (name TEXT PRIMARY KEY, value TEXT NOT NULL);
CREATE TABLE IF NOT EXISTS eras (number INTEGER PRIMARY KEY, record INTEGER NOT NULL, digest TEXT NOT NULL, mark TEXT NOT NULL);
CREATE TABLE IF NOT EXISTS gaps (number INTEGER PRIMARY KEY AUTOINCREMENT, began TEXT NOT NULL, ended TEXT NOT NULL, healed INTEGER NOT NULL);
CREATE TABLE IF NOT EXISTS lacking (revision TEXT PRIMARY KEY, entity TEXT NOT NULL, time INTEGER NOT NULL, era INTEGER NOT NULL);
CREATE TABLE IF NOT EXISTS doubts (entity TEXT PRIMARY KEY, times INTEGER NOT NULL);
"""
FOLDERS = ("pages", "events", "records", "snapshots")


class Position(typing.NamedTuple):
    """A place in the mirror's records: the last number, and the digest of all records so far."""

    number: int
    digest: str


class Wanted(typing.NamedTuple):
    """A page that an event needs, and the event's time in microseconds."""

    revision: int
    entity: str
    time: int


@dataclasses.dataclass(frozen=True)
class Era:
    """A closed era: its last record, and its watermark."""

    number: int
    position: Position
    mark: str


@dataclasses.dataclass(frozen=True)
class GapRow:
    """A stretch of the stream that was lost."""

    number: int
    began: str
    ended: str


class Home:
    """An open home."""

    def __init__(self, path: pathlib.Path):
        self.path = path
        self.settings = settings_of.read(path)
        if not (path / "state.db").exists():
            raise Usage(f"{path / 'state.db'} isn't there: restore it from a backup, or begin in another folder with wdq-mirror init")
        self.base = sqlite3.connect(path / "state.db", isolation_level=None, timeout=30)
        self.base.execute("PRAGMA journal_mode = WAL")
        self.base.execute("PRAGMA synchronous = FULL")
        self.base.executescript(SCHEMA)
        self.held: typing.Optional[typing.IO[str]] = None
        self.check_facts()

    # --- Facts that never change ---

    def fixed(self) -> dict[str, str]:
        """The settings that a home keeps for good."""
        mirror = self.settings.mirror
        return {
            "mirror.stream": mirror.stream,
            "mirror.graph": mirror.graph,
            "mirror.counts": "true" if mirror.counts else "false",
            "mirror.articles": mirror.articles,
            "mirror.horizon_hours": str(mirror.horizon_hours),
            "mirror.shard": mirror.shard,
            "wiki.name": self.settings.wiki.name,
        }

    def check_facts(self) -> None:
        """Refuses settings that differ from those by which the home was made."""
        if self.fact("format") != FORMAT:
            raise Mismatch(f"{self.path} was made by another version of wdq-mirror: use that version")
        if not self.eras_exist():
            return
        for name, now in self.fixed().items():
            # The first homes had one spelling of articles.
            before = self.fact(name) or ("wdq" if name == "mirror.articles" else None)
            if before is not None and before != now:
                raise Mismatch(
                    f"{name} is {now} in {settings_of.FILE}, but this home was made with {before}: set it back, "
                    "or make another home with wdq-mirror init and load it"
                )

    def fix_facts(self) -> None:
        """Keeps the settings from here on."""
        for name, value in self.fixed().items():
            self.set_fact(name, value)

    def fact(self, name: str) -> typing.Optional[str]:
        """What is kept under a name."""
        row = self.base.execute("SELECT value FROM facts WHERE name = ?", (name,)).fetchone()
        return row[0] if row else None

    def set_fact(self, name: str, value: str) -> None:
        """Keeps a value under a name."""
        self.base.execute("INSERT OR REPLACE INTO facts VALUES (?, ?)", (name, value))

    @property
    def identity(self) -> str:
        """What no other home has."""
        return self.fact("home") or ""

    # --- Eras ---

    def eras_exist(self) -> bool:
        """Whether the mirror was loaded."""
        return self.base.execute("SELECT 1 FROM eras LIMIT 1").fetchone() is not None

    def eras(self) -> list[Era]:
        """The closed eras that are kept, oldest first."""
        rows = self.base.execute("SELECT number, record, digest, mark FROM eras ORDER BY number")
        return [Era(number, Position(record, digest), mark) for number, record, digest, mark in rows]

    def last_era(self) -> Era:
        """The last closed era."""
        eras = self.eras()
        if not eras:
            raise Usage(f"{self.path} holds nothing yet: wdq-mirror load DUMP loads it")
        return eras[-1]

    def close_era(self, era: Era) -> None:
        """Adds a closed era, and forgets the pages that it gave up."""
        with self.transaction():
            self.base.execute("INSERT INTO eras VALUES (?, ?, ?, ?)", (era.number, *era.position, era.mark))
            self.base.execute("DELETE FROM lacking WHERE era <= ?", (era.number,))

    @contextlib.contextmanager
    def transaction(self) -> typing.Iterator[None]:
        """All changes within are kept, or none."""
        self.base.execute("BEGIN IMMEDIATE")
        try:
            yield
        except BaseException:
            self.base.execute("ROLLBACK")
            raise
        self.base.execute("COMMIT")

    def file(self, folder: str, number: int) -> pathlib.Path:
        """A file of an era."""
        suffix = {"events": ".jsonl", "records": ".txt", "snapshots": ""}[folder]
        return self.path / folder / f"{number:06}{suffix}"

    @property
    def pages(self) -> pathlib.Path:
        """The folder of the pages."""
        return self.path / "pages"

    # --- Pages that an open era has gone without ---

    def give_up(self, page: Wanted, era: int) -> None:
        """Keeps that an era goes without a page, so that a second run of the era does too."""
        words = "INSERT INTO lacking VALUES (?, ?, ?, ?) ON CONFLICT (revision) DO UPDATE SET time = max(time, excluded.time), era = excluded.era"
        self.base.execute(words, (str(page.revision), page.entity, page.time, era))

    def keep_lacking(self, mark: int, era: int) -> None:
        """Leaves the pages of events behind a mark to the next era, since wdq goes on with it in the same run."""
        self.base.execute("UPDATE lacking SET era = ? WHERE time > ?", (era, mark))

    def is_given_up(self, revision: int) -> bool:
        """Whether the open era goes without a page."""
        return self.base.execute("SELECT 1 FROM lacking WHERE revision = ?", (str(revision),)).fetchone() is not None

    # --- The stream: where it goes on, gaps ---

    def keep_place(self, place: str, seen: int, journal: pathlib.Path) -> None:
        """Keeps where the stream goes on, and how much of the open era's events came before."""
        for name, value in (("place", place), ("seen", str(seen)), ("journal", f"{journal.name} {journal.stat().st_size}")):
            self.set_fact(name, value)

    def note_lost_events(self) -> None:
        """Where the open era lacks events that the stream has passed, as its file was removed, they are a gap."""
        name, _, size = (self.fact("journal") or "").partition(" ")
        if not name or not self.eras_exist() or name != self.file("events", self.last_era().number + 1).name:
            return
        path = self.path / "events" / name
        if path.exists() and path.stat().st_size >= int(size):
            return
        mark = self.last_era().mark or self.fact("since")
        with self.transaction():
            self.note_gap(micros(mark) if mark else 0, int(self.fact("seen") or 0))
            self.set_fact("journal", "")
        print(f"wdq-mirror: {path} has lost events that came on the stream: this is a gap, for which the wiki is asked", file=sys.stderr)

    def note_gap(self, before: int, after: int) -> None:
        """Keeps that the stream has lost what came between two messages, of which the latter may be late, as may be what was lost."""
        late = self.settings.wiki.late_seconds * 1_000_000
        self.add_gap(text_of(before - late), text_of(after + late))

    def add_gap(self, began: str, ended: str) -> None:
        """Keeps that the stream has lost what changed between two times."""
        self.base.execute("INSERT INTO gaps (began, ended, healed) VALUES (?, ?, 0)", (began, ended))

    def gaps(self) -> list[GapRow]:
        """The gaps that aren't healed."""
        return [GapRow(*row) for row in self.base.execute("SELECT number, began, ended FROM gaps WHERE healed = 0 ORDER BY number")]

    def heal_gaps(self, numbers: typing.Iterable[int]) -> None:
        """Keeps that gaps are healed."""
        with self.transaction():
            self.base.executemany("UPDATE gaps SET healed = 1 WHERE number = ?", [(number,) for number in numbers])

    # --- The lock ---

    def lock(self) -> None:
        """Sees to it that no other process changes this home."""
        self.held = files.lock(self.path / "lock")

    def close(self) -> None:
        """Lets the home go."""
        self.base.close()
        if self.held:
            self.held.close()


def make(path: pathlib.Path, settings: settings_of.Settings) -> None:
    """Makes the home of a mirror."""
    if (path / settings_of.FILE).exists():
        raise Usage(f"{path} is a home already: edit {path / settings_of.FILE}, or name another folder")
    settings_of.check(settings)
    try:
        for folder in FOLDERS:
            (path / folder).mkdir(parents=True, exist_ok=True)
        base = sqlite3.connect(path / "state.db")
        base.executescript(SCHEMA)
        base.executemany("INSERT OR REPLACE INTO facts VALUES (?, ?)", [("format", FORMAT), ("home", uuid.uuid4().hex)])
        base.commit()
        base.close()
        files.save(path / settings_of.FILE, settings_of.write(settings).encode())
    except (OSError, sqlite3.Error) as error:
        raise Unreachable(f"{path} can't be written: {error}") from None
