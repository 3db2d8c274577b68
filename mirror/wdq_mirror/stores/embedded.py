"""The embedded store: quads in an SQLite file, which rdflib asks in SPARQL. Each update is one transaction."""

import asyncio
import contextlib
import functools
import pathlib
import sqlite3
import typing

from ..errors import Unreachable, Usage
from ..home import Position
from ..settings import Mirror
from ..terms import Iri, Triple, read_triple
from . import Lines, Marks, Row

SCHEMA = """
CREATE TABLE IF NOT EXISTS triples (subject TEXT, predicate TEXT, object TEXT, PRIMARY KEY (subject, predicate, object)) WITHOUT ROWID;
CREATE INDEX IF NOT EXISTS by_predicate ON triples (predicate, object);
CREATE INDEX IF NOT EXISTS by_object ON triples (object);
CREATE TABLE IF NOT EXISTS marks (number INTEGER, digest TEXT, home TEXT, graph TEXT, counted INTEGER);
"""


def split(line: str) -> tuple[str, str, str]:
    """The three terms of a line."""
    subject, predicate, rest = line.split(" ", 2)
    return subject, predicate, rest.removesuffix(" .")


class EmbeddedStore:
    """The store of one mirror."""

    def __init__(self, path: pathlib.Path, mirror: Mirror):
        self.path, self.mirror = path, mirror
        try:
            self.base = sqlite3.connect(path, isolation_level=None, check_same_thread=False, timeout=60)
            self.base.execute("PRAGMA journal_mode = WAL")
            self.base.executescript(SCHEMA)
        except sqlite3.Error as error:
            raise Unreachable(f"the store {path} can't be opened: {error}") from None

    @contextlib.contextmanager
    def naming_faults(self) -> typing.Iterator[None]:
        """Says of what is done within what failed."""
        try:
            yield
        except sqlite3.Error as error:
            raise Unreachable(f"the store {self.path} failed: {error}") from None

    async def run(self, work: typing.Callable[[], typing.Any]) -> typing.Any:
        """Does something in a thread."""
        with self.naming_faults():
            return await asyncio.to_thread(work)

    @contextlib.contextmanager
    def transaction(self) -> typing.Iterator[None]:
        """All that is done within is kept, or nothing of it."""
        with self.naming_faults():
            self.base.execute("BEGIN IMMEDIATE")
            try:
                yield
            except BaseException:
                self.base.execute("ROLLBACK")
                raise
            self.base.execute("COMMIT")

    async def marks(self) -> typing.Optional[Marks]:
        """What the store says of itself."""
        row = await self.run(lambda: self.base.execute("SELECT number, digest, home, graph, counted FROM marks").fetchone())
        return Marks(Position(row[0], row[1]), row[2], row[3], bool(row[4])) if row else None

    def set_marks(self, marks: Marks) -> None:
        """Writes the marks."""
        self.base.execute("DELETE FROM marks")
        self.base.execute("INSERT INTO marks VALUES (?, ?, ?, ?, ?)", (*marks.position, marks.home, marks.graph, marks.counted))

    def add(self, lines: list[str]) -> None:
        """Adds triples."""
        self.base.executemany("INSERT OR IGNORE INTO triples VALUES (?, ?, ?)", map(split, lines))

    async def apply(self, removes: list[str], adds: list[str], marks: Marks) -> None:
        """Removes and adds triples in one transaction."""

        def work() -> None:
            with self.transaction():
                self.base.executemany("DELETE FROM triples WHERE subject = ? AND predicate = ? AND object = ?", map(split, removes))
                self.add(adds)
                self.set_marks(marks)

        await self.run(work)

    async def load(self, lines: Lines, marks: Marks) -> None:
        """Loads in one transaction."""
        with self.transaction():
            await self.run(lambda: self.base.execute("DELETE FROM triples"))
            async for some in lines:
                await self.run(functools.partial(self.add, some))
            self.set_marks(marks)

    async def count(self, predicate: str = "") -> int:
        """How many triples there are, perhaps only those of a predicate."""
        words = ("SELECT COUNT(*) FROM triples WHERE predicate = ?", (predicate,)) if predicate else ("SELECT COUNT(*) FROM triples",)
        return (await self.run(lambda: self.base.execute(*words).fetchone()))[0]

    async def triples_of(self, subjects: list[str], predicates: list[str]) -> tuple[list[Triple], int]:
        """The triples of these subjects, and how many there are."""

        def work() -> list[Triple]:
            marks = ", ".join("?" * len(subjects))
            names = [Iri(subject).sparql() for subject in subjects]
            rows = self.base.execute(f"SELECT subject, predicate, object FROM triples WHERE subject IN ({marks})", names)
            return [read_triple(" ".join(row) + " .") for row in rows]

        found = await self.run(work)
        found = [triple for triple in found if not predicates or triple.predicate.text in predicates]
        return found, len(found)

    async def subjects_after(self, last: str, most: int) -> list[str]:
        """The next subjects in the order of their texts."""
        words = "SELECT DISTINCT subject FROM triples WHERE subject > ? ORDER BY subject LIMIT ?"
        rows = await self.run(lambda: self.base.execute(words, (f"<{last}>" if last else "", most)).fetchall())
        return [row[0][1:-1] for row in rows]

    def lines(self) -> typing.Iterator[str]:
        """All triples in their order."""
        for row in self.base.execute("SELECT subject, predicate, object FROM triples ORDER BY subject, predicate, object"):
            yield " ".join(row) + " ."

    async def select(self, query: str) -> list[Row]:
        """The rows of a query, by rdflib."""
        try:
            from .rdflib_view import rows_of
        except ImportError:
            raise Usage("questions in SPARQL to the embedded store need rdflib: apt-get install python3-rdflib") from None
        return await self.run(lambda: rows_of(self.base, query))

    async def close(self) -> None:
        """Closes the file."""
        self.base.close()
