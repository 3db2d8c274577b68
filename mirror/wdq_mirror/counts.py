"""How many triples of the mirror have each value, for stores that spell values their own way.

Such a store holds two triples of one value as one, and removing either removes both. So a value goes in with its first triple, and goes with
its last one.
"""

import pathlib
import sqlite3
import typing

from .errors import Mismatch
from .terms import Triple, canonical

SCHEMA = """
CREATE TABLE IF NOT EXISTS counts (value TEXT PRIMARY KEY, triples INTEGER, sent TEXT) WITHOUT ROWID;
CREATE TABLE IF NOT EXISTS stream (number INTEGER, home TEXT);
"""
RELOAD = "run wdq-mirror reload, which counts anew"


class Counts:
    """The counts, in an SQLite file, with the number of the last record counted."""

    def __init__(self, path: pathlib.Path, home: str):
        self.home = home
        self.base = sqlite3.connect(path, isolation_level=None)
        # Without power the last counts may be lost; they are made again from the records.
        self.base.execute("PRAGMA journal_mode = WAL")
        self.base.execute("PRAGMA synchronous = NORMAL")
        self.base.executescript(SCHEMA)
        self.base.execute("BEGIN IMMEDIATE")
        row = self.base.execute("SELECT number, home FROM stream").fetchone()
        if row and row[1] != home:
            raise Mismatch(f"{path} counts for another home: {RELOAD}")
        self.number: int = row[0] if row else -1

    def change(self, triple: Triple, is_added: bool) -> typing.Optional[str]:
        """Counts a triple that comes or goes; gives the line to insert or delete, or None where the store stays as it is."""
        found = canonical(triple.object)
        if not found:
            return triple.sparql()
        value = f"{triple.subject.sparql()} {triple.predicate.sparql()} {found[0]}"
        triples, sent = self.base.execute("SELECT triples, sent FROM counts WHERE value = ?", (value,)).fetchone() or (0, None)
        triples += 1 if is_added else -1
        if triples < 0:
            raise Mismatch(f"the counts are of another store, since they have none of {triple.sparql()}: {RELOAD}")
        if triples == 0:
            self.base.execute("DELETE FROM counts WHERE value = ?", (value,))
            return sent
        line = sent or triple._replace(object=found[1]).sparql()
        self.base.execute("INSERT OR REPLACE INTO counts VALUES (?, ?, ?)", (value, triples, line))
        return line if is_added and triples == 1 else None

    def keep(self, number: int) -> None:
        """Writes what was counted, up to the record of this number."""
        self.base.execute("DELETE FROM stream")
        self.base.execute("INSERT INTO stream VALUES (?, ?)", (number, self.home))
        self.base.execute("COMMIT")
        self.base.execute("BEGIN IMMEDIATE")
        self.number = number

    def clear(self) -> None:
        """Forgets all."""
        self.base.execute("DELETE FROM counts")
        self.base.execute("DELETE FROM stream")
        self.number = -1

    def close(self) -> None:
        """Lets the file go; what wasn't kept is lost."""
        self.base.execute("ROLLBACK")
        self.base.close()
