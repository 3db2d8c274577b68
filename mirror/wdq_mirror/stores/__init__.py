"""Stores of triples: what the mirror asks of each, and how one is opened."""

import dataclasses
import typing

from ..home import Home, Position
from ..terms import Triple

# A row of an answer: a term for each variable, as SPARQL's JSON has it.
Row = dict[str, dict[str, str]]
# The lines of a whole load, some thousands at a time.
Lines = typing.AsyncIterator[list[str]]


@dataclasses.dataclass(frozen=True)
class Marks:
    """What a store says of itself: where in whose records it is, and how it was filled."""

    position: Position
    home: str
    graph: str
    counted: bool


class Store(typing.Protocol):
    """A store of triples. Lines are triples of N-Triples, each ended by ` .` without a line feed."""

    async def marks(self) -> typing.Optional[Marks]:
        """What the store says of itself, or None where no mirror filled it."""

    async def apply(self, removes: list[str], adds: list[str], marks: Marks) -> None:
        """Removes and adds triples, and sets the marks."""

    async def load(self, lines: Lines, marks: Marks) -> None:
        """Holds exactly these triples from here on, and sets the marks."""

    async def count(self, predicate: str = "") -> int:
        """How many triples the graph has, perhaps only those of a predicate."""

    async def select(self, query: str) -> list[Row]:
        """The rows of a query."""

    async def triples_of(self, subjects: list[str], predicates: list[str]) -> tuple[list[Triple], int]:
        """Triples of these subjects, perhaps only of these predicates, and how many there are: more than come where the store limits its rows."""

    async def subjects_after(self, last: str, most: int) -> list[str]:
        """The next subjects in the order of their texts."""

    async def close(self) -> None:
        """Lets the store go."""


def open_store(home: Home) -> Store:
    """Opens the store that the settings name."""
    if home.settings.store.kind == "embedded":
        from .embedded import EmbeddedStore

        return EmbeddedStore(home.path / "store.db", home.settings.mirror)
    from .sparql import SparqlStore

    return SparqlStore(home.settings)
