"""The triples of the embedded store as rdflib sees them, so that it answers questions in SPARQL. Needs rdflib."""

import json
import sqlite3
import typing

import rdflib
import rdflib.store

from ..errors import Usage
from ..terms import Iri, Literal, read_triple
from . import Row

# Literals stay as they are spelled.
rdflib.NORMALIZE_LITERALS = False
COLUMNS = ("subject", "predicate", "object")


def term_of(text: str) -> typing.Any:
    """The term of rdflib that a text of N-Triples stands for."""
    term = read_triple(f"<s:> <p:> {text} .").object
    if isinstance(term, Iri):
        return rdflib.URIRef(term.text)
    return rdflib.Literal(term.text, lang=term.tag or None, datatype=term.datatype or None)


def text_of(term: typing.Any) -> str:
    """The text of a term of rdflib."""
    if isinstance(term, rdflib.URIRef):
        return Iri(str(term)).sparql()
    return Literal(str(term), term.language or "", str(term.datatype or "")).sparql()


class View(rdflib.store.Store):
    """A store of rdflib over the SQLite file."""

    def __init__(self, base: sqlite3.Connection):
        super().__init__()
        self.base = base

    def triples(self, pattern: typing.Any, context: typing.Any = None) -> typing.Iterator[typing.Any]:
        """The triples that agree with a pattern."""
        wanted = {name: text_of(term) for name, term in zip(COLUMNS, pattern) if term is not None}
        where = " AND ".join(f"{name} = ?" for name in wanted) or "1"
        found = self.base.execute(f"SELECT subject, predicate, object FROM triples WHERE {where}", list(wanted.values()))
        for row in found.fetchall():
            yield tuple(map(term_of, row)), None

    def __len__(self, context: typing.Any = None) -> int:
        return self.base.execute("SELECT COUNT(*) FROM triples").fetchone()[0]


def rows_of(base: sqlite3.Connection, query: str) -> list[Row]:
    """The rows of a question."""
    try:
        value = json.loads(rdflib.Graph(store=View(base)).query(query).serialize(format="json"))
    except Exception as fault:
        raise Usage(f"rdflib doesn't answer the question: {type(fault).__name__}: {fault}") from None
    return value["results"]["bindings"] if "results" in value else [{"answer": {"type": "literal", "value": str(value["boolean"]).lower()}}]
