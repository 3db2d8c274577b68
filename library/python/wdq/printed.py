"""What runs print, as values. docs/USAGE.md has each line."""
from __future__ import annotations

import re
from collections.abc import Iterator
from dataclasses import dataclass
from typing import TYPE_CHECKING, Union

if TYPE_CHECKING:
    import rdflib

TERM = re.compile(r'<[^>]*>|_:[^\s]+|"(?:[^"\\]|\\.)*"(?:@[A-Za-z0-9-]+|\^\^<[^>]*>)?')
LITERAL = re.compile(r'"((?:[^"\\]|\\.)*)"(?:@([A-Za-z0-9-]+)|\^\^<([^>]*)>)?', re.DOTALL)
ESCAPE = re.compile(r"\\(?:u([0-9A-Fa-f]{4})|U([0-9A-Fa-f]{8})|(.))", re.DOTALL)
ESCAPED = {"t": "\t", "b": "\b", "n": "\n", "r": "\r", "f": "\f"}


@dataclass(frozen=True)
class Ask:
    """The answer to an ask: its triples as lines of N-Triples. In a split, `graph` names the graph that was asked."""

    number: int
    triples: list[str]
    graph: str | None = None


@dataclass(frozen=True)
class Match:
    """The answer to a match: its rows, each with the terms of the variables."""

    number: int
    rows: list[tuple[str, ...]]


Answer = Union[Ask, Match]


@dataclass(frozen=True)
class State:
    """What the applied events say of an entity: it is `kept` or `deleted` at this revision."""

    entity: str
    state: str
    revision: int


@dataclass(frozen=True)
class SideEntry:
    """An entry of the side output. An entry whose cause is `late` has the kind and the time of its event, in microseconds since 1970."""

    cause: str
    open: bool
    entity: str
    revision: int
    kind: str | None = None
    micros: int | None = None


@dataclass(frozen=True)
class Record:
    """The record of a change: the triples that it adds to the store, and those that it removes from it, as lines of N-Triples."""

    number: int
    added: list[str]
    removed: list[str]


class Printed:
    """The sections of what a run printed."""

    def __init__(self, printed: bytes) -> None:
        self.answers: list[Answer] = []
        self.records: list[Record] = []
        self.states: list[State] = []
        self.side: list[SideEntry] = []
        self.export: list[str] | None = None
        self.graphs: dict[str, list[str]] = {}
        self.numbers: dict[str, str] = {}
        lines = iter(printed.decode("utf-8", "surrogateescape").split("\n"))
        for line in lines:
            if line:
                self._take(line.split(" "), lines)

    def _take(self, words: list[str], lines: Iterator[str]) -> None:
        """Takes the line of these words, and those that it announces."""
        kind, words = words[1], words[2:]
        if kind == "ask":
            triples = _next(lines, int(words[-2]))
            self.answers.append(Ask(int(words[0].rstrip(":")), triples, words[1].rstrip(":") if len(words) == 4 else None))
        elif kind == "match":
            rows = _next(lines, int(words[1]))
            self.answers.append(Match(int(words[0].rstrip(":")), [tuple(TERM.findall(row, len("# row"))) for row in rows]))
        elif kind == "patch":
            self.records.append(Record(int(words[0]), _next(lines, int(words[1])), _next(lines, -int(words[2]))))
        elif kind == "export:":
            self.export = _next(lines, int(words[0]))
        elif kind == "graph":
            self.graphs[words[0].rstrip(":")] = _next(lines, int(words[1]))
        elif kind == "state":
            self.states.append(State(words[0], words[1], int(words[2])))
        elif kind == "side":
            self.side.append(_side_entry(words))
        else:
            self.numbers[kind] = words[0]


def _next(lines: Iterator[str], count: int) -> list[str]:
    return [next(lines) for _ in range(count)]


def _side_entry(words: list[str]) -> SideEntry:
    if words[0] == "late":
        _, state, entity, kind, revision, micros = words
        return SideEntry("late", state == "open", entity, int(revision), kind, int(micros))
    cause, state, entity, revision = words
    return SideEntry(cause, state == "open", entity, int(revision))


def graph_of(triples: list[str]) -> rdflib.Graph:
    """Returns the triples as a graph of rdflib, with the texts of their literals as they are."""
    try:
        import rdflib
    except ImportError as error:
        raise ImportError("a graph needs rdflib, Debian's python3-rdflib") from error
    graph = rdflib.Graph()
    for triple in triples:
        subject, predicate, value = (_term(text) for text in TERM.findall(triple))
        graph.add((subject, predicate, value))
    return graph


def _term(text: str) -> rdflib.term.Node:
    import rdflib

    if text.startswith("<"):
        return rdflib.URIRef(_unescaped(text[1:-1]))
    if text.startswith("_:"):
        return rdflib.BNode(text[2:])  # type: ignore[no-untyped-call]
    literal = LITERAL.fullmatch(text)
    assert literal is not None, text
    value, language, datatype = literal.groups()
    return rdflib.Literal(_unescaped(value), lang=language, datatype=datatype and rdflib.URIRef(_unescaped(datatype)), normalize=False)


def _unescaped(text: str) -> str:
    def character(found: re.Match[str]) -> str:
        short, long, letter = found.groups()
        return ESCAPED.get(letter, letter) if letter else chr(int(short or long, 16))

    return ESCAPE.sub(character, text) if "\\" in text else text
