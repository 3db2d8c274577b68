"""wdq in one's own program: replays of edits of Wikidata over pages in memory, by the library libwdq.

    left = wdq.replay(open("events.jsonl"), "pages")
    print(left.export, left.states, left.side)

Each call stands alone. A run that ends with another status than 0 raises the `Fault` of its cause. docs/LIBRARY.md says more, and docs/USAGE.md what
each command does.
"""
from __future__ import annotations

import os
from collections.abc import Iterable, Mapping
from dataclasses import dataclass
from datetime import timedelta
from typing import TYPE_CHECKING, Union

from .faults import BY_STATUS, BadLine, BadSnapshot, BadWords, Fault, OutOfMemory, StoreFull, TooLong
from .given import Lines, Pages, bytes_of_lines, bytes_of_snapshot, micros_of, pages_of
from .library import Run, run
from .printed import Answer, Ask, Match, Printed, Record, SideEntry, State, graph_of

if TYPE_CHECKING:
    import rdflib

__all__ = [
    "Answer", "Ask", "BadLine", "BadSnapshot", "BadWords", "Drill", "Fault", "Follow", "Match", "OutOfMemory", "Patches", "Record", "Replay", "Run",
    "SideEntry", "Split", "State", "StoreFull", "TooLong", "drill", "follow", "patches", "replay", "run", "split",
]  # fmt: skip

Snapshot = Union[bytes, "os.PathLike[str]"]
"""A snapshot, or its file."""


@dataclass(frozen=True)
class Replay:
    """What a replay left. A section that wasn't asked for is None; `snapshot` is the one that was kept last."""

    printed: bytes
    answers: list[Answer]
    export: list[str] | None
    states: list[State] | None
    side: list[SideEntry] | None
    snapshot: bytes | None

    def graph(self) -> rdflib.Graph:
        """Returns the stored triples as a graph of rdflib."""
        return graph_of(self.export or [])


@dataclass(frozen=True)
class Patches:
    """What a patch stream left: the records of the changes."""

    printed: bytes
    records: list[Record]
    snapshot: bytes | None


@dataclass(frozen=True)
class Follow:
    """What a follower left: the number of the last record that it applied, and the triples that it has then, or None."""

    printed: bytes
    count: int
    export: list[str] | None

    def graph(self) -> rdflib.Graph:
        """Returns the follower's triples as a graph of rdflib."""
        return graph_of(self.export or [])


@dataclass(frozen=True)
class Split:
    """What a split left: each graph's triples, by its name."""

    printed: bytes
    answers: list[Answer]
    graphs: dict[str, list[str]]
    snapshot: bytes | None

    def graph(self, name: str) -> rdflib.Graph:
        """Returns the triples of one graph as a graph of rdflib."""
        return graph_of(self.graphs[name])


@dataclass(frozen=True)
class Drill:
    """The summary of a drill."""

    size: int
    deliveries: int
    accepted: int
    late: int
    kept: int
    triples: int
    export: str


def replay(
    events: Lines,
    pages: Pages,
    export: bool = True,
    state: bool = True,
    side: bool = True,
    horizon: int | timedelta | None = None,
    resume: Snapshot | None = None,
    *,
    save: bool = False,
    every: int | None = None,
    max_bytes: int | None = None,
    max_terms: int | None = None,
) -> Replay:
    """Replays events over pages.

    With `save` the end of the events isn't the end of all: what waits goes on waiting, and the snapshot says so. `resume` goes on from a
    snapshot. A horizon is in microseconds, or a `timedelta`.
    """
    asked = [option for option, wanted in (("--export", export), ("--state", state), ("--side", side)) if wanted]
    words = ["replay", *asked, *_options(horizon, resume, save, every, max_bytes, max_terms)]
    left = _run(words, events, pages, resume)
    printed = Printed(left.printed)
    return Replay(
        left.printed,
        printed.answers,
        printed.export,
        printed.states if state else None,
        printed.side if side else None,
        left.snapshot,
    )


def patches(
    events: Lines,
    pages: Pages,
    horizon: int | timedelta | None = None,
    resume: Snapshot | None = None,
    *,
    save: bool = False,
    every: int | None = None,
    max_bytes: int | None = None,
    max_terms: int | None = None,
) -> Patches:
    """Replays events over pages, and gives each change of the stored triples as a record."""
    words = ["patches", *_options(horizon, resume, save, every, max_bytes, max_terms)]
    left = _run(words, events, pages, resume)
    return Patches(left.printed, Printed(left.printed).records, left.snapshot)


def follow(records: Lines, export: bool = True, *, max_bytes: int | None = None) -> Follow:
    """Applies records of changes, as `Patches.printed`, in the order of their numbers."""
    words = ["follow", *(["--export"] if export else []), *_numbers({"--max-bytes": max_bytes})]
    left = _run(words, records, {}, None)
    printed = Printed(left.printed)
    return Follow(left.printed, int(printed.numbers["replica"]), printed.export)


def split(
    events: Lines,
    pages: Pages,
    routes: str | Mapping[str, Iterable[str]],
    horizon: int | timedelta | None = None,
    resume: Snapshot | None = None,
    *,
    save: bool = False,
    every: int | None = None,
    max_bytes: int | None = None,
    max_terms: int | None = None,
) -> Split:
    """Replays events over pages into several graphs. The routes are those of `--route`, or the classes of each graph by its name."""
    if not isinstance(routes, str):
        routes = ";".join(f"{name}:{','.join(classes)}" for name, classes in routes.items())
    words = ["split", f"--route={routes}", *_options(horizon, resume, save, every, max_bytes, max_terms)]
    left = _run(words, events, pages, resume)
    printed = Printed(left.printed)
    return Split(left.printed, printed.answers, printed.graphs, left.snapshot)


def drill(size: int) -> Drill:
    """Makes deliveries and pages of this size, replays them, and sums up."""
    numbers = Printed(_run(["drill", *_numbers({"--size": size})], b"", {}, None).printed).numbers
    size, deliveries, accepted, late, kept, triples = (int(numbers[name]) for name in ("drill", "deliveries", "accepted", "late", "kept", "triples"))
    return Drill(size, deliveries, accepted, late, kept, triples, numbers["export"])


def _options(
    horizon: int | timedelta | None,
    resume: Snapshot | None,
    save: bool,
    every: int | None,
    max_bytes: int | None,
    max_terms: int | None,
) -> list[str]:
    # The library takes the snapshots themselves, and their names for nothing.
    files = [*(["--resume", "given"] if resume is not None else []), *(["--save", "kept"] if save or every is not None else [])]
    micros = None if horizon is None else micros_of(horizon)
    return [*files, *_numbers({"--every": every, "--horizon": micros, "--max-bytes": max_bytes, "--max-terms": max_terms})]


def _numbers(options: Mapping[str, int | None]) -> list[str]:
    return [f"{name}={number}" for name, number in options.items() if number is not None]


def _run(words: list[str], lines: Lines, pages: Pages, resume: Snapshot | None) -> Run:
    snapshot = b"" if resume is None else bytes_of_snapshot(resume)
    left = run(words, bytes_of_lines(lines), pages_of(pages), snapshot)
    if left.status:
        raise BY_STATUS.get(left.status, Fault)(*left)
    return left
