"""What the wiki is asked for: entities in doubt, and what changed in a gap of the stream. The answers are reconciliations."""

import collections
import datetime
import sys
import typing

from . import dump, snapshot
from .errors import Gap
from .home import GapRow, Home
from .times import micros, now, text_of
from .wiki import Unanswered, Wiki, entity_of

MOST_PAUSES = 12
NAMESPACES = "0|120|146"

Event = dict[str, typing.Any]


def reconciliations(found: dict[str, int], time_of: typing.Callable[[str], int], greatest: typing.Callable[[str], int]) -> list[Event]:
    """What each entity is, by its newest revision. Its events that were known when the wiki was asked have smaller keys, even those of the same
    time; those that the answer may lack have greater ones. The wiki gives a deleted page no revision, so it gets the greatest one known."""
    told = []
    for entity, revision in found.items():
        mode = "kept" if revision else "deleted"
        told.append({"kind": "reconcile", "mode": mode, "entity": entity, "rev": revision or greatest(entity), "time": text_of(time_of(entity))})
    return told


def due_doubts(home: Home, held: snapshot.Snapshot, era: int) -> list[str]:
    """The entities in doubt that the wiki should be asked for in an era, and keeps how often. The pauses grow."""
    doubts = {doubt.entity for doubt in held.doubts()}
    times = dict(home.base.execute("SELECT entity, times FROM doubts"))
    due = sorted(entity for entity in doubts if era % 2 ** min(times.get(entity, 0), MOST_PAUSES) == 0)
    with home.transaction():
        home.base.executemany("INSERT OR REPLACE INTO doubts VALUES (?, ?)", [(entity, times.get(entity, 0) + 1) for entity in due])
        home.base.executemany("DELETE FROM doubts WHERE entity = ?", [(entity,) for entity in times if entity not in doubts])
    return due


def now_true(found: dict[str, int], held: snapshot.Snapshot) -> list[Event]:
    """Reconciliations for a batch of their own, with a watermark right behind the mark, so that they are applied though the stream may be quiet."""
    told = reconciliations(found, held.time_of, held.greatest)
    return [*told, {"watermark": text_of(held.after_mark)}] if told else []


async def settle_doubts(home: Home, wiki: Wiki, held: snapshot.Snapshot, era: int) -> list[Event]:
    """Reconciliations of the entities in doubt. Where the wiki doesn't answer, a later era asks."""
    try:
        found = await wiki.present(due_doubts(home, held, era))
        return now_true(found, held)
    except Unanswered as reason:
        print(f"wdq-mirror: {reason}; a later batch asks for what is in doubt", file=sys.stderr)
        return []


def newer_in_dump(home: Home, name: str, held: snapshot.Snapshot) -> tuple[dict[str, int], list[str]]:
    """The newest revision of each entity that a dump has newer than the home, their pages being put into the home; and the entities for which
    the wiki has to be asked: those that the dump lacks, as they may be deleted, redirects, or newer, those that only the home has deleted, and
    those of which events wait."""
    newer: dict[str, int] = {}
    there, doubtful = set(), set()
    for edit, line in dump.entities(name, home.settings, collections.Counter()):
        entity, revision = edit["entity"], edit["rev"]
        record = held.records.get(entity)
        there.add(entity)
        if entity in held.latest:
            # The dump may be older than what waits.
            doubtful.add(entity)
        elif record is None or record.revision < revision:
            dump.put_page(home.pages, revision, line)
            newer[entity] = revision
        elif record.state != "kept":
            doubtful.add(entity)
    doubtful |= {entity for entity, record in held.records.items() if record.state == "kept" and entity not in there}
    return newer, sorted(doubtful)


def differs(held: snapshot.Snapshot, entity: str, revision: int) -> bool:
    """Whether an entity is another one than the home holds or will hold; its newest revision is 0 where its page isn't there."""
    record = held.records.get(entity)
    return entity in held.latest or (record.held if record and record.state == "kept" else 0) != revision


async def changed_in(wiki: Wiki, gap: GapRow) -> set[str]:
    """The entities that were changed or deleted in a gap, by the wiki's API."""
    span = {"start": gap.began, "end": gap.ended, "dir": "newer"}
    changes = await wiki.listed(
        "recentchanges", rcnamespace=NAMESPACES, rcprop="title|timestamp", rctype="edit|new|log", rclimit="max", **{f"rc{key}": value for key, value in span.items()}
    )
    deletions: list[Event] = []
    for namespace in NAMESPACES.split("|"):
        deletions += await wiki.listed(
            "logevents", letype="delete", leprop="title|timestamp", lenamespace=namespace, lelimit="max", **{f"le{key}": value for key, value in span.items()}
        )
    titles = {change["title"] for change in changes + deletions if "title" in change}
    return {entity for entity in map(entity_of, titles) if entity[:1] in ("Q", "P", "L") and entity[1:].isdecimal()}


async def changed_in_gaps(home: Home, wiki: Wiki, gaps: list[GapRow]) -> list[str]:
    """The entities of this mirror that were changed or deleted in gaps."""
    days = home.settings.wiki.history_days
    oldest = now() - int(datetime.timedelta(days=days).total_seconds() * 1_000_000)
    found: set[str] = set()
    for gap in gaps:
        if days and micros(gap.began) < oldest:
            raise Gap(f"the wiki remembers changes for {days} days, and a gap began at {gap.began}: heal it by a newer dump (wdq-mirror heal --dump)")
        try:
            found |= await changed_in(wiki, gap)
        except Unanswered as reason:
            raise Gap(f"the stream lost what changed from {gap.began} to {gap.ended}, and the wiki doesn't say what: {reason}; run wdq-mirror heal later") from None
    return sorted(filter(home.settings.has, found))
