"""What the live service asks the wiki while it runs: entities of late events, and what changed in gaps of the stream."""

import asyncio
import typing

from . import healing, snapshot
from .errors import Gap, MirrorError
from .home import GapRow, Home
from .outbox import say
from .times import micros
from .wiki import Unanswered, Wiki

Event = dict[str, typing.Any]
# The newest revision of each entity, 0 where its page isn't there; and the gaps that this heals.
Answer = tuple[dict[str, int], list[GapRow]]


class Inquiries:
    """At most one question at a time, whose answer is taken once it is there."""

    def __init__(self, home: Home, wiki: Wiki):
        self.home, self.wiki = home, wiki
        self.asking: typing.Optional[asyncio.Task[Answer]] = None
        # How many questions failed since the last answer, and when the next may be asked.
        self.failures, self.again_at = 0, 0.0
        self.doubtful: set[str] = set()
        # The greatest revision of each entity that came while the service ran.
        self.greatest: dict[str, int] = {}
        # The greatest time of each entity's events that weren't applied when the question under way was asked.
        self.latest: dict[str, int] = {}
        # That of the events that came since.
        self.changed: dict[str, int] = {}
        self.held = snapshot.Snapshot(None, 0, [], {})

    def note(self, event: Event) -> None:
        """Keeps that an event came."""
        entity = event["entity"]
        self.greatest[entity] = max(self.greatest.get(entity, 0), event["rev"])
        self.changed[entity] = max(self.changed.get(entity, 0), micros(event["time"]))

    def greatest_of(self, entity: str) -> int:
        """The greatest revision that is known of an entity."""
        return max(self.greatest.get(entity, 1), self.held.greatest(entity))

    def ask(self, mark: int) -> None:
        """Asks the wiki where there is need and no question is under way."""
        gaps = self.home.gaps()
        if self.asking is None and (gaps or self.doubtful) and asyncio.get_running_loop().time() >= self.again_at:
            known = sorted([*self.held.latest.items(), *self.latest.items(), *self.changed.items()], key=lambda pair: pair[1])
            self.latest = {entity: time for entity, time in known if time > mark}
            entities, self.doubtful, self.changed = self.doubtful, set(), {}
            self.asking = asyncio.create_task(self.present(entities, gaps))

    def answer(self, mark: int) -> tuple[list[Event], list[GapRow]]:
        """Reconciliations, and the gaps that they heal, where an answer is there now. After a failure the same is asked again."""
        if not self.asking or not self.asking.done():
            return [], []
        asking, self.asking = self.asking, None
        try:
            found, gaps = asking.result()
        except (Unanswered, Gap) as reason:
            pause = self.wiki.pause_of(self.failures)
            say(f"{reason}; asks again in {pause:g} s")
            self.failures, self.again_at = self.failures + 1, asyncio.get_running_loop().time() + pause
            return [], []
        self.failures = 0
        if not gaps:
            # The mark may have passed an event that came since the question, and that is newer than the answer. A gap holds the mark.
            found = {entity: revision for entity, revision in found.items() if entity not in self.changed}
        least = mark + 1 if mark else self.held.after_mark
        return healing.reconciliations(found, lambda entity: max(least, self.latest.get(entity, 0)), self.greatest_of), gaps

    async def present(self, entities: set[str], gaps: list[GapRow]) -> Answer:
        """What entities are now, and all that changed in gaps."""
        try:
            found = entities | set(await healing.changed_in_gaps(self.home, self.wiki, gaps))
            return await self.wiki.present(sorted(found)), gaps
        except MirrorError:
            self.doubtful |= entities
            raise

    def cancel(self) -> None:
        """Ends a question that is under way."""
        if self.asking:
            self.asking.cancel()
