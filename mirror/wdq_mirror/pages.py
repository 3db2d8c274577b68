"""Fetches the pages of revisions, one file each, as wdq reads them."""

import asyncio
import collections
import json
import pathlib
import sys
import typing

from . import files
from .home import Home, Wanted
from .times import micros
from .wiki import Unanswered, Wiki

API_CONTENT = {"prop": "revisions", "rvprop": "content", "rvslots": "main"}
AT_ONCE = 1000


def wanted(event: dict[str, typing.Any]) -> typing.Optional[Wanted]:
    """The page that an event needs."""
    if event.get("kind") in ("edit", "undelete") or (event.get("kind") == "reconcile" and event["mode"] == "kept"):
        return Wanted(event["rev"], event["entity"], micros(event["time"]))
    return None


def is_page_of(body: bytes, entity: str, revision: int) -> bool:
    """Whether the bytes are a page of the entity at the revision, in the wiki's wrapping or without it."""
    try:
        value = json.loads(body)
        page = value["entities"].get(entity, {}) if "entities" in value else value
        return entity in (page.get("id"), page.get("entity")) and page.get("lastrevid", revision) == revision
    except (ValueError, TypeError, AttributeError):
        return False


async def fetch(wiki: Wiki, entity: str, revision: int) -> bytes:
    """The bytes of a revision's page. For a redirect the wiki may serve its target's page; then it is the revision's own text."""
    body = await wiki.get(f"/wiki/Special:EntityData/{entity}.json", {"revision": str(revision)})
    if is_page_of(body, entity, revision):
        return body
    answer = await wiki.query(revids=str(revision), **API_CONTENT)
    try:
        body = answer["query"]["pages"][0]["revisions"][0]["slots"]["main"]["content"].encode()
    except (KeyError, IndexError):
        raise Unanswered("another page, and the revision's text isn't public") from None
    if not is_page_of(body, entity, revision):
        raise Unanswered("another page")
    return body


class Pages:
    """The pages of a home. A page that an era went without stays away until the era is closed, so that a second run gives the same."""

    def __init__(self, home: Home, wiki: Wiki):
        self.home, self.wiki = home, wiki
        self.counts: collections.Counter[str] = collections.Counter()
        # The revisions that are being fetched; each event is set once its page is settled.
        self.under_way: dict[int, asyncio.Event] = {}

    def path(self, revision: int) -> pathlib.Path:
        """The file of a revision."""
        return self.home.pages / f"{revision}.json"

    async def take(self, page: Wanted, era: int) -> None:
        """Sees to it that a page is there, or that the era goes without it. Of several calls one fetches."""
        while page.revision in self.under_way:
            await self.under_way[page.revision].wait()
        settled = self.under_way[page.revision] = asyncio.Event()
        try:
            await self.settle(page, era)
        finally:
            del self.under_way[page.revision]
            settled.set()

    async def settle(self, page: Wanted, era: int) -> None:
        """Fetches a page where it isn't there."""
        path = self.path(page.revision)
        # After a power failure a page that wasn't on the disk yet may be empty.
        if path.exists() and path.stat().st_size:
            self.counts["there already"] += 1
        elif self.home.is_given_up(page.revision):
            # An event that is later may need it longer.
            self.home.give_up(page, era)
            self.counts["given up before"] += 1
        else:
            try:
                body = await fetch(self.wiki, page.entity, page.revision)
                await asyncio.to_thread(files.save, path, body)
                self.counts["fetched"] += 1
            except Unanswered as reason:
                print(f"wdq-mirror: {page.entity} is in doubt, since revision {page.revision} can't be fetched: {reason}", file=sys.stderr)
                self.home.give_up(page, era)
                self.counts["not to be had"] += 1

    async def take_all(self, events: typing.Iterable[dict[str, typing.Any]], era: int) -> None:
        """Sees to the pages of all events, a thousand at a time."""
        # Of several events with one revision the last one needs its page longest.
        found = {page.revision: page for page in sorted(filter(None, map(wanted, events)), key=lambda page: page.time)}
        rest = list(found.values())
        for start in range(0, len(rest), AT_ONCE):
            await asyncio.gather(*(self.take(page, era) for page in rest[start : start + AT_ONCE]))


class Fetching:
    """The pages that are being fetched for the live service, each with the time of its event."""

    def __init__(self, pages: Pages):
        self.pages = pages
        self.tasks: dict[asyncio.Task[None], int] = {}

    def __len__(self) -> int:
        return len(self.tasks)

    def begin(self, events: list[dict[str, typing.Any]], mark: int, era: int) -> None:
        """Begins to fetch the pages of events behind the mark, which aren't applied yet."""
        for page in filter(None, map(wanted, events)):
            if page.time > mark:
                self.tasks[asyncio.create_task(self.pages.take(page, era))] = page.time

    def check(self) -> None:
        """Takes out what is done; raises what a fetch raised."""
        for task in [task for task in self.tasks if task.done()]:
            del self.tasks[task]
            task.result()

    def hold_back(self, mark: int) -> int:
        """The mark, or an earlier one that no page under way is needed for."""
        return min([mark, *(time - 1 for time in self.tasks.values())])

    def cancel(self) -> None:
        """Ends all."""
        for task in self.tasks:
            task.cancel()
