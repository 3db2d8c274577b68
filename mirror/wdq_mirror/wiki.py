"""Requests to the wiki: with a user agent that names the operator, and again after a pause where the wiki is busy."""

import asyncio
import contextlib
import json
import typing

import aiohttp

from .errors import Unreachable
from .settings import Settings, check_agent

# What passes by itself, most likely.
BUSY = {429, 500, 502, 503, 504}
# The API says these with status 200.
BUSY_CODES = {"maxlag", "ratelimited", "readonly"}
LONGEST_PAUSE = 120.0
AT_ONCE = 50
NAMESPACES = {"Q": "", "P": "Property:", "L": "Lexeme:"}
NUMBERS = (0, 120, 146)


class Unanswered(Unreachable):
    """A request that the wiki didn't answer as it should."""


class Refused(Unanswered):
    """An answer that a second request wouldn't change."""


def title(entity: str) -> str:
    """The title of an entity's page."""
    return NAMESPACES[entity[0]] + entity


def entity_of(page_title: str) -> str:
    """The entity of a page's title."""
    return page_title.rpartition(":")[2]


class Wiki:
    """The wiki of the settings."""

    def __init__(self, settings: Settings):
        check_agent(settings)
        self.words = settings.wiki
        self.session = aiohttp.ClientSession(headers={"User-Agent": self.words.agent}, timeout=aiohttp.ClientTimeout(total=60, sock_read=30))
        self.limit = asyncio.Semaphore(self.words.fetches)

    async def close(self) -> None:
        """Closes the connections."""
        await self.session.close()

    def pause_of(self, turn: int, asked: str = "") -> float:
        """How long to wait before the next try: what the wiki asks for, or a pause that doubles."""
        pause = min(self.words.pause_seconds * 2**turn, LONGEST_PAUSE)
        return max(float(asked) if asked.isdecimal() else 0.0, pause)

    async def get(self, path: str, params: typing.Optional[dict[str, str]] = None) -> bytes:
        """The body of an answer with status 200."""
        url = self.words.site + path
        told = "not asked"
        for turn in range(self.words.tries):
            asked = ""
            try:
                async with self.limit, self.session.get(url, params=params) as answer:
                    body = await answer.read()
                if answer.status == 200:
                    return body
                told, asked = f"status {answer.status}", answer.headers.get("Retry-After", "")
                if answer.status not in BUSY:
                    raise Refused(told)
            except (aiohttp.ClientError, asyncio.TimeoutError, OSError) as error:
                told = f"no whole answer ({type(error).__name__}: {error})"
            if turn + 1 < self.words.tries:
                await asyncio.sleep(self.pause_of(turn, asked))
        raise Unanswered(f"{url}: {told}")

    async def query(self, **words: str) -> dict[str, typing.Any]:
        """An answer of the wiki's API: its `query`, and its `continue` where there is more."""
        words = {"action": "query", "format": "json", "formatversion": "2", **words}
        body = b""
        for turn in range(self.words.tries):
            body = await self.get("/w/api.php", words)
            is_busy = False
            with contextlib.suppress(ValueError, KeyError, TypeError):
                answer = json.loads(body)
                if "query" in answer:
                    return answer
                is_busy = answer["error"]["code"] in BUSY_CODES
            if not is_busy:
                break
            await asyncio.sleep(self.pause_of(turn))
        raise Unanswered(f"the wiki's API gave no answer to a query: {body[:100]!r}")

    async def listed(self, name: str, **words: str) -> list[dict[str, typing.Any]]:
        """All items of a list of the API."""
        found: list[dict[str, typing.Any]] = []
        more: dict[str, str] = {}
        while True:
            answer = await self.query(list=name, **{**words, **more})
            found += answer["query"].get(name, [])
            if "continue" not in answer:
                return found
            more = {key: str(value) for key, value in answer["continue"].items()}

    async def present(self, entities: list[str]) -> dict[str, int]:
        """The newest revision of each entity, 0 where its page isn't there."""
        found: dict[str, int] = {}
        for start in range(0, len(entities), AT_ONCE):
            some = entities[start : start + AT_ONCE]
            answer = await self.query(prop="info", titles="|".join(map(title, some)))
            pages = {entity_of(page["title"]): page.get("lastrevid", 0) for page in answer["query"]["pages"]}
            for entity in some:
                if entity not in pages:
                    raise Unanswered(f"the wiki says nothing of {entity}")
                found[entity] = pages[entity]
        return found
