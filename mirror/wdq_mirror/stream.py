"""The wiki's stream of page changes: server-sent events in, event lines out."""

import asyncio
import dataclasses
import json
import re
import sys
import typing

import aiohttp

from .errors import Unreachable
from .event_lines import refusal_of
from .settings import Settings
from .times import micros
from .wiki import BUSY, NUMBERS, Wiki, entity_of

KINDS = {"create": "edit", "edit": "edit", "delete": "delete", "undelete": "undelete"}
SECONDS_OF_SILENCE = 60


@dataclasses.dataclass
class Message:
    """A message of the stream: its place, its time, and the event that it tells, where it tells one."""

    place: str
    time: int
    event: typing.Optional[dict[str, typing.Any]]


class Messages:
    """Makes messages of the lines of server-sent events. A message that is cut off is none, and an error is only named."""

    def __init__(self) -> None:
        self.data: list[str] = []
        self.place = self.kind = ""

    def take(self, line: str) -> typing.Optional[tuple[str, str]]:
        """Takes a line; gives the message that it ends, with its place."""
        name, colon, value = line.partition(":")
        value = value.removeprefix(" ")
        if name == "data":
            self.data.append(value)
        elif name == "id":
            self.place = value
        elif name == "event":
            self.kind = value
        elif not name and not colon:
            data, kind = "\n".join(self.data), self.kind
            self.data, self.kind = [], ""
            if kind == "error":
                print(f"wdq-mirror: the stream says: {data[:300]}", file=sys.stderr)
            elif data:
                return data, self.place
        return None


def event_of(change: dict[str, typing.Any], settings: Settings) -> typing.Optional[dict[str, typing.Any]]:
    """The event of a change, or None where it changes no entity of this mirror."""
    if change.get("meta", {}).get("domain") == "canary" or change.get("wiki_id") != settings.wiki.name:
        return None
    kind = KINDS.get(change["page_change_kind"])
    if kind is None or change["page"]["namespace_id"] not in NUMBERS:
        return None
    instant = re.sub(r"(\.[0-9]{6})[0-9]+Z$", r"\1Z", change["dt"])
    event = {"kind": kind, "entity": entity_of(change["page"]["page_title"]), "rev": change["revision"]["rev_id"], "time": instant}
    if refusal := refusal_of(line_of(event).encode()):
        print(f"wdq-mirror: left out: {line_of(event)}: {refusal}", file=sys.stderr)
        return None
    return event if settings.has(event["entity"]) else None


def line_of(event: dict[str, typing.Any]) -> str:
    """An event as a line of an event file, without its line feed."""
    return json.dumps(event, separators=(",", ":"))


def read_message(data: str, place: str, settings: Settings) -> typing.Optional[Message]:
    """A message, or None where it is no page change."""
    try:
        change = json.loads(data)
        time = micros(re.sub(r"(\.[0-9]{6})[0-9]+Z$", r"\1Z", change["dt"]))
        return Message(place, time, event_of(change, settings))
    except (ValueError, KeyError, TypeError, AttributeError) as error:
        print(f"wdq-mirror: no page change ({error!r}): {data[:100]}", file=sys.stderr)
        return None


def offsets(place: str) -> dict[tuple[str, int], int]:
    """The offset of each topic and partition that a place names."""
    try:
        return {(part["topic"], part["partition"]): part["offset"] for part in json.loads(place) if part.get("offset", -1) >= 0}
    except (ValueError, KeyError, TypeError, AttributeError):
        return {}


def is_gap(before: str, seen: int, message: Message, silence: int) -> bool:
    """Whether the stream has lost messages between a place and the first message behind a connection.

    Where both name offsets of a topic, the next one has to follow. Else a leap in time tells.
    """
    old, new = offsets(before), offsets(message.place)
    common = old.keys() & new.keys()
    if common:
        return all(new[name] > old[name] + 1 for name in common)
    return bool(seen) and message.time - seen > silence * 1_000_000


class Stream:
    """Reads the stream for ever, and hands on each message. It connects again after growing pauses."""

    def __init__(self, settings: Settings, wiki: Wiki, place: str, since: str):
        self.settings, self.wiki, self.place, self.since = settings, wiki, place, since
        self.is_connected = False
        # When bytes last came, and when the connection began, by the clock that never jumps.
        self.heard = self.connected = 0.0
        # Whether the stream has said since the last message that it has no more.
        self.is_quiet = False

    def gap_before(self, seen: int, message: Message) -> typing.Optional[tuple[int, int]]:
        """The times round what the stream has lost before the first message behind a connection, where it has; `seen` is the greatest time so far.
        Where there is no place yet, messages were due from the time on from which the mirror follows the stream."""
        before = seen if self.place or not self.since else max(seen, micros(self.since))
        return (before, message.time) if is_gap(self.place, before, message, self.settings.wiki.silence_seconds) else None

    def request(self) -> dict[str, typing.Any]:
        """Where to go on."""
        headers = {"Accept": "text/event-stream"}
        if self.place:
            headers["Last-Event-ID"] = self.place
        return {"headers": headers, "params": {"since": self.since} if self.since and not self.place else {}}

    async def messages(self) -> typing.AsyncIterator[tuple[Message, bool]]:
        """The messages; with each, whether it is the first one behind a connection."""
        turn = 0
        while True:
            asked = ""
            try:
                async for message, is_first in self.read_once():
                    turn = 0
                    yield message, is_first
                told = "the connection ended"
            except aiohttp.ClientResponseError as error:
                if error.status not in BUSY:
                    raise Unreachable(f"the stream {self.settings.wiki.stream} answers with status {error.status}: is wiki.stream right?") from None
                told, asked = str(error.status), (error.headers or {}).get("Retry-After", "")
            except (aiohttp.ClientError, asyncio.TimeoutError, OSError) as error:
                told = f"{type(error).__name__}: {error}"
            except ValueError as error:
                raise Unreachable(f"no request to the stream can be made: {error}") from None
            self.is_connected = False
            pause = self.wiki.pause_of(turn, asked)
            turn += 1
            print(f"wdq-mirror: the stream: {told}; connects again after {pause:g} s", file=sys.stderr)
            await asyncio.sleep(pause)

    async def read_once(self) -> typing.AsyncIterator[tuple[Message, bool]]:
        """Reads until the connection ends."""
        parser, is_first, clock = Messages(), True, asyncio.get_running_loop().time
        limit = aiohttp.ClientTimeout(total=None, sock_connect=30, sock_read=SECONDS_OF_SILENCE)
        async with self.wiki.session.get(self.settings.wiki.stream, timeout=limit, raise_for_status=True, **self.request()) as answer:
            self.is_connected, self.heard, self.connected = True, clock(), clock()
            rest = b""
            async for chunk in answer.content.iter_any():
                self.heard = clock()
                *lines, rest = (rest + chunk).split(b"\n")
                for line in lines:
                    self.is_quiet |= line.startswith(b":")
                    told = parser.take(line.decode(errors="replace").rstrip("\r"))
                    message = told and read_message(*told, self.settings)
                    if message:
                        self.is_quiet = False
                        yield message, is_first
                        is_first = False
                        self.place = message.place or self.place
