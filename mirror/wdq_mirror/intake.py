"""What comes on the stream, for the live service: messages, gaps, and how far the stream is."""

import asyncio
import pathlib
import typing

from .home import Home
from .outbox import say
from .stepping import place_of
from .stream import Message, Stream
from .times import now, text_of
from .wiki import Wiki

MOST_MESSAGES = 10_000
# How far the stream may be behind this machine's clock and still be at the present.
PRESENT = 60_000_000


class Intake:
    """A bounded queue of messages, and what was taken out of it."""

    def __init__(self, home: Home, wiki: Wiki):
        self.home, self.words = home, home.settings
        self.inbox: asyncio.Queue[Message] = asyncio.Queue(MOST_MESSAGES)
        self.place, self.seen, since = place_of(home)
        # When the greatest time so far came, by the clock that never jumps.
        self.seen_at = 0.0
        self.stream = Stream(self.words, wiki, self.place, since)

    async def run(self) -> None:
        """Puts messages into the queue for ever, and notes gaps."""
        seen = self.seen
        async for message, is_first in self.stream.messages():
            if is_first and (gap := self.stream.gap_before(seen, message)):
                self.home.note_gap(*gap)
                say("the stream has a gap from {} to {}; asks the wiki".format(*map(text_of, gap)))
            seen = max(seen, message.time)
            await self.inbox.put(message)

    async def wait(self, seconds: float) -> typing.Optional[Message]:
        """The next message, or None where none comes in this time."""
        try:
            return self.note(await asyncio.wait_for(self.inbox.get(), seconds))
        except asyncio.TimeoutError:
            return None

    def next(self) -> typing.Optional[Message]:
        """The next message that is there already."""
        return None if self.inbox.empty() else self.note(self.inbox.get_nowait())

    def note(self, message: Message) -> Message:
        """Keeps how far the messages are that were taken out."""
        self.place = message.place
        if message.time > self.seen or not self.seen_at:
            self.seen, self.seen_at = max(self.seen, message.time), asyncio.get_running_loop().time()
        return message

    def present(self) -> int:
        """How far the stream is: its greatest time, and where it is quiet what has passed since by a clock that never jumps."""
        # Where nothing has come since the start, time has passed at least since the connection began.
        since = self.seen_at or self.stream.connected
        passed = max(0, int((self.stream.heard - since) * 1_000_000)) if since else 0
        is_at_end = self.stream.is_quiet or abs(now() - self.seen - passed) < PRESENT
        return self.seen + passed if passed and is_at_end and self.stream.is_connected and self.inbox.empty() else self.seen

    def keep(self, journal: pathlib.Path) -> None:
        """Keeps in the home where the stream goes on, now that all before is in the journal."""
        with self.home.transaction():
            self.home.keep_place(self.place, self.seen, journal)
