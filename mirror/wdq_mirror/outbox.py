"""Sends records to the store while they come, and waits for a store that is away."""

import asyncio
import sys
import typing

from . import sending
from .errors import Unreachable
from .figures import Figures
from .records import Record
from .stepping import Tools

MOST_RECORDS = 2_000
SECONDS_OF_PAUSE, LONGEST_PAUSE = 1.0, 30.0


def say(text: str) -> None:
    """Says something in the log."""
    print(f"wdq-mirror: {text}", file=sys.stderr, flush=True)


class Outbox:
    """Sends records to the store in order, in batches with a limit of time, and waits for a store that is away."""

    def __init__(self, tools: Tools, figures: Figures):
        self.tools, self.figures = tools, figures
        self.queue: asyncio.Queue[Record] = asyncio.Queue(MOST_RECORDS)
        self.sender: typing.Optional[sending.Sender] = None
        self.is_away = False
        # Whether records go only into their file.
        self.is_closed = False

    async def put(self, record: Record) -> None:
        """Takes a record as soon as there is room."""
        while not self.is_closed:
            try:
                return self.queue.put_nowait(record)
            except asyncio.QueueFull:
                await asyncio.sleep(0.01)

    async def open(self) -> None:
        """Brings the store to the end of the last era."""
        await sending.update(self.tools.home, self.tools.store)
        marks = sending.check_marks(self.tools.home, await self.tools.store.marks())
        self.sender = sending.sender_from(self.tools.home, self.tools.store, marks)

    async def run(self) -> None:
        """Sends for ever."""
        assert self.sender
        clock = asyncio.get_running_loop().time
        limit = self.tools.home.settings.store.batch_milliseconds / 1000
        while True:
            self.sender.add(await self.queue.get())
            end = clock() + limit
            while not self.sender.is_full and (rest := end - clock()) > 0:
                try:
                    self.sender.add(await asyncio.wait_for(self.queue.get(), rest))
                except asyncio.TimeoutError:
                    break
            await self.flush()

    async def flush(self) -> None:
        """Sends what was taken, again and again until the store takes it."""
        assert self.sender
        pause = SECONDS_OF_PAUSE
        while True:
            try:
                await self.sender.flush()
                break
            except Unreachable as reason:
                self.figures.add("store_failures")
                self.figures.set("store_up", 0)
                if not self.is_away:
                    say(f"{reason}; tries again until the store is back")
                self.is_away = True
                await asyncio.sleep(pause)
                pause = min(2 * pause, LONGEST_PAUSE)
        if self.is_away:
            say("the store is back")
        self.is_away = False
        self.figures.add("updates")
        self.figures.set("store_up", 1)
        self.figures.set("stored_record", self.sender.marks.position.number)
        self.figures.set("queue", self.queue.qsize())

    def close(self) -> None:
        """Lets the counts go."""
        if self.sender:
            self.sender.close()
