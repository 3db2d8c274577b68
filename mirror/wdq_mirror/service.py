"""The live service: the stream into one long-lived wdq, and its records into the store.

Lines go into the journal of the open era, events/N.jsonl, before they go to wdq, so what was cut short is made again: wdq from its last save
and the journal behind it, the store from the records behind its number. Pages that an era went without stay away until it is closed. All
queues are bounded: where the store is away, wdq waits, and then the stream does.
"""

import asyncio
import contextlib
import signal
import typing

from . import eras, healing, snapshot, stepping
from .errors import Gap, Unreachable
from .figures import Figures
from .inquiries import Inquiries
from .intake import Intake
from .live import Died, Wdq
from .outbox import LONGEST_PAUSE, SECONDS_OF_PAUSE, Outbox, say
from .pages import Fetching
from .stepping import Tools
from .stream import line_of
from .times import micros, text_of

Event = dict[str, typing.Any]
# How many events are known as delivered, and how many pages are fetched while more events are taken.
MOST_KNOWN, MOST_FETCHED = 100_000, 1000
# How long to wait for a message, and how long from a watermark to the next.
TICK, BETWEEN_MARKS = 0.1, 0.2
# wdq begins anew before its input is too long.
MOST_BYTES = 4_000_000_000


class Service:
    """The service."""

    def __init__(self, tools: Tools, http: typing.Optional[str]):
        self.tools, self.home, self.http = tools, tools.home, http
        self.words = tools.home.settings
        self.figures = Figures()
        self.outbox = Outbox(tools, self.figures)
        self.inquiries = Inquiries(tools.home, tools.wiki)
        self.fetching = Fetching(tools.pages)
        self.stopping, self.saved = asyncio.Event(), asyncio.Event()
        self.looking = asyncio.Lock()
        self.mark = 0
        self.known: dict[tuple[typing.Any, ...], None] = {}
        self.held = snapshot.Snapshot(None, 0, [], {})

    # --- The whole ---

    async def run(self) -> None:
        """Runs until a signal, or until a fault that no pause mends."""
        loop = asyncio.get_running_loop()
        for number in (signal.SIGTERM, signal.SIGINT):
            loop.add_signal_handler(number, self.stopping.set)
        async with contextlib.AsyncExitStack() as stack:
            if self.http:
                from .web import serve

                await stack.enter_async_context(serve(self.home, self.figures, self.http))
            if not await self.begin():
                return
            self.intake = Intake(self.home, self.tools.wiki)
            say(f"follows {self.words.wiki.stream}, and has applied what changed up to {self.home.last_era().mark}; Ctrl-C or SIGTERM stops it")
            self.tasks = [asyncio.create_task(work) for work in (self.intake.run(), self.outbox.run(), self.let_go(), self.look_at_saves())]
            try:
                while not self.stopping.is_set():
                    await self.wdq_to_its_end()
                await self.drain()
            finally:
                for task in self.tasks:
                    task.cancel()
                self.fetching.cancel()
                self.inquiries.cancel()
                self.outbox.close()
        say(f"stopped after era {self.home.last_era().number}; all is saved")

    async def begin(self) -> bool:
        """Finishes what was cut short, heals, and brings the store up; tries again where the store or the wiki is away."""
        pause = SECONDS_OF_PAUSE
        while not self.stopping.is_set():
            self.figures.set("gap", len(self.home.gaps()))
            try:
                await stepping.prepare(self.tools)
                await stepping.heal(self.tools)
                await self.outbox.open()
                self.figures.set("store_up", 1)
                return True
            except (Unreachable, Gap) as reason:
                say(f"{reason}; tries again in {pause:g} s")
                with contextlib.suppress(asyncio.TimeoutError):
                    await asyncio.wait_for(self.stopping.wait(), pause)
                pause = min(2 * pause, LONGEST_PAUSE)
        return False

    async def let_go(self) -> None:
        """Once a signal has come, records no longer wait for a store that is away: the next start sends them."""
        await self.stopping.wait()
        while True:
            self.outbox.is_closed |= self.outbox.is_away
            await asyncio.sleep(TICK)

    def check_tasks(self) -> None:
        """Raises what ended a task."""
        for task in self.tasks:
            if task.done():
                task.result()

    async def drain(self) -> None:
        """Gives the store some seconds to take what is there; the rest is sent at the next start."""
        with contextlib.suppress(asyncio.TimeoutError):
            await asyncio.wait_for(self.wait_for_store(), 10)

    async def wait_for_store(self) -> None:
        """Waits until the store has all records."""
        assert self.outbox.sender
        last = self.home.last_era().position.number
        while self.outbox.sender.marks.position.number < last and not self.outbox.is_away:
            self.check_tasks()
            await asyncio.sleep(0.05)

    # --- wdq ---

    async def wdq_to_its_end(self) -> None:
        """Lets wdq run until it has to begin anew, again from its last save where it died."""
        await self.look()
        self.fetching.begin(self.held.waiting, self.mark, self.home.last_era().number + 1)
        received, pause = self.home.last_era().position, SECONDS_OF_PAUSE
        while True:
            wdq = Wdq(self.tools, self.outbox, self.figures, received)
            await wdq.start()
            try:
                await wdq.feed_again()
                await self.feed(wdq)
                await wdq.finish()
                break
            except (Died, Unreachable):
                await wdq.reap()
                await asyncio.sleep(pause)
                pause = min(2 * pause, LONGEST_PAUSE)
            except BaseException:
                if wdq.child.returncode is None:
                    wdq.child.kill()
                raise
            finally:
                wdq.journal.close()
                received = max(received, wdq.received)
        eras.forget(self.home)

    async def look(self) -> None:
        """Looks at the last snapshot: how far it is, and what is in doubt, for which the wiki is asked next."""
        async with self.looking:
            last = self.home.last_era()
            self.held = self.inquiries.held = await asyncio.to_thread(snapshot.read, self.home.file("snapshots", last.number))
        self.mark = max(self.mark, self.held.mark or 0)
        doubts = self.held.doubts()
        self.figures.doubts = [(doubt.entity, doubt.cause, doubt.revision) for doubt in doubts]
        for name, value in (("in_doubt", len(doubts)), ("era", last.number)):
            self.figures.set(name, value)
        self.inquiries.doubtful |= set(healing.due_doubts(self.home, self.held, last.number + 1))

    async def look_at_saves(self) -> None:
        """Looks at what wdq has saved, which takes seconds where it is much, while events and watermarks go on; then forgets what is older."""
        while True:
            await self.saved.wait()
            self.saved.clear()
            await self.look()
            eras.forget(self.home)

    async def feed(self, wdq: Wdq) -> None:
        """Gives wdq events and watermarks until it has to begin anew."""
        clock = asyncio.get_running_loop().time
        next_mark = clock()
        while not self.is_over(wdq):
            message = await self.intake.wait(TICK)
            while message:
                await self.take(wdq, message.event)
                message = self.intake.next() if len(self.fetching) < MOST_FETCHED else None
            self.check_tasks()
            if wdq.reading.done():
                raise Died
            if wdq.take_save():
                self.saved.set()
            if clock() >= next_mark:
                await self.take_answer(wdq)
                await self.give_mark(wdq)
                next_mark = clock() + BETWEEN_MARKS

    def is_over(self, wdq: Wdq) -> bool:
        """Whether wdq should end its input and save."""
        return self.stopping.is_set() or wdq.bytes >= MOST_BYTES

    # --- Lines ---

    async def take(self, wdq: Wdq, event: typing.Optional[Event]) -> None:
        """Takes an event of the stream."""
        if not event:
            return
        key = tuple(event.values())
        self.figures.add("events")
        if micros(event["time"]) <= self.mark and key not in self.known:
            self.figures.add("late")
            self.inquiries.doubtful.add(event["entity"])
        self.known[key] = None
        if len(self.known) > MOST_KNOWN:
            del self.known[next(iter(self.known))]
        self.inquiries.note(event)
        await self.give(wdq, [event])

    async def give(self, wdq: Wdq, events: list[Event], is_synced: bool = False) -> None:
        """Gives wdq events, and begins to fetch their pages. Their watermarks come later, once the pages are there."""
        text = b"".join(line_of(event).encode() + b"\n" for event in events)
        await wdq.note(text, is_synced)
        self.fetching.begin(events, self.mark, wdq.number)
        await wdq.write(text)

    async def take_answer(self, wdq: Wdq) -> None:
        """Takes what the wiki has answered, and asks anew where there is need."""
        events, healed = self.inquiries.answer(self.mark)
        if events or healed:
            self.figures.add("reconciliations", len(events))
            await self.give(wdq, events, is_synced=True)
            self.home.heal_gaps(gap.number for gap in healed)
        self.figures.set("gap", len(self.home.gaps()))
        self.inquiries.ask(self.mark)

    async def give_mark(self, wdq: Wdq) -> None:
        """Gives wdq the next watermark: behind the delay, and before any page that is still under way. An open gap holds it back."""
        self.fetching.check()
        for name, value in (("stream_up", int(self.intake.stream.is_connected)), ("fetching", len(self.fetching))):
            self.figures.set(name, value)
        self.figures.counters["missing"] = self.tools.pages.counts["not to be had"]
        mark = self.fetching.hold_back(self.intake.present() - self.words.wiki.delay_seconds * 1_000_000)
        is_held = bool(self.home.gaps())
        if not self.intake.seen or (mark <= self.mark and not is_held):
            return
        text = b"" if is_held else line_of({"watermark": text_of(mark)}).encode() + b"\n"
        # The journal is on the disk before the place of the stream is, and before wdq prints what the store gets.
        await wdq.note(text, is_synced=True)
        self.intake.keep(wdq.file("events"))
        if is_held:
            return
        self.mark = mark
        self.figures.note_mark(mark)
        await wdq.write(text)
