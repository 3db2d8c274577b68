"""One run of wdq in the live service: lines in, records out, and the eras that it closes.

wdq saves behind every so many watermarks, and at the end of its input; each save ends an era. It says how many lines and records led to it,
so the journal and the records are divided there, and whoever goes on from it feeds the lines behind them.
"""

import asyncio
import contextlib
import os
import pathlib
import shutil
import typing

from . import eras, files, snapshot
from .errors import ProgramFailed, Unreachable
from .figures import Change, Figures
from .home import Position
from .outbox import Outbox, say
from .records import Reader, Record
from .stepping import Tools


class Died(Exception):
    """wdq ended in the middle of an era."""


class Wdq:
    """One run of wdq: the journal of its input, and its records, of which those that are known already are only compared."""

    def __init__(self, tools: Tools, outbox: Outbox, figures: Figures, received: Position):
        self.tools, self.home, self.outbox, self.figures, self.received = tools, tools.home, outbox, figures, received
        last = self.home.last_era()
        self.number = last.number + 1
        self.start_place = self.place = last.position
        # How many lines led to the last closed era.
        self.lines = snapshot.read_head(self.home.file("snapshots", last.number)).lines
        # How many bytes wdq got in this run.
        self.bytes = 0
        # Where wdq saves: no wdq whose wdq-mirror was killed writes there. And the save that is being taken.
        self.saved = self.home.path / f"snapshots/saved-{os.getpid()}"
        self.taken: typing.Optional[snapshot.Head] = None
        # The place and the end in the file of each record of the era.
        self.ends: list[tuple[Position, int]] = []

    def file(self, folder: str, suffix: str = "") -> pathlib.Path:
        """A file of the open era."""
        path = self.home.file(folder, self.number)
        return path.with_suffix(suffix) if suffix else path

    async def start(self) -> None:
        """Starts wdq from the last snapshot."""
        words = self.tools.program.patches(self.home.pages, self.home.file("snapshots", self.number - 1), self.saved)
        words += ["--every", str(self.home.settings.program.save_watermarks)]
        for path in self.saved.parent.glob("saved*"):
            path.unlink()
        self.out = open(self.file("records", ".part"), "wb", buffering=2**16)
        self.journal = open(self.file("events"), "ab")
        self.child = await self.tools.program.start(words, asyncio.subprocess.PIPE, asyncio.subprocess.PIPE)
        self.reading = asyncio.create_task(self.read())
        self.figures.add("starts")

    async def feed_again(self) -> None:
        """Gives wdq what the journal has. Nothing is cut off in it: this process wrote it, or it is new."""
        with open(self.file("events"), "rb") as lines:
            for line in lines:
                await self.write(line)

    async def note(self, text: bytes, is_synced: bool = False) -> None:
        """Writes lines into the journal, perhaps onto the disk; wdq gets them next."""
        self.journal.write(text)
        if is_synced:
            self.journal.flush()
            await asyncio.to_thread(files.sync_file, self.journal.fileno())

    async def write(self, text: bytes) -> None:
        """Writes lines to wdq."""
        assert self.child.stdin
        if self.reading.done():
            raise Died
        try:
            self.child.stdin.write(text)
            self.bytes += len(text)
            await self.child.stdin.drain()
        except (BrokenPipeError, ConnectionResetError):
            raise Died from None

    # --- Records ---

    async def read(self) -> None:
        """Reads records until wdq ends."""
        assert self.child.stdout
        reader = Reader()
        async for line in self.child.stdout:
            if not line.endswith(b"\n"):
                break
            record = reader.take(line[:-1])
            if record:
                self.out.write(record.text)
                self.place = record.after(self.place)
                self.ends.append((self.place, self.out.tell()))
                await self.hand_on(record)

    async def hand_on(self, record: Record) -> None:
        """Hands on a record that is new."""
        if record.number < self.received.number:
            return
        if record.number == self.received.number:
            if self.place != self.received:
                raise ProgramFailed(f"wdq made record {record.number} again, and it differs from the first: run wdq-mirror reload")
            return
        await self.outbox.put(record)
        self.received = self.place
        self.figures.note_record(Change.of(record), self.outbox.queue.qsize())

    # --- Saves ---

    def take_save(self) -> bool:
        """Closes the era where wdq has saved, once the records up to there have come; says whether it did."""
        if self.taken is None and self.saved.exists():
            # wdq goes on to its next save under the name that is free now.
            self.saved.replace(self.file("snapshots", ".new"))
            self.taken = snapshot.read_head(self.file("snapshots", ".new"))
        if self.taken is None or self.place.number < self.taken.patches:
            return False
        self.end_era(self.taken)
        self.taken = None
        return True

    def end_era(self, head: snapshot.Head) -> None:
        """Closes the era at a save. The lines and the records behind it are those of the next one."""
        place, size = next(((place, end) for place, end in self.ends if place.number == head.patches), (self.start_place, 0))
        self.journal.flush()
        journal, rest = self.divide_journal(head.lines - self.lines)
        ended, self.number = self.number, self.number + 1
        files.put(self.divide_records(size), self.home.file("records", ended))
        saved = self.home.file("snapshots", ended)
        files.put(saved.with_suffix(".new"), saved)
        self.home.keep_lacking(head.mark or 0, self.number)
        eras.close(self.home, ended, place)
        self.journal.truncate(journal)
        self.journal.close()
        self.journal = open(rest, "ab")
        self.ends = [(later, end - size) for later, end in self.ends if later.number > head.patches]
        self.start_place, self.lines = place, head.lines

    def divide_journal(self, count: int) -> tuple[int, pathlib.Path]:
        """Copies what is behind so many lines of the journal into that of the next era; says where it begins, and where it is now."""
        with open(self.file("events"), "rb") as file:
            for _ in range(count):
                file.readline()
            size, rest = file.tell(), file.read()
        following = self.home.file("events", self.number + 1)
        files.save(following, rest)
        return size, following

    def divide_records(self, size: int) -> pathlib.Path:
        """Moves the records behind so many bytes into the file of the next era; gives the file that they were in."""
        former, self.out = self.out, open(self.file("records", ".part"), "wb", buffering=2**16)
        former.close()
        path = pathlib.Path(former.name)
        with open(path, "r+b") as file:
            file.seek(size)
            shutil.copyfileobj(file, self.out)
            file.truncate(size)
        return path

    async def finish(self) -> None:
        """Closes the input, so that wdq saves and ends, and closes the era."""
        assert self.child.stdin
        with contextlib.suppress(BrokenPipeError, ConnectionResetError):
            self.child.stdin.close()
        await self.reading
        await self.tools.program.finish(self.child)
        self.out.close()
        files.put(self.file("records", ".part"), self.file("records"))
        files.put(self.saved, self.file("snapshots"))
        eras.close(self.home, self.number, self.place)

    async def reap(self) -> None:
        """Sees to it that wdq is gone; raises where a second run would end the same way."""
        if self.child.returncode is None:
            self.child.kill()
        self.reading.cancel()
        with contextlib.suppress(asyncio.CancelledError):
            await self.reading
        self.out.close()
        try:
            await self.tools.program.finish(self.child)
        except ProgramFailed:
            raise
        except Unreachable as reason:
            say(f"{reason}; starts it again")
