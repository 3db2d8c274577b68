"""A whole load: a dump into the home, and what the home holds into the store."""

import asyncio
import os
import pathlib
import typing

from . import dump, files, snapshot
from .counts import Counts
from .errors import BadInput, Mismatch, ProgramFailed, Usage
from .home import Era, Home, Position
from .program import Program
from .progress import Progress
from .spelling import spell
from .stores import Marks, Store
from .times import text_of

# How many bytes of an export are read at a time.
AT_ONCE = 2**20


async def load_dump(home: Home, program: Program, name: str, began: str, allow_faults: bool) -> str:
    """Makes era 0 of a dump; says what it had."""
    if home.eras_exist():
        raise Usage(f"{home.path} holds a mirror already: wdq-mirror reload fills its store anew, and wdq-mirror init makes another home")
    events = home.file("events", 0)
    counts = dump.load(name, home.pages, events, began, home.settings)
    told = ", ".join(f"{kind} {counts[kind]}" for kind in sorted(counts)) or "no entity"
    if counts["fault"] and not allow_faults:
        raise BadInput(f"the dump has {counts['fault']} bad lines, named above: get it again, or load it without them by --skip-bad-lines")
    saved = home.file("snapshots", 0)
    part = saved.with_suffix(".new")
    words = ["replay", "--from", str(home.pages), "--max-bytes", str(2**40), *program.limits(), "--save", str(part)]
    await program.run(words, events, None)
    files.put(part, saved)
    if home.settings.program.keep_eras:
        remove_pages(home, saved)
    os.sync()
    head = snapshot.read_head(saved)
    home.fix_facts()
    home.close_era(Era(0, Position(head.patches, f"base of {home.identity}"), text_of(head.mark) if head.mark is not None else ""))
    return told


def remove_pages(home: Home, saved: pathlib.Path) -> None:
    """Removes the pages that a snapshot has, all but those that wait. It is best done before they are on the disk: then it takes no time."""
    waiting = {f"{event['rev']}.json" for event in snapshot.read(saved).waiting}
    for path in home.pages.iterdir():
        if path.name not in waiting:
            path.unlink()


async def export(home: Home, program: Program, era: Era) -> typing.AsyncIterator[list[str]]:
    """The triples of a closed era as lines of N-Triples without line feeds, in lists of which each has all triples of its subjects. What waits
    goes on waiting, so wdq saves into a file that goes."""
    saved = home.file("snapshots", era.number)
    if not saved.exists():
        raise Mismatch(f"{saved} isn't there: restore a backup (wdq-mirror restore)")
    scratch = home.path / "scratch"
    words = ["replay", "--resume", str(saved), *program.limits(), "--export", "--save", str(scratch)]
    child = await program.start(words, asyncio.subprocess.DEVNULL, asyncio.subprocess.PIPE, AT_ONCE)
    assert child.stdout
    try:
        head, lines, rest = await child.stdout.readline(), list[str](), b""
        left = int(head.split()[2]) if head else 0
        while block := await child.stdout.read(AT_ONCE):
            block, feed, rest = (rest + block).rpartition(b"\n")
            lines += block.decode().split("\n") if feed else []
            whole = end_of_subjects(lines)
            left -= whole
            if whole:
                yield lines[:whole]
            lines = lines[whole:]
        await program.finish(child)
        if rest or left != len(lines):
            raise ProgramFailed("wdq's export ended early: run the command again")
        yield lines
    finally:
        if child.returncode is None:
            child.kill()
        scratch.unlink(missing_ok=True)


def end_of_subjects(lines: list[str]) -> int:
    """Where the last subject of sorted lines begins; those before it are whole."""
    end = len(lines)
    subject = lines[-1].partition(" ")[0] + " " if lines else ""
    while end and lines[end - 1].startswith(subject):
        end -= 1
    return end


class Spelling:
    """What the store gets in a whole load, made while the store takes it."""

    def __init__(self, home: Home, program: Program, counts: typing.Optional[Counts]):
        self.home, self.program, self.counts = home, program, counts
        self.written = 0

    async def lines(self) -> typing.AsyncIterator[list[str]]:
        """The lines, some thousands at a time; counts their values."""
        with Progress("triples") as progress:
            async for lines in export(self.home, self.program, self.home.last_era()):
                spelled = spell(lines, self.home.settings.articles, self.counts is not None)
                if self.counts:
                    self.counts.base.executemany("INSERT OR REPLACE INTO counts VALUES (?, ?, ?)", spelled.counts)
                self.written += len(spelled.lines)
                progress.show(self.written)
                yield spelled.lines


async def check_target(home: Home, store: Store, may_clear: bool) -> None:
    """Refuses to clear a store that something else filled."""
    marks = await store.marks()
    is_ours = marks is not None and marks.home == home.identity
    if may_clear or is_ours or home.fact("filling") == home.settings.mirror.graph:
        return
    if marks is not None:
        raise Mismatch(f"the store under {home.settings.mirror.stream} holds the mirror of another home: --clear takes that out")
    if await store.count():
        raise Mismatch(f"the graph {home.settings.mirror.graph} has triples that no mirror put there: --clear takes them out")


async def fill(home: Home, program: Program, store: Store, may_clear: bool) -> int:
    """Fills the store with what the home holds at the end of its last era, and sets number, digest and counts, so that records go on."""
    era = home.last_era()
    await check_target(home, store, may_clear)
    home.set_fact("filling", home.settings.mirror.graph)
    counts = None
    if home.settings.mirror.counts:
        for path in home.path.glob("counts.db*"):
            path.unlink()
        counts = Counts(home.path / "counts.db", home.identity)
    spelling = Spelling(home, program, counts)
    try:
        await store.load(spelling.lines(), Marks(era.position, home.identity, home.settings.mirror.graph, home.settings.mirror.counts))
        if counts:
            counts.keep(era.position.number)
        home.set_fact("filling", "")
        return spelling.written
    finally:
        if counts:
            counts.close()
