"""Steps: a batch of events, from a file or from the stream, as an era of its own."""

import asyncio
import dataclasses
import json
import pathlib
import sys
import time
import typing

from . import eras, files, healing, sending, snapshot
from .errors import BadInput, Usage
from .event_lines import lines_of, refusal_of
from .home import Era, GapRow, Home
from .pages import Pages
from .program import Program
from .stores import Store
from .stream import Stream, line_of
from .times import micros, now, text_of
from .wiki import Wiki

Event = dict[str, typing.Any]
# Kinds of lines that `wdq patches` takes.
KINDS = ("kind", "watermark", "mapping")


@dataclasses.dataclass
class Batch:
    """Events of the stream, where they end, and the gaps that were before and among them."""

    lines: list[str]
    place: str
    seen: int
    gaps: list[tuple[int, int]] = dataclasses.field(default_factory=list)


@dataclasses.dataclass
class Limits:
    """When a batch of the stream ends."""

    seconds: float = 60.0
    events: int = 10_000
    idle: float = 3.0


class Tools:
    """What a step works with."""

    def __init__(self, home: Home, program: Program, store: Store, wiki: Wiki):
        self.home, self.program, self.store, self.wiki = home, program, store, wiki
        self.pages = Pages(home, wiki)


def place_of(home: Home) -> tuple[str, int, str]:
    """Where the stream goes on: the last message's place, the greatest time so far, and where to begin if there is no place."""
    place, seen = home.fact("place") or "", int(home.fact("seen") or 0)
    return place, seen, home.fact("since") or home.last_era().mark


def held_by(home: Home) -> snapshot.Snapshot:
    """The snapshot of the last era."""
    return snapshot.read(home.file("snapshots", home.last_era().number))


async def collect(home: Home, wiki: Wiki, limits: Limits) -> Batch:
    """Reads the stream until it is at the present, or a limit is reached."""
    place, seen, since = place_of(home)
    stream = Stream(home.settings, wiki, place, since)
    batch, begun, end = Batch([], place, seen), now(), time.monotonic() + limits.seconds
    messages = stream.messages()
    try:
        while len(batch.lines) < limits.events and (rest := end - time.monotonic()) > 0:
            try:
                message, is_first = await asyncio.wait_for(messages.__anext__(), min(rest, limits.idle))
            except asyncio.TimeoutError:
                break
            if is_first and (gap := stream.gap_before(batch.seen, message)):
                batch.gaps.append(gap)
            batch.place, batch.seen = message.place or batch.place, max(batch.seen, message.time)
            if message.event:
                batch.lines.append(line_of(message.event))
            if message.time >= begun:
                break
    finally:
        await messages.aclose()
    return batch


def keep_batch(home: Home, number: int, front: list[Event], batch: Batch) -> None:
    """Keeps gaps, writes the events of an era, closed by a watermark, and then keeps where the stream goes on. Gaps come first: once the events
    are there, the next step may begin behind them."""
    delay = home.settings.wiki.delay_seconds * 1_000_000
    lines = [line_of(event) for event in front] + batch.lines
    if batch.seen:
        lines.append(line_of({"watermark": text_of(batch.seen - delay)}))
    events = home.file("events", number)
    with home.transaction():
        for gap in batch.gaps:
            home.note_gap(*gap)
    files.save(events, "".join(line + "\n" for line in lines).encode())
    with home.transaction():
        home.keep_place(batch.place, batch.seen, events)


def take_file(home: Home, number: int, front: list[Event], path: pathlib.Path) -> None:
    """Writes the events of an era from an event file."""
    lines = [line_of(event).encode() for event in front]
    try:
        with open(path, "rb") as file:
            for index, line in enumerate(lines_of(file), 1):
                if refusal := refusal_of(line):
                    raise BadInput(f"{path}: line {index}: {refusal}; wdq-mirror explain {path} names all such lines")
                event = json.loads(line)
                if any(kind in event for kind in KINDS) and ("kind" not in event or home.settings.has(event["entity"])):
                    lines.append(line)
    except OSError as error:
        raise Usage(f"{path} can't be read: {error.strerror}") from None
    files.save(home.file("events", number), b"".join(line + b"\n" for line in lines))


async def finish_open_eras(tools: Tools) -> None:
    """Runs the era that was cut short, from its events. What is there of the one behind it is a copy of its last lines."""
    tools.home.file("events", tools.home.last_era().number + 2).unlink(missing_ok=True)
    while tools.home.file("events", number := tools.home.last_era().number + 1).exists():
        await eras.run(tools.home, tools.program, tools.pages, number)


async def heal(tools: Tools) -> int:
    """Heals the gaps of the stream by the wiki's API, as an era of its own; says how many entities were asked for."""
    home = tools.home
    gaps = home.gaps()
    if not gaps:
        return 0
    entities = await healing.changed_in_gaps(home, tools.wiki, gaps)
    return await take_present(tools, entities, gaps)


async def take_present(tools: Tools, entities: list[str], gaps: list[GapRow]) -> int:
    """Takes what each of these entities is now, and heals gaps by that."""
    await take_newest(tools, held_by(tools.home), await tools.wiki.present(entities), gaps)
    return len(entities)


async def take_newest(tools: Tools, held: snapshot.Snapshot, found: dict[str, int], gaps: list[GapRow]) -> None:
    """Takes the newest revision of each entity as an era of its own, after which gaps are healed."""
    home, number = tools.home, tools.home.last_era().number + 1
    events = healing.now_true(found, held)
    if events:
        files.save(home.file("events", number), b"".join(line_of(event).encode() + b"\n" for event in events))
        await eras.run(home, tools.program, tools.pages, number)
    home.heal_gaps(gap.number for gap in gaps)


async def heal_by_dump(tools: Tools, name: str, began: str) -> tuple[int, int]:
    """Heals the gaps that ended before a dump was begun; says how many entities are newer in it, and for how many the wiki was asked."""
    home = tools.home
    gaps = [gap for gap in home.gaps() if micros(gap.ended) <= micros(began)]
    if home.gaps() and not gaps:
        raise Usage(f"the dump was begun at {began}, and the first gap ends at {home.gaps()[0].ended}: get a newer dump")
    held = held_by(home)
    newer, doubtful = healing.newer_in_dump(home, name, held)
    asked = await tools.wiki.present(doubtful)
    different = {entity: revision for entity, revision in asked.items() if healing.differs(held, entity, revision)}
    await take_newest(tools, held, newer | different, gaps)
    return len(newer), len(doubtful)


async def prepare(tools: Tools) -> None:
    """What comes before new events: the store is the home's, and what was cut short is done."""
    sending.check_marks(tools.home, await tools.store.marks())
    await finish_open_eras(tools)
    await sending.update(tools.home, tools.store)


async def heal_all(tools: Tools) -> int:
    """Asks the wiki for each entity that the home holds; gaps are healed by that, but for entities that were made in them."""
    entities = set(held_by(tools.home).records)
    if tools.home.gaps():
        entities |= set(await healing.changed_in_gaps(tools.home, tools.wiki, tools.home.gaps()))
    return await take_present(tools, sorted(entities), tools.home.gaps())


async def step(tools: Tools, path: typing.Optional[pathlib.Path], limits: Limits) -> Era:
    """Takes the next batch as a whole."""
    home = tools.home
    await prepare(tools)
    await heal(tools)
    last = home.last_era()
    held, number = held_by(home), last.number + 1
    front = await healing.settle_doubts(home, tools.wiki, held, number)
    if path:
        take_file(home, number, front, path)
    else:
        keep_batch(home, number, front, await collect(home, tools.wiki, limits))
    era = await eras.run(home, tools.program, tools.pages, number)
    await sending.update(home, tools.store)
    if home.gaps():
        print(f"wdq-mirror: the stream has a gap: {home.gaps()[0].began} to {home.gaps()[0].ended}; heals it", file=sys.stderr)
        await heal(tools)
        era = home.last_era()
        await sending.update(home, tools.store)
    eras.forget(home)
    return era
