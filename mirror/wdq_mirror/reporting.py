"""How a mirror stands, in plain English."""

import typing

from . import sending, snapshot
from .errors import Mismatch, Unreachable
from .home import Home
from .stores import Marks, Store
from .times import micros, now

CAUSES = {"late": "its event came too late", "missing": "its page couldn't be fetched", "failed": "its page couldn't be read"}


def cause_of(cause: str) -> str:
    """Why an entity is in doubt."""
    return CAUSES.get(cause, f"its page is unfit: {cause}")


def lag_of(mark: str) -> str:
    """How long ago a time was."""
    seconds = max(0, now() - micros(mark)) // 1_000_000
    hours, rest = divmod(seconds, 3600)
    return f"{hours} h {rest // 60} min {rest % 60} s"


async def report(home: Home, store: Store) -> int:
    """Prints how the mirror stands; gives the status."""
    if not home.eras_exist():
        print("nothing is loaded yet: wdq-mirror load DUMP")
        return 0
    era = home.last_era()
    held = snapshot.read(home.file("snapshots", era.number))
    print(f"home       {home.path}, era {era.number}, record {era.position.number}, entities {len(held.records)}")
    print(f"up to      {era.mark}, {lag_of(era.mark)} ago" if era.mark else "up to      no watermark yet")
    print(f"graph      {home.settings.mirror.graph}, counts {'on' if home.settings.mirror.counts else 'off'}, articles as {home.settings.mirror.articles}, shard {home.settings.mirror.shard}")
    print(f"remembers  events for {home.settings.mirror.horizon_hours} hours")
    doubts = held.doubts()
    print(f"in doubt   {len(doubts)} entities, which the next batches ask the wiki for")
    for doubt in doubts[:10]:
        print(f"           {doubt.entity} revision {doubt.revision}: {cause_of(doubt.cause)}")
    for gap in home.gaps():
        print(f"gap        {gap.began} to {gap.ended}: wdq-mirror heal mends it")
    try:
        marks = await store.marks()
    except Unreachable as error:
        print(f"store      {error}")
        return error.status
    print(f"store      {describe(home, marks)}")
    return 0


def describe(home: Home, marks: typing.Optional[Marks]) -> str:
    """How the store stands beside the home."""
    try:
        known = sending.check_marks(home, marks)
        sending.check_place(home, known)
    except Mismatch as error:
        return str(error)
    behind = home.last_era().position.number - known.position.number
    if behind > 0:
        return f"at record {known.position.number}, {behind} behind: wdq-mirror update sends them"
    return f"at record {known.position.number}" + (f", {-behind} ahead, of the batch that is under way" if behind else ", as the home")
