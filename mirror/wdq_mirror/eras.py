"""Runs an era: its pages, its records and its snapshot, from its events."""

import json
import pathlib
import typing

from . import files, snapshot
from .errors import BadInput, Mismatch
from .event_lines import lines_of, refusal_of
from .home import Era, Home, Position
from .pages import Pages
from .program import Program
from .records import read_records
from .times import text_of


def read_events(path: pathlib.Path) -> list[dict[str, typing.Any]]:
    """The lines of an event file; refuses what wdq would refuse. A last line that was cut off is left out of the file."""
    found = []
    with open(path, "r+b") as file:
        for number, line in enumerate(lines_of(file), 1):
            if refusal := refusal_of(line):
                if file.read(1) == b"":
                    file.truncate(path.stat().st_size - len(line))
                    break
                raise BadInput(f"{path}: line {number}: {refusal}")
            found.append(json.loads(line))
    return found


def end_of(path: pathlib.Path, start: Position) -> Position:
    """The place behind the records of a file."""
    with open(path, "rb") as file:
        for record in read_records(file):
            if record.number != start.number + 1:
                raise Mismatch(f"{path} has record {record.number} where {start.number + 1} is due: restore a backup (wdq-mirror restore)")
            start = record.after(start)
    return start


def close(home: Home, number: int, position: Position) -> Era:
    """Closes an era whose records and snapshot are whole."""
    head = snapshot.read_head(home.file("snapshots", number))
    if head.patches != position.number:
        raise Mismatch(f"the snapshot of era {number} ends at record {head.patches}, and its records at {position.number}: run the command again")
    era = Era(number, position, text_of(head.mark) if head.mark is not None else "")
    home.close_era(era)
    return era


async def run(home: Home, program: Program, pages: Pages, number: int) -> Era:
    """Runs the era behind the last one from the file of its events. If it is cut short, a second call gives the same."""
    before = home.last_era()
    source, records, saved = (home.file(folder, number) for folder in ("events", "records", "snapshots"))
    waiting = snapshot.read(home.file("snapshots", before.number)).waiting
    await pages.take_all(waiting + read_events(source), number)
    records_part, saved_part = records.with_suffix(".part"), saved.with_suffix(".new")
    await program.run(program.patches(home.pages, home.file("snapshots", before.number), saved_part), source, records_part)
    files.put(records_part, records)
    files.put(saved_part, saved)
    return close(home, number, end_of(records, before.position))


def forget(home: Home) -> None:
    """Removes what no later era reads: older snapshots, and the pages, events and records of eras that aren't kept."""
    last, keep = home.last_era().number, home.settings.program.keep_eras
    for path in (home.path / "snapshots").iterdir():
        if path.stem.isdecimal() and int(path.stem) < last - 1:
            path.unlink()
    if not keep:
        return
    for path in sorted((home.path / "events").glob("*.jsonl")):
        if int(path.stem) > last - keep:
            break
        with open(path, encoding="utf-8") as lines:
            for line in lines:
                if revision := json.loads(line).get("rev"):
                    (home.pages / f"{revision}.json").unlink(missing_ok=True)
        home.file("records", int(path.stem)).unlink(missing_ok=True)
        path.unlink()
