"""Makes pages and events of a JSON dump of Wikidata, as it is published: a list with one entity a line.

Each entity's bytes are written as they stand, as the page of its `lastrevid`: a filter that read and printed them would respell numbers, and
so change the names of nodes. A dump has no redirects.
"""

import bz2
import collections
import gzip
import json
import pathlib
import sys
import typing
import zlib

from .errors import BadInput, Unreachable, Usage
from .event_lines import refusal_of
from .progress import Progress
from .settings import Settings
from .stream import line_of

KINDS = ("item", "property", "lexeme")


def open_dump(name: str) -> typing.BinaryIO:
    """A dump, unpacked by what its first bytes say."""
    if name == "-":
        return sys.stdin.buffer
    try:
        with open(name, "rb") as file:
            magic = file.read(3)
    except OSError as error:
        raise Usage(f"the dump {name} can't be read: {error.strerror}") from None
    opener: typing.Any = {b"\x1f\x8b": gzip.open, b"BZ": bz2.open}.get(magic[:2], open)
    return opener(name, "rb")


def read_entity(line: bytes) -> tuple[str, typing.Optional[dict[str, typing.Any]]]:
    """The kind of an entity, and its edit; raises ValueError where a line is none."""
    value = json.loads(line)
    if not isinstance(value, dict) or not isinstance(value.get("id"), str):
        raise ValueError("no entity")
    if value.get("type") not in KINDS:
        return str(value.get("type")), None
    edit = {"kind": "edit", "entity": value["id"], "rev": value.get("lastrevid"), "time": value.get("modified")}
    if refusal := refusal_of(json.dumps(edit).encode()):
        raise ValueError(str(refusal))
    return value["type"], edit


def entities(name: str, settings: Settings, counts: collections.Counter[str]) -> typing.Iterator[tuple[dict[str, typing.Any], bytes]]:
    """The edit and the bytes of each entity of a dump that belongs to this mirror; counts each kind, and names bad lines."""
    try:
        with open_dump(name) as lines, Progress("entities") as progress:
            for number, line in enumerate(lines, 1):
                line = line.strip().removesuffix(b",")
                progress.show(number)
                if line in (b"", b"[", b"]"):
                    continue
                try:
                    kind, edit = read_entity(line)
                except (ValueError, RecursionError) as error:
                    print(f"wdq-mirror: {name}: line {number}: {error}", file=sys.stderr)
                    counts["fault"] += 1
                    continue
                if edit and not settings.has(edit["entity"]):
                    continue
                counts[kind] += 1
                if edit:
                    yield edit, line
    except (OSError, EOFError, zlib.error) as error:
        raise BadInput(f"the dump {name} can't be read to its end ({error}): get it again") from None


def put_page(pages: pathlib.Path, revision: int, body: bytes) -> None:
    """Writes the page of a revision, whole or not at all."""
    part = pages / f".{revision}.json.part"
    part.write_bytes(body)
    part.replace(pages / f"{revision}.json")


def load(name: str, pages: pathlib.Path, events: pathlib.Path, began: str, settings: Settings) -> collections.Counter[str]:
    """Writes the pages and the events of a dump; says how many entities of each kind there were. Without the time when it was begun, the mirror
    begins with the greatest time in it, and names what it may lack then."""
    counts: collections.Counter[str] = collections.Counter()
    greatest = ""
    try:
        with open(events, "w", encoding="utf-8") as out:
            for edit, line in entities(name, settings, counts):
                put_page(pages, edit["rev"], line)
                print(line_of(edit), file=out)
                greatest = max(greatest, edit["time"][:19])
            mark = began or (greatest and greatest + "Z")
            if mark and not began:
                print(f"wdq-mirror: without --began, the mirror lacks what changed while the dump was taken, up to {mark}: "
                      f"wdq-mirror heal --since TIME --until {mark} asks the wiki for it", file=sys.stderr)
            if mark:
                print(line_of({"watermark": mark}), file=out)
    except OSError as error:
        raise Unreachable(f"{error.filename or events} can't be written: {error.strerror}: make room and load the dump again") from None
    return counts
