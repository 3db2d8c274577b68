"""What a run is given, as bytes."""
from __future__ import annotations

import json
import os
import re
from collections.abc import Iterable, Mapping
from datetime import datetime, timedelta, timezone
from typing import Any, Union

Line = Union[bytes, str, Mapping[str, Any]]
"""A line, with or without its line feed; a mapping stands for its JSON, in which a `datetime` may stand for a time."""

Lines = Union[bytes, str, "os.PathLike[str]", Iterable[Line]]
"""The whole input as bytes or as a text, a file, or an iterable of lines, as an open file."""

Page = Union[bytes, str, Mapping[str, Any]]

Pages = Union[str, "os.PathLike[str]", Mapping[int, Page]]
"""A folder of files such as `5.json`, or each revision's page."""

MOST_OF_A_PAGE = 8_388_609
"""So many bytes are read of a page's file: one more than a page may have."""


def bytes_of_lines(lines: Lines) -> bytes:
    """Returns the input that the lines are."""
    if isinstance(lines, (bytes, bytearray, memoryview)):
        return bytes(lines)
    if isinstance(lines, str):
        return _utf8(lines)
    if isinstance(lines, os.PathLike):
        with open(lines, "rb") as file:
            return file.read()
    return b"".join(_bytes_of_line(line) for line in lines)


def bytes_of_snapshot(snapshot: Union[bytes, "os.PathLike[str]"]) -> bytes:
    """Returns the bytes of a snapshot, or of its file."""
    return bytes_of_lines(snapshot)


def pages_of(pages: Pages) -> list[tuple[int, bytes]]:
    """Returns each revision and the bytes of its page."""
    if isinstance(pages, Mapping):
        return [(_revision(revision), _bytes_of_page(page)) for revision, page in pages.items()]
    return list(_pages_in(os.fspath(pages)))


def micros_of(horizon: Union[int, timedelta]) -> int:
    """Returns a horizon in microseconds."""
    return horizon // timedelta(microseconds=1) if isinstance(horizon, timedelta) else horizon


def _pages_in(folder: str) -> Iterable[tuple[int, bytes]]:
    with os.scandir(folder) as entries:
        for entry in entries:
            name, ending = os.path.splitext(entry.name)
            if ending == ".json" and re.fullmatch("[1-9][0-9]{0,19}", name) and int(name) < 1 << 64:
                with open(entry.path, "rb") as file:
                    yield int(name), file.read(MOST_OF_A_PAGE)


def _revision(revision: int) -> int:
    if not 0 <= revision < 1 << 64:
        raise ValueError(f"a revision is a number below 2^64, and not {revision}")
    return revision


def _bytes_of_line(line: Line) -> bytes:
    text = _bytes_of_page(line)
    return text if text.endswith(b"\n") else text + b"\n"


def _bytes_of_page(page: Page) -> bytes:
    if isinstance(page, Mapping):
        return json.dumps(page, default=_text_of_time, separators=(",", ":")).encode()
    return _utf8(page) if isinstance(page, str) else bytes(page)


def _utf8(text: str) -> bytes:
    return text.encode("utf-8", "surrogateescape")


def _text_of_time(time: object) -> str:
    if not isinstance(time, datetime) or time.tzinfo is None:
        raise TypeError(f"a line has texts, numbers, lists, mappings and times with a time zone, and not {time!r}")
    return time.astimezone(timezone.utc).strftime("%Y-%m-%dT%H:%M:%S.%fZ").rjust(27, "0")
