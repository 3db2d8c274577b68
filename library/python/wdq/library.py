"""The call of the C library."""
from __future__ import annotations

import ctypes
import functools
import mmap
import os
import secrets
from collections.abc import Sequence
from typing import NamedTuple

NAME = "libwdq.so.0"


class Run(NamedTuple):
    """What a run left: its status, the line that says how it ended, what it printed, and the snapshot that it kept last."""

    status: int
    message: str
    printed: bytes
    snapshot: bytes | None


class _Place(ctypes.Structure):
    _fields_ = [("revision", ctypes.c_uint64), ("start", ctypes.c_size_t), ("length", ctypes.c_size_t)]


class _End(ctypes.Structure):
    _fields_ = [("status", ctypes.c_uint64), ("printed", ctypes.c_size_t), ("saved", ctypes.c_size_t), ("said", ctypes.c_size_t)]


def run(words: Sequence[str], lines: bytes, pages: Sequence[tuple[int, bytes]] = (), snapshot: bytes = b"") -> Run:
    """Makes one run of wdq with these words, as `["replay", "--export"]`, and gives what it left, whatever its status.

    The snapshot is that of `--resume`, whatever file the words name; the pages are those of the folder, whatever the words name. Other
    threads of Python go on meanwhile, and may make runs of their own.
    """
    if any("\n" in word for word in words):
        raise ValueError("a word has no line feed")
    given = [_text(words), lines, snapshot]
    places, joined = _places(pages)
    room = (1 << 20) + 4 * sum(len(it) for it in (*given, joined))
    while True:
        end, out = _call(given, places, len(pages), joined, room)
        needed = end.printed + end.saved + end.said
        if needed <= room:
            return _run_of(end, out[:needed])
        out.close()
        room = needed


def _text(words: Sequence[str]) -> bytes:
    return "\n".join(words).encode("utf-8", "surrogateescape")


def _places(pages: Sequence[tuple[int, bytes]]) -> tuple[ctypes.Array[_Place], bytes]:
    places = (_Place * max(len(pages), 1))()
    start = 0
    for place, (revision, page) in zip(places, pages):
        place.revision, place.start, place.length = revision, start, len(page)
        start += len(page)
    return places, b"".join(page for _, page in pages)


def _call(given: Sequence[bytes], places: ctypes.Array[_Place], count: int, pages: bytes, room: int) -> tuple[_End, mmap.mmap]:
    # A mapping takes memory only where it is written.
    out = mmap.mmap(-1, max(room, 1))
    lent = [it for text in given for it in (text, len(text))]
    end = _End()
    address = ctypes.addressof(ctypes.c_char.from_buffer(out))
    _library().wdq_run(*_keys(), *lent, places, count, pages, len(pages), address, room, ctypes.byref(end))
    return end, out


def _run_of(end: _End, out: bytes) -> Run:
    saved = end.printed + end.saved
    return Run(end.status, out[saved:].decode("utf-8", "replace"), out[: end.printed], out[end.printed : saved] or None)


def _keys() -> tuple[int, int]:
    return secrets.randbits(64), secrets.randbits(64)


@functools.lru_cache(maxsize=None)
def _library() -> ctypes.CDLL:
    library = ctypes.CDLL(_file())
    library.wdq_run.argtypes = [ctypes.c_uint64] * 2 + [ctypes.c_void_p, ctypes.c_size_t] * 6 + [ctypes.POINTER(_End)]
    library.wdq_run.restype = None
    return library


def _file() -> str:
    """Returns the library's file: that of WDQ_LIBRARY, or in a checkout the one that was built there, or that of the system."""
    built = os.path.join(os.path.dirname(os.path.abspath(__file__)), "..", "..", "out", "lib", NAME)
    return os.environ.get("WDQ_LIBRARY") or (built if os.path.exists(built) else NAME)
