"""Files that are whole or not there, and locks."""

import fcntl
import os
import pathlib
import typing

from .errors import Mismatch


def sync_folder(folder: pathlib.Path) -> None:
    """Writes the names of a folder to the disk."""
    handle = os.open(folder, os.O_RDONLY)
    try:
        os.fsync(handle)
    finally:
        os.close(handle)


def sync_file(handle: int) -> None:
    """Writes an open file to the disk."""
    os.fsync(handle)


def put(part: pathlib.Path, path: pathlib.Path) -> None:
    """Writes a file to the disk, and then gives it its name."""
    with open(part, "rb") as file:
        os.fsync(file.fileno())
    part.replace(path)
    sync_folder(path.parent)


def save(path: pathlib.Path, body: bytes) -> None:
    """Writes a file that is whole or not there."""
    part = path.with_name(f".{path.name}.{os.getpid()}.part")
    try:
        part.write_bytes(body)
        put(part, path)
    finally:
        part.unlink(missing_ok=True)


def lock(path: pathlib.Path) -> typing.IO[str]:
    """Takes a lock that this process holds until it ends."""
    file = open(path, "w", encoding="utf-8")
    try:
        fcntl.flock(file, fcntl.LOCK_EX | fcntl.LOCK_NB)
    except BlockingIOError:
        file.close()
        raise Mismatch(f"another wdq-mirror works in {path.parent}: wait until it ends, or stop it") from None
    return file
