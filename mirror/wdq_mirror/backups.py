"""Backups of a home: its settings, its state, its last snapshot, and what an open era needs. The store has backups of its own, or is filled anew."""

import pathlib
import sqlite3
import tarfile
import tempfile

from . import files, home as home_of, settings as settings_of
from .errors import Mismatch, Unreachable, Usage
from .home import Home


def write(home: Home, target: pathlib.Path) -> int:
    """Writes a backup, whole or not at all; gives its size."""
    era = home.last_era()
    if target.exists():
        raise Usage(f"{target} is there already: name another file")
    part = target.with_name(f".{target.name}.part")
    try:
        with tempfile.TemporaryDirectory(dir=home.path) as folder, tarfile.open(part, "w:gz", compresslevel=1) as archive:
            copy = pathlib.Path(folder) / "state.db"
            there = sqlite3.connect(copy)
            home.base.backup(there)
            there.close()
            archive.add(copy, "state.db")
            archive.add(home.path / settings_of.FILE, settings_of.FILE)
            archive.add(home.file("snapshots", era.number), f"snapshots/{era.number:06}")
            following = home.file("events", era.number + 1)
            if following.exists():
                archive.add(following, f"events/{following.name}")
                archive.add(home.pages, "pages")
        files.put(part, target)
    except OSError as error:
        raise Unreachable(f"{target} can't be written: {error.strerror}: make room, or name another file") from None
    finally:
        part.unlink(missing_ok=True)
    return target.stat().st_size


def is_ours(member: tarfile.TarInfo) -> bool:
    """Whether a backup may have a file or a folder of this name."""
    first, *rest = pathlib.PurePosixPath(member.name).parts
    is_known = first in home_of.FOLDERS or (not rest and first in ("state.db", settings_of.FILE))
    return is_known and ".." not in rest and (member.isfile() or member.isdir())


def restore(path: pathlib.Path, source: pathlib.Path) -> Home:
    """Makes a home of a backup."""
    if (path / settings_of.FILE).exists():
        raise Usage(f"{path} is a home already: move it away first, or name another folder")
    try:
        for folder in home_of.FOLDERS:
            (path / folder).mkdir(parents=True, exist_ok=True)
        with tarfile.open(source, "r:gz") as archive:
            members = archive.getmembers()
            if not all(is_ours(member) for member in members):
                raise Mismatch(f"{source} has files that no backup of a home has: use another one")
            archive.extractall(path, members)
    except (OSError, tarfile.TarError, EOFError) as error:
        raise Mismatch(f"{source} is not a whole backup ({error}): use an older one") from None
    return Home(path)
