"""The program wdq: where it is, and how it is run."""

import asyncio
import os
import pathlib
import shutil
import typing

from .errors import MirrorError, ProgramFailed, Unreachable, Usage
from .settings import Settings

MOST_INPUT = 4_294_967_295
# A line of a record may be as long as a page.
LONGEST_LINE = 2**27
ADVICE: dict[int, tuple[type[MirrorError], str]] = {
    2: (ProgramFailed, "it refuses a line: wdq-mirror explain FILE names it, mend it there and run the command again"),
    3: (Unreachable, "it can't read: run the command again"),
    4: (Unreachable, "it can't write: is the disk full? Make room and run the command again"),
    5: (ProgramFailed, "its input is too long: give a part of the dump (mirror.shard), or the events in several files"),
    6: (ProgramFailed, "its store is full: set a greater program.max_terms and run the command again"),
    7: (Unreachable, "memory is short: take a machine with more, or several shards"),
    8: (ProgramFailed, "it refuses the snapshot: restore a backup (wdq-mirror restore)"),
}


def failure(status: int, said: str) -> MirrorError:
    """What a status of wdq means for the mirror."""
    kind, advice = ADVICE.get(status, (Unreachable, "run the command again"))
    told = f"was ended by signal {-status}" if status < 0 else f"ended with status {status}"
    return kind(f"wdq {told}{f' ({said})' if said else ''}: {advice}")


def find(settings: Settings) -> str:
    """The program: that of the settings or of WDQ, else that of the checkout or of the installation, else that on PATH."""
    named = settings.program.path or os.environ.get("WDQ", "")
    if named:
        if not os.access(named, os.X_OK):
            raise Usage(f"program.path is {named}, which can't be run")
        return named
    above = pathlib.Path(__file__).resolve().parents
    for candidate in (above[2] / "crates/wdq/out/wdq", above[3] / "libexec/wdq/wdq"):
        if candidate.is_file() and os.access(candidate, os.X_OK):
            return str(candidate)
    found = shutil.which("wdq")
    if found:
        return found
    if (above[2] / "crates.txt").exists():
        raise Usage(f"wdq isn't built yet: {above[2]}/wdq drill --size 1 builds it")
    raise Usage("wdq is neither beside wdq-mirror nor on PATH: install it, or set program.path")


class Program:
    """wdq with the settings of a mirror."""

    def __init__(self, settings: Settings):
        self.path, self.settings = find(settings), settings

    def limits(self) -> list[str]:
        """The options that every run has. A snapshot has the horizon by itself, but wdq checks that it is the same."""
        return ["--max-terms", str(self.settings.program.max_terms), "--horizon", str(self.settings.horizon)]

    async def start(self, words: list[str], stdin: typing.Any, stdout: typing.Any, limit: int = LONGEST_LINE) -> asyncio.subprocess.Process:
        """Starts wdq, away from the terminal, so that Ctrl-C ends wdq-mirror, which has wdq save. So much of what it prints is read ahead."""
        pipe = asyncio.subprocess.PIPE
        try:
            return await asyncio.create_subprocess_exec(
                self.path, *words, stdin=stdin, stdout=stdout, stderr=pipe, limit=limit, start_new_session=True
            )
        except OSError as error:
            raise Usage(f"{self.path} doesn't run: {error.strerror}") from None

    async def finish(self, child: asyncio.subprocess.Process) -> None:
        """Waits for wdq, and says why it failed."""
        assert child.stderr
        said = (await child.stderr.read()).decode(errors="replace").strip()
        status = await child.wait()
        if status:
            raise failure(status, said.splitlines()[-1].removeprefix("wdq: ") if said else "")

    async def run(self, words: list[str], source: pathlib.Path, target: typing.Optional[pathlib.Path]) -> None:
        """Runs wdq from a file into a file, or into nothing."""
        with open(source, "rb") as events, open(target or os.devnull, "wb") as out:
            child = await self.start(words, events, out)
            try:
                await self.finish(child)
            except asyncio.CancelledError:
                child.kill()
                raise

    def patches(self, pages: pathlib.Path, before: typing.Optional[pathlib.Path], save: pathlib.Path) -> list[str]:
        """The words that make the records of an era."""
        resumed = ["--resume", str(before)] if before else []
        return ["patches", "--from", str(pages), "--max-bytes", str(MOST_INPUT), *self.limits(), *resumed, "--save", str(save)]
