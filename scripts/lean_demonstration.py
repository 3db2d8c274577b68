#!/usr/bin/env python3
"""Shows what lean processes take: runs `PROGRAM patches --lean` over made-up items, one process a part, all side by side.

    scripts/lean_demonstration.py [--items 1000000] [--bytes 3000] [--edits 50000] [--parts 4] [--keep FOLDER] -- PROGRAM

Makes so many items (item_workload.py), each with a page of so many bytes on average, and then so many further edits, divided into so many
parts by the numbers of the items. Then it runs the processes and prints a table: the peak of memory of each, its time on a processor, its
time by the clock, and its records; and what an item takes. A peak below that of the script itself, some 20 MB, can't be seen.

Each process has to end with status 0 and to print a record for each event of its part, since each edit changes at least the version of
its item. The script ends with 1 where one doesn't, and with 69 if there is too little room on the disk or in memory, of which it says how
much is needed. A million items of 3 kB need 6 GB of the disk, 3 GB of memory, and some minutes to be made.

The items are made in a temporary folder (TMPDIR says where), which is removed at the end. With --keep they stay in FOLDER, and a run with
the same arguments takes them from there.
"""
import argparse
import dataclasses
import json
import os
import pathlib
import shlex
import shutil
import signal
import subprocess
import sys
import tempfile
import threading
import time

HERE = pathlib.Path(__file__).resolve().parent
HEAD = b"\n# patch "  # begins a record; no triple has a line feed
LACKING = 69  # a status that wdq never has
BLOCK = 4096  # of the disk; a page takes whole blocks
MEMORY = 0.9  # bytes of memory for a byte of an item's page
BASE = 30_000_000  # bytes of memory for a process, beside its items


def sized(number):
    """A number of bytes as one reads it."""
    for unit, size in (("GB", 1e9), ("MB", 1e6), ("kB", 1e3)):
        if number >= size:
            return f"{number / size:.1f} {unit}"
    return f"{number:.0f} bytes"


def give_up(reason, status=LACKING):
    """Ends the script, with a reason."""
    print(f"lean_demonstration.py: {reason}", file=sys.stderr)
    sys.exit(status)


def free_memory():
    """How many bytes of memory are available, or nothing where the system doesn't say."""
    try:
        lines = pathlib.Path("/proc/meminfo").read_text(encoding="ascii").splitlines()
    except OSError:
        return None
    return next((int(line.split()[1]) * 1024 for line in lines if line.startswith("MemAvailable:")), None)


def check_memory(given):
    """Ends the script where there is too little memory."""
    needed, free = given.items * given.bytes * MEMORY + given.parts * BASE, free_memory()
    if free is not None and free < needed:
        give_up(f"{given.items:,} items need {sized(needed)} of memory, and {sized(free)} are free: --items makes fewer")


def check_disk(given, folder):
    """Ends the script where the folder has too little room."""
    place = os.statvfs(folder)
    pages = given.items + given.edits
    needed, free = pages * (given.bytes + BLOCK / 2 + 200), place.f_bavail * place.f_frsize
    other = "--keep or TMPDIR may name a folder with more"
    if free < needed:
        give_up(f"the pages need {sized(needed)} of the disk, and {sized(free)} are free in {folder}: {other}")
    if place.f_files and place.f_favail < pages:
        give_up(f"the pages are {pages:,} files, and there is room for {place.f_favail:,} in {folder}: {other}")


def make_items(given, folder):
    """Makes the items in a folder that isn't there yet."""
    check_disk(given, folder.parent)
    print(f"making {given.items:,} items ..", file=sys.stderr, flush=True)
    words = ["--items", given.items, "--bytes", given.bytes, "--edits", given.edits, "--parts", given.parts, "--into", folder]
    # In a group of its own, since the maker has processes that would outlive it.
    command = [sys.executable, HERE / "item_workload.py", *map(str, words)]
    maker = subprocess.Popen(command, stdout=subprocess.DEVNULL, start_new_session=True)
    try:
        if maker.wait():
            give_up("item_workload.py couldn't make the items")
    finally:
        if maker.returncode is None:
            os.killpg(maker.pid, signal.SIGKILL)
            maker.wait()
    (folder / "made").write_text(json.dumps(made_by(given)), encoding="utf-8")


def made_by(given):
    """The arguments that the items depend on."""
    return {"items": given.items, "bytes": given.bytes, "edits": given.edits, "parts": given.parts}


def keep_items(given):
    """The folder of --keep, with the items, which are made where they aren't there."""
    folder = given.keep.absolute()
    if not folder.exists():
        folder.parent.mkdir(parents=True, exist_ok=True)
        make_items(given, folder)
    try:
        found = json.loads((folder / "made").read_text(encoding="utf-8"))
    except (OSError, ValueError):
        found = None
    if found != made_by(given):
        give_up(f"{folder} is there, but not with all items of these arguments: remove it, or name another one", 2)
    return folder


@dataclasses.dataclass
class Part:
    """A part: the file of its events, their number, its process, and how this ended."""

    source: pathlib.Path
    events: int
    process: subprocess.Popen = None
    begun: float = 0
    records: int = 0
    status: int = None
    memory: int = 0
    processor: float = 0
    clock: float = 0

    def start(self, command, folder):
        """Starts the process over the events."""
        with open(self.source, "rb") as lines:
            self.begun = time.monotonic()
            self.process = subprocess.Popen(command, stdin=lines, stdout=subprocess.PIPE, stderr=subprocess.PIPE, cwd=folder)

    def follow(self):
        """Counts the records of the process, and waits for its end."""
        last = b"\n"
        while block := self.process.stdout.read1(1 << 20):
            self.records += (last + block).count(HEAD)
            # The end of a block may begin a head, and isn't long enough to have one.
            last = (last + block)[1 - len(HEAD):]
        _, code, use = os.wait4(self.process.pid, 0)
        self.process.returncode = self.status = os.waitstatus_to_exitcode(code)
        self.clock = time.monotonic() - self.begun
        self.memory, self.processor = use.ru_maxrss * 1024, use.ru_utime + use.ru_stime

    def fault(self):
        """What is wrong with how the process ended, if something is."""
        if self.status != 0:
            said = self.process.stderr.read().decode(errors="replace").strip()
            return f"status {self.status}: {said}"
        if self.records != self.events:
            return f"{self.records:,} records of {self.events:,} events"
        return None


def parts_of(folder, number):
    """The parts of the workload in a folder."""
    names = ["input"] if number == 1 else [f"input-{part}" for part in range(number)]
    found = []
    for name in names:
        with open(folder / name, "rb") as lines:
            found.append(Part(folder / name, sum(b'"kind"' in line for line in lines)))
    return found


def run(parts, program, folder):
    """Runs the process of each part, all side by side; what is left of them is ended, whatever happens."""
    try:
        for part in parts:
            part.start([*program, "patches", "--lean", "--from", "revs"], folder)
        followers = [threading.Thread(target=part.follow, daemon=True) for part in parts]
        for follower in followers:
            follower.start()
        for follower in followers:
            follower.join()
    finally:
        for part in parts:
            if part.process is not None and part.process.returncode is None:
                part.process.kill()


def print_table(parts, given):
    """Prints what each process took, and what an item and an event take."""
    row = "{:>6}{:>12}{:>14}{:>12}{:>14}".format
    print(row("part", "memory", "processor", "clock", "records"))
    for number, part in enumerate(parts):
        print(row(number, sized(part.memory), f"{part.processor:.1f} s", f"{part.clock:.1f} s", f"{part.records:,}"))
    memory, processor = sum(part.memory for part in parts), sum(part.processor for part in parts)
    clock, records = max(part.clock for part in parts), sum(part.records for part in parts)
    print(row("all", sized(memory), f"{processor:.1f} s", f"{clock:.1f} s", f"{records:,}"))
    events = given.items + given.edits
    print(f"an item takes {sized(memory / given.items)} of memory, and an event {1000 * processor / events:.2f} ms of a processor; "
          f"{events / clock:,.0f} events a second")


def demonstrate(given, program, folder):
    """Runs over the items of a folder, and prints the figures; whether all went well."""
    pages = sum(entry.stat().st_size for entry in os.scandir(folder / "revs"))
    events = given.items + given.edits
    print(f"{given.items:,} items and {given.edits:,} further edits; a page has {pages // events:,} bytes on average")
    parts = parts_of(folder, given.parts)
    run(parts, program, folder)
    print_table(parts, given)
    faults = [(number, part.fault()) for number, part in enumerate(parts)]
    for number, fault in faults:
        if fault is not None:
            print(f"part {number}: {fault}")
    return not any(fault for _, fault in faults) and sum(part.events for part in parts) == events


def read_arguments():
    """The arguments, and the words of the program behind `--`."""
    at = sys.argv.index("--") if "--" in sys.argv else len(sys.argv)
    parser = argparse.ArgumentParser(description=__doc__, formatter_class=argparse.RawDescriptionHelpFormatter, usage=argparse.SUPPRESS)
    parser.add_argument("--items", type=int, default=1_000_000)
    parser.add_argument("--bytes", type=int, default=3000, help="of a page on average")
    parser.add_argument("--edits", type=int, default=50_000, help="beside those that make the items")
    parser.add_argument("--parts", type=int, default=4, help="so many processes run side by side")
    parser.add_argument("--keep", type=pathlib.Path, metavar="FOLDER", help="keeps the items there, or takes them from there")
    given = parser.parse_args(sys.argv[1:at])
    if min(given.items, given.bytes, given.parts) < 1 or given.edits < 0:
        parser.error("--items, --bytes and --parts are at least 1, and --edits is at least 0")
    program = sys.argv[at + 1:]
    if not program:
        parser.error("a program is needed behind --")
    found = shutil.which(program[0])
    if found is None:
        parser.error(f"no program: {shlex.join(program)}")
    return given, [os.path.abspath(found), *program[1:]]


def main():
    given, program = read_arguments()
    signal.signal(signal.SIGTERM, lambda *_: sys.exit(143))
    check_memory(given)
    if given.keep is not None:
        return 0 if demonstrate(given, program, keep_items(given)) else 1
    with tempfile.TemporaryDirectory(prefix="wdq-lean") as room:
        folder = pathlib.Path(room) / "items"
        make_items(given, folder)
        return 0 if demonstrate(given, program, folder) else 1


if __name__ == "__main__":
    sys.exit(main())
