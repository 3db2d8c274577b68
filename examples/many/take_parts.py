#!/usr/bin/python3
"""Takes parts of a stream, one after the other: a process that any number of machines run side by side.

The events of part K are the entries of the Redis stream `events:K`, each with one line. Whoever holds the lease `owner:K` reads the next
lines, gives them to `wdq patches --lean`, which goes on from the part's snapshot, and adds the records to the stream `records:K`. A thread renews
the lease, also while wdq runs. The lease of a process that died ends, so another process takes the part over and goes on from its snapshot.

A step's folder has the snapshot and the records that led to it, and its name is the id of the last entry that it knows, so snapshot,
records and offset change at once, and only the first of several processes can give the name. Records are added to `records:K` only once
their step has its name: those of a step that was never finished, which may differ if a fetch failed, are in no stream. A record's number
is its id there, and Redis refuses an id that isn't above the last one, so if a process is killed while it adds records, the next one adds
the rest, and none is added twice. The entry `{"end":true}` ends a part.

Status 0: all parts have ended. 1: wdq or Redis failed. 69: Debian's package python3-redis is missing.
"""

import argparse
import errno
import os
import pathlib
import re
import shutil
import subprocess
import sys
import threading
import time
import uuid

try:
    import redis
except ImportError:
    redis = None

RECORD = re.compile(rb"^# patch (\d+) ", re.MULTILINE)
END = b'{"end":true}'
# This process, on whichever machine it runs: its number there, and what no other process has.
OWNER = f"{os.getpid()}-{uuid.uuid4().hex}"


def words():
    """The arguments of the command line."""
    parser = argparse.ArgumentParser(description=__doc__, formatter_class=argparse.RawDescriptionHelpFormatter)
    parser.add_argument("--port", type=int, required=True, help="where Redis listens on the loopback address")
    parser.add_argument("--parts", type=int, required=True, help="how many parts there are")
    parser.add_argument("--work", type=pathlib.Path, required=True, help="the folder of the snapshots, which all machines share")
    parser.add_argument("--pages", required=True, help="the folder of the pages")
    parser.add_argument("--program", required=True, help="the program wdq")
    parser.add_argument("--batch", type=int, default=500, help="how many lines are taken at once (500)")
    parser.add_argument("--lease", type=int, default=2000, help="how long a lease lasts, in milliseconds (2000)")
    return parser.parse_args()


def ids_of(name):
    """The two numbers of an entry's id."""
    return tuple(map(int, name.split("-")))


def newest(folder):
    """The last step of a part, and the id of the entry that it ends with."""
    ids = [path.name for path in folder.iterdir() if re.fullmatch(r"\d+-\d+", path.name)]
    last = max(ids, key=ids_of, default=None)
    return (folder / last, last) if last else (None, "0-0")


def records_of(output):
    """The records, each with its number."""
    starts = [(match.start(), int(match[1])) for match in RECORD.finditer(output)]
    ends = [start for start, _ in starts[1:]] + [len(output)]
    return [(number, output[start:end]) for (start, number), end in zip(starts, ends)]


class Part:
    """A part whose lease this process holds."""

    def __init__(self, given, server, number):
        self.given, self.server, self.number = given, server, number
        self.folder = given.work / str(number)
        self.folder.mkdir(parents=True, exist_ok=True)
        self.published = None

    def is_held(self):
        """Renews the lease, and tells whether it is still this process's."""
        name = f"owner:{self.number}"
        if self.server.get(name) != OWNER.encode():
            return False
        return bool(self.server.pexpire(name, self.given.lease))

    def renew(self, done):
        """Renews the lease four times in its length, until `done` is set."""
        while not done.wait(self.given.lease / 4000) and self.is_held():
            pass

    def take(self):
        """Takes lines until the part has ended, or another process has its lease."""
        done = threading.Event()
        threading.Thread(target=self.renew, args=(done,), daemon=True).start()
        try:
            while self.is_held() and not self.server.exists(f"ended:{self.number}"):
                if not self.step():
                    time.sleep(0.05)
        except (subprocess.CalledProcessError, FileNotFoundError):
            # Whoever took the part over has removed the step that this process was to go on from.
            if self.is_held():
                raise
        finally:
            done.set()

    def step(self):
        """Takes the next lines; tells whether there were any."""
        before, offset = newest(self.folder)
        if before:
            self.publish(before)
        answer = self.server.xread({f"events:{self.number}": offset}, count=self.given.batch)
        if not answer:
            return False
        entries = answer[0][1]
        lines = [fields[b"line"] for _, fields in entries]
        is_last = lines[-1] == END
        if is_last:
            entries, lines = entries[:-1], lines[:-1]
        if entries:
            self.replay(before, entries[-1][0].decode(), b"".join(line + b"\n" for line in lines))
            self.publish(newest(self.folder)[0])
        if is_last:
            self.server.set(f"ended:{self.number}", 1)
        return True

    def replay(self, before, offset, lines):
        """Goes on from a step's snapshot over these lines, and gives the new snapshot its name, with its records."""
        beside = self.folder / f"{offset}.{OWNER}"
        beside.mkdir()
        command = [self.given.program, "patches", "--lean", "--from", self.given.pages, "--save", str(beside / "snapshot")]
        command += ["--resume", str(before / "snapshot")] if before else []
        try:
            with open(beside / "records", "wb") as records:
                subprocess.run(command, input=lines, stdout=records, check=True)
            # A folder that isn't empty can't be replaced: if another process has named this step, its records are those that count.
            try:
                beside.rename(self.folder / offset)
            except OSError as error:
                if error.errno not in (errno.EEXIST, errno.ENOTEMPTY):
                    raise
        finally:
            shutil.rmtree(beside, ignore_errors=True)

    def publish(self, step):
        """Adds the records of a step that has its name, unless that is done, and then removes the steps before it."""
        if step.name == self.published:
            return
        for number, record in records_of((step / "records").read_bytes()):
            self.add(number, record)
        self.published = step.name
        for path in self.folder.iterdir():
            if re.fullmatch(r"\d+-\d+", path.name) and ids_of(path.name) < ids_of(step.name):
                shutil.rmtree(path, ignore_errors=True)

    def add(self, number, record):
        """Adds a record, unless it is there."""
        if not self.has(number):
            try:
                self.server.xadd(f"records:{self.number}", {"record": record}, id=f"{number}-0")
            except redis.ResponseError:
                # Another process that holds or held the part may have added it since.
                if not self.has(number):
                    raise

    def has(self, number):
        """Whether the record of this number is there."""
        last = self.server.xrevrange(f"records:{self.number}", count=1)
        return bool(last) and int(last[0][0].split(b"-")[0]) >= number


def main():
    """Takes parts until all have ended."""
    given = words()
    if redis is None:
        print("take_parts.py: Debian's package python3-redis is missing", file=sys.stderr)
        return 69
    server = redis.Redis(host="127.0.0.1", port=given.port)
    while True:
        left = [number for number in range(given.parts) if not server.exists(f"ended:{number}")]
        if not left:
            return 0
        for number in left:
            if server.set(f"owner:{number}", OWNER, nx=True, px=given.lease):
                Part(given, server, number).take()
        time.sleep(0.1)


if __name__ == "__main__":
    try:
        sys.exit(main())
    except subprocess.CalledProcessError as error:
        sys.exit(f"take_parts.py: wdq ended with status {error.returncode}")
