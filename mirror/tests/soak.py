#!/usr/bin/python3
"""Runs a mirror over the made-up wiki while things fail at random, and looks at the store in the end.

    ./soak.py --minutes 10 --seed 1 --entities 2000 [--virtuoso]

Every few seconds one of these happens: kill -9 of wdq, of wdq-mirror or of the store (Virtuoso), SIGTERM, a wiki that is down, a connection
that is cut, a stretch of the stream that is lost, a full disk (where this may mount a tmpfs of its own), a clock that jumps (where libfaketime
is installed). A service that ends with status 3 is started again, as systemd does; any other status is a fault. In the end the store has what
the wiki has, and what one `wdq replay --export` gives of all that was delivered. It prints what happened, and the most memory of a process.
Status 0: all is right; 1: it isn't.
"""

import argparse
import collections
import json
import os
import pathlib
import random
import shutil
import signal
import sqlite3
import subprocess
import sys
import tempfile
import time
import typing

import conftest
from wdq_mirror import program, settings

DISK = "400m"
FAKETIME = "/usr/lib/x86_64-linux-gnu/faketime/libfaketime.so.1"


class Soak:
    """One run."""

    def __init__(self, words: argparse.Namespace, work: pathlib.Path):
        self.words, self.work, self.chance = words, work, random.Random(words.seed)
        self.happened: collections.Counter[str] = collections.Counter()
        self.wiki = conftest.Wiki(work / "wiki", str(words.entities))
        self.is_mounted = self.mount()
        self.mirror = conftest.Mirror(work / "disk/home")
        self.child: typing.Optional[subprocess.Popen[bytes]] = None
        self.store = conftest.Virtuoso(work / "virtuoso") if words.virtuoso else None
        self.peak = 0
        # By how much the clock of the service is off.
        self.clock = work / "clock"
        self.clock.write_text("+0")

    def mount(self) -> bool:
        """Mounts a small disk for the home, where that is allowed."""
        (self.work / "disk").mkdir()
        words = ["mount", "-t", "tmpfs", "-o", f"size={DISK}", "tmpfs", str(self.work / "disk")]
        return subprocess.run(words, capture_output=True).returncode == 0

    # --- What fails ---

    def kill_wdq(self) -> None:
        assert self.child
        for pid in conftest.children_of(self.child.pid):
            os.kill(pid, signal.SIGKILL)

    def kill_mirror(self) -> None:
        assert self.child
        self.child.kill()

    def stop_mirror(self) -> None:
        assert self.child
        self.child.terminate()

    def silence_wiki(self) -> None:
        self.wiki.control(is_down=1)
        time.sleep(self.chance.uniform(0.5, 3))
        self.wiki.control(is_down=0)

    def cut_connection(self) -> None:
        self.wiki.control(cuts=1)

    def lose_changes(self) -> None:
        """The service stops, and when it comes back the stream lacks some of what came."""
        self.stop_mirror()
        assert self.child
        self.child.wait()
        state = self.wiki.control()
        # Some messages come behind the gap, or nobody could notice it.
        oldest = max(state["oldest"], self.passed()) + self.chance.randint(5, 60)
        if oldest < state["end"] - 10:
            self.wiki.control(oldest=oldest)

    def fill_disk(self) -> None:
        """Nothing can be written for a while."""
        ballast = self.work / "disk/ballast"
        try:
            with open(ballast, "wb", buffering=0) as file:
                while True:
                    file.write(b"\0" * 65_536)
        except OSError:
            time.sleep(self.chance.uniform(0.5, 3))
        finally:
            ballast.unlink()

    def kill_store(self) -> None:
        assert self.store
        self.store.kill()
        time.sleep(self.chance.uniform(0.5, 3))
        self.store.start()

    def jump_clock(self) -> None:
        """The clock jumps by up to a day; the one that never jumps goes on."""
        self.clock.write_text(f"{self.chance.randint(-86_400, 86_400):+}")

    def environment(self) -> dict[str, str]:
        """The environment of the service, with a clock that may jump."""
        if not os.path.exists(FAKETIME):
            return dict(os.environ)
        faked = {"LD_PRELOAD": FAKETIME, "FAKETIME_TIMESTAMP_FILE": str(self.clock), "FAKETIME_NO_CACHE": "1"}
        return {**os.environ, **faked, "FAKETIME_DONT_FAKE_MONOTONIC": "1", "DONT_FAKE_MONOTONIC": "1"}

    # --- The run ---

    def passed(self) -> int:
        """How many messages of the stream the home has taken."""
        base = sqlite3.connect(self.mirror.home / "state.db")
        row = base.execute("SELECT value FROM facts WHERE name = 'place'").fetchone()
        base.close()
        return json.loads(row[0])[0]["offset"] + 1 if row and row[0] else 0

    def keep_running(self) -> None:
        """Starts the service where it isn't there; any end but a kill, SIGTERM or status 3 is a fault."""
        if self.child and self.child.poll() is None:
            return
        if self.child:
            status = self.child.returncode
            self.happened[f"ended with {status}"] += 1
            assert status in (0, 3, -9, -15), f"wdq-mirror ended with status {status}: look at {self.work / 'log'}"
        words = [conftest.PYTHON, str(conftest.TESTS.parent / "wdq-mirror"), "--home", str(self.mirror.home), "run"]
        with open(self.work / "log", "ab") as log:
            self.child = subprocess.Popen(words, stderr=log, env=self.environment())

    def watch(self) -> None:
        """Notes the memory of the service and of wdq."""
        assert self.child
        self.peak = max([self.peak, *map(conftest.peak_of, [self.child.pid, *conftest.children_of(self.child.pid)])])

    def begin(self) -> None:
        """Loads the dump. The stream takes three quarters of the time."""
        # The preloaded clock is for the service alone.
        path = self.work / "wdq"
        path.write_text(f'#!/bin/sh\nunset LD_PRELOAD\nexec {program.find(settings.Settings())} "$@"\n')
        path.chmod(0o755)
        self.mirror.init(self.wiki, "--path", str(path), *(("--store", self.store.url, "--counts") if self.store else ()))
        self.mirror.set(delay_seconds=5, save_watermarks=100)
        self.mirror.load(self.wiki)
        length = self.wiki.control()["end"]
        self.wiki.control(rate=max(1, int(length / (self.words.minutes * 45))))

    def run(self) -> None:
        """Lets things fail until the time is over."""
        faults = [self.kill_wdq, self.kill_mirror, self.stop_mirror, self.silence_wiki, self.cut_connection, self.lose_changes]
        faults += [self.fill_disk] * self.is_mounted + [self.kill_store] * bool(self.store) + [self.jump_clock] * os.path.exists(FAKETIME)
        end = time.monotonic() + self.words.minutes * 60
        while time.monotonic() < end:
            self.keep_running()
            time.sleep(self.chance.uniform(2, 8))
            self.watch()
            self.keep_running()
            fault = self.chance.choice(faults)
            self.happened[fault.__name__] += 1
            fault()
        self.keep_running()
        time.sleep(1)
        self.stop_mirror()
        assert self.child
        self.child.wait()

    def finish(self) -> bool:
        """Takes the rest of the stream, and compares."""
        self.wiki.control(rate=2000, cuts=0)
        self.mirror.set(delay_seconds=0)
        expected = conftest.export_of(self.wiki)
        for _ in range(40):
            self.mirror.good("step", "--idle", "2", "--events", "1000000")
            if "0 entities" in self.mirror.good("status") and self.replayed() == expected:
                break
        print(self.mirror.good("verify").strip())
        same = self.replayed() == expected
        print(f"{len(expected)} triples expected; one replay over all that was delivered gives {'them' if same else 'others'}")
        return same

    def replayed(self) -> list[str]:
        """The export of one replay over all events of all eras."""
        events = b"".join(path.read_bytes() for path in sorted((self.mirror.home / "events").glob("*.jsonl")))
        words = [program.find(settings.Settings()), "replay", "--from", str(self.mirror.home / "pages"), "--export"]
        ended = subprocess.run(words, input=events, capture_output=True, check=True)
        return sorted(ended.stdout.decode().split("\n")[1:-1])

    def close(self) -> None:
        """Ends all."""
        self.wiki.child.kill()
        if self.child and self.child.poll() is None:
            self.child.kill()
            self.child.wait()
        if self.store:
            self.store.kill()
        if self.is_mounted:
            subprocess.run(["umount", "-l", str(self.work / "disk")], check=False)


def main() -> int:
    parser = argparse.ArgumentParser(description=__doc__, formatter_class=argparse.RawDescriptionHelpFormatter)
    parser.add_argument("--minutes", type=float, default=5, help="how long things fail (5)")
    parser.add_argument("--seed", type=int, default=1, help="which things fail (1)")
    parser.add_argument("--entities", type=int, default=400, help="the size of the wiki (400)")
    parser.add_argument("--virtuoso", action="store_true", help="fill a Virtuoso in place of the embedded store")
    parser.add_argument("--keep", action="store_true", help="keep the folder")
    words = parser.parse_args()
    work = pathlib.Path(tempfile.mkdtemp(prefix="soak-"))
    soak = Soak(words, work)
    try:
        soak.begin()
        soak.run()
        is_right = soak.finish()
    finally:
        print(", ".join(f"{name} {count}" for name, count in sorted(soak.happened.items())), f"; at most {soak.peak / 1e6:.0f} MB of a process; log: {work}/log")
        soak.close()
    if is_right and not words.keep:
        shutil.rmtree(work)
    return 0 if is_right else 1


if __name__ == "__main__":
    sys.exit(main())
