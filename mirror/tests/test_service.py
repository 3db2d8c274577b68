"""The live service, over the made-up wiki, whatever is killed."""

import calendar
import contextlib
import os
import pathlib
import signal
import subprocess
import time
import typing
import urllib.request

from conftest import PYTHON, TESTS, Mirror, Wiki, children_of, free_port, gaps_of, settle

from wdq_mirror import snapshot


@contextlib.contextmanager
def running(mirror: Mirror, *words: str) -> typing.Iterator[subprocess.Popen[str]]:
    """The service while it runs, as if at a terminal of its own; stopped by SIGTERM, if it still runs."""
    log = open(mirror.home.parent / "log", "a")
    command = [PYTHON, str(TESTS.parent / "wdq-mirror"), "--home", str(mirror.home), "run", *words]
    child = subprocess.Popen(command, stderr=log, text=True, start_new_session=True)
    try:
        yield child
    finally:
        if child.poll() is None:
            child.send_signal(signal.SIGTERM)
        child.wait(timeout=60)
        log.close()


def wait_for(what: typing.Callable[[], bool], seconds: float = 60) -> bool:
    """Waits until something is so."""
    end = time.monotonic() + seconds
    while time.monotonic() < end:
        if what():
            return True
        time.sleep(0.2)
    return what()


def figure(port: int, name: str) -> float:
    """A figure of the service, 0 while it doesn't answer."""
    with contextlib.suppress(OSError), urllib.request.urlopen(f"http://127.0.0.1:{port}/metrics") as answer:
        return float(answer.read().decode().split(f"\nwdq_{name} ")[1].split("\n")[0])
    return 0.0


def test_a_quiet_stream_is_applied_to_its_end(wiki: Wiki, mirror: Mirror) -> None:
    """The last seconds of the stream don't wait for another message, and one wdq takes all of it."""
    mirror.init(wiki).load(wiki)
    mirror.set(delay_seconds=2)
    last = sorted(change for change in (wiki.folder / "stream.txt").read_text().split('"dt": "')[1:])[-1][:19]
    end = calendar.timegm(time.strptime(last, "%Y-%m-%dT%H:%M:%S"))
    port = free_port()
    with running(mirror, "--http", f"127.0.0.1:{port}") as child:
        assert wait_for(lambda: figure(port, "mark") > end), figure(port, "mark")
        assert figure(port, "events_total") > 50 and figure(port, "starts_total") == 1
        with urllib.request.urlopen(f"http://127.0.0.1:{port}/") as answer:
            assert "The last records" in answer.read().decode()
    assert child.returncode == 0
    settle(mirror, wiki)
    mirror.good("verify")


def test_a_gap_while_the_service_runs(wiki: Wiki, mirror: Mirror) -> None:
    """It is a figure, and the watermark waits; once the wiki says what changed, the service goes on by itself."""
    mirror.init(wiki).load(wiki)
    mirror.set(delay_seconds=0, tries=1, pause_seconds=0.2)
    length = wiki.control()["end"]
    wiki.control(end=length - 60)
    port = free_port()
    with running(mirror, "--http", f"127.0.0.1:{port}"):
        assert wait_for(lambda: figure(port, "events_total") > 10 and figure(port, "mark") > 0)
        wiki.control(is_mute=1, is_down=1)
        assert wait_for(lambda: not figure(port, "stream_up"))
        events = figure(port, "events_total")
        wiki.control(is_down=0, oldest=length - 20, end=length)
        assert wait_for(lambda: figure(port, "gap") == 1 and figure(port, "events_total") > events)
        mark = figure(port, "mark")
        time.sleep(1)
        assert figure(port, "gap") == 1 and figure(port, "mark") == mark
        with urllib.request.urlopen(f"http://127.0.0.1:{port}/") as answer:
            assert "The stream lost what changed from" in answer.read().decode()
        wiki.control(is_mute=0)
        assert wait_for(lambda: figure(port, "gap") == 0 and figure(port, "mark") > mark)
    settle(mirror, wiki)
    mirror.good("verify")


def test_a_gap_before_the_service_runs(wiki: Wiki, mirror: Mirror) -> None:
    """The stream begins after the dump; the service is killed before the wiki says what came between."""
    wiki.control(oldest=wiki.control()["end"] - 20, is_mute=1)
    mirror.init(wiki).load(wiki)
    mirror.set(delay_seconds=0, tries=1, pause_seconds=0.2)
    port = free_port()
    words = ("--http", f"127.0.0.1:{port}")
    with running(mirror, *words) as child:
        assert wait_for(lambda: figure(port, "gap") == 1 and figure(port, "events_total") > 10)
        assert figure(port, "mark") == 0
        child.kill()
    with running(mirror, *words):
        assert wait_for(lambda: figure(port, "gap") == 1)
        wiki.control(is_mute=0)
        assert wait_for(lambda: figure(port, "gap") == 0 and figure(port, "mark") > 0)
    settle(mirror, wiki)
    mirror.good("verify")
    assert [is_healed for _, _, is_healed in gaps_of(mirror.home)] == [1]


def test_ctrl_c(wiki: Wiki, mirror: Mirror) -> None:
    """A terminal sends it to all processes in front of it; wdq saves all the same."""
    mirror.init(wiki).load(wiki)
    with running(mirror) as child:
        assert wait_for(lambda: bool(children_of(child.pid)))
        time.sleep(1)
        os.killpg(child.pid, signal.SIGINT)
        assert child.wait(timeout=60) == 0
    log = (mirror.home.parent / "log").read_text()
    assert "stopped after era 1; all is saved" in log and "ended by signal" not in log


def test_wdq_and_the_service_are_killed(wiki: Wiki, mirror: Mirror) -> None:
    mirror.init(wiki).load(wiki)
    mirror.set(delay_seconds=2)
    wiki.control(rate=40)
    for turn in range(3):
        with running(mirror) as child:
            time.sleep(2)
            for pid in children_of(child.pid):
                os.kill(pid, signal.SIGKILL)
            time.sleep(2)
            assert child.poll() is None
            if turn < 2:
                child.kill()
    wiki.control(rate=500)
    settle(mirror, wiki)
    mirror.good("verify")


def check_last_era(home: pathlib.Path) -> None:
    """Looks whether the journal of the last era has as many lines as its snapshot says."""
    before, last = (snapshot.read_head(path).lines for path in sorted(home.glob("snapshots/??????"))[-2:])
    lines = sorted(home.glob("events/*.jsonl"))[-1].read_bytes().count(b"\n")
    assert last - before == lines and before > 0


def test_eras_end_at_saves(wiki: Wiki, mirror: Mirror) -> None:
    """wdq goes on meanwhile, though it and the service are killed."""
    mirror.init(wiki).load(wiki)
    mirror.set(delay_seconds=2, save_watermarks=5)
    wiki.control(rate=40)
    for turn in range(2):
        with running(mirror) as child:
            assert wait_for(lambda: (mirror.home / f"snapshots/{2 + 4 * turn:06}").exists())
            for pid in children_of(child.pid):
                os.kill(pid, signal.SIGKILL)
            time.sleep(3)
            assert child.poll() is None
            if turn == 0:
                child.kill()
    check_last_era(mirror.home)
    wiki.control(rate=500)
    settle(mirror, wiki)
    mirror.good("verify")


def test_a_store_that_is_away_is_waited_for(wiki: Wiki, mirror: Mirror, endpoint: str) -> None:
    mirror.init(wiki, "--store", endpoint).load(wiki)
    good = endpoint
    mirror.set(update="http://127.0.0.1:9/", query=good)
    with running(mirror) as child:
        time.sleep(5)
        assert child.poll() is None
    # What was made goes into the files, and the store gets it later.
    assert child.returncode == 0
    mirror.set(update=good)
    mirror.step()
    mirror.good("verify")
