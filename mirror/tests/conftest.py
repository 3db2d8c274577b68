"""What the tests share: a made-up wiki, a store behind SPARQL, and a mirror that is run by its commands."""

import contextlib
import json
import os
import pathlib
import re
import shutil
import socket
import subprocess
import sys
import time
import typing
import urllib.parse
import urllib.request

import pytest

TESTS = pathlib.Path(__file__).resolve().parent
sys.path.insert(0, str(TESTS.parent))
PYTHON = "/usr/bin/python3"
ENTITIES = "60"
INI = """[Database]
DatabaseFile = store.db
TransactionFile = store.trx
ErrorLogFile = store.log
LockFile = store.lck
xa_persistent_file = store.pxa
[TempDatabase]
DatabaseFile = temp.db
TransactionFile = temp.trx
[Parameters]
ServerPort = 127.0.0.1:{port}
NumberOfBuffers = 20000
DirsAllowed = {folder}
[HTTPServer]
ServerPort = 127.0.0.1:{http}
[SPARQL]
ResultSetMaxRows = 500
"""


def started(*words: str) -> tuple[subprocess.Popen[str], str]:
    """Starts a server, and gives the address that it prints."""
    child = subprocess.Popen(words, stdout=subprocess.PIPE, text=True)
    assert child.stdout
    return child, child.stdout.readline().strip()


def children_of(pid: int) -> list[int]:
    """The processes that a process started."""
    found = []
    for path in pathlib.Path(f"/proc/{pid}/task").glob("*/children"):
        with contextlib.suppress(OSError):
            found += [int(text) for text in path.read_text().split()]
    return found


def peak_of(pid: int) -> int:
    """The most memory that a process had, in bytes; 0 where it isn't there."""
    with contextlib.suppress(OSError, IndexError):
        return int(pathlib.Path(f"/proc/{pid}/status").read_text().split("VmHWM:")[1].split()[0]) * 1024
    return 0


class Wiki:
    """A made-up wiki that is up."""

    def __init__(self, folder: pathlib.Path, size: str = ENTITIES):
        self.folder = folder
        self.child, self.site = started(PYTHON, str(TESTS / "made_up_wiki.py"), str(folder), size)
        self.control(cuts=1)

    def control(self, **words: int) -> dict[str, int]:
        """Sets how the wiki goes on."""
        with urllib.request.urlopen(f"{self.site}/control?{urllib.parse.urlencode(words)}") as answer:
            return json.load(answer)

    @property
    def began(self) -> str:
        """When the dump was begun."""
        return (self.folder / "began").read_text()

    @property
    def dump(self) -> str:
        """The dump."""
        return str(self.folder / "dump.json.gz")


def free_port() -> int:
    """A port that nobody listens on."""
    with socket.socket() as found:
        found.bind(("127.0.0.1", 0))
        return found.getsockname()[1]


class Virtuoso:
    """A Virtuoso that is up."""

    def __init__(self, folder: pathlib.Path):
        self.folder = folder
        port, http = free_port(), free_port()
        self.url, self.isql = f"http://127.0.0.1:{http}/sparql", f"isql-vt 127.0.0.1:{port} dba dba"
        folder.mkdir()
        (folder / "virtuoso.ini").write_text(INI.format(port=port, http=http, folder=folder))
        self.start()

    @staticmethod
    def is_there() -> bool:
        """Whether it is installed."""
        return bool(shutil.which("virtuoso-t") and shutil.which("isql-vt"))

    def start(self) -> None:
        """Starts it, and allows updates."""
        (self.folder / "store.lck").unlink(missing_ok=True)
        words = ["virtuoso-t", "-f", "+configfile", "virtuoso.ini"]
        self.child = subprocess.Popen(words, cwd=self.folder, stdout=subprocess.DEVNULL, stderr=subprocess.DEVNULL)
        for _ in range(300):
            ended = subprocess.run([*self.isql.split(), 'EXEC=GRANT SPARQL_UPDATE TO "SPARQL";'], capture_output=True, text=True)
            if "Done" in ended.stdout or "already have" in ended.stderr:
                return
            time.sleep(1)
        raise TimeoutError("Virtuoso doesn't come up")

    def kill(self) -> None:
        """Kills it."""
        self.child.kill()
        self.child.wait()


class Mirror:
    """A mirror by its commands."""

    def __init__(self, home: pathlib.Path):
        self.home = home
        self.said = self.told = ""
        # How long a command may take.
        self.seconds = 300.0

    def run(self, *words: str) -> int:
        """Runs a command, and keeps what it prints."""
        command = [PYTHON, str(TESTS.parent / "wdq-mirror"), "--home", str(self.home), *words]
        ended = subprocess.run(command, capture_output=True, text=True, timeout=self.seconds)
        self.said, self.told = ended.stdout, ended.stderr
        return ended.returncode

    def good(self, *words: str) -> str:
        """Runs a command that has to do well."""
        status = self.run(*words)
        assert status == 0, (words, status, self.said, self.told)
        return self.said

    def set(self, **values: typing.Any) -> None:
        """Changes settings."""
        path = self.home / "mirror.toml"
        text = path.read_text()
        for name, value in values.items():
            text, found = re.subn(rf"(?m)^{name} = .*$", lambda _: f"{name} = {json.dumps(value)}", text)
            assert found == 1, name
        path.write_text(text)

    def init(self, wiki: Wiki, *words: str) -> "Mirror":
        """Makes the home, with short pauses."""
        self.good("init", "--agent", "try/1.0 (nobody@example.org)", "--site", wiki.site, "--stream-url", wiki.site + "/stream", *words)
        # The store may be slow where the machine is busy.
        self.set(pause_seconds=0.02, keep_eras=0, history_days=0, timeout_seconds=600)
        return self

    def load(self, wiki: Wiki) -> "Mirror":
        """Loads the wiki's dump."""
        self.good("load", "--began", wiki.began, wiki.dump)
        return self

    def step(self) -> str:
        """Takes a batch of the stream."""
        return self.good("step", "--idle", "1")

    def copy(self, to: pathlib.Path) -> "Mirror":
        """The same home at another place."""
        shutil.copytree(self.home, to)
        return Mirror(to)


def export_of(wiki: Wiki) -> list[str]:
    """The triples of the pages that the wiki has at the end, by a replay."""
    from wdq_mirror import program, settings

    with open(wiki.folder / "now.jsonl", "rb") as events:
        words = [program.find(settings.Settings()), "replay", "--from", str(wiki.folder / "now"), "--export"]
        ended = subprocess.run(words, stdin=events, capture_output=True, check=True)
    return sorted(ended.stdout.decode().split("\n")[1:-1])


def stored(home: pathlib.Path) -> list[str]:
    """The triples of the embedded store, as wdq spells them."""
    import sqlite3

    base = sqlite3.connect(home / "store.db")
    found = [" ".join(row) + " ." for row in base.execute("SELECT subject, predicate, object FROM triples")]
    base.close()
    return sorted(found)


def gaps_of(home: pathlib.Path) -> list[tuple[str, str, int]]:
    """All gaps that a home has noted: when they began and ended, and whether they are healed."""
    import sqlite3

    base = sqlite3.connect(home / "state.db")
    found = base.execute("SELECT began, ended, healed FROM gaps ORDER BY number").fetchall()
    base.close()
    return found


def settle(mirror: Mirror, wiki: Wiki) -> None:
    """Takes batches until the store has what the wiki has at the end. Without a delay, so that the last seconds don't wait."""
    mirror.set(delay_seconds=0)
    for _ in range(12):
        mirror.step()
        if stored(mirror.home) == export_of(wiki):
            return
    assert stored(mirror.home) == export_of(wiki)


@pytest.fixture
def wiki(tmp_path: pathlib.Path) -> typing.Iterator[Wiki]:
    """A made-up wiki."""
    found = Wiki(tmp_path / "wiki")
    yield found
    found.child.kill()
    found.child.wait()


@pytest.fixture
def endpoint() -> typing.Iterator[str]:
    """A store behind SPARQL that gives at most 100 rows."""
    pytest.importorskip("rdflib")
    child, url = started(PYTHON, str(TESTS / "sparql_endpoint.py"), "--rows", "100")
    yield url
    child.kill()
    child.wait()


@pytest.fixture
def mirror(tmp_path: pathlib.Path) -> Mirror:
    """A mirror without a home yet."""
    return Mirror(tmp_path / "home")


os.environ.setdefault("PYTHONDONTWRITEBYTECODE", "1")
