"""What would make a store wrong without a word is refused, and the message says what to do."""

import contextlib
import pathlib
import shutil
import socket
import time
import typing
import urllib.request

from conftest import Mirror, Wiki, export_of, gaps_of, settle, stored


def test_a_step_without_counts(wiki: Wiki, mirror: Mirror, endpoint: str) -> None:
    mirror.init(wiki, "--store", endpoint, "--counts").load(wiki)
    mirror.set(counts=False)
    assert mirror.run("step") == 4
    assert "mirror.counts is false" in mirror.told and "set it back" in mirror.told
    mirror.set(counts=True)
    mirror.step()
    mirror.good("verify")


def test_another_graph(wiki: Wiki, mirror: Mirror, endpoint: str) -> None:
    mirror.init(wiki, "--store", endpoint).load(wiki)
    mirror.set(graph="urn:other")
    assert mirror.run("step") == 4
    assert "mirror.graph is urn:other" in mirror.told and "set it back" in mirror.told
    assert urllib.request.urlopen(endpoint + "?graph=urn:other").read() == b""


def test_a_store_that_was_filled_another_way(wiki: Wiki, mirror: Mirror, endpoint: str) -> None:
    """The store itself knows its graph and counts, so another home that took over its identity is refused too."""
    mirror.init(wiki, "--store", endpoint).load(wiki)
    other = Mirror(mirror.home.parent / "other")
    other.init(wiki, "--store", endpoint, "--graph", "urn:other")
    assert other.run("load", "--began", wiki.began, wiki.dump) == 4
    assert "another home" in other.told and "--clear" in other.told


def test_another_home_with_as_many_records(wiki: Wiki, mirror: Mirror) -> None:
    """Two copies of a home take batches that make as many records, and others: the store of one is refused by the other."""
    page = '{"type":"item","id":"Q1","labels":{"en":{"language":"en","value":"%s"}},"claims":{}}'
    mirror.init(wiki).load(wiki)
    other = mirror.copy(mirror.home.parent / "other")
    said = set()
    for number, one in enumerate((mirror, other)):
        (one.home / "pages/900000.json").write_text(page % f"label {number}")
        events = one.home / "batch.jsonl"
        events.write_text('{"kind":"edit","entity":"Q1","rev":900000,"time":"2024-05-02T00:00:00Z"}\n{"watermark":"2024-05-02T00:00:01Z"}\n')
        said.add(one.good("step", str(events)))
    assert len(said) == 1
    shutil.copy(mirror.home / "store.db", other.home / "store.db")
    before = stored(other.home)
    assert other.run("step") == 4
    assert "differ from this home's" in other.told and "wdq-mirror reload" in other.told
    assert stored(other.home) == before
    other.good("reload")
    other.good("verify")


def test_a_gap_in_the_stream(wiki: Wiki, mirror: Mirror) -> None:
    mirror.init(wiki).load(wiki)
    length = wiki.control()["end"]
    first = length - 60
    wiki.control(end=first)
    mirror.step()
    # What comes next is lost, deletions too; seconds of it alone.
    wiki.control(oldest=first + 40, end=length)
    wiki.control(is_down=0)
    mirror.step()
    assert "the stream has a gap" in mirror.told
    assert "\ngap " not in mirror.good("status")
    settle(mirror, wiki)


def test_a_gap_that_the_wiki_does_not_mend(wiki: Wiki, mirror: Mirror) -> None:
    mirror.init(wiki).load(wiki)
    mirror.set(tries=1)
    length = wiki.control()["end"]
    wiki.control(end=length - 60)
    mirror.step()
    mirror.set(site="http://127.0.0.1:9")
    wiki.control(oldest=length - 20, end=length)
    assert mirror.run("step", "--idle", "1") == 5
    assert "run wdq-mirror heal later" in mirror.told
    assert "heal mends it" in mirror.good("status")
    # A gap stops all later batches.
    assert mirror.run("step", "--idle", "1") == 5
    mirror.set(site=wiki.site, tries=6)
    assert "gaps healed: 1" in mirror.good("heal")
    assert "heal mends it" not in mirror.good("status")


def test_a_stream_that_begins_after_the_dump(wiki: Wiki, mirror: Mirror) -> None:
    """What came between is asked for, until the wiki answers; then once."""
    wiki.control(oldest=wiki.control()["end"] - 20, is_mute=1)
    mirror.init(wiki).load(wiki)
    mirror.set(tries=1)
    for _ in range(2):
        assert mirror.run("step", "--idle", "1") == 5 and "run wdq-mirror heal later" in mirror.told
        ((began, ended, is_healed),) = gaps_of(mirror.home)
        assert began < wiki.began < ended and not is_healed
    wiki.control(is_mute=0)
    mirror.step()
    settle(mirror, wiki)
    mirror.good("verify")
    assert gaps_of(mirror.home) == [(began, ended, 1)]


def test_a_gap_that_the_wiki_has_forgotten(wiki: Wiki, mirror: Mirror) -> None:
    """A newer dump heals it: pages that changed, came, went and became redirects in it."""
    mirror.init(wiki).load(wiki)
    mirror.set(history_days=30)
    length = wiki.control()["end"]
    wiki.control(end=length - 80)
    mirror.step()
    wiki.control(oldest=length - 20, end=length)
    assert mirror.run("step", "--idle", "1") == 5 and "heal --dump" in mirror.told
    dump = wiki.folder / "newer.json"
    pages = [path.read_text() for path in (wiki.folder / "now").iterdir()]
    dump.write_text("[\n" + ",\n".join(page for page in pages if '"redirect"' not in page) + "\n]\n")
    assert mirror.run("heal", "--dump", str(dump), "--began", "2024-05-01T10:00:00Z") == 2 and "get a newer dump" in mirror.told
    assert mirror.run("heal", "--dump", str(dump)) == 2
    said = mirror.good("heal", "--dump", str(dump), "--began", "2024-06-01T00:00:00Z")
    assert "gaps healed: 1" in said and "newer in the dump: 0" not in said
    settle(mirror, wiki)
    mirror.good("verify")


def test_shards_share_a_store(wiki: Wiki, mirror: Mirror, endpoint: str) -> None:
    """Two parts in two graphs of one store: together they have what the wiki has, and neither disturbs the other."""
    parts = []
    for number in range(2):
        part = Mirror(mirror.home.parent / f"part{number}")
        words = ("--shard", f"{number}/2", "--stream", f"urn:stream:{number}", "--graph", f"urn:graph:{number}")
        parts.append(part.init(wiki, "--store", endpoint, *words).load(wiki))
    for part in parts:
        part.set(delay_seconds=0)
    together: set[str] = set()
    for _ in range(12):
        for part in parts:
            part.step()
        graphs = [urllib.request.urlopen(f"{endpoint}?graph=urn:graph:{number}").read().decode() for number in range(2)]
        together = {line for graph in graphs for line in graph.splitlines()}
        if sorted(together) == export_of(wiki):
            break
    assert sorted(together) == export_of(wiki)
    for part in parts:
        part.good("verify")


# --- What is lost or set back has an end, and it is named ---


@contextlib.contextmanager
def hung_store() -> typing.Iterator[str]:
    """The address of a store that takes each connection and never answers."""
    with socket.socket() as listening:
        listening.bind(("127.0.0.1", 0))
        listening.listen()
        yield f"http://127.0.0.1:{listening.getsockname()[1]}/"


def test_a_hung_store(wiki: Wiki, mirror: Mirror, endpoint: str) -> None:
    mirror.init(wiki, "--store", endpoint).load(wiki)
    with hung_store() as url:
        mirror.set(update=url, timeout_seconds=1)
        begun = time.monotonic()
        assert mirror.run("update") == 3
        assert "gave no answer in 1 seconds" in mirror.told and "store.timeout_seconds" in mirror.told
        assert time.monotonic() - begun < 60
    mirror.set(update=endpoint, timeout_seconds=600)
    mirror.step()
    mirror.good("verify")


def last_of(mirror: Mirror, folder: str) -> pathlib.Path:
    """The newest file of a folder of the home."""
    return max((mirror.home / folder).iterdir())


def test_a_lost_snapshot(wiki: Wiki, mirror: Mirror) -> None:
    mirror.init(wiki).load(wiki)
    mirror.step()
    backup = str(mirror.home.parent / "backup.tar.gz")
    mirror.good("backup", backup)
    mirror.step()
    last_of(mirror, "snapshots").unlink()
    for command in ("step", "verify", "reload"):
        assert mirror.run(command) == 4 and "wdq-mirror restore" in mirror.told
    restored = Mirror(mirror.home.parent / "restored")
    assert "wdq-mirror reload" in restored.good("restore", backup)
    restored.good("reload")
    settle(restored, wiki)


def test_lost_records(wiki: Wiki, mirror: Mirror, endpoint: str) -> None:
    """Records that the store needs aren't there: it is filled anew."""
    mirror.init(wiki, "--store", endpoint).load(wiki)
    mirror.set(update="http://127.0.0.1:9/", query=endpoint, tries=1)
    assert mirror.run("step", "--idle", "1") == 3
    mirror.set(update=endpoint)
    last_of(mirror, "records").unlink()
    assert mirror.run("update") == 4 and "wdq-mirror reload" in mirror.told
    mirror.good("reload")
    mirror.step()
    mirror.good("verify")


def test_lost_events(wiki: Wiki, mirror: Mirror) -> None:
    """A batch that the stream has passed is removed before it was taken: this is a gap."""
    mirror.init(wiki).load(wiki)
    path = mirror.home / "wdq"
    path.write_text("#!/bin/sh\nexit 3\n")
    path.chmod(0o755)
    mirror.set(path=str(path))
    assert mirror.run("step", "--idle", "1") == 3
    mirror.set(path="")
    last_of(mirror, "events").unlink()
    mirror.step()
    assert "has lost events" in mirror.told and "\ngap " not in mirror.good("status")
    settle(mirror, wiki)


def test_a_home_that_is_set_back(wiki: Wiki, mirror: Mirror) -> None:
    """A backup is older than the store."""
    mirror.init(wiki).load(wiki)
    backup = str(mirror.home.parent / "backup.tar.gz")
    mirror.good("backup", backup)
    mirror.step()
    older = Mirror(mirror.home.parent / "older")
    older.good("restore", backup)
    shutil.copy(mirror.home / "store.db", older.home / "store.db")
    for command in ("step", "update"):
        assert older.run(command) == 4 and "as if from a backup: run wdq-mirror reload" in older.told
    older.good("reload")
    settle(older, wiki)
    older.good("verify")


def test_old_records_are_forgotten(wiki: Wiki, mirror: Mirror) -> None:
    """The home keeps what the last eras need, and the last snapshot fills a store anew."""
    mirror.init(wiki).load(wiki)
    mirror.set(keep_eras=1)
    for end in range(60, 0, -15):
        wiki.control(end=wiki.control()["end"] - 15)
    for _ in range(4):
        wiki.control(end=wiki.control()["end"] + 15)
        mirror.step()
    assert [len(list((mirror.home / folder).iterdir())) for folder in ("events", "records", "snapshots")] == [1, 1, 2]
    (mirror.home / "store.db").unlink()
    assert mirror.run("step") == 4 and "wdq-mirror reload" in mirror.told
    mirror.good("reload")
    mirror.good("verify")
    settle(mirror, wiki)
