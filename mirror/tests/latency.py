#!/usr/bin/python3
"""Measures how long an edit takes from the stream to the store, over a wiki of its own whose edits happen now.

    ./latency.py --entities 100000 --seconds 60 --rate 10 [--virtuoso]

It loads a dump of so many items into the embedded store, or into a Virtuoso of its own, runs the service, and edits items in turn. For each edit it looks when its revision
is in the store, and prints how much later than the watermark's delay that was: the median, the 99th of 100, and the most. It also prints
how long saves took, and the most memory of the service and of wdq.
"""

import argparse
import datetime
import http.server
import json
import pathlib
import shutil
import sqlite3
import subprocess
import tempfile
import threading
import time
import typing
import urllib.parse
import urllib.request

import conftest

DELAY = 2
ENTITY = "http://www.wikidata.org/entity/"
VERSION = "<http://schema.org/version>"
# The revision of each of some items that a store holds.
Look = typing.Callable[[set[int]], dict[int, int]]


def page(item: int, revision: int) -> str:
    """A page of an item, of about two kilobytes."""
    claims = {}
    for number in range(1, 6):
        value = {"type": "string", "value": f"value {number} of {item} " + "x" * 40}
        snak = {"snaktype": "value", "property": f"P{number}", "datavalue": value, "datatype": "string"}
        claims[f"P{number}"] = [{"mainsnak": snak, "type": "statement", "id": f"Q{item}${number}", "rank": "normal"}]
    labels = {code: {"language": code, "value": f"item {item} at {revision}"} for code in ("en", "de", "fr", "es")}
    return json.dumps({"type": "item", "id": f"Q{item}", "labels": labels, "claims": claims, "lastrevid": revision, "modified": text_of(0)})


def text_of(seconds: float) -> str:
    """A time as the wiki writes it."""
    return datetime.datetime.fromtimestamp(seconds or 1.7e9, datetime.timezone.utc).strftime("%Y-%m-%dT%H:%M:%S.%fZ")


class Edits:
    """The edits so far: each its item, its revision, and its time."""

    def __init__(self, entities: int):
        self.entities, self.made = entities, list[tuple[int, int, float]]()

    def make(self) -> None:
        """Makes the next edit."""
        index = len(self.made)
        self.made.append((1 + index * 7919 % self.entities, self.entities + 1 + index, time.time()))


class Answers(http.server.BaseHTTPRequestHandler):
    """The stream and the pages."""

    edits: Edits

    def log_message(self, *_: typing.Any) -> None:
        """Says nothing."""

    def do_GET(self) -> None:
        """Answers."""
        url = urllib.parse.urlsplit(self.path)
        self.send_response(200)
        if url.path == "/stream":
            self.end_headers()
            try:
                self.send_stream()
            except (BrokenPipeError, ConnectionResetError):
                pass
            return
        revision = int(urllib.parse.parse_qs(url.query)["revision"][0])
        item = self.edits.made[revision - self.edits.entities - 1][0]
        body = f'{{"entities":{{"Q{item}":{page(item, revision)}}}}}'.encode()
        self.send_header("Content-Length", str(len(body)))
        self.end_headers()
        self.wfile.write(body)

    def send_stream(self) -> None:
        """Sends each edit as it is made."""
        self.wfile.write(b":ok\n\n")
        index = 0
        while True:
            if index < len(self.edits.made):
                item, revision, moment = self.edits.made[index]
                told = {"meta": {"domain": "www.wikidata.org"}, "wiki_id": "wikidatawiki", "page_change_kind": "edit", "dt": text_of(moment)}
                told |= {"page": {"page_title": f"Q{item}", "namespace_id": 0}, "revision": {"rev_id": revision}}
                place = [{"topic": "edits", "partition": 0, "offset": index}]
                self.wfile.write(f"id: {json.dumps(place)}\ndata: {json.dumps(told)}\n\n".encode())
                index += 1
            else:
                time.sleep(0.05)
                self.wfile.write(b":heartbeat\n\n")


def percentile(values: list[float], part: float) -> float:
    """The value below which a part of the values are."""
    return sorted(values)[min(len(values) - 1, int(part * len(values)))]


def look_into(store: pathlib.Path) -> Look:
    """Looks into the embedded store."""
    base = sqlite3.connect(store, isolation_level=None, timeout=60)

    def look(items: set[int]) -> dict[int, int]:
        names = ", ".join(f"'<{ENTITY}Q{item}>'" for item in items)
        rows = base.execute(f"SELECT subject, object FROM triples WHERE subject IN ({names}) AND predicate = '{VERSION}'")
        return {int(subject[len(ENTITY) + 2 : -1]): int(value.split('"')[1]) for subject, value in rows}

    return look


def ask(url: str) -> Look:
    """Asks a store in SPARQL."""

    def look(items: set[int]) -> dict[int, int]:
        names = " ".join(f"<{ENTITY}Q{item}>" for item in items)
        query = f"SELECT ?s ?v WHERE {{ VALUES ?s {{ {names} }} GRAPH <urn:wdq:triples> {{ ?s {VERSION} ?v }} }}"
        body = urllib.parse.urlencode({"query": query, "format": "application/sparql-results+json"}).encode()
        with urllib.request.urlopen(url, body) as answer:
            rows = json.load(answer)["results"]["bindings"]
        return {int(row["s"]["value"][len(ENTITY) + 1 :]): int(row["v"]["value"]) for row in rows}

    return look


def watch(look: Look, edits: Edits, seconds: float, rate: float) -> list[float]:
    """Makes edits, and looks when each is in the store."""
    late, waiting, end = [], list[tuple[int, int, float]](), time.time() + seconds
    next_edit = time.time()
    while time.time() < end or (waiting and time.time() < end + 300):
        if next_edit <= time.time() < end:
            edits.make()
            waiting.append(edits.made[-1])
            next_edit += 1 / rate
        some = waiting[:50]
        found = look({item for item, _, _ in some}) if some else {}
        for edit in some:
            if found.get(edit[0], 0) >= edit[1]:
                waiting.remove(edit)
                late.append(time.time() - edit[2])
        time.sleep(0.01)
    assert not waiting, f"{len(waiting)} edits aren't in the store"
    return late


class Saves:
    """Looks how long each save of wdq takes, by the file that it writes before it gives it its name."""

    def __init__(self, folder: pathlib.Path):
        self.folder, self.spans, self.is_over = folder, list[float](), False
        self.thread = threading.Thread(target=self.look)
        self.thread.start()

    def look(self) -> None:
        """Looks a hundred times a second."""
        begun = 0.0
        while not self.is_over:
            if any(self.folder.glob("saved*.new")):
                begun = begun or time.monotonic()
            elif begun:
                self.spans.append(time.monotonic() - begun)
                begun = 0.0
            time.sleep(0.01)

    def told(self) -> str:
        """What it saw."""
        self.is_over = True
        self.thread.join()
        saves = max(int(path.name) for path in self.folder.iterdir() if path.name.isdecimal())
        return f"{saves} saves, the longest {max(self.spans, default=0):.2f} s"


def loaded(words: argparse.Namespace, work: pathlib.Path, store: typing.Optional[conftest.Virtuoso]) -> conftest.Mirror:
    """A mirror of the items, whose wiki is up from now on."""
    Answers.edits = Edits(words.entities)
    server = http.server.ThreadingHTTPServer(("127.0.0.1", 0), Answers)
    server.daemon_threads = True
    threading.Thread(target=server.serve_forever, daemon=True).start()
    with open(work / "dump.json", "w", encoding="utf-8") as dump:
        dump.write("[\n" + ",\n".join(page(item, item) for item in range(1, words.entities + 1)) + "\n]\n")
    site = f"http://127.0.0.1:{server.server_port}"
    mirror = conftest.Mirror(work / "home")
    mirror.seconds = 7200
    more = ("--store", store.url, "--counts") if store else ()
    mirror.good("init", "--agent", "try/1.0 (nobody@example.org)", "--site", site, "--stream-url", site + "/stream", *more)
    mirror.set(delay_seconds=DELAY, save_watermarks=words.save)
    if store:
        mirror.set(loader="virtuoso", isql=store.isql, load_folder=str(store.folder))
    begun = time.time()
    mirror.good("load", "--began", text_of(time.time() - 60), str(work / "dump.json"))
    print(f"{words.entities} items loaded in {time.time() - begun:.0f} s", flush=True)
    return mirror


def measure(words: argparse.Namespace, home: pathlib.Path, look: Look) -> None:
    """Runs the service, makes edits, and prints how late they are."""
    begun = time.time()
    with open(home.parent / "log", "wb") as log:
        child = subprocess.Popen([conftest.PYTHON, str(conftest.TESTS.parent / "wdq-mirror"), "--home", str(home), "run"], stderr=log)
    saves = Saves(home / "snapshots")
    try:
        watch(look, Answers.edits, 0.01, 1)
        print(f"the first edit was in the store {time.time() - begun:.1f} s after the start of the service", flush=True)
        late = [seconds - DELAY for seconds in watch(look, Answers.edits, words.seconds, words.rate)]
        peaks = [conftest.peak_of(pid) / 1e6 for pid in (child.pid, *conftest.children_of(child.pid))]
    finally:
        told = saves.told()
        child.terminate()
        child.wait()
    median, most = percentile(late, 0.5), percentile(late, 0.99)
    print(f"{len(late)} edits, behind the delay of {DELAY} s: median {median:.2f} s, 99 of 100 {most:.2f} s, at most {max(late):.2f} s")
    print(f"{told}; at most {peaks[0]:.0f} MB of wdq-mirror and {sum(peaks[1:]):.0f} MB of wdq")


def main() -> int:
    """Measures."""
    parser = argparse.ArgumentParser(description=__doc__, formatter_class=argparse.RawDescriptionHelpFormatter)
    parser.add_argument("--entities", type=int, default=100, help="how many items the wiki has (100)")
    parser.add_argument("--seconds", type=float, default=60, help="how long edits are made (60)")
    parser.add_argument("--rate", type=float, default=10, help="how many edits a second (10)")
    parser.add_argument("--save", type=int, default=3000, help="the setting save_watermarks (3000)")
    parser.add_argument("--virtuoso", action="store_true", help="fill a Virtuoso in place of the embedded store")
    words = parser.parse_args()
    work = pathlib.Path(tempfile.mkdtemp(prefix="latency-"))
    store = conftest.Virtuoso(work / "virtuoso") if words.virtuoso else None
    try:
        mirror = loaded(words, work, store)
        measure(words, mirror.home, ask(store.url) if store else look_into(mirror.home / "store.db"))
    finally:
        if store:
            store.kill()
    shutil.rmtree(work)
    return 0


if __name__ == "__main__":
    raise SystemExit(main())
