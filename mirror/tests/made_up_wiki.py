#!/usr/bin/env python3
"""A made-up Wikidata on the loopback address, to try wdq-mirror without the network.

    ./made_up_wiki.py FOLDER [ENTITIES]

It writes into FOLDER, serves until it is ended, and prints its address when it is ready. Its dump has so many items and some more (200
without a number), with some properties and lexemes, and about as many changes come after it. Of the wiki's answers it has the stream of
page changes, pages by revision, and the API's `info`, `revisions`, `recentchanges` and `logevents`. It is as awkward as the real one may be: changes come out of order,
late and again, connections are cut, and it is busy at times, once for each user agent. By `/control?name=number` it takes: `oldest`, the
first message that the stream still has; `end`, the message before which it pauses; `rate`, how many messages a second come; `cuts`, how many
connections are still to be cut; `is_down`, whether all requests are answered with 503; `is_mute`, whether those to the API are. In FOLDER are

    dump.json.gz   a dump, begun in the middle of the history and taken while it went on
    began          when that was
    stream.txt     the stream from there on, in one piece
    now.jsonl      an edit for each page that exists at the end: what a store should hold
    now            the pages of these
"""

import collections
import gzip
import http.server
import json
import pathlib
import random
import sys
import threading
import time
import urllib.parse

CUT_EVERY, CUTS = 60, 4
LATE_DELETIONS = 100
SPACES = {"Q": 0, "P": 120, "L": 146}
TYPES = {"Q": "item", "P": "property", "L": "lexeme"}


def time_of(index):
    """The time of a change, three seconds after the one before it."""
    return time.strftime("%Y-%m-%dT%H:%M:%SZ", time.gmtime(1714557600 + 3 * index))


def claims(entity, revision):
    """A statement with an amount and a reference, which other entities share."""
    amount = {"type": "quantity", "value": {"amount": f"+{revision % 7}.50", "unit": "1"}}
    source = {"snaktype": "value", "property": "P2", "datavalue": {"type": "string", "value": f"source {revision % 3}"}}
    snak = {"snaktype": "value", "property": "P1", "datavalue": amount}
    reference = {"hash": str(revision % 3), "snaks": {"P2": [source]}}
    return {"P1": [{"mainsnak": snak, "type": "statement", "id": f"{entity}$1", "rank": "normal", "references": [reference]}]}


class History:
    """What happened: the changes, the page of each revision, and what stands at the end."""

    def __init__(self, size, chance):
        self.items = size + size // 10
        self.entities = [f"Q{number}" for number in range(1, self.items + 1)]
        self.entities += [f"{letter}{number}" for letter in "PL" for number in range(1, 2 + size // 40)]
        chance.shuffle(self.entities)
        self.changes, self.pages, self.newest, self.state = [], {}, {}, {}
        # Most entities are there before the dump, which takes a while: each goes into it at a moment of its own.
        first = self.entities[: size + size // 20]
        self.taken, dump_at, takes = {}, len(first) + size // 4, 10 + size // 20
        self.dump_at, self.dump_ends = dump_at, dump_at + takes
        moments = collections.defaultdict(list)
        for entity in self.entities:
            moments[dump_at + chance.randrange(takes)].append(entity)
        for index in range(dump_at + size):
            self.change(index, first[index] if index < len(first) else self.choose(chance), chance)
            self.taken |= {entity: self.newest[entity] for entity in moments[index] if self.state.get(entity) == "kept"}

    def choose(self, chance):
        """An entity, and seldom one that was deleted."""
        entity = chance.choice(self.entities)
        while self.state.get(entity) == "deleted" and chance.random() < 0.8:
            entity = chance.choice(self.entities)
        return entity

    def change(self, index, entity, chance):
        revision = 1000 + index
        state = self.state.get(entity, "none")
        may_merge = index > self.dump_ends and entity.startswith("Q") and int(entity[1:]) > self.items // 2
        kind = {"none": "create", "deleted": "undelete"}.get(state) or ("delete" if chance.random() < 0.08 else "edit")
        if kind == "delete":
            revision = self.newest[entity]
        elif kind == "edit" and may_merge and chance.random() < 0.2:
            self.pages[revision] = (entity, {"entity": entity, "redirect": f"Q{chance.randint(1, self.items // 2)}"})
        else:
            self.pages[revision] = (entity, self.page(entity, revision, index))
        self.newest[entity] = revision
        self.state[entity] = "deleted" if kind == "delete" else "kept"
        self.changes.append((kind, entity, revision, time_of(index)))

    def page(self, entity, revision, index):
        page = {"type": TYPES[entity[0]], "id": entity}
        page["lemmas" if entity.startswith("L") else "labels"] = {"en": {"language": "en", "value": f"{entity} at {revision}"}}
        page["claims"] = claims(entity, revision)
        if entity.startswith("L"):
            page |= {"lexicalCategory": "Q1", "language": "Q2", "forms": [], "senses": []}
        if entity.startswith("P"):
            page["datatype"] = "quantity"
        return {**page, "lastrevid": revision, "modified": time_of(index)}


def title(entity):
    return {"Q": "", "P": "Property:", "L": "Lexeme:"}[entity[0]] + entity


def message(kind, page_title, revision, moment, wiki="wikidatawiki", domain="www.wikidata.org"):
    """A change as the stream tells it."""
    namespace = {"P": 120, "L": 146, "E": 640}.get(page_title[0], 0)
    page = {"page_title": page_title, "namespace_id": namespace, "is_redirect": False}
    head = {"$schema": "/mediawiki/page/change/1.2.0", "meta": {"domain": domain}, "wiki_id": wiki}
    return {**head, "page_change_kind": kind, "dt": moment, "page": page, "revision": {"rev_id": revision}}


def stream_of(history, chance):
    """The messages in the order in which they come: some late, some twice, and some of other pages."""
    arrivals = []
    for index, (kind, entity, revision, moment) in enumerate(history.changes):
        moment = moment.replace("Z", ".123456789Z") if index % 5 == 0 else moment
        told = message(kind, title(entity), revision, moment)
        is_late = index % 29 == 3 or (kind == "delete" and index > len(history.changes) - LATE_DELETIONS)
        lag = 40 if is_late else chance.randint(0, 3)
        arrivals.append((index + lag, told))
        if index % 17 == 0:
            arrivals.append((index + lag + 5, told))
        if index % 11 == 0:
            arrivals.append((index, message("edit", "Berlin", revision, moment, "dewiki", "de.wikipedia.org")))
            arrivals.append((index, message("edit", "EntitySchema:E1", revision, moment)))
            arrivals.append((index, message("move", title(entity), revision, moment)))
            arrivals.append((index, message("edit", title(entity), 1, moment, domain="canary")))
    arrivals.sort(key=lambda arrival: arrival[0])
    return [told for _, told in arrivals]


def sse(index, told):
    """A message as a server-sent event."""
    place = json.dumps([{"topic": "made-up", "partition": 0, "offset": index}])
    return f"event: message\nid: {place}\ndata: {json.dumps(told)}\n\n".encode()


def write_folder(folder, history, stream):
    """Writes the files that the scripts' results are compared with."""
    rows = [json.dumps(history.pages[revision][1]) for revision in history.taken.values()]
    media = '{"type":"mediainfo","id":"M1","lastrevid":9,"modified":"2024-05-01T10:00:00Z"}'
    with gzip.open(folder / "dump.json.gz", "wt") as file:
        file.write("[\n" + ",\n".join([media, *rows]) + "\n]\n")
    began = time_of(history.dump_at)
    (folder / "began").write_text(began)
    first = first_since(stream, began)
    (folder / "stream.txt").write_bytes(b"".join(sse(index, told) for index, told in enumerate(stream) if index >= first))
    (folder / "now").mkdir()
    with open(folder / "now.jsonl", "w") as file:
        for entity, revision in history.newest.items():
            if history.state[entity] == "kept":
                print(json.dumps({"kind": "edit", "entity": entity, "rev": revision, "time": time_of(0)}), file=file)
                (folder / "now" / f"{revision}.json").write_text(json.dumps(history.pages[revision][1]))


def first_since(stream, moment):
    """The index of the first message from a time on."""
    return next((index for index, told in enumerate(stream) if told["dt"] >= moment), len(stream))


class Wiki(http.server.ThreadingHTTPServer):
    """The server, and what it remembers: how often each agent asked for each address, and how many connections were cut."""

    def __init__(self, history, stream):
        super().__init__(("127.0.0.1", 0), Answers)
        self.history, self.stream = history, stream
        self.asked, self.lock = collections.Counter(), threading.Lock()
        self.control = {"oldest": 0, "end": len(stream), "rate": 500, "cuts": CUTS, "is_down": 0, "is_mute": 0}


class Answers(http.server.BaseHTTPRequestHandler):
    def log_message(self, *_):
        pass

    def do_GET(self):
        url = urllib.parse.urlsplit(self.path)
        words = {key: values[0] for key, values in urllib.parse.parse_qs(url.query).items()}
        with self.server.lock:
            request = self.headers.get("User-Agent"), self.path
            self.server.asked[request] += 1
            times = self.server.asked[request]
        if url.path == "/control":
            self.server.control.update({key: int(value) for key, value in words.items()})
            self.send_json(self.server.control)
        elif self.server.control["is_down"] or (self.server.control["is_mute"] and url.path == "/w/api.php"):
            self.send_error(503)
        elif "@" not in self.headers.get("User-Agent", ""):
            self.send_error(403, "name yourself")
        elif url.path == "/stream":
            self.send_stream(words)
        elif url.path == "/w/api.php":
            self.send_json(self.answer(words))
        elif url.path.startswith("/wiki/Special:EntityData/"):
            self.send_page(int(words["revision"]), times)
        else:
            self.send_error(404)

    def send_json(self, value, more=0):
        body = json.dumps(value).encode()
        self.send_response(200)
        self.send_header("Content-Length", str(len(body) + more))
        self.end_headers()
        self.wfile.write(body)

    def send_page(self, revision, times):
        """A page by its revision; a redirect's is its target's. At first it may be busy, cut off, or not there yet."""
        history = self.server.history
        entity, page = history.pages[revision]
        if history.state[entity] == "deleted" or (revision % 17 == 0 and times == 1):
            self.send_error(404)
        elif revision % 7 == 0 and times == 1:
            self.send_error(503)
        elif revision % 11 == 0 and times == 1:
            self.send_response(429)
            self.send_header("Retry-After", "0")
            self.end_headers()
        else:
            target = page.get("redirect")
            if target:
                entity, page = target, {"type": "item", "id": target}
            self.send_json({"entities": {entity: page}}, more=10 if revision % 13 == 0 and times == 1 else 0)

    def answer(self, words):
        """The API's whole answer. A list comes in pages of fifty."""
        if "list" not in words:
            return {"batchcomplete": True, "query": self.query(words)}
        name, prefix = words["list"], {"recentchanges": "rc", "logevents": "le"}[words["list"]]
        spaces = words[prefix + "namespace"].split("|")
        found = [
            {"title": title(entity), "timestamp": moment}
            for kind, entity, _, moment in self.server.history.changes
            if words[prefix + "start"] <= moment <= words[prefix + "end"] and (kind in ("delete", "undelete")) == (name == "logevents")
            and str(SPACES[entity[0]]) in spaces
        ]
        first = int(words.get(prefix + "continue", 0))
        more = {"continue": {prefix + "continue": first + 50, "continue": "-||"}} if first + 50 < len(found) else {"batchcomplete": True}
        return {**more, "query": {name: found[first : first + 50]}}

    def query(self, words):
        """The API's answer: what pages there are now, or the text of a revision."""
        history = self.server.history
        if words["prop"] == "revisions":
            entity, page = history.pages[int(words["revids"])]
            return {"pages": [{"title": title(entity), "revisions": [{"slots": {"main": {"content": json.dumps(page)}}}]}]}
        pages = []
        for name in words["titles"].split("|")[:50]:
            entity = name.rpartition(":")[2]
            is_kept = history.state.get(entity) == "kept"
            pages.append({"title": name, "lastrevid": history.newest[entity]} if is_kept else {"title": name, "missing": True})
        return {"pages": pages}

    def send_stream(self, words):
        """The stream behind the last event's id, or from a time on; the first connections are cut in the middle of a message."""
        server, last = self.server, self.headers.get("Last-Event-ID")
        first = json.loads(last)[0]["offset"] + 1 if last else first_since(server.stream, words.get("since", ""))
        self.send_response(200)
        self.send_header("Content-Type", "text/event-stream")
        self.end_headers()
        self.wfile.write(b":ok\n\n")
        index = first = max(first, server.control["oldest"])
        while not server.control["is_down"]:
            if index >= server.control["end"]:
                time.sleep(0.2)
                self.wfile.write(b":heartbeat\n\n")
                continue
            text = sse(index, server.stream[index])
            with server.lock:
                is_cut = index >= first + CUT_EVERY and server.control["cuts"] > 0
                server.control["cuts"] -= is_cut
            self.wfile.write(text[: len(text) // 2] if is_cut else text)
            if is_cut:
                return
            index += 1
            time.sleep(1 / server.control["rate"])

    def handle(self):
        try:
            super().handle()
        except (BrokenPipeError, ConnectionResetError):
            pass


def main():
    size = sys.argv[2] if len(sys.argv) == 3 else "200"
    if not 2 <= len(sys.argv) <= 3 or sys.argv[1] in ("-h", "--help") or not size.isdecimal() or int(size) < 40:
        print(__doc__)
        return 0 if sys.argv[1:2] in (["-h"], ["--help"]) else 2
    chance = random.Random(1)
    history = History(int(size), chance)
    stream = stream_of(history, chance)
    folder = pathlib.Path(sys.argv[1])
    folder.mkdir(parents=True, exist_ok=True)
    write_folder(folder, history, stream)
    server = Wiki(history, stream)
    print(f"http://127.0.0.1:{server.server_port}", flush=True)
    server.serve_forever()
    return 0


if __name__ == "__main__":
    sys.exit(main())
