#!/usr/bin/python3
"""A store of rdflib behind the SPARQL 1.1 protocol, in memory, on the loopback address.

A POST is by its content type an update, a query (answered in JSON), or triples for a graph, ?graph=. A GET gives a graph as sorted N-Triples.
Literals are kept as they are spelled. An answer has at most --rows rows, as those of some stores do, without a word. It prints its URL
once it is up. Needs Debian's package python3-rdflib.
"""

import argparse
import http.server
import json
import pathlib
import re
import sys
import threading
import urllib.parse

try:
    import rdflib
    import rdflib.plugins.parsers.ntriples as ntriples
    import rdflib.plugins.sparql.parser as sparql_parser
except ImportError:
    rdflib = None

sys.path.insert(0, str(pathlib.Path(__file__).resolve().parent.parent))
from wdq_mirror import terms  # noqa: E402

CHARACTERS = {"t": "\t", "b": "\b", "n": "\n", "r": "\r", "f": "\f"}


def unescaped(text):
    """rdflib 6.1 reads a backslash and the letter n, each written as SPARQL says, as a line feed; this reads them right."""
    return re.sub(r"\\(.)", lambda match: CHARACTERS.get(match[1], match[1]), text)


def make_store():
    """An empty store that keeps literals as they are spelled, and whose default graph is a graph of its own."""
    rdflib.NORMALIZE_LITERALS = False
    rdflib.plugins.sparql.SPARQL_DEFAULT_GRAPH_UNION = False
    sparql_parser.decodeUnicodeEscape = unescaped
    # Its reader of N-Triples has the same fault.
    ntriples.decodeUnicodeEscape = terms.unescaped
    return rdflib.Dataset()


class Handler(http.server.BaseHTTPRequestHandler):
    def body(self):
        return self.rfile.read(int(self.headers["Content-Length"])).decode()

    def do_POST(self):
        text = self.body()
        if self.headers["Content-Type"] == "application/x-www-form-urlencoded":
            self.answer(lambda: self.query(urllib.parse.parse_qs(text)["query"][0]), "application/sparql-results+json")
        elif self.headers["Content-Type"] == "application/n-triples":
            self.answer(lambda: self.add(text), "text/plain")
        else:
            self.answer(lambda: self.server.store.update(text) or b"", "text/plain")

    def query(self, text):
        value = json.loads(self.server.store.query(text).serialize(format="json"))
        if "results" in value:
            del value["results"]["bindings"][self.server.rows :]
        return json.dumps(value).encode()

    def graph(self):
        return self.server.store.graph(rdflib.URIRef(urllib.parse.parse_qs(urllib.parse.urlsplit(self.path).query)["graph"][0]))

    def add(self, text):
        self.graph().parse(data=text, format="nt")
        return b""

    def do_GET(self):
        self.answer(self.export, "application/n-triples")

    def export(self):
        lines = (self.line(triple) for triple in self.graph())
        return b"".join(b" ".join(terms) + b" .\n" for terms in sorted(lines))

    @staticmethod
    def line(triple):
        return [term.n3().encode() if isinstance(term, rdflib.URIRef) else literal_text(term).encode() for term in triple]

    def answer(self, work, kind):
        try:
            with self.server.lock:
                body, status = work(), 200
        except Exception as fault:
            body, status = f"{type(fault).__name__}: {fault}".encode(), 400
        try:
            self.send_response(status)
            self.send_header("Content-Type", kind)
            self.send_header("Content-Length", str(len(body)))
            self.end_headers()
            self.wfile.write(body)
        except ConnectionError:
            # The client was killed; what it asked for is done all the same.
            pass

    def log_message(self, *_):
        pass


def literal_text(literal):
    """The text of a literal as wdq writes it."""
    text = str(literal)
    for character, escape in (("\\", "\\\\"), ('"', '\\"'), ("\n", "\\n"), ("\r", "\\r")):
        text = text.replace(character, escape)
    if literal.language:
        return f'"{text}"@{literal.language}'
    return f'"{text}"^^<{literal.datatype}>' if literal.datatype else f'"{text}"'


def main():
    parser = argparse.ArgumentParser(description=__doc__, formatter_class=argparse.RawDescriptionHelpFormatter)
    parser.add_argument("--port", type=int, default=0, help="the port; without it a free one")
    parser.add_argument("--rows", type=int, default=10**9, help="the most rows of an answer")
    words = parser.parse_args()
    if rdflib is None:
        sys.exit("sparql_endpoint.py: python3-rdflib is missing")
    server = http.server.ThreadingHTTPServer(("127.0.0.1", words.port), Handler)
    server.store, server.rows, server.lock = make_store(), words.rows, threading.Lock()
    print(f"http://127.0.0.1:{server.server_port}/", flush=True)
    server.serve_forever()


if __name__ == "__main__":
    main()
