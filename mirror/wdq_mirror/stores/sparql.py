"""A store that is reached by the SPARQL 1.1 protocol."""

import asyncio
import hashlib
import itertools
import json
import pathlib
import typing
import urllib.parse

import aiohttp

from ..errors import Unreachable, Usage
from ..home import Position
from ..settings import Settings
from ..terms import POINT_TYPE, Iri, Literal, Triple
from . import Lines, Marks, Row

NUMBER, DIGEST = "urn:wdq:applied", "urn:wdq:digest"
HOME, GRAPH, COUNTED = "urn:wdq:home", "urn:wdq:graph", "urn:wdq:counted"
GEOMETRY = "http://www.openlinksw.com/schemas/virtrdf#Geometry"
# Virtuoso's compiler refuses a block of 5,000 triples.
MOST_IN_BLOCK = 1000
# A file of a load has so many triples, which take about a second.
MOST_IN_FILE = 50_000
# How Virtuoso's loader of files reads N-Triples: all faults of Turtle that it forgives.
AS_LOADER = 255


async def parts_of(lines: Lines, most: int) -> Lines:
    """The same lines, so many at a time."""
    part: list[str] = []
    async for some in lines:
        part += some
        while len(part) >= most:
            yield part[:most]
            part = part[most:]
    if part:
        yield part


async def each(parts: Lines, most: int, work: typing.Callable[[list[str]], typing.Awaitable[None]]) -> None:
    """Does some work on each part, on so many at a time while the next one is made. The first failure ends all."""
    tasks: set[asyncio.Future[None]] = set()
    try:
        async for part in parts:
            if len(tasks) == most:
                await asyncio.wait(tasks, return_when=asyncio.FIRST_COMPLETED)
            for task in [task for task in tasks if task.done()]:
                task.result()
                tasks.remove(task)
            tasks.add(asyncio.ensure_future(work(part)))
        await asyncio.gather(*tasks)
    finally:
        for task in tasks:
            task.cancel()
        await asyncio.gather(*tasks, return_exceptions=True)


def file_of(lines: list[str]) -> bytes:
    """The file of these lines."""
    return "".join(line + "\n" for line in lines).encode()


def text_of_sql(text: typing.Any) -> str:
    """A text as SQL writes it."""
    return "'" + str(text).replace("'", "''") + "'"


def blocks(word: str, graph: str, lines: list[str]) -> typing.Iterator[str]:
    """Operations that insert or delete lines."""
    for start in range(0, len(lines), MOST_IN_BLOCK):
        yield f"{word} DATA {{ GRAPH <{graph}> {{\n" + "\n".join(lines[start : start + MOST_IN_BLOCK]) + "\n} }"


def mark_operations(stream: str, marks: Marks) -> list[str]:
    """Operations that set the marks. At each moment the greatest number is that of the last record applied."""
    number, digest = marks.position
    told = f'"{number} {digest}"'
    counted = "true" if marks.counted else "false"
    facts = f'<{stream}> <{HOME}> "{marks.home}" ; <{GRAPH}> <{marks.graph}> ; <{COUNTED}> "{counted}" .'
    pattern = f"GRAPH <{stream}> {{ <{stream}> ?name ?mark }}"
    is_old = f'?name IN (<{NUMBER}>, <{DIGEST}>) && STR(?mark) != "{number}" && STR(?mark) != {told}'
    return [
        f"INSERT DATA {{ GRAPH <{stream}> {{ <{stream}> <{DIGEST}> {told} ; <{NUMBER}> {number} . {facts} }} }}",
        f"DELETE {{ {pattern} }} WHERE {{ {pattern} FILTER ({is_old}) }}",
    ]


def triple_of(row: Row) -> Triple:
    """The triple of a row; ?text is the object's text, since some stores round the numbers that they print."""
    told, text = row["o"], row["text"]["value"]
    term: Iri | Literal
    if told["type"] == "uri":
        term = Iri(told["value"])
    else:
        datatype = told.get("datatype", "").replace(GEOMETRY, POINT_TYPE)
        term = Literal(text, told.get("xml:lang", ""), datatype)
    return Triple(Iri(row["s"]["value"]), Iri(row["p"]["value"]), term)


class SparqlStore:
    """The store at an endpoint."""

    def __init__(self, settings: Settings):
        self.settings, self.mirror, self.words = settings, settings.mirror, settings.store
        self.session: typing.Optional[aiohttp.ClientSession] = None

    def client(self) -> aiohttp.ClientSession:
        """The session, opened when it is first needed."""
        if self.session is None:
            timeout = aiohttp.ClientTimeout(total=self.words.timeout_seconds)
            self.session = aiohttp.ClientSession(timeout=timeout)
        return self.session

    async def post(self, url: str, body: bytes, kind: str, seconds: typing.Optional[int] = None) -> bytes:
        """Sends something to the store, and gives its answer."""
        headers = {"Content-Type": kind, "Accept": "application/sparql-results+json, */*;q=0.1"}
        limit = aiohttp.ClientTimeout(total=seconds or self.words.timeout_seconds)
        try:
            async with self.client().post(url, data=body, headers=headers, timeout=limit, **self.login(url)) as answer:
                said = await answer.read()
                if answer.status == 401 or answer.status == 403:
                    raise Usage(f"the store at {url} refuses the login ({answer.status}): set store.user and store.password_file")
                if answer.status >= 300:
                    raise Unreachable(self.explain(answer.status, said.decode(errors="replace")))
                return said
        except asyncio.TimeoutError:
            raise Unreachable(f"the store at {url} gave no answer in {limit.total:g} seconds: is it hung? store.timeout_seconds sets the limit") from None
        except (aiohttp.ClientError, OSError, ValueError) as fault:
            raise Unreachable(f"the store at {url} can't be reached: {fault}") from None

    def login(self, url: str) -> dict[str, typing.Any]:
        """How a request says who it is from."""
        if not self.words.user:
            return {}
        try:
            password = pathlib.Path(self.words.password_file).read_text(encoding="utf-8").strip()
        except OSError as error:
            raise Usage(f"store.password_file can't be read: {error}") from None
        return {"auth": aiohttp.BasicAuth(self.words.user, password)}

    def explain(self, status: int, said: str) -> str:
        """What an answer of failure means."""
        hint = ""
        if "SR186" in said or "SPARQL_UPDATE" in said:
            hint = "; allow updates: isql-vt 1111 dba PASSWORD 'EXEC=GRANT SPARQL_UPDATE TO \"SPARQL\";'"
        return f"the store answered {status}: {said[:300].strip()}{hint}"

    async def update(self, operations: list[str], seconds: typing.Optional[int] = None) -> None:
        """Sends an update."""
        await self.post(self.words.update, " ;\n".join(operations).encode(), "application/sparql-update", seconds=seconds)

    async def select(self, query: str) -> list[Row]:
        """The rows of a query, by POST, since an address has its limit; as a form, since Virtuoso never answers a query in the body."""
        body = urllib.parse.urlencode({"query": query}).encode()
        answer = await self.post(self.words.query or self.words.update, body, "application/x-www-form-urlencoded")
        try:
            value = json.loads(answer)
            if "boolean" in value:
                return [{"answer": {"type": "literal", "value": str(value["boolean"]).lower()}}]
            return value["results"]["bindings"]
        except (ValueError, LookupError, TypeError):
            raise Usage("the store doesn't answer a query in JSON: store.query takes the address of its queries") from None

    async def marks(self) -> typing.Optional[Marks]:
        """What the store says of itself."""
        stream = self.mirror.stream
        rows = await self.select(f"SELECT ?name ?mark WHERE {{ GRAPH <{stream}> {{ <{stream}> ?name ?mark }} }}")
        said: dict[str, list[str]] = {}
        for row in rows:
            said.setdefault(row["name"]["value"], []).append(row["mark"]["value"])
        if NUMBER not in said:
            return None
        number = max(map(int, said[NUMBER]))
        digests = dict(mark.split(" ", 1) for mark in said.get(DIGEST, []))
        home, graph, counted = (said.get(name, [""])[0] for name in (HOME, GRAPH, COUNTED))
        return Marks(Position(number, digests.get(str(number), "")), home, graph, counted == "true")

    async def apply(self, removes: list[str], adds: list[str], marks: Marks) -> None:
        """Sends one update, which removes, adds, and sets the marks."""
        graph = self.mirror.graph
        await self.update([*blocks("DELETE", graph, removes), *blocks("INSERT", graph, adds), *mark_operations(self.mirror.stream, marks)])

    async def count(self, predicate: str = "") -> int:
        """How many triples the graph has, perhaps only those of a predicate."""
        rows = await self.select(f"SELECT (COUNT(*) AS ?n) WHERE {{ GRAPH <{self.mirror.graph}> {{ ?s {predicate or '?p'} ?o }} }}")
        return int(rows[0]["n"]["value"])

    async def triples_of(self, subjects: list[str], predicates: list[str]) -> tuple[list[Triple], int]:
        """Triples of these subjects, perhaps only of these predicates, and how many there are: more than come where the store limits its rows."""
        names = " ".join(f"<{subject}>" for subject in subjects)
        pattern = f"VALUES ?s {{ {names} }} GRAPH <{self.mirror.graph}> {{ ?s ?p ?o }}"
        if predicates:
            pattern += f" VALUES ?p {{ {' '.join(f'<{predicate}>' for predicate in predicates)} }}"
        rows = await self.select(f"SELECT ?s ?p ?o (STR(?o) AS ?text) WHERE {{ {pattern} }}")
        counted = await self.select(f"SELECT (COUNT(*) AS ?n) WHERE {{ {pattern} }}")
        return [triple_of(row) for row in rows], int(counted[0]["n"]["value"])

    async def subjects_after(self, last: str, most: int) -> list[str]:
        """The next subjects in the order of their texts."""
        where = f'GRAPH <{self.mirror.graph}> {{ ?s ?p ?o }} FILTER (STR(?s) > "{last}")'
        rows = await self.select(f"SELECT DISTINCT ?s WHERE {{ {where} }} ORDER BY STR(?s) LIMIT {most}")
        return [row["s"]["value"] for row in rows]

    # --- A whole load ---

    async def load(self, lines: Lines, marks: Marks) -> None:
        """Clears both graphs, loads, and sets the marks last: a store without marks isn't whole."""
        mirror, hour = self.mirror, 3600
        await self.update([f"CLEAR SILENT GRAPH <{mirror.stream}>"], hour)
        await self.update([f"CLEAR SILENT GRAPH <{mirror.graph}>"], hour)
        load = {"virtuoso": self.load_by_isql, "graph-store": self.load_by_graph_store, "updates": self.load_by_updates}
        await load[self.words.loader](lines)
        await self.update(mark_operations(mirror.stream, marks))

    async def load_by_updates(self, lines: Lines) -> None:
        """Sends INSERT DATA, several at a time."""

        async def send(part: list[str]) -> None:
            await self.update(list(blocks("INSERT", self.mirror.graph, part)))

        await each(parts_of(lines, MOST_IN_BLOCK), self.words.loads_at_once, send)

    async def load_by_graph_store(self, lines: Lines) -> None:
        """Adds parts to the graph (SPARQL 1.1 Graph Store HTTP Protocol)."""
        mark = "&" if "?" in self.words.graph_store else "?"
        url = f"{self.words.graph_store}{mark}graph={urllib.parse.quote(self.mirror.graph, safe='')}"

        async def send(part: list[str]) -> None:
            await self.post(url, file_of(part), "application/n-triples", seconds=3600)

        await each(parts_of(lines, MOST_IN_FILE), 1, send)

    async def load_by_isql(self, lines: Lines) -> None:
        """Gives parts to Virtuoso's own loader, by SQL, several at a time and without its log; then it writes all to the disk."""
        folder, name = pathlib.Path(self.words.load_folder), f"wdq-{hashlib.sha256(self.mirror.graph.encode()).hexdigest()[:16]}"
        numbers = itertools.count(1)

        async def send(part: list[str]) -> None:
            path = folder / f"{name}-{next(numbers):06}.nt"
            try:
                await asyncio.to_thread(path.write_bytes, file_of(part))
                path.chmod(0o644)
                await self.isql(f"log_enable(2, 1); DB.DBA.TTLP(file_open({text_of_sql(path)}), '', {text_of_sql(self.mirror.graph)}, {AS_LOADER});")
            except OSError as error:
                raise Unreachable(f"{path} can't be written: {error.strerror}: make room, or see to it that wdq-mirror may write there") from None
            finally:
                path.unlink(missing_ok=True)

        for path in folder.glob(f"{name}-*.nt"):
            # A load that was killed left it.
            path.unlink()
        await each(parts_of(lines, MOST_IN_FILE), self.words.loads_at_once, send)
        await self.isql("checkpoint;")

    async def isql(self, statements: str) -> str:
        """Runs SQL."""
        words = self.words.isql.split()
        try:
            child = await asyncio.create_subprocess_exec(
                *words, f"EXEC={statements}", stdout=asyncio.subprocess.PIPE, stderr=asyncio.subprocess.STDOUT
            )
        except OSError as error:
            raise Usage(f"store.isql, {words[0]}, doesn't run: {error.strerror}") from None
        try:
            said = (await child.communicate())[0].decode(errors="replace")
        finally:
            if child.returncode is None:
                child.kill()
        if child.returncode or "*** Error" in said:
            hint = "; name store.load_folder in DirsAllowed of virtuoso.ini, and start Virtuoso again" if "access control in ini file" in said else ""
            told = " ".join(said[max(0, said.find("*** Error")) :].split())
            raise Unreachable(f"{words[0]} failed: {told[:300]}{hint}")
        return said

    async def close(self) -> None:
        """Closes the session."""
        if self.session:
            await self.session.close()
