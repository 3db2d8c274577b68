"""The settings of a mirror: one TOML file in its home."""

import dataclasses
import difflib
import json
import pathlib
import re
import tomllib
import typing

from .articles import SPELLINGS, Articles
from .errors import Usage

FILE = "mirror.toml"
NO_IRI = re.compile(r'[\x00-\x20<>"{}|^`\\]')
KINDS = ("embedded", "sparql")
TYPES = {bool: "true or false", int: "a whole number", float: "a number", str: "a text in quotes"}
LOADERS = ("updates", "graph-store", "virtuoso")
# Settings of older homes that mean nothing any more.
FORMER = ("era_minutes", "era_events", "doubt_minutes")


def about(default: typing.Any, text: str) -> typing.Any:
    """A field with its default and what `init` writes above it."""
    return dataclasses.field(default=default, metadata={"about": text})


@dataclasses.dataclass
class Mirror:
    """What the mirror holds. A home keeps these for good: it refuses others later on."""

    stream: str = about("urn:wdq:stream", "the IRI under which the store keeps the number of the last record; another one for each shard")
    graph: str = about("urn:wdq:triples", "the graph of the triples; another one for each shard")
    counts: bool = about(False, "count the triples of each value: needed by stores that spell numbers or points their own way, as Virtuoso")
    articles: str = about("wdq", "how articles' IRIs are spelled: wdq (Berlin_%28city%29), or service, as the Wikidata Query Service has them (Berlin_(city))")
    horizon_hours: int = about(24, "how many hours wdq remembers events, to know repeats")
    shard: str = about("0/1", "K/N: only the entities whose number is K modulo N")


@dataclasses.dataclass
class Store:
    """Where the triples go."""

    kind: str = about("embedded", "embedded (an SQLite file in the home, asked by rdflib) or sparql (an endpoint)")
    update: str = about("", "sparql: the address that takes updates, as http://127.0.0.1:8890/sparql")
    query: str = about("", "sparql: the address that takes queries; without it that of updates")
    user: str = about("", "sparql: the user, where the store asks for one")
    password_file: str = about("", "sparql: the file of the user's password")
    loader: str = about("updates", "how a whole load goes in: updates, graph-store (SPARQL 1.1 Graph Store Protocol) or virtuoso (its own loader, by isql)")
    loads_at_once: int = about(2, "updates and virtuoso: how many parts of a load the store takes at a time")
    graph_store: str = about("", "graph-store: its address")
    isql: str = about("isql-vt 1111 dba dba", "virtuoso: the command that takes SQL, with the user and the password")
    load_folder: str = about("", "virtuoso: a folder that DirsAllowed in virtuoso.ini names, and into which wdq-mirror may write")
    timeout_seconds: int = about(60, "how many seconds one answer of the store may take")
    batch_records: int = about(500, "an update has at most so many records")
    batch_triples: int = about(5000, "and is sent once it has so many changes")
    batch_milliseconds: int = about(200, "or once its first record has waited so long")


@dataclasses.dataclass
class Wiki:
    """Whom the mirror follows."""

    name: str = about("wikidatawiki", "the wiki's name in the stream")
    site: str = about("https://www.wikidata.org", "the wiki")
    stream: str = about("https://stream.wikimedia.org/v2/stream/mediawiki.page_change.v1", "its stream of page changes")
    agent: str = about("", 'who asks, as "mirror/1.0 (jane@example.org)"')
    delay_seconds: int = about(10, "how many seconds the watermark stays behind the stream; an event that comes later than that is late, and the wiki is asked about it")
    history_days: int = about(30, "how many days the wiki remembers its changes, to heal gaps; 0: for ever")
    silence_seconds: int = about(10, "where the stream has no offsets, and at the first connection, passing over more than so many seconds of it is a gap")
    late_seconds: int = about(600, "gaps are healed from so many seconds before they began to so many after they ended, since a gap may hide late events")
    fetches: int = about(4, "how many pages are fetched at a time")
    tries: int = about(6, "how often a request is made where the wiki is busy")
    pause_seconds: float = about(1.0, "how many seconds pass before it is made again; they double each time")


@dataclasses.dataclass
class Program:
    """The program wdq."""

    path: str = about("", "the program wdq; without it that of the checkout or of the package, else wdq on PATH")
    max_terms: int = about(20_000_000, "the most distinct terms that the store may have")
    save_watermarks: int = about(3000, "`run` saves wdq's state after so many watermarks, of which there are at most five a second")
    keep_eras: int = about(100, "how many eras of pages, events and records are kept; 0 keeps all")


@dataclasses.dataclass
class Settings:
    """All settings."""

    mirror: Mirror = dataclasses.field(default_factory=Mirror)
    store: Store = dataclasses.field(default_factory=Store)
    wiki: Wiki = dataclasses.field(default_factory=Wiki)
    program: Program = dataclasses.field(default_factory=Program)

    @property
    def horizon(self) -> int:
        """The horizon in microseconds."""
        return self.mirror.horizon_hours * 3_600_000_000

    @property
    def shard(self) -> tuple[int, int]:
        """The part and the number of parts."""
        part, parts = self.mirror.shard.split("/")
        return int(part), int(parts)

    @property
    def articles(self) -> Articles:
        """The spelling of articles."""
        return Articles(self.mirror.articles)

    def has(self, entity: str) -> bool:
        """Whether an entity belongs to this shard."""
        part, parts = self.shard
        return int(entity[1:]) % parts == part


def shown(value: typing.Any) -> str:
    """A value as the file has it."""
    return json.dumps(value, ensure_ascii=False, default=str)


def near(word: str, words: typing.Iterable[str]) -> str:
    """A hint at the word that was most likely meant."""
    found = difflib.get_close_matches(word, list(words), 1)
    return f"; did you mean {found[0]}?" if found else ""


def read_section(name: str, section: typing.Any, values: typing.Any) -> None:
    """Fills in a section from what the file has."""
    if not isinstance(values, dict):
        raise Usage(f"{name} in {FILE} is not a section: write [{name}]")
    fields = {field.name: field for field in dataclasses.fields(section)}
    for key, value in values.items():
        if name == "program" and key in FORMER:
            continue
        if key not in fields:
            raise Usage(f"{FILE} has {name}.{key}, which is not a setting{near(key, fields)}")
        wanted = type(fields[key].default)
        if wanted is float and type(value) is int:
            value = float(value)
        if type(value) is not wanted:
            raise Usage(f"{name}.{key} in {FILE} is {shown(value)}, and should be {TYPES[wanted]}, as {shown(fields[key].default)}")
        setattr(section, key, value)


def check(settings: Settings) -> None:
    """Refuses values that no command could use."""
    mirror, store = settings.mirror, settings.store
    for name in ("stream", "graph"):
        iri = getattr(mirror, name)
        if not iri or NO_IRI.search(iri):
            raise Usage(f"mirror.{name} is {iri!r}, and should be an IRI without angle brackets, as urn:wdq:{name}")
    if mirror.stream == mirror.graph:
        raise Usage("mirror.stream and mirror.graph are the same IRI: give each its own")
    match = re.fullmatch(r"(\d{1,9})/(\d{1,9})", mirror.shard)
    if not match or int(match[1]) >= int(match[2]):
        raise Usage(f"mirror.shard is {mirror.shard!r}, and should be K/N with K from 0 to N - 1")
    if mirror.articles not in SPELLINGS:
        raise Usage(f"mirror.articles is {mirror.articles!r}, and should be one of {', '.join(SPELLINGS)}{near(mirror.articles, SPELLINGS)}")
    if store.kind not in KINDS:
        raise Usage(f"store.kind is {store.kind!r}, and should be one of {', '.join(KINDS)}{near(store.kind, KINDS)}")
    if store.loader not in LOADERS:
        raise Usage(f"store.loader is {store.loader!r}, and should be one of {', '.join(LOADERS)}{near(store.loader, LOADERS)}")
    if store.kind == "sparql" and not re.match("https?://", store.update):
        raise Usage(f"store.update is {store.update!r}, and should be an address, as http://127.0.0.1:8890/sparql")
    if store.loader == "graph-store" and not store.graph_store:
        raise Usage("store.loader is graph-store, so store.graph_store needs an address")
    if store.loader == "virtuoso" and not store.load_folder:
        raise Usage("store.loader is virtuoso, so store.load_folder needs a folder that the store's DirsAllowed names")
    for section in (store, settings.wiki, settings.program):
        for field in dataclasses.fields(section):
            least = 0 if field.name in ("keep_eras", "history_days", "delay_seconds", "pause_seconds", "silence_seconds") else 1
            value = getattr(section, field.name)
            if type(value) in (int, float) and value < least:
                raise Usage(f"{field.name} is {value}, and should be at least {least}")
    if mirror.horizon_hours < 1:
        raise Usage(f"mirror.horizon_hours is {mirror.horizon_hours}, and should be at least 1")


def check_agent(settings: Settings) -> None:
    """Refuses a user agent that names nobody, before the wiki is asked."""
    agent = settings.wiki.agent
    if not re.search(r"[^\s@(]@[^\s@)]|https?://", agent) or not (agent.isascii() and agent.isprintable()):
        raise Usage(f'wiki.agent is {agent!r} and names nobody, as the wiki demands: write it as "mirror/1.0 (jane@example.org)"')


def parse(text: str) -> Settings:
    """Reads settings."""
    try:
        values = tomllib.loads(text)
    except tomllib.TOMLDecodeError as error:
        raise Usage(f"{FILE} isn't valid TOML: {error}") from None
    settings = Settings()
    sections = {field.name: getattr(settings, field.name) for field in dataclasses.fields(settings)}
    for name, section in values.items():
        if name not in sections:
            raise Usage(f"{FILE} has the section [{name}], which isn't known{near(name, sections)}")
        read_section(name, sections[name], section)
    check(settings)
    return settings


def read(home: pathlib.Path) -> Settings:
    """Reads the settings of a home."""
    try:
        return parse((home / FILE).read_text(encoding="utf-8"))
    except FileNotFoundError:
        raise Usage(f"{home} isn't the home of a mirror, since {home / FILE} isn't there: wdq-mirror init makes one") from None
    except (OSError, UnicodeDecodeError) as error:
        raise Usage(f"{home / FILE} can't be read: {error}") from None


def write(settings: Settings) -> str:
    """The text of a settings file, with what each setting means."""
    text = "# The settings of a mirror. Those of [mirror] stay as they are once it is loaded.\n"
    for part in dataclasses.fields(settings):
        section = getattr(settings, part.name)
        text += f"\n[{part.name}]\n"
        for field in dataclasses.fields(section):
            text += f"# {field.metadata['about']}\n{field.name} = {shown(getattr(section, field.name))}\n"
    return text
