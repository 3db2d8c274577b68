"""The commands of wdq-mirror."""

import argparse
import asyncio
import importlib.util
import os
import pathlib
import sqlite3
import sys
import typing

from . import __version__, settings as settings_of
from .articles import SPELLINGS
from .errors import STATUSES, MirrorError, Unreachable, Usage
from .event_lines import moment

BEGIN = """
To begin (the home is the folder wikidata, or that of --home, or of $WDQ_MIRROR):

    wdq-mirror init --agent "mirror/1.0 (jane@example.org)"
    wdq-mirror load --began 2024-05-01T00:00:00Z latest-all.json.gz
    wdq-mirror run --http 127.0.0.1:9464

`init` writes mirror.toml, which has all settings. Each command takes them from there.
"""
NEEDED = {"aiohttp": "python3-aiohttp"}


def need(*names: str) -> None:
    """Refuses to go on without these packages."""
    missing = [package for name, package in NEEDED.items() if name in names and importlib.util.find_spec(name) is None]
    if missing:
        raise Usage(f"{', '.join(missing)} isn't installed for {sys.executable}: apt-get install {' '.join(missing)}, and run it by /usr/bin/python3")


def agent_of(words: argparse.Namespace) -> settings_of.Settings:
    """The settings that the words of `init` give."""
    found = settings_of.Settings()
    found.wiki.agent = words.agent or ""
    if words.agent:
        settings_of.check_agent(found)
    if words.store and words.store != "embedded":
        found.store.kind, found.store.update = "sparql", words.store
    found.mirror.counts = words.counts
    for section, name in (("mirror", "graph"), ("mirror", "stream"), ("mirror", "shard"), ("mirror", "articles"), ("wiki", "site"), ("program", "path")):
        value = getattr(words, name)
        if value:
            setattr(getattr(found, section), name, value)
    if words.stream_url:
        found.wiki.stream = words.stream_url
    return found


def command_init(words: argparse.Namespace) -> int:
    """Makes a home."""
    from . import home

    home.make(words.home, agent_of(words))
    print(f"made {words.home}; its settings are in {words.home / settings_of.FILE}. Next: wdq-mirror load --began TIME DUMP")
    if not words.agent:
        print(f"before wdq-mirror run or step, set wiki.agent in {settings_of.FILE}: the wiki demands to know who asks")
    return 0


def command_explain(words: argparse.Namespace) -> int:
    """Names refused lines."""
    from .explaining import explain

    try:
        file = open(words.events, "rb") if words.events else sys.stdin.buffer
    except OSError as error:
        raise Usage(f"{words.events} can't be read: {error.strerror}") from None
    return 0 if explain(file) else 1


class Session:
    """An open home with all that a command works with; closed at the end."""

    def __init__(self, words: argparse.Namespace, is_locked: bool = True):
        need("aiohttp")
        from .home import Home

        self.home = Home(words.home)
        if words.command not in ("load", "status"):
            self.home.last_era()
        if is_locked:
            self.home.lock()
            self.home.note_lost_events()

    async def __aenter__(self) -> typing.Any:
        from .program import Program
        from .stepping import Tools
        from .stores import open_store

        self.program = Program(self.home.settings)
        self.store = open_store(self.home)
        self.wiki: typing.Any = None
        self.tools_class = Tools
        return self

    def tools(self) -> typing.Any:
        """The tools of a step, with the wiki."""
        from .wiki import Wiki

        self.wiki = Wiki(self.home.settings)
        return self.tools_class(self.home, self.program, self.store, self.wiki)

    async def __aexit__(self, *_: object) -> None:
        if self.wiki:
            await self.wiki.close()
        await self.store.close()
        self.home.close()


async def command_load(words: argparse.Namespace) -> int:
    """Loads a dump into the home, and the home into the store."""
    from . import loading

    async with Session(words) as session:
        home = session.home
        await loading.check_target(home, session.store, words.clear)
        print("loaded into the home:", await loading.load_dump(home, session.program, words.dump, words.began or "", words.skip_bad_lines))
        written = await loading.fill(home, session.program, session.store, words.clear)
        print(f"the store has {written} triples. Next: wdq-mirror run, or wdq-mirror step from cron")
    return 0


async def command_reload(words: argparse.Namespace) -> int:
    """Fills the store anew."""
    from . import loading

    async with Session(words) as session:
        written = await loading.fill(session.home, session.program, session.store, words.clear)
        era = session.home.last_era()
        print(f"the store has {written} triples, as of record {era.position.number} ({era.mark})")
    return 0


async def command_step(words: argparse.Namespace) -> int:
    """Takes a batch."""
    from . import stepping

    async with Session(words) as session:
        before = session.home.last_era().position.number
        limits = stepping.Limits(words.seconds, words.events, words.idle)
        era = await stepping.step(session.tools(), words.batch, limits)
        count = era.position.number - before
        print(f"era {era.number}: {count} new records{f', up to {era.position.number}' if count else ''}; applied up to {era.mark or 'no watermark yet'}")
    return 0


async def command_update(words: argparse.Namespace) -> int:
    """Sends what the store lacks."""
    from . import sending

    async with Session(words) as session:
        before, after = await sending.update(session.home, session.store)
        print(f"the store was at record {before}, and is at record {after}")
    return 0


async def command_verify(words: argparse.Namespace) -> int:
    """Compares the store with the home."""
    from . import verifying

    async with Session(words) as session:
        found = await verifying.verify(session.home, session.program, session.store)
        by_value = session.home.settings.mirror.counts
        for line in verifying.lines_of("only in the home:", found.missing.values()) + verifying.lines_of("only in the store:", found.surplus.values()):
            print(line)
        told = f"{found.compared} triples compared: {len(found.missing)} are missing in the store, {len(found.surplus) + found.unseen} are too much"
        if found.is_equal or not words.mend:
            print(told + ("" if found.is_equal else "; verify --mend mends this, or wdq-mirror reload"))
            return 0 if found.is_equal else 1
        await verifying.mend(session.store, found, by_value)
        print(told)
        is_equal = (await verifying.verify(session.home, session.program, session.store)).is_equal
        print("mended; the store has what the home has" if is_equal else "some differences stay: run wdq-mirror reload")
    return 0 if is_equal else 1


async def command_heal(words: argparse.Namespace) -> int:
    """Heals gaps."""
    from . import sending, stepping

    if bool(words.since) != bool(words.until):
        raise Usage("--since and --until go together: between these times the wiki is asked what changed")
    if bool(words.dump) != bool(words.began):
        raise Usage("--dump and --began go together: gaps that ended before the dump was begun are healed by it")
    async with Session(words) as session:
        home = session.home
        if words.since:
            home.add_gap(words.since, words.until)
        gaps = home.gaps()
        tools = session.tools()
        await stepping.prepare(tools)
        newer = 0
        if words.dump:
            newer, asked = await stepping.heal_by_dump(tools, words.dump, words.began)
        else:
            asked = await (stepping.heal_all(tools) if words.all else stepping.heal(tools))
        await sending.update(home, session.store)
        if not (gaps or words.all or words.dump):
            print("the stream has no gap: there is nothing to heal")
            return 0
        healed = [gap for gap in gaps if gap not in home.gaps()]
        spans = ", ".join(f"{gap.began} to {gap.ended}" for gap in healed)
        told = f"; entities that are newer in the dump: {newer}" if words.dump else ""
        print(f"gaps healed: {len(healed)}{f' ({spans})' if spans else ''}; entities asked for: {asked}{told}")
        if home.gaps():
            print(f"gaps left: {len(home.gaps())}, the first from {home.gaps()[0].began} to {home.gaps()[0].ended}")
    return 0


async def command_status(words: argparse.Namespace) -> int:
    """Says how the mirror stands."""
    from .reporting import report

    async with Session(words, is_locked=False) as session:
        return await report(session.home, session.store)


async def command_ask(words: argparse.Namespace) -> int:
    """Answers questions."""
    from . import asking

    async with Session(words, is_locked=False) as session:
        if words.sparql:
            await asking.ask_store(session.store, words.sparql)
        elif words.terms:
            if len(words.terms) != 3:
                raise Usage("a question has three terms, subject, predicate and object, and ? stands for any: wdq-mirror ask '<http://..>' '?' '?'")
            await asking.ask_snapshot(session.home, session.program, [asking.question_of(words.terms)])
        else:
            await asking.ask_snapshot(session.home, session.program, sys.stdin.buffer)
    return 0


async def command_run(words: argparse.Namespace) -> int:
    """Runs the live service."""
    from .service import Service

    async with Session(words) as session:
        await Service(session.tools(), words.http).run()
    return 0


def command_backup(words: argparse.Namespace) -> int:
    """Writes a backup."""
    from . import backups
    from .home import Home

    home = Home(words.home)
    home.lock()
    size = backups.write(home, words.file)
    print(f"{words.file} has the home after era {home.last_era().number}, {size} bytes")
    home.close()
    return 0


def command_restore(words: argparse.Namespace) -> int:
    """Makes a home of a backup."""
    from . import backups

    home = backups.restore(words.home, words.file)
    print(f"{words.home} is after era {home.last_era().number} ({home.last_era().mark}). Next: wdq-mirror reload, which brings the store to the same place")
    home.close()
    return 0


# --- The words ---


def add_init(parser: argparse.ArgumentParser) -> None:
    """The words of init."""
    parser.add_argument("--agent", metavar="TEXT", help='who asks the wiki, as "mirror/1.0 (jane@example.org)"')
    parser.add_argument("--store", metavar="URL", help="a SPARQL endpoint that takes updates; without it, a store in the home")
    parser.add_argument("--counts", action="store_true", help="count values, for stores that spell them their own way, as Virtuoso")
    parser.add_argument("--graph", metavar="IRI", help="the graph of the triples")
    parser.add_argument("--stream", metavar="IRI", help="where the store keeps the mirror's number")
    parser.add_argument("--articles", choices=SPELLINGS, help="how articles' IRIs are spelled: as wdq does, or as the Wikidata Query Service")
    parser.add_argument("--shard", metavar="K/N", help="only the entities whose number is K modulo N")
    parser.add_argument("--site", metavar="URL", help="the wiki")
    parser.add_argument("--stream-url", metavar="URL", help="the wiki's stream of page changes")
    parser.add_argument("--path", metavar="FILE", help="the program wdq")


def add_words(commands: typing.Any) -> None:
    """All commands with their words."""

    def add(name: str, work: typing.Callable[..., typing.Any], text: str) -> argparse.ArgumentParser:
        parser = commands.add_parser(name, help=text, description=text[0].upper() + text[1:] + ".")
        parser.set_defaults(work=work)
        return parser

    add_init(add("init", command_init, "make the home of a mirror, with its settings"))
    load = add("load", command_load, "load a JSON dump of Wikidata (plain, .gz or .bz2) into the home and the store")
    load.add_argument("dump", metavar="DUMP", help="the dump; - is standard input")
    load.add_argument("--began", type=moment, metavar="TIME", help="when the dump was begun: the mirror follows the wiki from then on")
    load.add_argument("--skip-bad-lines", action="store_true", help="leave out lines that are no entities")
    load.add_argument("--clear", action="store_true", help="clear a store that something else filled")
    reload = add("reload", command_reload, "fill the store again from the home: where it is lost, older than the home, or wrong")
    reload.add_argument("--clear", action="store_true", help="clear a store that something else filled")
    run = add("run", command_run, "keep the store in step with the wiki until it is stopped by SIGTERM or Ctrl-C")
    run.add_argument("--http", metavar="HOST:PORT", help="serve a page and /metrics there")
    step = add("step", command_step, "take one batch: of the stream up to now, or of an event file")
    step.add_argument("batch", type=pathlib.Path, nargs="?", metavar="EVENTS", help="an event file; without it, the wiki's stream")
    step.add_argument("--seconds", type=float, default=60.0, metavar="N", help="read the stream for at most N seconds (60)")
    step.add_argument("--events", type=int, default=10_000, metavar="N", help="or for N events (10000)")
    step.add_argument("--idle", type=float, default=3.0, metavar="N", help="or until nothing has come for N seconds (3)")
    add("update", command_update, "send the records that the store lacks")
    verify = add("verify", command_verify, "compare the store with the home, triple by triple")
    verify.add_argument("--mend", action="store_true", help="mend the store where it differs")
    heal = add("heal", command_heal, "mend gaps of the stream: by what the wiki says that changed in them, or by a newer dump")
    heal.add_argument("--since", type=moment, metavar="TIME", help="mend this stretch of time too, as if it were a gap")
    heal.add_argument("--until", type=moment, metavar="TIME", help="its end")
    heal.add_argument("--all", action="store_true", help="ask the wiki for each entity that the home holds, which also finds deletions that were lost at any time")
    heal.add_argument("--dump", metavar="DUMP", help="mend gaps by a newer dump, where the wiki has forgotten what changed")
    heal.add_argument("--began", type=moment, metavar="TIME", help="when this dump was begun")
    add("status", command_status, "show how far the mirror is, and what is wrong")
    ask = add("ask", command_ask, "ask the home (three terms, or lines of JSON on standard input) or the store (--sparql)")
    ask.add_argument("terms", nargs="*", metavar="TERM", help="subject, predicate and object: each ? or a term, as <http://www.wikidata.org/entity/Q42>")
    ask.add_argument("--sparql", metavar="QUERY", help="a question in SPARQL to the store")
    explain = add("explain", command_explain, "name the lines of an event file that wdq would refuse, and what mends them")
    explain.add_argument("events", nargs="?", metavar="EVENTS", help="the event file; without it, standard input")
    backup = add("backup", command_backup, "write a backup of the home")
    backup.add_argument("file", type=pathlib.Path, metavar="FILE", help="the file, as mirror.tar.gz")
    restore = add("restore", command_restore, "make a home of a backup")
    restore.add_argument("file", type=pathlib.Path, metavar="FILE", help="the backup")


def make_parser() -> argparse.ArgumentParser:
    """The parser of all words."""
    statuses = "\n".join(f"    {status:<4} {meaning}" for status, meaning in STATUSES.items())
    parser = argparse.ArgumentParser(
        prog="wdq-mirror",
        description=(sys.modules[__package__ or "wdq_mirror"].__doc__ or "") + "\n" + BEGIN,
        epilog=f"exit statuses:\n{statuses}",
        formatter_class=argparse.RawDescriptionHelpFormatter,
    )
    parser.add_argument("--home", type=pathlib.Path, default=pathlib.Path(os.environ.get("WDQ_MIRROR", "wikidata")), metavar="FOLDER", help="the folder of the mirror (wikidata)")
    parser.add_argument("--version", action="version", version=__version__)
    add_words(parser.add_subparsers(metavar="COMMAND", required=True, dest="command"))
    return parser


def run(words: argparse.Namespace) -> int:
    """Runs a command to its end."""
    if asyncio.iscoroutinefunction(words.work):
        return asyncio.run(words.work(words))
    return words.work(words)


def main(arguments: typing.Optional[list[str]] = None) -> int:
    """Runs a command, and says why it failed."""
    parser = make_parser()
    if not (sys.argv[1:] if arguments is None else arguments):
        parser.print_help()
        return 2
    words = parser.parse_args(arguments)
    try:
        return run(words)
    except MirrorError as error:
        reason = error
    except BrokenPipeError:
        # The reader of standard output went away, as head does.
        os.dup2(os.open(os.devnull, os.O_WRONLY), sys.stdout.fileno())
        return 0
    except (OSError, sqlite3.Error) as error:
        reason = Unreachable(f"{error}: make room if a disk is full, and run the command again")
    except KeyboardInterrupt:
        return 130
    print(f"wdq-mirror: {reason}", file=sys.stderr)
    return reason.status
