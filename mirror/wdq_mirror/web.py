"""The page of the service, and what Prometheus reads. It works without a script, and is served on the loopback address."""

import contextlib
import html
import re
import time
import typing

from aiohttp import web

from .errors import Usage
from .figures import COUNTERS, Figures
from .home import Home
from .outbox import say
from .reporting import cause_of
from .wiki import title

SHOWN = 50
STYLE = """
body { font: 16px/1.5 system-ui, sans-serif; margin: 1rem auto; max-width: 60rem; padding: 0 1rem; color: #1b1b1b; background: #fff }
h1 { font-size: 1.4rem; overflow-wrap: anywhere } h2 { font-size: 1.1rem; margin-top: 2rem } a { color: #0b57d0 }
table { border-collapse: collapse; width: 100% } td, th { text-align: left; padding: .2rem .6rem .2rem 0; border-bottom: 1px solid #ddd }
tbody th { font-weight: normal } .number { text-align: right; font-variant-numeric: tabular-nums; white-space: nowrap } .iri { overflow-wrap: anywhere }
.bad { background: #fde7e7; padding: .5rem .8rem; border-left: 4px solid #b00020 }
.plot { border-left: 1px solid #888; border-bottom: 1px solid #888; display: block; height: 9rem; width: 100% }
.axis { display: flex; justify-content: space-between; font-size: .85rem; color: #444 }
"""
ENTITY = re.compile(r"http://www\.wikidata\.org/entity/(?:statement/)?([QPL][0-9]+)\b")
UNITS = ((86_400, "d"), (3600, "h"), (60, "min"))


def span(seconds: float) -> str:
    """A stretch of time in the greatest unit that it has two of."""
    for size, unit in UNITS:
        if seconds >= 2 * size:
            return f"{seconds / size:.0f} {unit}"
    return f"{seconds:.0f} s" if seconds >= 10 else f"{seconds:.1f} s"


def plot(lags: typing.Sequence[tuple[float, float]]) -> str:
    """The lag of the watermark over time, as a line."""
    if len(lags) < 2:
        return "<p>The plot begins with the second watermark.</p>"
    first, last = lags[0][0], lags[-1][0]
    greatest = max(max(lag for _, lag in lags), 1.0)
    points = " ".join(f"{1000 * (at - first) / max(last - first, 1e-9):.1f},{100 - 96 * lag / greatest:.1f}" for at, lag in lags)
    return (
        f'<div class="axis"><span>{span(greatest)}</span></div>'
        f'<svg class="plot" viewBox="0 0 1000 100" preserveAspectRatio="none" role="img" aria-label="lag of the watermark, at most {span(greatest)}">'
        f'<polyline fill="none" stroke="#0b57d0" stroke-width="2" vector-effect="non-scaling-stroke" points="{points}"/></svg>'
        f'<div class="axis"><span>{span(last - first)} ago</span><span>now</span></div>'
    )


def warnings(home: Home, figures: Figures) -> str:
    """What needs a look."""
    told = [f"The stream lost what changed from {gap.began} to {gap.ended}. The watermark waits until the wiki says what that was." for gap in home.gaps()]
    if not figures.gauges["store_up"]:
        told.append("The store doesn't answer; records wait for it.")
    if not figures.gauges["stream_up"]:
        told.append("The stream isn't connected.")
    return "".join(f'<p class="bad">{html.escape(text)}</p>' for text in told)


def link(home: Home, entity: str) -> str:
    """A link to the page of an entity."""
    return f'<a href="{html.escape(home.settings.wiki.site, quote=True)}/wiki/{title(entity)}">{entity}</a>'


def subject(home: Home, iri: str) -> str:
    """What a record is about: its entity, or the IRI."""
    found = ENTITY.match(iri)
    return link(home, found[1]) if found else html.escape(iri)


def counted(figures: Figures, seconds: float) -> str:
    """The table of what was counted."""
    rows = "".join(
        f'<tr><th scope="row">{html.escape(told)}</th><td class="number">{figures.counters[name]:,}</td>'
        f'<td class="number">{figures.counters[name] / seconds:.2f}</td></tr>'
        for name, told in COUNTERS.items()
    )
    return f'<table><thead><tr><th>What</th><th class="number">Number</th><th class="number">A second</th></tr></thead><tbody>{rows}</tbody></table>'


def doubtful(home: Home, figures: Figures) -> str:
    """The table of the entities in doubt."""
    if not figures.doubts:
        return "<p>None.</p>"
    rows = "".join(
        f'<tr><td>{link(home, entity)}</td><td class="number">{revision}</td><td>{html.escape(cause_of(cause))}</td></tr>'
        for entity, cause, revision in figures.doubts[:SHOWN]
    )
    rest = f"<p>And {len(figures.doubts) - SHOWN} more.</p>" if len(figures.doubts) > SHOWN else ""
    return f'<table><thead><tr><th>Entity</th><th class="number">Revision</th><th>Why</th></tr></thead><tbody>{rows}</tbody></table>{rest}'


def changed(home: Home, figures: Figures) -> str:
    """The table of the last records."""
    if not figures.changes:
        return "<p>None yet.</p>"
    rows = "".join(
        f'<tr><td class="number">{change.number}</td><td class="number">+{change.adds} &minus;{change.removes}</td>'
        f'<td class="iri">{subject(home, change.subject)}</td></tr>'
        for change in figures.changes
    )
    return f'<table><thead><tr><th class="number">Record</th><th class="number">Triples</th><th>About</th></tr></thead><tbody>{rows}</tbody></table>'


def page(home: Home, figures: Figures) -> str:
    """The page."""
    gauges, now = figures.gauges, time.time()
    mark = time.strftime("%Y-%m-%dT%H:%M:%SZ", time.gmtime(gauges["mark"])) if gauges["mark"] else ""
    told = f"Up to <strong>{mark}</strong>, {span(max(0.0, now - gauges['mark']))} ago" if mark else "No watermark yet"
    seconds = max(now - figures.begun, 1e-9)
    return f"""<!DOCTYPE html>
<html lang="en"><head><meta charset="utf-8"><meta name="viewport" content="width=device-width, initial-scale=1">
<meta http-equiv="refresh" content="10"><title>Mirror {html.escape(home.settings.mirror.graph)}</title><style>{STYLE}</style></head><body>
<h1>Mirror of {html.escape(home.settings.wiki.name)} in {html.escape(home.settings.mirror.graph)}</h1>
{warnings(home, figures)}
<p>{told}. The store is at record {gauges["stored_record"]:.0f} of {gauges["record"]:.0f}; {gauges["queue"]:.0f} records wait for it,
and {gauges["fetching"]:.0f} pages are being fetched. {gauges["era"]:.0f} eras are closed.</p>
<h2>How far the watermark is behind</h2>{plot(list(figures.lags))}
<h2>Since the start, {span(seconds)} ago</h2>{counted(figures, seconds)}
<h2>Entities in doubt when wdq last saved: {gauges["in_doubt"]:.0f}</h2>{doubtful(home, figures)}
<h2>The last records</h2>{changed(home, figures)}
</body></html>
"""


@contextlib.asynccontextmanager
async def serve(home: Home, figures: Figures, address: str) -> typing.AsyncIterator[None]:
    """Serves the page and the figures."""
    host, _, port = address.rpartition(":")
    if not host or not port.isdecimal():
        raise Usage(f"--http is {address}, and should be HOST:PORT, as 127.0.0.1:9464")

    async def show(_: web.Request) -> web.Response:
        return web.Response(text=page(home, figures), content_type="text/html")

    async def metrics(_: web.Request) -> web.Response:
        return web.Response(text=figures.exposition(), content_type="text/plain")

    app = web.Application()
    app.add_routes([web.get("/", show), web.get("/metrics", metrics)])
    runner = web.AppRunner(app, access_log=None)
    await runner.setup()
    try:
        await web.TCPSite(runner, host.strip("[]"), int(port)).start()
    except OSError as error:
        await runner.cleanup()
        raise Usage(f"--http {address} can't be served: {error.strerror}: name another port") from None
    say(f"http://{address}/ shows how it goes")
    try:
        yield
    finally:
        await runner.cleanup()
