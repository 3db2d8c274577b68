"""The same stream of edits into each store: escapes, numbers and points that stores spell their own way, dates before Christ."""

import pathlib
import shutil
import subprocess
import typing

import pytest
from conftest import PYTHON, TESTS, Mirror, Virtuoso, stored

EDITS = "400"


@pytest.fixture
def edited(tmp_path: pathlib.Path) -> tuple[pathlib.Path, pathlib.Path]:
    """Pages, and the files of their events: half of them each."""
    pages = tmp_path / "edits"
    ended = subprocess.run([PYTHON, str(TESTS / "edits.py"), "--size", EDITS, "--pages", str(pages)], capture_output=True, check=True)
    lines = ended.stdout.splitlines(keepends=True)
    for name, some in (("first", lines[: len(lines) // 2]), ("second", lines[len(lines) // 2 :])):
        (tmp_path / name).write_bytes(b"".join(some))
    return pages, tmp_path


def take(mirror: Mirror, edited: tuple[pathlib.Path, pathlib.Path]) -> None:
    """Loads an empty dump, takes the edits in two steps, and looks at the store; then fills it anew, and looks again."""
    pages, folder = edited
    (folder / "dump.json").write_text("[\n]\n")
    mirror.set(keep_eras=0, timeout_seconds=600)
    mirror.good("load", str(folder / "dump.json"))
    for page in pages.iterdir():
        shutil.copy(page, mirror.home / "pages")
    for name in ("first", "second"):
        mirror.good("step", str(folder / name))
        assert "0 are missing in the store, 0 are too much" in mirror.good("verify")
    mirror.good("reload")
    mirror.good("verify")


def test_the_embedded_store(mirror: Mirror, edited: tuple[pathlib.Path, pathlib.Path]) -> None:
    mirror.good("init", "--agent", "try/1.0 (nobody@example.org)")
    take(mirror, edited)
    assert len(stored(mirror.home)) > 1000
    pytest.importorskip("rdflib")
    said = mirror.good("ask", "--sparql", "SELECT (COUNT(*) AS ?n) WHERE { ?s ?p ?o }")
    assert f'"{len(stored(mirror.home))}"' in said


def test_articles_as_the_query_service_has_them(mirror: Mirror, endpoint: str, edited: tuple[pathlib.Path, pathlib.Path]) -> None:
    """They come, go and are asked for in the service's spelling."""
    mirror.good("init", "--agent", "try/1.0 (nobody@example.org)", "--store", endpoint, "--articles", "service")
    take(mirror, edited)
    query = "SELECT DISTINCT ?a WHERE { GRAPH <urn:wdq:triples> { ?a <http://schema.org/about> ?q } }"
    there = {line.removeprefix("a=").strip() for line in mirror.good("ask", "--sparql", query).splitlines()}
    assert len(there) > 20
    titles = {line.partition("/wiki/")[2] for line in there}
    assert any(title.startswith("Berlin_(city)_") for title in titles) and any(title.startswith("A:_b;_c,_d/e~f_") for title in titles)
    assert any(title.startswith("%253A_") for title in titles) and not any("%28" in title for title in titles)
    said = mirror.good("ask", "?", "<http://schema.org/about>", "?").splitlines()[1:]
    assert {line.split()[0] for line in said} == there
    for article in there:
        assert mirror.good("ask", article, "<http://schema.org/about>", "?").startswith(f"# ask 1: 1 triples\n{article} ")
    # A setting that changes once the store is filled is refused.
    mirror.set(articles="wdq")
    assert mirror.run("verify") == 4 and "set it back" in mirror.told


def test_an_endpoint_that_gives_few_rows(mirror: Mirror, endpoint: str, edited: tuple[pathlib.Path, pathlib.Path]) -> None:
    mirror.good("init", "--agent", "try/1.0 (nobody@example.org)", "--store", endpoint)
    take(mirror, edited)


def test_an_endpoint_with_a_graph_store(mirror: Mirror, endpoint: str, edited: tuple[pathlib.Path, pathlib.Path]) -> None:
    mirror.good("init", "--agent", "try/1.0 (nobody@example.org)", "--store", endpoint)
    mirror.set(loader="graph-store", graph_store=endpoint)
    take(mirror, edited)


@pytest.fixture
def virtuoso(tmp_path: pathlib.Path) -> typing.Iterator[Virtuoso]:
    """A Virtuoso of its own, which gives at most 500 rows."""
    if not Virtuoso.is_there():
        pytest.skip("virtuoso-opensource-7 is missing")
    found = Virtuoso(tmp_path / "virtuoso")
    yield found
    found.kill()


@pytest.mark.parametrize("loader", ["updates", "virtuoso"])
def test_virtuoso(mirror: Mirror, virtuoso: Virtuoso, edited: tuple[pathlib.Path, pathlib.Path], loader: str) -> None:
    mirror.good("init", "--agent", "try/1.0 (nobody@example.org)", "--store", virtuoso.url, "--counts")
    mirror.set(loader=loader, isql=virtuoso.isql, load_folder=str(virtuoso.folder))
    take(mirror, edited)
