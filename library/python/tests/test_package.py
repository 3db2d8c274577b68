"""The calls of the package: what they take, what they give, and their faults."""
from __future__ import annotations

import pickle
from concurrent.futures import ThreadPoolExecutor
from datetime import datetime, timedelta, timezone
from pathlib import Path

import pytest
from cases import TOP

import wdq

EXAMPLES = TOP / "examples"
STORY = EXAMPLES / "story/events.jsonl"
PAGES = EXAMPLES / "story/pages"
TRIPLE = "<http://www.wikidata.org/entity/Q1> <http://www.w3.org/2002/07/owl#sameAs> <http://www.wikidata.org/entity/Q2> ."


def edit(entity: str, revision: int, second: int) -> dict[str, object]:
    return {"kind": "edit", "entity": entity, "rev": revision, "time": datetime(2024, 5, 1, 10, 0, second, tzinfo=timezone.utc)}


def test_story() -> None:
    left = wdq.replay(STORY, PAGES)
    assert left.export == [TRIPLE]
    assert left.states == [wdq.State("Q1", "kept", 5), wdq.State("Q3", "deleted", 7), wdq.State("Q5", "kept", 8)]
    assert left.side == [wdq.SideEntry("late", True, "Q1", 4, "edit", 1714557604000000), wdq.SideEntry("missing", True, "Q5", 8)]
    assert left.snapshot is None
    assert left.printed.startswith(b"# export: 1 triples\n")


def test_lines_and_pages_may_be_given_in_many_ways() -> None:
    expected = wdq.replay(STORY, PAGES)
    text = STORY.read_text(encoding="utf-8")
    pages = {5: (PAGES / "5.json").read_bytes(), 7: (PAGES / "7.json").read_text(encoding="utf-8")}
    for lines in (text, text.encode(), text.splitlines(), text.encode().splitlines(True), bytearray(text, "utf-8")):
        assert wdq.replay(lines, pages) == expected
    with open(STORY, encoding="utf-8") as file:
        assert wdq.replay(file, str(PAGES)) == expected


def test_lines_and_pages_may_be_mappings() -> None:
    lines = [edit("Q1", 5, 5), {"watermark": datetime(2024, 5, 1, 12, 0, 8, 1, tzinfo=timezone(timedelta(hours=2)))}, {"ask": ["?", "?", "?"]}]
    left = wdq.replay(lines, {5: {"entity": "Q1", "redirect": "Q2"}}, export=False, state=False, side=False)
    assert left.answers == [wdq.Ask(1, [TRIPLE])]
    assert (left.export, left.states, left.side) == (None, None, None)
    with pytest.raises(TypeError):
        wdq.replay([{"watermark": datetime(2024, 5, 1)}], {})


def test_answers() -> None:
    left = wdq.replay(EXAMPLES / "questions/events.jsonl", EXAMPLES / "questions")
    asks = [it for it in left.answers if isinstance(it, wdq.Ask)]
    matches = [it for it in left.answers if isinstance(it, wdq.Match)]
    assert [(it.number, len(it.triples)) for it in asks] == [(1, 2), (2, 1), (3, 1), (4, 0), (5, 1)]
    time = '"1952-03-11T00:00:00Z"^^<http://www.w3.org/2001/XMLSchema#dateTime>'
    assert [row[1:] for row in matches[0].rows] == [(time, '"Ada"@en'), (time, '"Bert"@en')]


def test_a_snapshot_goes_out_of_one_run_and_into_the_next(tmp_path: Path) -> None:
    lines = STORY.read_bytes().splitlines(True)
    whole = wdq.replay(lines, PAGES)
    first = wdq.replay(lines[:3], PAGES, save=True)
    assert first.snapshot is not None
    assert wdq.replay(lines[3:], PAGES, resume=first.snapshot) == whole
    (tmp_path / "saved").write_bytes(first.snapshot)
    assert wdq.replay(lines[3:], PAGES, resume=tmp_path / "saved") == whole
    assert wdq.replay(lines, PAGES, every=1).snapshot is not None


def test_followers_have_what_the_store_has() -> None:
    for name in ("story/pages", "questions", "item", "lexeme"):
        events, pages = EXAMPLES / name.partition("/")[0] / "events.jsonl", EXAMPLES / name
        changes = wdq.patches(events, pages)
        replica = wdq.follow(changes.printed)
        assert replica.count == len(changes.records)
        assert replica.export == wdq.replay(events, pages).export
        store: set[str] = set()
        for record in changes.records:
            store = store - set(record.removed) | set(record.added)
        assert store == set(replica.export or [])


def test_split() -> None:
    for routes in ("people:Q5", {"people": ["Q5"]}):
        left = wdq.split([edit("Q1", 5, 5), {"watermark": "2024-05-01T10:00:08Z"}, {"ask": ["?", "?", "?"]}], PAGES, routes)
        assert left.graphs == {"people": [], "main": [TRIPLE]}
        assert left.answers == [wdq.Ask(1, [], "people"), wdq.Ask(1, [TRIPLE], "main")]


def test_horizon() -> None:
    lines = [edit("Q1", 5, 5), {"watermark": "2024-05-01T10:00:30Z"}, edit("Q1", 5, 5)]
    side = [wdq.replay(lines, PAGES, horizon=horizon).side for horizon in (None, timedelta(seconds=2), 2000000)]
    assert [len(it or []) for it in side] == [0, 1, 1]


def test_drill() -> None:
    assert wdq.drill(10) == wdq.Drill(10, 34, 22, 1, 8, 117, "2c082cce9f666b08d2d1fa521602352a")


def test_graph() -> None:
    rdflib = pytest.importorskip("rdflib")
    for name in ("item", "lexeme", "story/pages"):
        left = wdq.replay(EXAMPLES / name.partition("/")[0] / "events.jsonl", EXAMPLES / name)
        graph = left.graph()
        assert len(graph) == len(left.export or [])
        assert {" ".join(term.n3() for term in triple) + " ." for triple in graph if not isinstance(triple[2], rdflib.Literal)} <= set(left.export or [])


def test_faults() -> None:
    with pytest.raises(wdq.BadLine) as line:
        wdq.replay([edit("Q1", 5, 5), {"watermark": "2024-05-01T10:00:08Z"}, {"ask": ["?", "?", "?"]}, {"kind": "edit"}], PAGES)
    assert (line.value.line, line.value.cause, line.value.status) == (4, "Entity", 2)
    assert line.value.printed.startswith(b"# ask 1: 1 triples\n")
    with pytest.raises(wdq.BadLine) as short:
        wdq.follow("# patch 1 +1 -0\n")
    assert (short.value.line, short.value.cause) == (2, "Short")
    with pytest.raises(wdq.TooLong):
        wdq.replay(STORY, PAGES, max_bytes=10)
    with pytest.raises(wdq.StoreFull, match="wdq: store full"):
        wdq.replay(STORY, PAGES, max_terms=2)
    with pytest.raises(wdq.BadSnapshot) as snapshot:
        wdq.replay(STORY, PAGES, resume=b"")
    assert snapshot.value.line == 1
    with pytest.raises(wdq.BadWords):
        wdq.drill(0)
    assert str(pickle.loads(pickle.dumps(line.value))) == "wdq: line 4: Entity"


def test_what_is_no_argument() -> None:
    with pytest.raises(ValueError, match="line feed"):
        wdq.run(["replay\n"], b"")
    with pytest.raises(ValueError, match="revision"):
        wdq.replay(STORY, {-1: b""})
    with pytest.raises(FileNotFoundError):
        wdq.replay(STORY, "no such folder")
    assert wdq.run([], b"").status == 1


def test_bytes_that_are_no_text() -> None:
    assert wdq.replay(STORY, {5: b"\xff\x00"}).side == [
        wdq.SideEntry("unfit-notjson", True, "Q1", 5),
        wdq.SideEntry("missing", False, "Q3", 7),
        wdq.SideEntry("late", True, "Q1", 4, "edit", 1714557604000000),
        wdq.SideEntry("missing", True, "Q5", 8),
    ]
    with pytest.raises(wdq.BadLine):
        wdq.replay(b"\xff\x00\n", {})


def test_a_large_output_and_threads() -> None:
    lines = [edit(f"Q{number}", number, number % 60) for number in range(1, 3000)]
    lines += [{"watermark": "2024-05-01T10:01:00Z"}, *[{"ask": ["?", "?", "?"]}] * 5]
    pages = {number: {"entity": f"Q{number}", "redirect": "Q1"} for number in range(1, 3000)}
    with ThreadPoolExecutor(4) as pool:
        left = list(pool.map(lambda _: wdq.replay(lines, pages), range(4)))
    assert len(left[0].printed) > 1 << 20
    assert [len(it.triples) for it in left[0].answers if isinstance(it, wdq.Ask)] == [2999] * 5
    assert left == [left[0]] * 4
