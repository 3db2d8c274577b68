"""The stream: its messages, and the gaps before the first message behind a connection."""

import asyncio
import contextlib
import json
import pathlib
import typing

import pytest

from wdq_mirror import home, intake, stepping, stream
from wdq_mirror.settings import Settings, parse

BEGAN, LATER = "2024-05-01T00:00:00Z", "2024-05-20T00:00:00Z"
# From 600 seconds before the first time to 600 seconds after the second one.
LOST = [("2024-04-30T23:50:00Z", "2024-05-20T00:10:00Z")]


# --- Messages ---


def offset(*numbers: int) -> str:
    """A place with offsets."""
    return json.dumps([{"topic": f"t{index}", "partition": 0, "offset": number} for index, number in enumerate(numbers)])


@pytest.mark.parametrize(
    ("before", "after", "passed", "gap"),
    [
        (offset(5), offset(6), 3600, False),
        (offset(5), offset(7), 1, True),
        (offset(5), offset(5), 1, False),
        (offset(5, -1), offset(9, 3), 1, True),
        ('[{"topic":"t","timestamp":1}]', '[{"topic":"t","timestamp":2}]', 5, False),
        ('[{"topic":"t","timestamp":1}]', '[{"topic":"t","timestamp":2}]', 11, True),
        ("", offset(4), 11, True),
    ],
)
def test_gaps(before: str, after: str, passed: int, gap: bool) -> None:
    message = stream.Message(after, 1_000_000_000 + passed * 1_000_000, None)
    assert stream.is_gap(before, 1_000_000_000, message, 10) is gap


def test_messages_of_server_sent_events() -> None:
    parser = stream.Messages()
    found = [told for line in ("id: 7", "data: a", "data:b", "", ": heartbeat", "", "event: error", "data: x", "") if (told := parser.take(line))]
    assert found == [("a\nb", "7")]


def test_the_changes_of_one_wiki() -> None:
    change = {"wiki_id": "testwikidatawiki", "page_change_kind": "edit", "dt": "2024-05-01T10:00:05Z", "revision": {"rev_id": 7}}
    change["page"] = {"page_title": "Q5", "namespace_id": 0}
    assert stream.event_of(change, Settings()) is None
    found = stream.event_of(change, parse('[wiki]\nname = "testwikidatawiki"'))
    assert found == {"kind": "edit", "entity": "Q5", "rev": 7, "time": "2024-05-01T10:00:05Z"}


# --- Gaps at the first connection ---


def told(number: int, time: str) -> bytes:
    """A message as a server-sent event."""
    page = {"page_title": "Q5", "namespace_id": 0}
    change = {"wiki_id": "wikidatawiki", "page_change_kind": "edit", "dt": time, "revision": {"rev_id": 7}, "page": page}
    return f"id: {offset(number)}\ndata: {json.dumps(change)}\n\n".encode()


class Teller:
    """A wiki whose stream says this in one connection after the other, and nothing more in the last one."""

    def __init__(self, *connections: bytes):
        self.left = list(connections)
        self.session = self.content = self

    def pause_of(self, turn: int, asked: str = "") -> float:
        return 0.0

    @contextlib.asynccontextmanager
    async def get(self, address: str, **words: typing.Any) -> typing.AsyncIterator["Teller"]:
        yield self

    async def iter_any(self) -> typing.AsyncIterator[bytes]:
        yield self.left.pop(0)
        if not self.left:
            await asyncio.sleep(60)


def loaded(path: pathlib.Path, mark: str) -> home.Home:
    """A home that follows the stream from a time on."""
    home.make(path, Settings())
    one = home.Home(path)
    one.close_era(home.Era(0, home.Position(0, "a"), mark))
    return one


async def take_step(one: home.Home, wiki: typing.Any) -> None:
    """Takes a batch of the stream, as `step` does."""
    stepping.keep_batch(one, 1, [], await stepping.collect(one, wiki, stepping.Limits(idle=0.1)))


async def take_live(one: home.Home, wiki: typing.Any) -> None:
    """Takes messages from the stream, as `run` does."""
    found = intake.Intake(one, wiki)
    reading = asyncio.create_task(found.run())
    while await found.wait(0.1):
        pass
    reading.cancel()
    journal = one.file("events", 1)
    journal.touch()
    found.keep(journal)


def gaps(one: home.Home) -> list[tuple[str, str]]:
    """The gaps that a home has noted."""
    return [(gap.began, gap.ended) for gap in one.gaps()]


@pytest.mark.parametrize("take", [take_step, take_live])
@pytest.mark.parametrize(
    ("since", "first", "found"),
    [
        (BEGAN, LATER, LOST),
        (BEGAN, "2024-05-01T00:00:10.000001Z", [("2024-04-30T23:50:00Z", "2024-05-01T00:10:10.000001Z")]),
        (BEGAN, "2024-05-01T00:00:10Z", []),
        (BEGAN, "2024-04-30T23:59:59Z", []),
        ("", LATER, []),
    ],
)
def test_gaps_at_the_first_connection(tmp_path: pathlib.Path, take: typing.Any, since: str, first: str, found: list[tuple[str, str]]) -> None:
    """Messages are due from the time on from which the mirror follows the stream, give or take ten seconds. A home may have no such time."""
    one = loaded(tmp_path / "home", since)
    asyncio.run(take(one, Teller(told(5, first))))
    assert gaps(one) == found


@pytest.mark.parametrize("take", [take_step, take_live])
def test_a_gap_at_the_first_connection_is_noted_once(tmp_path: pathlib.Path, take: typing.Any) -> None:
    """Connections may end before and behind the first message, and the mirror may be started again before the gap is healed."""
    one = loaded(tmp_path / "home", BEGAN)
    asyncio.run(take(one, Teller(b"", told(5, LATER), told(6, "2024-05-20T00:01:00Z"))))
    assert gaps(one) == LOST
    one.close()
    again = home.Home(tmp_path / "home")
    asyncio.run(take(again, Teller(told(7, "2024-05-20T00:02:00Z"))))
    assert gaps(again) == LOST


def test_a_batch_with_two_gaps(tmp_path: pathlib.Path) -> None:
    one = loaded(tmp_path / "home", BEGAN)
    asyncio.run(take_step(one, Teller(told(5, LATER), told(9, "2024-05-20T01:00:00Z"))))
    assert gaps(one) == [*LOST, ("2024-05-19T23:50:00Z", "2024-05-20T01:10:00Z")]


def test_a_step_that_is_cut_short_keeps_its_gap(tmp_path: pathlib.Path, monkeypatch: pytest.MonkeyPatch) -> None:
    """Its events are there, and its place isn't kept: the next step follows the stream from behind the gap."""
    one = loaded(tmp_path / "home", BEGAN)
    monkeypatch.setattr(home.Home, "keep_place", lambda *_: 1 / 0)
    with pytest.raises(ZeroDivisionError):
        asyncio.run(take_step(one, Teller(told(5, LATER))))
    assert one.file("events", 1).exists() and one.fact("place") is None
    assert gaps(one) == LOST
