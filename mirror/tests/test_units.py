"""The modules, one by one."""

import argparse
import asyncio
import hashlib
import pathlib
import sqlite3
import typing

import pytest
from conftest import Mirror

from wdq_mirror import articles, asking, counts, errors, event_lines, figures, healing, home, inquiries, loading, outbox, records, sending, settings
from wdq_mirror import snapshot, spelling, stores, terms, times, verifying
from wdq_mirror.stores import sparql

DECIMAL = "http://www.w3.org/2001/XMLSchema#decimal"


def made(path: pathlib.Path) -> home.Home:
    """A home that nothing is in."""
    home.make(path, settings.Settings())
    return home.Home(path)


# --- Settings ---


def test_settings_come_back_as_they_were_written() -> None:
    found = settings.Settings()
    found.wiki.agent, found.mirror.counts = 'a "quoted" one (jane@example.org)', True
    assert settings.parse(settings.write(found)) == found


@pytest.mark.parametrize(
    ("text", "said"),
    [
        ("[mirror]\ngraf = 'urn:a'", "did you mean graph?"),
        ("[mirrors]\n", "did you mean mirror?"),
        ("[mirror]\ncounts = 1", "should be true or false, as false"),
        ("[mirror]\ngraph = '<urn:a>'", "without angle brackets"),
        ("[mirror]\narticles = 'servce'", "did you mean service?"),
        ("[mirror]\nshard = '4/4'", "K from 0 to N - 1"),
        ("[store]\nkind = 'sparql'", "should be an address"),
        ("[store]\nkind = 'sparkle'", "should be one of embedded, sparql"),
        ("[store]\nbatch_records = 0", "at least 1"),
        ("mirror = 3", "is not a section"),
        ("[mirror", "isn't valid TOML"),
    ],
)
def test_settings_that_are_wrong(text: str, said: str) -> None:
    with pytest.raises(errors.Usage, match=".*") as found:
        settings.parse(text)
    assert said in str(found.value)


def test_settings_of_older_homes_are_passed_over() -> None:
    assert settings.parse("[program]\nera_minutes = 60\nera_events = 5\ndoubt_minutes = 10") == settings.Settings()


def test_an_agent_that_names_nobody() -> None:
    with pytest.raises(errors.Usage):
        settings.check_agent(settings.parse("[wiki]\nagent = 'mirror/1.0'"))
    settings.check_agent(settings.parse("[wiki]\nagent = 'mirror/1.0 (jane@example.org)'"))


def test_a_shard_has_its_entities() -> None:
    found = settings.parse("[mirror]\nshard = '1/3'")
    assert [entity for entity in ("Q1", "P2", "L3", "Q4") if found.has(entity)] == ["Q1", "Q4"]


# --- The home ---


def test_a_home_refuses_settings_that_differ_from_those_it_was_made_with(tmp_path: pathlib.Path) -> None:
    one = made(tmp_path / "home")
    one.fix_facts()
    one.close_era(home.Era(0, home.Position(0, "a"), ""))
    one.close()
    text = (tmp_path / "home/mirror.toml").read_text()
    for name, value in (("horizon_hours", "5"), ("shard", '"0/2"'), ("stream", '"urn:b"'), ("name", '"other"'), ("counts", "true")):
        before = next(line for line in text.splitlines() if line.startswith(name + " = "))
        (tmp_path / "home/mirror.toml").write_text(text.replace(before, f"{name} = {value}"))
        with pytest.raises(errors.Mismatch, match="set it back"):
            home.Home(tmp_path / "home")


def test_two_processes_do_not_change_a_home(tmp_path: pathlib.Path) -> None:
    one, other = made(tmp_path / "home"), home.Home(tmp_path / "home")
    one.lock()
    with pytest.raises(errors.Mismatch, match="another wdq-mirror"):
        other.lock()
    one.close()
    other.lock()


def test_a_page_that_was_given_up_comes_back_with_the_next_era(tmp_path: pathlib.Path) -> None:
    one = made(tmp_path / "home")
    one.give_up(home.Wanted(2**64 - 1, "Q1", 5), 1)
    assert one.is_given_up(2**64 - 1)
    one.close_era(home.Era(1, home.Position(0, "a"), ""))
    assert not one.is_given_up(2**64 - 1)


def test_a_page_that_was_given_up_stays_away_where_wdq_goes_on_and_its_event_is_behind_the_mark(tmp_path: pathlib.Path) -> None:
    one = made(tmp_path / "home")
    one.give_up(home.Wanted(1, "Q1", 5), 1)
    one.give_up(home.Wanted(2, "Q2", 5), 1)
    one.give_up(home.Wanted(2, "Q2", 7), 1)
    one.give_up(home.Wanted(2, "Q2", 6), 1)
    one.keep_lacking(6, 2)
    one.close_era(home.Era(1, home.Position(0, "a"), ""))
    assert not one.is_given_up(1) and one.is_given_up(2)


# --- Lines, records, terms ---


def test_records_are_read_and_chained() -> None:
    text = b'# patch 1 +1 -1\n<urn:a> <urn:b> "c\\n"@en .\n<urn:a> <urn:b> <urn:d> .\n# patch 2 +0 -0\n'
    first, second = records.read_records(text.splitlines(keepends=True))
    assert (first.number, len(first.adds), len(first.removes), second.number) == (1, 1, 1, 2)
    place = first.after(home.Position(0, "x"))
    assert place.digest == hashlib.sha256(b"x" + hashlib.sha256(first.text).digest()).hexdigest()
    assert second.after(place) != second.after(home.Position(1, "y"))


def test_a_record_that_is_cut_off_is_none() -> None:
    whole = b"# patch 1 +1 -0\n<urn:a> <urn:b> <urn:c> .\n"
    assert not list(records.read_records((whole + whole[:5]).splitlines(keepends=True)[:1]))
    assert not list(records.read_records(whole[:-1].splitlines(keepends=True)))
    with pytest.raises(errors.Mismatch):
        list(records.read_records([b"# other\n"]))


@pytest.mark.parametrize("text", ["plain", 'a "quote"', "back\\slash", "\\u0041", "two\nlines\r\t", "naïve 東京 😀", "\x01\x7f"])
def test_literals_come_back(text: str) -> None:
    line = terms.Triple(terms.Iri("urn:a"), terms.Iri("urn:b"), terms.Literal(text, "en", "")).sparql()
    assert terms.read_triple(line).object == terms.Literal(text, "en", "")


@pytest.mark.parametrize("line", ["<a> <b> _:c .", "<a> <b> c .", '<a> <b> "c', '<a> <b> "\\q" .', '<a> <b> "\\ud800" .'])
def test_lines_that_are_no_triples(line: str) -> None:
    with pytest.raises(ValueError):
        terms.read_triple(line)


@pytest.mark.parametrize("text", ["plain", "two\twords", "\x7f", "na\u00efve \u6771\u4eac \U0001f600", "a\u00a0b", "a\u2028b"])
def test_a_load_spells_as_updates_do(text: str) -> None:
    line = f'<urn:a> <urn:b> "{text}"@en .'
    assert spelling.spell([line], articles.Articles("wdq"), False).lines == [terms.read_triple(line).sparql()]


def test_a_load_counts_as_updates_do(tmp_path: pathlib.Path) -> None:
    objects = ["<urn:c>", f"<urn:{'c' * 1800}>", '"a"', '"a"@en', '"a"@EN', '"a"@en-GB', '"a \\"b\\""@en', '"tab\there"@en', '"na\u00efve\u00a0"@fr', '""@en']
    objects += [f'"{text}"^^<{kind}>' for text in ("5", "+5.0", "5.00", "x") for kind in (DECIMAL, "urn:other", terms.XSD + "string", terms.UNREAD)]
    lines = [f"<urn:{subject}> <urn:p> {text} ." for subject in "ab" for text in objects]
    one = counts.Counts(tmp_path / "counts.db", "home")
    sent = [line for line in (one.change(terms.read_triple(line), True) for line in lines) if line]
    spelled = spelling.spell(lines, articles.Articles("wdq"), True)
    assert spelled.lines == sent
    assert sorted(spelled.counts) == one.base.execute("SELECT value, triples, sent FROM counts ORDER BY value").fetchall()


def test_an_export_is_cut_where_a_subject_ends() -> None:
    assert loading.end_of_subjects([]) == 0
    assert loading.end_of_subjects(["<urn:a> 1", "<urn:a> 2"]) == 0
    assert loading.end_of_subjects(["<urn:a> 1", "<urn:b> 1", "<urn:b> 2"]) == 1


def test_parts_are_worked_on_side_by_side_and_the_first_failure_ends_all() -> None:
    async def parts() -> typing.AsyncIterator[list[str]]:
        for start in range(0, 25, 5):
            yield list(map(str, range(start, start + 5)))

    running, most, done = 0, 0, list[list[str]]()

    async def work(part: list[str]) -> None:
        nonlocal running, most
        running += 1
        most = max(most, running)
        await asyncio.sleep(0.01)
        running -= 1
        if part == ["8", "9"]:
            raise errors.Unreachable("full")
        done.append(part)

    async def failing() -> None:
        await sparql.each(sparql.parts_of(parts(), 2), 3, work)

    with pytest.raises(errors.Unreachable):
        asyncio.run(failing())
    assert most == 3 and ["24"] not in done
    done.clear()
    asyncio.run(sparql.each(sparql.parts_of(parts(), 7), 3, work))
    assert sorted(len(part) for part in done) == [4, 7, 7, 7] and sorted(map(int, sum(done, []))) == list(range(25))


def decimal(text: str) -> terms.Triple:
    """A triple with a number."""
    return terms.Triple(terms.Iri("urn:s"), terms.Iri("urn:p"), terms.Literal(text, "", DECIMAL))


def test_a_value_goes_with_its_last_spelling(tmp_path: pathlib.Path) -> None:
    found = counts.Counts(tmp_path / "counts.db", "home")
    sent = found.change(decimal("+5"), True)
    assert sent and found.change(decimal("5.00"), True) is None and found.change(decimal("+5"), False) is None
    assert found.change(decimal("5.00"), False) == sent
    with pytest.raises(errors.Mismatch, match="reload"):
        found.change(decimal("5"), False)


def test_counts_that_were_not_kept_are_lost_with_the_process(tmp_path: pathlib.Path) -> None:
    found = counts.Counts(tmp_path / "counts.db", "home")
    found.change(decimal("5"), True)
    found.keep(3)
    found.change(decimal("6"), True)
    found.close()
    again = counts.Counts(tmp_path / "counts.db", "home")
    assert again.number == 3 and again.base.execute("SELECT COUNT(*) FROM counts").fetchone() == (1,)
    again.close()
    with pytest.raises(errors.Mismatch, match="another home"):
        counts.Counts(tmp_path / "counts.db", "other")


def test_values_that_stores_spell_their_own_way_compare_as_equal() -> None:
    assert verifying.value_of(decimal("+5")) == verifying.value_of(decimal("5.00")) != verifying.value_of(decimal("6"))


def test_an_update_removes_adds_and_marks_in_this_order() -> None:
    lines = [f"<urn:a> <urn:b> <urn:{number}> ." for number in range(2500)]
    assert [block.count("\n") for block in sparql.blocks("INSERT", "urn:g", lines)] == [1001, 1001, 501]


# --- Articles ---


@pytest.mark.parametrize(
    ("own", "service"),
    [
        ("https://en.wikipedia.org/wiki/Berlin_%28city%29", "https://en.wikipedia.org/wiki/Berlin_(city)"),
        ("https://de.wikivoyage.org/wiki/%3B%40%24%21%2A%28%29%2C%2F~%3A", "https://de.wikivoyage.org/wiki/;@$!*(),/~:"),
        ("https://en.wikipedia.org/wiki/%253A%27%3F%C3%9C", "https://en.wikipedia.org/wiki/%253A%27%3F%C3%9C"),
        ("https://en.wikipedia.org/", "https://en.wikipedia.org/"),
        ("http://www.wikidata.org/entity/Q42", "http://www.wikidata.org/entity/Q42"),
    ],
)
def test_articles_are_spelled_one_to_one(own: str, service: str) -> None:
    found = articles.Articles("service")
    assert found.iri(own) == service and found.own_iri(service) == own
    assert articles.Articles("wdq").iri(own) == own == articles.Articles("wdq").own_iri(own)
    url = "<https://en.wikipedia.org/wiki/A_%28b%29>"
    assert found.line(f"<{own}> <urn:p> {url} .") == f"<{service}> <urn:p> {url} ."


def test_rows_of_a_match_have_articles_where_subjects_stand() -> None:
    found = articles.Articles("service")
    line = b'{"match":[["<https://a.org/wiki/B_(c)>","<urn:p>","?o"],["?a","<urn:q>","?o"]]}'
    question, columns = asking.own_question(line, found)
    assert b"B_%28c%29" in question and columns == [False, True]
    answers = asking.Answers(found, [columns])
    assert answers.spelled("# match 1: 1 rows") == "# match 1: 1 rows"
    row = "# row <https://a.org/wiki/O_%28c%29> <https://a.org/wiki/S_%28c%29>"
    assert answers.spelled(row) == "# row <https://a.org/wiki/O_%28c%29> <https://a.org/wiki/S_(c)>"


# --- What the wiki says ---


def waiting(kind: str, revision: int, time: str) -> dict[str, typing.Any]:
    """An event of Q1 that isn't applied yet."""
    return {"kind": kind, "entity": "Q1", "rev": revision, "time": time}


def test_what_the_wiki_says_comes_behind_what_waits() -> None:
    held = snapshot.Snapshot(times.micros("2024-05-01T10:00:00Z"), 0, [], {"Q1": snapshot.Record("kept", 5, 5, None)})
    held.waiting = [waiting("edit", 9, "2024-05-01T10:00:08Z"), waiting("edit", 7, "2024-05-01T10:00:05Z")]
    first, second, mark = healing.now_true({"Q1": 0, "Q2": 4}, held)
    assert (first["time"], first["mode"], first["rev"]) == ("2024-05-01T10:00:08Z", "deleted", 9)
    assert (second["time"], second["mode"], second["rev"]) == ("2024-05-01T10:00:00.000001Z", "kept", 4)
    assert mark == {"watermark": "2024-05-01T10:00:00.000001Z"}
    # The dump and the home may agree, and what waits may differ.
    assert healing.differs(held, "Q1", 5) and healing.differs(held, "Q2", 4) and not healing.differs(held, "Q2", 0)


def test_what_the_wiki_says_to_the_service_comes_behind_what_was_known(tmp_path: pathlib.Path) -> None:
    class Busy:
        async def present(self, entities: list[str]) -> dict[str, int]:
            return {entity: 9 for entity in entities}

    async def ask() -> list[dict[str, typing.Any]]:
        asking = inquiries.Inquiries(made(tmp_path / "home"), typing.cast(typing.Any, Busy()))
        asking.held.waiting = [waiting("edit", 9, "2024-05-01T10:00:08Z")]
        asking.doubtful = {"Q1", "Q2"}
        mark = times.micros("2024-05-01T10:00:00Z")
        asking.ask(mark)
        assert asking.asking
        await asking.asking
        return asking.answer(mark)[0]

    found = {event["entity"]: event["time"] for event in asyncio.run(ask())}
    assert found == {"Q1": "2024-05-01T10:00:08Z", "Q2": "2024-05-01T10:00:00.000001Z"}


# --- Records that go out ---


def test_a_record_that_is_alone_does_not_wait(tmp_path: pathlib.Path) -> None:
    """Updates have a limit of time, beside that of records."""
    taken: list[list[str]] = []

    class Store:
        async def apply(self, removes: list[str], adds: list[str], marks: stores.Marks) -> None:
            taken.append(adds)

    async def send() -> None:
        one = made(tmp_path / "home")
        one.close_era(home.Era(0, home.Position(0, "a"), ""))
        box = outbox.Outbox(typing.cast(typing.Any, argparse.Namespace(home=one)), figures.Figures())
        marks = stores.Marks(home.Position(0, "a"), one.identity, "urn:wdq:triples", False)
        box.sender = sending.Sender(one, typing.cast(typing.Any, Store()), marks, marks.position)
        sent = asyncio.create_task(box.run())
        await box.put(next(iter(records.read_records([b"# patch 1 +1 -0\n", b"<urn:a> <urn:b> <urn:c> .\n"]))))
        await asyncio.sleep(1)
        sent.cancel()

    asyncio.run(send())
    assert taken == [["<urn:a> <urn:b> <urn:c> ."]]


def test_times() -> None:
    assert times.micros("1970-01-01T00:00:01.5Z") == 1_500_000
    assert times.text_of(times.micros("2024-05-01T10:00:05.000001Z")) == "2024-05-01T10:00:05.000001Z"


def test_refused_lines_are_explained() -> None:
    refusal = event_lines.refusal_of(b'{"kind":"edit","entity":"q1","rev":5,"time":"2024-05-01T10:00:05Z"}')
    assert refusal and refusal.cause == "Entity" and 'did you mean "Q1"?' in str(refusal)


# --- The commands, without a wiki ---


def test_a_home_that_is_none(mirror: Mirror) -> None:
    assert mirror.run("status") == 2
    assert "wdq-mirror init makes one" in mirror.told


def test_words_that_are_wrong(mirror: Mirror) -> None:
    assert mirror.run("init", "--agent", "nobody") == 2 and "names nobody" in mirror.told
    mirror.good("init", "--agent", "try/1.0 (nobody@example.org)")
    assert mirror.run("init") == 2 and "is a home already" in mirror.told
    assert mirror.run("load", "/dev/null/none") == 2
    for command in ("step", "verify", "update", "reload", "run", "heal"):
        assert mirror.run(command) == 2 and "holds nothing yet: wdq-mirror load DUMP" in mirror.told


def test_a_dump_that_is_cut_off_or_has_bad_lines(mirror: Mirror, tmp_path: pathlib.Path) -> None:
    mirror.good("init", "--agent", "try/1.0 (nobody@example.org)")
    dump = tmp_path / "dump.json"
    good = '{"type":"item","id":"Q1","lastrevid":5,"modified":"2024-05-01T10:00:00Z","labels":{},"claims":{}}'
    dump.write_text(f'[\n{good},\n{{"type":"item","id":"Q2"}}\n]\n')
    assert mirror.run("load", str(dump)) == 7 and "--skip-bad-lines" in mirror.told
    (tmp_path / "cut.json.gz").write_bytes(b"\x1f\x8b\x08\x00")
    assert mirror.run("load", str(tmp_path / "cut.json.gz")) == 7 and "get it again" in mirror.told
    assert "Next:" in mirror.good("load", "--skip-bad-lines", str(dump))
    assert mirror.run("load", str(dump)) == 2 and "reload" in mirror.told
    assert mirror.run("ask", "Q42", "?", "?") == 2 and "angle brackets" in mirror.told
    assert mirror.good("ask", "<http://www.wikidata.org/entity/Q1>", "?", "?").startswith("# ask 1: 5 triples\n")


def test_a_lost_store_is_filled_anew(mirror: Mirror, tmp_path: pathlib.Path) -> None:
    mirror.good("init", "--agent", "try/1.0 (nobody@example.org)")
    dump = tmp_path / "dump.json"
    dump.write_text('{"type":"item","id":"Q1","lastrevid":5,"modified":"2024-05-01T10:00:00Z","labels":{},"claims":{}}\n')
    mirror.good("load", "--began", "2024-05-02T00:00:00Z", str(dump))
    base = sqlite3.connect(mirror.home / "store.db")
    base.execute("INSERT INTO triples VALUES ('<urn:a>', '<urn:b>', '<urn:c>')")
    base.execute("DELETE FROM triples WHERE predicate LIKE '%version>'")
    base.commit()
    base.close()
    assert mirror.run("verify") == 1
    assert "only in the store: <urn:a> <urn:b> <urn:c> ." in mirror.said and "1 are missing" in mirror.said
    assert mirror.run("verify", "--mend") == 0
    mirror.good("verify")
    (mirror.home / "store.db").unlink()
    assert mirror.run("verify") == 4 and "reload" in mirror.told
    mirror.good("reload")
    mirror.good("verify")


def test_a_backup_comes_back(mirror: Mirror, tmp_path: pathlib.Path) -> None:
    mirror.good("init", "--agent", "try/1.0 (nobody@example.org)")
    dump = tmp_path / "dump.json"
    dump.write_text('{"type":"item","id":"Q1","lastrevid":5,"modified":"2024-05-01T10:00:00Z","labels":{},"claims":{}}\n')
    mirror.good("load", "--began", "2024-05-02T00:00:00Z", str(dump))
    mirror.good("backup", str(tmp_path / "backup.tar.gz"))
    assert mirror.run("backup", str(tmp_path / "backup.tar.gz")) == 2
    other = Mirror(tmp_path / "other")
    assert "reload" in other.good("restore", str(tmp_path / "backup.tar.gz"))
    other.good("reload")
    other.good("verify")
    (tmp_path / "cut.tar.gz").write_bytes((tmp_path / "backup.tar.gz").read_bytes()[:200])
    assert Mirror(tmp_path / "third").run("restore", str(tmp_path / "cut.tar.gz")) == 4
