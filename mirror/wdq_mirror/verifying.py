"""Compares the store with what the home holds, in pages of subjects, so that no store's row limit matters."""

import dataclasses
import re
import typing

from . import loading, sending
from .errors import Mismatch
from .home import Home
from .program import Program
from .progress import Progress
from .stores import Store
from .terms import XSD, Literal, Triple, canonical, read_triple

IN_PAGE = 400
SHOWN = 5


def value_of(triple: Triple) -> str:
    """The triple as a text that is the same for each spelling of its object."""
    term = triple.object
    found = canonical(term)
    if found:
        text = found[0]
    elif isinstance(term, Literal) and term.datatype == XSD + "dateTime":
        text = "date " + re.sub("^(-?)0*([0-9])", r"\1\2", term.text)
    else:
        text = term.sparql()
    return f"{triple.subject.sparql()} {triple.predicate.sparql()} {text}"


@dataclasses.dataclass
class Found:
    """What differs, and how much was compared."""

    compared: int = 0
    stored: int = 0
    missing: dict[str, Triple] = dataclasses.field(default_factory=dict)
    surplus: dict[str, Triple] = dataclasses.field(default_factory=dict)
    # Triples that the store has beyond those that it shows.
    unseen: int = 0

    @property
    def is_equal(self) -> bool:
        """Whether nothing differs."""
        return not (self.missing or self.surplus or self.unseen)


class Comparison:
    """One comparison."""

    def __init__(self, store: Store, by_value: bool):
        self.store, self.by_value, self.found = store, by_value, Found()

    def key(self, triple: Triple) -> str:
        """What two triples have to share to be the same in the store."""
        return value_of(triple) if self.by_value else triple.sparql()

    async def page(self, expected: dict[str, dict[str, Triple]]) -> None:
        """Compares the triples of some subjects."""
        subjects = list(expected)
        triples, count = await self.store.triples_of(subjects, [])
        if count > len(triples) and len(subjects) > 1:
            middle = len(subjects) // 2
            for part in (subjects[:middle], subjects[middle:]):
                await self.page({subject: expected[subject] for subject in part})
            return
        wanted = {key: triple for values in expected.values() for key, triple in values.items()}
        if count > len(triples):
            triples, count = await self.by_predicate(subjects[0], wanted, count)
        there = {self.key(triple): triple for triple in triples}
        self.found.stored += count
        self.found.unseen += count - len(triples)
        self.found.compared += len(wanted)
        self.found.missing |= {key: triple for key, triple in wanted.items() if key not in there}
        self.found.surplus |= {key: triple for key, triple in there.items() if key not in wanted}

    async def by_predicate(self, subject: str, wanted: dict[str, Triple], count: int) -> tuple[list[Triple], int]:
        """The triples of one subject that has more than the store gives at once."""
        found: list[Triple] = []
        for predicate in sorted({triple.predicate.text for triple in wanted.values()}):
            found += (await self.store.triples_of([subject], [predicate]))[0]
        return found, count

    async def strangers(self, known: set[str]) -> None:
        """Looks for subjects that the home doesn't hold."""
        last = ""
        while subjects := await self.store.subjects_after(last, 1000):
            strange = [subject for subject in subjects if subject not in known]
            for start in range(0, len(strange), 50):
                triples, count = await self.store.triples_of(strange[start : start + 50], [])
                self.found.surplus |= {self.key(triple): triple for triple in triples}
                self.found.stored += count
            last = subjects[-1]


async def verify(home: Home, program: Program, store: Store) -> Found:
    """Compares all that the home holds at the end of its last era with the store."""
    marks = sending.check_marks(home, await store.marks())
    sending.check_place(home, marks)
    era = home.last_era()
    if marks.position.number != era.position.number:
        raise Mismatch(f"the store is at record {marks.position.number}, and the home at {era.position.number}: run wdq-mirror update first")
    comparison = Comparison(store, home.settings.mirror.counts)
    total = await store.count()
    page: dict[str, dict[str, Triple]] = {}
    size, known = 0, set()
    with Progress("triples") as progress:
        async for lines in loading.export(home, program, era):
            for triple in (read_triple(home.settings.articles.line(line)) for line in lines):
                subject = triple.subject.text
                if size >= IN_PAGE and subject not in page:
                    await comparison.page(page)
                    progress.show(comparison.found.compared)
                    page, size = {}, 0
                known.add(subject)
                page.setdefault(subject, {})[comparison.key(triple)] = triple
                size += 1
        if page:
            await comparison.page(page)
    if total != comparison.found.stored:
        await comparison.strangers(known)
    return comparison.found


async def mend(store: Store, found: Found, by_value: bool) -> None:
    """Puts into the store what it lacks, and takes out what it has too much."""
    marks = await store.marks()
    assert marks
    removes = [triple.sparql() for triple in found.surplus.values()]
    adds = [(triple._replace(object=value[1]) if by_value and (value := canonical(triple.object)) else triple).sparql() for triple in found.missing.values()]
    await store.apply(removes, adds, marks)


def lines_of(sign: str, triples: typing.Iterable[Triple]) -> list[str]:
    """Some triples, as they are shown."""
    return [f"{sign} {line}" for line in sorted(triple.sparql() for triple in triples)[:SHOWN]]
