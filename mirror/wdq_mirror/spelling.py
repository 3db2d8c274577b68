"""Spells triples as the store gets them: as updates would, and where values are counted each value once."""

import typing

from .articles import Articles
from .terms import LONGEST_IRI, canonical, read_triple


class Spelled(typing.NamedTuple):
    """The lines that the store gets; and of each counted value its text, how many triples have it, and the line that stands for them."""

    lines: list[str]
    counts: list[tuple[str, int, str]]


def spell(lines: list[str], articles: Articles, is_counted: bool) -> Spelled:
    """Spells triples of N-Triples. All triples of a value have to be among them, as all of a subject are."""
    if articles.is_service:
        lines = [articles.line(line) for line in lines]
    if not is_counted:
        return Spelled([line if is_plain(line) else read_triple(line).sparql() for line in lines], [])
    found: list[str] = []
    sent: list[str] = []
    numbers: dict[str, int] = {}
    for line in lines:
        value, spelled = value_of(line)
        if value in numbers:
            numbers[value] += 1
            continue
        if value:
            numbers[value] = 1
            sent.append(spelled)
        found.append(spelled)
    return Spelled(found, list(zip(numbers, numbers.values(), sent)))


def is_plain(line: str) -> bool:
    """Whether an update would have a line as it is, which is so for most: controls, as tabs, are escaped."""
    return "\\" not in line and line.isprintable()


def value_of(line: str) -> tuple[str, str]:
    """The value of a triple whose object stores may spell their own way, else an empty text; and the line that the store gets."""
    if is_plain(line):
        start, quote, rest = line.partition('"')
        if not quote and len(line) < LONGEST_IRI:
            return "", line
        text, _, kind = rest.rpartition('"')
        if kind == " .":
            return "", line
        if kind.startswith("@"):
            tag = kind.lower()
            return f"{start}{tag[:-2]} {text}", f'{start}"{text}"{tag}'
    triple = read_triple(line)
    found = canonical(triple.object)
    if not found:
        return "", triple.sparql()
    return f"{triple.subject.sparql()} {triple.predicate.sparql()} {found[0]}", triple._replace(object=found[1]).sparql()
