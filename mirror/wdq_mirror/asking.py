"""Questions to the mirror: to wdq over its last snapshot, or in SPARQL to the store."""

import asyncio
import json
import sys
import typing

from .articles import Articles
from .errors import BadInput, Usage
from .event_lines import TERM, explain_term, is_term, refusal_of
from .home import Home
from .program import Program
from .stores import Row, Store


def own_question(line: bytes, articles: Articles) -> tuple[bytes, list[bool]]:
    """A question with its subjects as wdq has them; and for each column of its rows whether subjects stand in it, where it is a match."""
    question = json.loads(line)
    kind = "match" if "match" in question else "ask"
    patterns = question["match"] if kind == "match" else [question["ask"]]
    for pattern in patterns:
        pattern[0] = articles.own_term(pattern[0])
    subjects = {pattern[0] for pattern in patterns}
    variables = dict.fromkeys(text for pattern in patterns for text in pattern if text.startswith("?"))
    return json.dumps(question, ensure_ascii=False).encode() + b"\n", [variable in subjects for variable in variables] if kind == "match" else []


class Answers:
    """Answers of wdq, line by line, with articles as the store has them."""

    def __init__(self, articles: Articles, columns: list[list[bool]]):
        self.articles, self.columns = articles, iter(columns)
        self.current: list[bool] = []

    def spelled(self, line: str) -> str:
        """A line."""
        if line.startswith("# match "):
            self.current = next(self.columns)
        if not line.startswith("# row "):
            return self.articles.line(line)
        terms = [found[0] for found in TERM.finditer(line.removeprefix("# row "))]
        return " ".join(["# row", *(self.articles.line(term) if is_subject else term for term, is_subject in zip(terms, self.current))])


def question_of(words: list[str]) -> bytes:
    """The line of a question of three words."""
    for word in words:
        if word != "?" and not is_term(word):
            raise Usage(f"{word} is not a term: {explain_term(word)}")
    return json.dumps({"ask": words}).encode() + b"\n"


def checked(lines: typing.Iterable[bytes]) -> typing.Iterator[bytes]:
    """Questions, each of which wdq takes."""
    for number, line in enumerate(lines, 1):
        line = line.rstrip(b"\n")
        if refusal := refusal_of(line):
            raise BadInput(f"line {number}: {refusal}")
        if b'"ask"' not in line and b'"match"' not in line:
            raise BadInput(f'line {number} is not a question: write {{"ask":["?","?","?"]}}')
        yield line + b"\n"


async def ask_snapshot(home: Home, program: Program, lines: typing.Iterable[bytes]) -> None:
    """Asks wdq over the last snapshot, and prints what it answers."""
    era = home.last_era()
    questions = [own_question(line, home.settings.articles) for line in checked(lines)]
    words = ["replay", "--resume", str(home.file("snapshots", era.number)), *program.limits()]
    child = await program.start(words, asyncio.subprocess.PIPE, asyncio.subprocess.PIPE)
    assert child.stdin and child.stdout
    child.stdin.write(b"".join(question for question, _ in questions))
    child.stdin.close()
    answers = Answers(home.settings.articles, [columns for _, columns in questions if columns])
    async for line in child.stdout:
        sys.stdout.write(answers.spelled(line.decode().rstrip("\n")) + "\n")
    await program.finish(child)


def shown(row: Row) -> str:
    """A row as text: its terms, as N-Triples writes them."""
    texts = []
    for name in sorted(row):
        term = row[name]
        value = f"<{term['value']}>" if term["type"] == "uri" else json.dumps(term["value"], ensure_ascii=False)
        if term["type"] != "uri" and term.get("xml:lang"):
            value += "@" + term["xml:lang"]
        elif term["type"] != "uri" and term.get("datatype"):
            value += f"^^<{term['datatype']}>"
        texts.append(f"{name}={value}")
    return "\t".join(texts)


async def ask_store(store: Store, query: str) -> None:
    """Asks the store in SPARQL, and prints a line for each row."""
    for row in await store.select(query):
        sys.stdout.write(shown(row) + "\n")
