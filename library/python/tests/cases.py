"""The cases of crates/cases as runs: what each is given, and what it must show. crates/cases/README.md says how a case is written."""
from __future__ import annotations

import re
from collections.abc import Iterator
from dataclasses import dataclass, replace
from pathlib import Path

TOP = Path(__file__).resolve().parents[3]
DATA = TOP / "crates/cases/data"
PREFIXES = TOP / "crates/case_trial/src/files.rt"
BY_WORDS = ("bytes a read", "bytes a write", "bytes a load", "failing reads", "failing writes", "failing saves", "failing loads", "failing fetches",
            "cut page", "cut resume", "words", "status", "fetches", "waiting")  # fmt: skip


@dataclass(frozen=True)
class Case:
    """A run of a case. Some cases have a run for each front of a page or of a snapshot."""

    name: str
    words: list[str]
    lines: bytes
    resumed: bytes
    pages: dict[tuple[str, int], bytes]
    status: str
    printed: bytes
    saved: bytes | None

    def pages_there(self) -> list[tuple[int, bytes]]:
        """Returns the revisions and pages of the folder that the words name."""
        folder = value_of(self.words, "--from", ".")
        return [(revision, page) for (place, revision), page in self.pages.items() if place == folder]


def value_of(words: list[str], option: str, default: str) -> str:
    """Returns the value of an option, if the words have it."""
    for word, following in zip(words, [*words[1:], ""]):
        if word == option:
            return following
        if word.startswith(f"{option}="):
            return word.partition("=")[2]
    return default


def cases() -> Iterator[Case]:
    """Yields the runs of the cases in which no call fails."""
    prefixes = re.findall(r'\("(<\w+:)", "(<[^"]*)"\)', PREFIXES.read_text())
    for file in sorted(DATA.glob("*.case")):
        text = file.read_text()
        for prefix, iri in prefixes:
            text = text.replace(prefix, iri)
        for part in text.split("\ncase ")[1:]:
            name, _, case = part.partition("\n")
            for filled in _filled(case):
                yield from _runs(f"{file.stem}: {name}", filled)


def _filled(case: str) -> Iterator[str]:
    template, _, rows = case.partition("\nrows\n")
    if not rows:
        yield case
    for row in rows.split("\n"):
        if row.startswith("  "):
            text = template
            for mark, part in enumerate(row[2:].split(" | "), 1):
                text = text.replace(f"${mark}", part)
            yield text


def _runs(name: str, case: str) -> Iterator[Case]:
    words, lines = _sections(case)
    if any(words.get(f"failing {calls}", "each") != "each" for calls in ("reads", "writes", "saves", "loads", "fetches")):
        return
    lines_in, resumed, printed = (_bytes(lines.get(section, [])) for section in ("in", "resume", "out"))
    saved = _bytes(lines["saved"]) if "saved" in lines else None
    whole = Case(name, _words(words["words"]), lines_in, resumed, _pages(lines), words.get("status", "0"), printed, saved)
    if "cut page" in words:
        for key, page in whole.pages.items():
            if key[1] == int(words["cut page"]):
                yield from (replace(whole, pages={**whole.pages, key: page[:size]}) for size in range(len(page)))
    elif "cut resume" in words:
        for size in range(len(whole.resumed)):
            front = whole.resumed[:size]
            status = f"8 wdq: snapshot: line {front.count(10) + 1}"
            yield replace(whole, resumed=front, status=status, printed=b"")
    else:
        yield whole


def _sections(case: str) -> tuple[dict[str, str], dict[str, list[str]]]:
    words: dict[str, str] = {}
    lines: dict[str, list[str]] = {}
    below: list[str] = []
    for line in case.split("\n"):
        if line.startswith("  "):
            below.append(line[2:])
            continue
        name = next((name for name in BY_WORDS if line == name or line.startswith(f"{name} ")), None)
        if name:
            words[name] = line[len(name) + 1 :]
        elif line and not line.startswith("#"):
            below = lines.setdefault(line, [])
    return words, lines


def _words(text: str) -> list[str]:
    return ["" if word == "''" else word for word in text.split(" ")] if text else []


def _pages(lines: dict[str, list[str]]) -> dict[tuple[str, int], bytes]:
    pages = {}
    for head, below in lines.items():
        if found := re.fullmatch(r"page (\d+)(?: at (.*))?", head):
            pages[found[2] or ".", int(found[1])] = _bytes(below).removesuffix(b"\n")
        if found := re.fullmatch(r"pages to (\d+)", head):
            for revision in range(1, int(found[1]) + 1):
                pages[".", revision] = _bytes([line.replace("%d", str(revision)) for line in below]).removesuffix(b"\n")
    return pages


def _bytes(lines: list[str]) -> bytes:
    return b"".join(_line(line) for line in lines)


def _line(line: str) -> bytes:
    end = b"" if line.endswith("\\") else b"\n"
    line = line.removesuffix("\\")
    if found := re.fullmatch(r"times (\d+) (.*)", line):
        return b"\n".join(_form(found[2].replace("%d", str(number))) for number in range(1, int(found[1]) + 1)) + end
    return _form(line) + end


def _form(line: str) -> bytes:
    word, _, rest = line.partition(" ")
    if word == "repeat":
        times, _, text = rest.partition(" ")
        return int(times) * _text(text)
    if word in ("edit", "delete", "undelete", "reconcile"):
        entity, _, rest = rest.partition(" r")
        revision, _, rest = rest.partition(" t")
        time, _, mode = rest.partition(" ")
        mode = mode and f'","mode":"{mode}'
        line = f'{{"kind":"{word}","entity":"{entity}","rev":{revision},"time":"{_time(time)}{mode}"}}'
    elif word == "watermark":
        line = f'{{"watermark":"{_time(rest[1:])}"}}'
    elif word == "ask":
        line = f'{{"ask":[{rest}]}}'
    elif word == "item":
        line = f'{{"type":"item","id":"{rest}"}}'
    elif word == "redirect":
        line = '{{"entity":"{}","redirect":"{}"}}'.format(*rest.split(" ", 1))
    return _text(line)


def _time(seconds: str) -> str:
    zero = "0" if len(seconds.partition(".")[0]) < 2 else ""
    return f"2024-05-01T10:00:{zero}{seconds}Z"


def _text(text: str) -> bytes:
    front, *escaped = text.split("\\x")
    return front.encode() + b"".join(bytes.fromhex(part[:2]) + part[2:].encode() for part in escaped)
