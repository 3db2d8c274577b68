"""The spelling of articles' IRIs.

wdq percent-encodes each byte of a title but letters, digits and `-._~`. The query service leaves `; @ $ ! * ( ) , / :` as they are too (after
MediaWiki's wfUrlencode). A title has no other way to these characters, so the spellings are one to one. Articles are subjects alone: an
IRI of an article as an object is what somebody wrote into a statement, and stays as it is.
"""

import re
import typing

from .terms import Iri, Triple

SPELLINGS = ("wdq", "service")
# Up to the title; wdq writes no entity's or statement's IRI so.
BASE = re.compile(r"https://[^/]+/wiki/")
ENCODED = re.compile("%(?:3B|40|24|21|2A|28|29|2C|2F|3A)")
PLAIN = re.compile(r"[;@$!*(),/:]")


class Articles:
    """How articles are spelled in the store."""

    def __init__(self, spelling: str):
        self.is_service = spelling == "service"

    def iri(self, iri: str) -> str:
        """A subject as the store has it."""
        base = self.is_service and BASE.match(iri)
        return base[0] + ENCODED.sub(lambda found: chr(int(found[0][1:], 16)), iri[base.end() :]) if base else iri

    def own_iri(self, iri: str) -> str:
        """A subject as wdq has it."""
        base = self.is_service and BASE.match(iri)
        return base[0] + PLAIN.sub(lambda found: f"%{ord(found[0]):02X}", iri[base.end() :]) if base else iri

    def triple(self, triple: Triple) -> Triple:
        """A triple as the store has it."""
        return triple._replace(subject=Iri(self.iri(triple.subject.text))) if self.is_service else triple

    def line(self, line: str) -> str:
        """A line that begins with a subject, as the store has it."""
        return self.term(line, self.iri) if self.is_service else line

    def own_term(self, text: str) -> str:
        """The subject of a question, as wdq has it."""
        return self.term(text, self.own_iri)

    @staticmethod
    def term(text: str, spell: typing.Callable[[str], str]) -> str:
        """The text, with the IRI in front spelled anew."""
        iri, bracket, rest = text[1:].partition(">")
        return f"<{spell(iri)}>{rest}" if bracket and text.startswith("<https://") else text
