"""JSON as an event line has it: a value of a line, or why there is none."""

import dataclasses
import json
import math
import re

DEEPEST = 127
STRING = re.compile(r'"(?:[^"\\]|\\.)*"')


@dataclasses.dataclass
class Number:
    """A JSON number as it is spelt."""

    spelling: str


@dataclasses.dataclass
class Refusal(Exception):
    """Why wdq refuses a line: the cause that it names, the reason in words, and what would mend it."""

    cause: str
    reason: str
    mend: str = ""

    def __str__(self):
        return f"{self.cause}: {self.reason}" + (f"; {self.mend}" if self.mend else "")


def shown(value):
    """A JSON value in few characters."""
    text = value.spelling if isinstance(value, Number) else json.dumps(value, default=lambda number: number.spelling, ensure_ascii=False)
    return text if len(text) <= 60 else text[:57] + "..."


def read_number(spelling):
    """A number as it is spelt; refuses one that wdq would."""
    if not math.isfinite(float(spelling)):
        raise Refusal("NotJson", f"the number {spelling[:20]} is too great for double precision")
    return Number(spelling)


def refuse_constant(spelling):
    """Refuses NaN and the infinities."""
    raise Refusal("NotJson", f"JSON has no {spelling}", "write null, or leave the key out")


def check_nesting(text):
    """Refuses a text that nests too deep."""
    depth = 0
    for character in STRING.sub("", text):
        depth += (character in "[{") - (character in "]}")
        if depth > DEEPEST:
            raise Refusal("NotJson", f"it nests more than {DEEPEST} deep")


def check_surrogates(text):
    """Refuses a text with half of a surrogate pair."""
    for string in STRING.findall(text) if "\\u" in text else []:
        if re.search("[\ud800-\udfff]", json.loads(string)):
            raise Refusal("NotJson", f"half of a surrogate pair in {string[:40]}", "write the character itself")


def explain_bytes(line):
    """Raises where the bytes show by themselves why they are no JSON text."""
    if not line.strip():
        raise Refusal("NotJson", "an empty line", "take it out")
    if line.startswith(b"\xef\xbb\xbf"):
        raise Refusal("NotJson", "a byte order mark in front", "take it out")
    if line.startswith((b"\xff\xfe", b"\xfe\xff")):
        raise Refusal("NotJson", "the file is UTF-16", "turn it into UTF-8: iconv -f UTF-16 -t UTF-8")


def explain_syntax(text, error):
    """Why a text is no JSON value."""
    start = text.strip()
    if start.startswith(("data:", "event:", "id:", ":")):
        return Refusal("NotJson", "a line of a stream of server-sent events", "`wdq-mirror step` makes event lines of a stream")
    if start.endswith(","):
        return Refusal("NotJson", "a comma behind the value", "an event file is no JSON list: one object a line without commas")
    if start in ("[", "]", "{", "}"):
        return Refusal("NotJson", f"only a bracket, {start}", "write each object on one line, by jq -c . or, of a list, jq -c .[]")
    if error.msg == "Extra data":
        return Refusal("NotJson", f"more than one value (column {error.pos + 1})", "write one object a line: jq -c .")
    return Refusal("NotJson", f"{error.msg[0].lower()}{error.msg[1:]} (column {error.pos + 1})", "write it as JSON, as jq -c does")


def read_json(line):
    """The value of a line."""
    explain_bytes(line)
    try:
        text = line.decode()
        value = json.loads(text, parse_int=read_number, parse_float=read_number, parse_constant=refuse_constant)
    except UnicodeDecodeError as error:
        raise Refusal("NotJson", f"byte {error.start + 1} isn't UTF-8", "turn the file into UTF-8, as iconv -f LATIN1 -t UTF-8 does") from None
    except json.JSONDecodeError as error:
        raise explain_syntax(text, error) from None
    except RecursionError:
        raise Refusal("NotJson", f"it nests more than {DEEPEST} deep") from None
    check_nesting(text)
    check_surrogates(text)
    return value
