"""What wdq takes as a line of an event file, and why it refuses any other line. The rules are those of docs/EVENT_LINES.md."""

import argparse
import datetime
import difflib
import json
import re

from .json_value import Number, Refusal, read_json, shown

LONGEST_LINE, GREATEST_REVISION, GREATEST_NUMBER = 65_536, 2**64 - 1, 2**32 - 1
FORMS = ["kind", "watermark", "ask", "mapping", "match"]
MOST_PATTERNS = 8
VARIABLE = re.compile(r"\?[a-z]{1,16}")
KINDS = ["edit", "delete", "undelete", "reconcile"]
# What other programs and the wiki call the same thing.
ALIASES = {
    "rev": ["revision", "rev_id", "revid", "lastrevid"],
    "entity": ["id", "title", "page_title", "item"],
    "time": ["timestamp", "dt", "date", "modified"],
}
KIND_ALIASES = {"create": "edit", "new": "edit", "update": "edit", "remove": "delete", "restore": "undelete", "reconciliation": "reconcile"}
TIME = re.compile(r"([0-9]{4})-([0-9]{2})-([0-9]{2})T([0-9]{2}):([0-9]{2}):([0-9]{2})(?:\.[0-9]{1,6})?Z")
IN_BRACKETS = r'(?:[^\x00-\x20<>"{}|^`\\]|\\u[0-9a-fA-F]{4}|\\U[0-9a-fA-F]{8})*'
IN_QUOTES = r'(?:[^"\\\n\r]|\\[tbnrf"\'\\]|\\u[0-9a-fA-F]{4}|\\U[0-9a-fA-F]{8})*'
TERM = re.compile(rf'<{IN_BRACKETS}>|_:[A-Za-z0-9]+|"{IN_QUOTES}"(?:@[a-zA-Z]+(?:-[a-zA-Z0-9]+)*|\^\^<{IN_BRACKETS}>)?')
ESCAPE = re.compile(r"\\(?:u([0-9a-fA-F]{4})|U([0-9a-fA-F]{8})|.)", re.DOTALL)
TERM_PART = re.compile(rf'<({IN_BRACKETS})>|"({IN_QUOTES})"')


# --- The members of an event ---


def missing(cause, key, json_object):
    """The refusal of an object without the key, with the key that was most likely meant."""
    near = [other for other in json_object if other.lower() == key or other in ALIASES.get(key, [])]
    near += difflib.get_close_matches(key, json_object, 1)
    return Refusal(cause, f"`{key}` is missing", f"you have `{near[0]}`: did you mean `{key}`?" if near else "add it")


def check_kind(json_object):
    """Refuses an event whose kind is none."""
    kind = json_object["kind"]
    if kind in KINDS:
        return
    near = None
    if type(kind) is str:
        near = KIND_ALIASES.get(kind.lower()) or next(iter(difflib.get_close_matches(kind.lower(), KINDS, 1)), None)
    raise Refusal("Kind", f"{shown(kind)} is no kind", f'did you mean "{near}"?' if near else "the kinds are " + ", ".join(KINDS))


def check_entity(json_object):
    """Refuses an event whose entity is none that wdq takes."""
    if "entity" not in json_object:
        raise missing("Entity", "entity", json_object)
    entity = json_object["entity"]
    if type(entity) is str and re.fullmatch("[LPQ][1-9][0-9]{0,9}", entity) and int(entity[1:]) <= GREATEST_NUMBER:
        return
    mend = "an id is P, Q or L and a number"
    if type(entity) is str:
        bare = entity.strip().upper().removeprefix("PROPERTY:").removeprefix("ITEM:").removeprefix("LEXEME:")
        if re.fullmatch("[EM][0-9]+|ENTITYSCHEMA:.*", bare):
            mend = "wdq takes items, properties and lexemes alone: leave the line out"
        elif re.fullmatch("L[0-9]+-[FS][0-9]+", bare):
            mend = f'forms and senses come with their lexeme: did you mean "{bare.partition("-")[0]}"?'
        elif re.fullmatch("[LPQ]0*[1-9][0-9]*", bare) and int(bare[1:]) <= GREATEST_NUMBER:
            mend = f'did you mean "{bare[0]}{int(bare[1:])}"?'
        elif re.fullmatch("[LPQ][1-9][0-9]*", bare):
            mend = "the number is at most 4294967295"
    raise Refusal("Entity", f"{shown(entity)} is no id of an item, a property or a lexeme", mend)


def check_revision(json_object):
    """Refuses an event whose revision is none."""
    if "rev" not in json_object:
        raise missing("Rev", "rev", json_object)
    revision = json_object["rev"]
    if isinstance(revision, Number) and re.fullmatch("[1-9][0-9]{0,19}", revision.spelling) and int(revision.spelling) <= GREATEST_REVISION:
        return
    mend = "it is a number in digits, from 1 on"
    if type(revision) is str and re.fullmatch("[1-9][0-9]*", revision):
        mend = "write it without quotes"
    elif isinstance(revision, Number) and re.search("[.eE]", revision.spelling):
        mend = "write it in digits alone; jq 1.6 writes great numbers so, and rounds them: take jq 1.7"
    elif isinstance(revision, Number) and re.fullmatch("[0-9]{20,}", revision.spelling):
        mend = f"it is at most {GREATEST_REVISION}"
    raise Refusal("Rev", f"{shown(revision)} is no revision", mend)


def is_time(text):
    """Whether a text is a time of event lines."""
    match = TIME.fullmatch(text)
    try:
        return bool(match and datetime.datetime(*map(int, match.groups())))
    except ValueError:
        return False


def explain_time(text):
    """What is wrong with a text that is no time, and what would mend it."""
    if re.search(r"[+-]00:?00$", text):
        return "ends with an offset in place of Z", "write Z"
    if re.search(r"[+-][0-9]{2}:?[0-9]{2}$", text) and "T" in text:
        return "is of another zone", "turn it into UTC, with Z at the end"
    if re.search(r"[.,][0-9]{7,}Z$", text):
        return "has more than six digits of a second", "cut them"
    if re.search(r"[0-9]$", text) and "T" in text:
        return "has no Z at the end", "add Z if it is in UTC"
    meant = text.strip().upper().replace(" ", "T").replace(",", ".")
    if is_time(meant):
        return "is spelt in another way", f'write "{meant}"'
    if re.fullmatch(r"[0-9]{4}-[0-9]{2}-[0-9]{2}T[0-9]{2}:[0-9]{2}:[0-9]{2}(\.[0-9]+)?Z", text):
        return "isn't in the calendar or on the clock", "years are from 1, seconds to 59"
    return "isn't of the form of a time", "write it as 2024-05-01T10:00:05Z"


def check_time(json_object, key):
    """Refuses an object whose time is missing or none."""
    if key not in json_object:
        raise missing("Time", key, json_object)
    time = json_object[key]
    if type(time) is not str:
        raise Refusal("Time", f"`{key}` is {shown(time)}, and no text", 'write it as "2024-05-01T10:00:05Z"')
    if not is_time(time):
        reason, mend = explain_time(time)
        raise Refusal("Time", f"{shown(time)} {reason}", mend)


def check_event(json_object):
    """Refuses an event that has a member wrong."""
    check_kind(json_object)
    check_entity(json_object)
    check_revision(json_object)
    check_time(json_object, "time")
    mode = json_object.get("mode")
    if json_object["kind"] == "reconcile" and mode not in ("kept", "deleted"):
        reason = f"{shown(mode)} is no mode" if "mode" in json_object else "`mode` is missing"
        raise Refusal("Mode", f"{reason} of a reconciliation", 'it is "kept" or "deleted"')


# --- Questions and versions ---


def is_character(code, in_brackets):
    """Whether an escape stands for a character, and in an IRI for one that IRIs have."""
    if 0xD800 <= code <= 0xDFFF or code > 0x10FFFF:
        return False
    return not in_brackets or (code > 0x20 and chr(code) not in '<>"{}|^`\\')


def is_term(text):
    """Whether a text is that of a term."""
    if not TERM.fullmatch(text):
        return False
    for part in TERM_PART.finditer(text):
        for four, eight in ESCAPE.findall(part.group(0)):
            if (four or eight) and not is_character(int(four or eight, 16), part.group(1) is not None):
                return False
    return True


def explain_term(text):
    """What would mend a text that is no term."""
    if re.fullmatch(r"https?://[^\s<>]*", text):
        return f'an IRI without angle brackets: write "<{text}>"'
    if re.fullmatch("[PQ][0-9]+|[a-z]+:[PQ][0-9]+", text):
        return 'write the whole IRI in angle brackets, as "<http://www.wikidata.org/entity/Q42>"'
    if re.fullmatch(r'[^<>"_?]+', text):
        return f"a literal has quotes of its own: write {json.dumps(json.dumps(text.strip()))}"
    if text != text.strip():
        return "take out the spaces round it"
    return "write it as N-Triples does"


def check_question(question):
    """Refuses a question that is no triple of terms and question marks."""
    if not isinstance(question, list) or len(question) != 3:
        raise Refusal("Pattern", "the value of `ask` is no list of three", 'write ["?","?","?"], with a term for a ?')
    for name, text in zip(["subject", "predicate", "object"], question):
        if type(text) is not str:
            raise Refusal("Pattern", f"the {name} {shown(text)} is no text", "write ? or a term, in quotes")
        if text != "?" and not is_term(text):
            raise Refusal("Pattern", f"the {name} {shown(text)} is neither ? nor a term", explain_term(text))


def explain_place(text):
    """What would mend a text that is neither a variable nor a term."""
    if text.startswith("?"):
        return "a variable is ? and 1 to 16 letters from a to z" + (": give it a name" if text == "?" else "")
    return explain_term(text)


def check_match(patterns):
    """Refuses a graph pattern that is none."""
    if not isinstance(patterns, list) or not 1 <= len(patterns) <= MOST_PATTERNS:
        raise Refusal("Match", f"the value of `match` is no list of 1 to {MOST_PATTERNS} patterns", 'write [["?x","?y","?z"]]')
    for pattern in patterns:
        if not isinstance(pattern, list) or len(pattern) != 3:
            raise Refusal("Match", f"the pattern {shown(pattern)} is no list of three", 'write it as ["?x","?y","?z"]')
        for text in pattern:
            if type(text) is not str:
                raise Refusal("Match", f"{shown(text)} is no text", "write a variable or a term, in quotes")
            if not VARIABLE.fullmatch(text) and not is_term(text):
                raise Refusal("Match", f"{shown(text)} is neither a variable nor a term", explain_place(text))


def check_mapping(version):
    """Refuses a version of the mapping that there is not."""
    if not isinstance(version, Number) or version.spelling not in ("1", "2"):
        raise Refusal("Mapping", f"{shown(version)} is no version of the mapping", "write 1 or 2")


# --- Lines ---


def check_line(line):
    """Raises the refusal of a line, which has no line feed at its end."""
    if len(line) > LONGEST_LINE:
        raise Refusal("LineLong", f"more than {LONGEST_LINE} bytes", "lines of events are far shorter: is this an event file?")
    value = read_json(line)
    if not isinstance(value, dict):
        raise Refusal("NoForm", f"{shown(value)} is no object", "write one object a line: jq -c .[] for a list")
    forms = [key for key in FORMS if key in value]
    if forms == ["kind"]:
        check_event(value)
    elif forms == ["watermark"]:
        check_time(value, "watermark")
    elif forms == ["ask"]:
        check_question(value["ask"])
    elif forms == ["mapping"]:
        check_mapping(value["mapping"])
    elif forms == ["match"]:
        check_match(value["match"])
    elif forms:
        raise Refusal("NoForm", "it has " + " and ".join(f"`{key}`" for key in forms), "make a line of each")
    elif "page_change_kind" in value:
        raise Refusal("NoForm", "an event of the wiki's stream", "`wdq-mirror step` makes event lines of these")
    else:
        near = [(key, form) for form in FORMS for key in value if difflib.get_close_matches(form, [key.lower()])]
        mend = f"you have `{near[0][0]}`: did you mean `{near[0][1]}`?" if near else "each line has exactly one of them"
        raise Refusal("NoForm", "it has none of " + ", ".join(f"`{key}`" for key in FORMS), mend)


def refusal_of(line):
    """Why wdq refuses a line, or None."""
    try:
        check_line(line)
    except Refusal as refusal:
        return refusal
    return None


def moment(text):
    """A time, as a word of a command."""
    if refusal := refusal_of(json.dumps({"watermark": text}).encode()):
        raise argparse.ArgumentTypeError(str(refusal))
    return text


def lines_of(file):
    """The lines of a file without their line feeds; of one that is too long, so much as shows it."""
    while line := file.readline(LONGEST_LINE + 2):
        piece = line
        while not piece.endswith(b"\n") and len(piece) == LONGEST_LINE + 2:
            piece = file.readline(LONGEST_LINE + 2)
        yield line.removesuffix(b"\n")
