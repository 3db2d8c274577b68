"""Terms and triples: N-Triples in, SPARQL out, and the values that some stores spell their own way."""

import decimal
import re
import typing

UNREAD = "urn:wdq:unread"
XSD = "http://www.w3.org/2001/XMLSchema#"
POINT_TYPE = "http://www.opengis.net/ont/geosparql#wktLiteral"
# Virtuoso cuts IRIs of more than 1,880 bytes.
LONGEST_IRI = 1800

IRI = r'<((?:[^\x00-\x20<>"{}|^`\\]|\\u[0-9A-Fa-f]{4}|\\U[0-9A-Fa-f]{8})*)>'
LITERAL = rf'"((?:[^"\\\r\n]|\\.)*)"(?:@([a-zA-Z]+(?:-[a-zA-Z0-9]+)*)|\^\^{IRI})?'
LINE = re.compile(rf"[ \t]*{IRI}[ \t]*{IRI}[ \t]*(?:{IRI}|{LITERAL})[ \t]*\.[ \t]*")
ESCAPE = re.compile(r"\\(?:u([0-9A-Fa-f]{4})|U([0-9A-Fa-f]{8})|(.))")
CHARACTERS = {"t": "\t", "b": "\b", "n": "\n", "r": "\r", "f": "\f", '"': '"', "'": "'", "\\": "\\"}
NO_IRI_CHARACTER = re.compile(r'[\x00-\x20<>"{}|^`\\]')
TO_ESCAPE = re.compile(r'\\[uU]?|["\x00-\x1f\x7f]')
ESCAPES = {"\\": "\\\\", '"': '\\"', "\t": "\\t", "\b": "\\b", "\n": "\\n", "\r": "\\r", "\f": "\\f"}

WHOLE_NUMBER = re.compile(r"[+-]?[0-9]+")
DECIMAL_NUMBER = re.compile(r"[+-]?(?:[0-9]+(?:\.[0-9]*)?|\.[0-9]+)")
DOUBLE_NUMBER = re.compile(r"[+-]?(?:[0-9]+(?:\.[0-9]*)?|\.[0-9]+)(?:[eE][+-]?[0-9]+)?")
POINT = re.compile(rf"point ?\(({DOUBLE_NUMBER.pattern}) ({DOUBLE_NUMBER.pattern})\)", re.IGNORECASE)
EXACT = decimal.Context(prec=400)


class Iri(typing.NamedTuple):
    """An IRI, its escapes read."""

    text: str

    def sparql(self):
        """The IRI as SPARQL writes it."""
        return f"<{self.text}>"


class Literal(typing.NamedTuple):
    """A literal, its escapes read: the text, and a language tag or the IRI of a datatype, each empty where it isn't there."""

    text: str
    tag: str
    datatype: str

    def sparql(self):
        """SPARQL reads \\u escapes before its grammar, in some stores even behind a backslash. So a character is written as it is,
        except controls, quotes and backslashes, and the letter u behind a backslash; some stores read eight digits behind \\u, so
        \\U is used."""
        text = '"' + TO_ESCAPE.sub(escaped, self.text) + '"'
        if self.tag:
            return f"{text}@{self.tag}"
        return f"{text}^^<{self.datatype}>" if self.datatype else text


class Triple(typing.NamedTuple):
    subject: Iri
    predicate: Iri
    object: typing.Union[Iri, Literal]

    def sparql(self):
        """The triple as SPARQL writes it."""
        return f"{self.subject.sparql()} {self.predicate.sparql()} {self.object.sparql()} ."


# --- Reading N-Triples ---


def escaped(match):
    """The escape of what TO_ESCAPE found."""
    text = match.group()
    if text in ESCAPES:
        return ESCAPES[text]
    return ("\\\\" if text[0] == "\\" else "") + f"\\U{ord(text[-1]):08X}"


def unescaped(text):
    """The text with each escape replaced by its character; a ValueError where an escape stands for none."""

    def character(match):
        short, long, letter = match.groups()
        if letter:
            if letter not in CHARACTERS:
                raise ValueError(f"\\{letter} is no escape")
            return CHARACTERS[letter]
        code = int(short or long, 16)
        if 0xD800 <= code < 0xE000 or code > 0x10FFFF:
            raise ValueError(f"{match.group()} is no character")
        return chr(code)

    return ESCAPE.sub(character, text) if "\\" in text else text


def read_iri(text):
    """The IRI of the text between angle brackets."""
    iri = unescaped(text)
    if iri is not text and NO_IRI_CHARACTER.search(iri):
        raise ValueError(f"<{text}> has a character that no IRI has")
    return Iri(iri)


def read_triple(line):
    """The triple of an N-Triples line; a ValueError where it is none, or has a blank node."""
    match = LINE.fullmatch(line)
    if not match:
        raise ValueError("this is no triple of N-Triples without blank nodes")
    subject, predicate, iri, text, tag, datatype = match.groups()
    if iri is not None:
        term = read_iri(iri)
    else:
        datatype = read_iri(datatype or "").text
        term = Literal(unescaped(text), tag or "", "" if datatype == XSD + "string" else datatype)
    return Triple(read_iri(subject), read_iri(predicate), term)


# --- Values that stores spell their own way ---


def number_of(text):
    """A number's one text, which numbers of any datatype share."""
    value = EXACT.create_decimal(text).normalize(EXACT)
    return str(value) if value else "0"


def canonical_number(literal):
    """The value and the literal that is sent, or None where a store may refuse the number or cut it."""
    kind, text = literal.datatype[len(XSD):], literal.text
    if kind == "integer" and WHOLE_NUMBER.fullmatch(text):
        # 64 bits with a sign.
        return (number_of(text), str(int(text))) if len(text) < 99 and -(2**63) < int(text) < 2**63 else None
    if kind == "decimal" and DECIMAL_NUMBER.fullmatch(text) and len(text) < 300:
        value = EXACT.create_decimal(number_of(text))
        # 40 digits, at most 15 of them behind the point.
        fits = abs(value) < 10**25 and value.as_tuple().exponent >= -15
        return (number_of(text), format(value, "f")) if fits else None
    if kind == "double" and DOUBLE_NUMBER.fullmatch(text) and abs(float(text)) != float("inf"):
        return number_of(repr(float(text))), repr(float(text))
    return None


def canonical(literal):
    """The value of an object, as a text, and the literal that is sent for it; or None where stores keep it as it is spelled."""
    if isinstance(literal, Iri):
        is_kept = len(literal.text.encode()) <= LONGEST_IRI
        return None if is_kept else (f"unread {literal.text}", Literal(literal.text, "", UNREAD))
    if literal.tag:
        tag = literal.tag.lower()
        return f"@{tag} {literal.text}", literal._replace(tag=tag)
    if literal.datatype in (XSD + "integer", XSD + "decimal", XSD + "double"):
        found = canonical_number(literal)
        if found:
            return f"number {found[0]}", literal._replace(text=found[1])
    elif literal.datatype == POINT_TYPE:
        found = POINT.fullmatch(literal.text)
        if found:
            longitude, latitude = float(found[1]) + 0.0, float(found[2]) + 0.0
            if abs(longitude) <= 180 and abs(latitude) <= 90:
                return f"point {longitude!r} {latitude!r}", literal._replace(text=f"Point({longitude!r} {latitude!r})")
    elif literal.datatype != UNREAD:
        return None
    return f"unread {literal.text}", literal._replace(datatype=UNREAD)
