#!/usr/bin/env python3
"""Makes a workload of lexemes, to measure what a byte of their pages costs: a folder with `input` and the pages in `revs`.

    scripts/lexeme_workload.py --events 3000 --into FOLDER
    cd FOLDER && .../wdq replay --from revs --export --state --side < input > output

A page has the members of Wikidata's: 2 to 40 forms with features, senses with glosses, and statements with references that lexemes share. Each
lexeme has three pages, of which an edit takes one. The workload depends on the number of events and --seed alone.
"""
import argparse
import json
import os
import pathlib
import random
import time

LANGUAGES = "en de fr es it nl pl pt ru sv cs da fi nb eu ta bn ha ig he la mul".split()
SYLLABLES = "ka lo ri san te mu vel dor an ish el tra po ne gil".split()


def word(chance):
    """A made-up word."""
    return "".join(chance.choice(SYLLABLES) for _ in range(chance.randint(1, 4)))


def snak(chance, name, value, kind, datatype):
    """A snak of this property, with the members that Wikidata's have."""
    return {"snaktype": "value", "property": name, "hash": "%040x" % chance.getrandbits(160),
            "datavalue": {"value": value, "type": kind}, "datatype": datatype}


def item_snak(chance, name):
    """A snak whose value is an item."""
    number = chance.randint(1, 9999)
    return snak(chance, name, {"entity-type": "item", "numeric-id": number, "id": f"Q{number}"}, "wikibase-entityid", "wikibase-item")


def statement(chance, subject):
    """A statement of a lexeme, a form or a sense, perhaps with one of the references that lexemes share."""
    main = item_snak(chance, "P5185") if chance.random() < 0.5 else snak(chance, "P5831", word(chance), "string", "string")
    name = main["property"]
    made = {"mainsnak": main, "type": "statement", "rank": "normal",
            "id": "%s$%08X-%04X-%04X-%04X-%012X" % (subject, *(chance.getrandbits(n) for n in (32, 16, 16, 16, 48)))}
    if chance.random() < 0.5:
        shared = random.Random(chance.randint(0, 200))
        made["references"] = [{"hash": "%040x" % shared.getrandbits(160), "snaks": {"P248": [item_snak(shared, "P248")]}, "snaks-order": ["P248"]}]
    return name, made


def claims(chance, subject, most):
    """Statements by their properties."""
    found = {}
    for name, made in (statement(chance, subject) for _ in range(chance.randint(0, most))):
        found.setdefault(name, []).append(made)
    return found or []


def tagged(chance, codes):
    """Texts by their languages."""
    return {code: {"language": code, "value": word(chance)} for code in codes}


def page(chance, name):
    """A page of a lexeme."""
    forms = [{"id": f"{name}-F{number}", "representations": tagged(chance, ["en"]),
              "grammaticalFeatures": [f"Q{chance.randint(1, 300)}" for _ in range(chance.randint(1, 4))],
              "claims": claims(chance, f"{name}-F{number}", 1)} for number in range(1, chance.randint(3, 41))]
    senses = [{"id": f"{name}-S{number}", "glosses": tagged(chance, chance.sample(LANGUAGES, chance.randint(1, 6))),
               "claims": claims(chance, f"{name}-S{number}", 4)} for number in range(1, chance.randint(2, 7))]
    return {"type": "lexeme", "id": name, "lemmas": tagged(chance, ["en"]), "lexicalCategory": "Q1084", "language": "Q1860",
            "claims": claims(chance, name, 6), "forms": forms, "senses": senses, "modified": "2024-05-01T12:00:00Z"}


def compact(value):
    """The value as JSON without spaces, as Wikidata writes pages and as compact events are written."""
    return json.dumps(value, separators=(",", ":"))


def second(number):
    """The text of a time so many seconds after a first one."""
    return time.strftime("%Y-%m-%dT%H:%M:%SZ", time.gmtime(1714557600 + number))


def main():
    """Writes the pages and the events."""
    parser = argparse.ArgumentParser(description=__doc__, formatter_class=argparse.RawDescriptionHelpFormatter)
    parser.add_argument("--events", type=int, default=3000)
    parser.add_argument("--into", type=pathlib.Path, required=True)
    parser.add_argument("--seed", default="1")
    given = parser.parse_args()
    chance = random.Random(f"{given.seed}/{given.events}")
    (given.into / "revs").mkdir(parents=True)
    pages, sizes = {}, []
    for lexeme in range(1, max(1, given.events // 50) + 1):
        made = page(chance, f"L{lexeme}")
        for version in range(3):
            made["lemmas"]["en"]["value"] += chance.choice(SYLLABLES)
            pages[lexeme, version] = given.into / f"{lexeme}-{version}.json"
            pages[lexeme, version].write_text(compact(made))
    with open(given.into / "input", "w", encoding="utf-8") as lines:
        for revision in range(1, given.events + 1):
            key = chance.randint(1, max(1, given.events // 50)), chance.randrange(3)
            os.link(pages[key], given.into / "revs" / f"{revision}.json")
            sizes.append(pages[key].stat().st_size)
            lines.write(compact({"kind": "edit", "entity": f"L{key[0]}", "rev": revision, "time": second(revision)}) + "\n")
            if revision % 50 == 0:
                lines.write(compact({"watermark": second(revision)}) + "\n")
    print(f"{given.events} events, {sum(sizes)} bytes of pages, {sum(sizes) // len(sizes)} on average")


if __name__ == "__main__":
    main()
