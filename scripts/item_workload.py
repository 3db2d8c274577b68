#!/usr/bin/env python3
"""Makes a workload of items, to measure memory and time: a folder with `input` and the pages in `revs`.

    scripts/item_workload.py --items 8000 --bytes 22600 --into FOLDER [--edits 0] [--parts 1] [--processes N]
    cd FOLDER && .../wdq patches --from revs < input > output

A page has the members of Wikidata's: labels, descriptions, aliases, site links, and statements with qualifiers and references. Items share
values, and three of five statements have one of 400 references. --bytes is the size of a page on average. Each item has an edit that makes
it, the least item first; then come --edits further ones, each of an item by chance, which change a label and a statement. A watermark
follows every 50 edits. With --parts N the folder has input-0 to input-(N-1) in place of `input`, with the events of the items whose number
modulo N is that of the file. --processes is how many processes make the pages; without it, one a processor. The workload depends on the
other arguments and --seed alone.
"""
import argparse
import concurrent.futures
import functools
import os
import pathlib
import random

from lexeme_workload import LANGUAGES, SYLLABLES, compact, item_snak, second, snak, tagged, word

PROPERTIES = ["P17", "P31", "P47", "P131", "P190", "P214", "P227", "P244", "P373", "P569", "P571", "P625", "P646", "P856", "P910", "P1082", "P1343", "P1448",
              "P1566", "P2046"]
ITEM_PROPERTIES = {"P17", "P31", "P47", "P131", "P190", "P910", "P1343"}
BYTES = 22600  # of a page whose scale is 1
TASK = 1000  # so many items are made at a time
CODES = LANGUAGES + "ja zh uk ar ca el et gl hr hu id ko lt lv mk ms nn no ro sk sl sr th tr vi bg af ast be br cy eo fa ga hi hy is ka kk".split()
CALENDAR = "http://www.wikidata.org/entity/Q1985727"


def main_snak(chance, name):
    """A snak of this property: an item, a time, a quantity, a place, or a text."""
    if name in ITEM_PROPERTIES:
        return item_snak(chance, name)
    if name in ("P569", "P571"):
        value = {"time": f"+{chance.randint(1000, 2024):04d}-01-01T00:00:00Z", "timezone": 0, "before": 0, "after": 0, "precision": 9, "calendarmodel": CALENDAR}
        return snak(chance, name, value, "time", "time")
    if name in ("P1082", "P2046"):
        return snak(chance, name, {"amount": f"+{chance.randint(1, 300)}", "unit": "1"}, "quantity", "quantity")
    if name == "P625":
        value = {"latitude": round(chance.uniform(-90, 90), 4), "longitude": round(chance.uniform(-180, 180), 4), "altitude": None, "precision": 0.0001,
                 "globe": "http://www.wikidata.org/entity/Q2"}
        return snak(chance, name, value, "globecoordinate", "globe-coordinate")
    if name == "P856":
        return snak(chance, name, f"https://example.org/{word(chance)}/{chance.randint(1, 5000)}", "string", "url")
    return snak(chance, name, f"{word(chance)}-{chance.randint(1, 10 ** 7)}", "string", "external-id")


def reference(chance):
    """One of the references that statements share."""
    return shared_reference(chance.randint(0, 400))


@functools.cache
def shared_reference(number):
    """The reference of this number, which nobody changes."""
    shared = random.Random(number)
    snaks = {"P248": [item_snak(shared, "P248")], "P854": [main_snak(shared, "P856") | {"property": "P854"}]}
    return {"hash": f"{shared.getrandbits(160):040x}", "snaks": snaks, "snaks-order": list(snaks)}


def statement(chance, item, name):
    """A statement, perhaps with a qualifier and a reference."""
    numbers = (chance.getrandbits(bits) for bits in (32, 16, 16, 16, 48))
    made = {"mainsnak": main_snak(chance, name), "type": "statement", "id": "%s$%08X-%04X-%04X-%04X-%012X" % (item, *numbers), "rank": "normal"}
    if chance.random() < 0.35:
        made["qualifiers"] = {"P585": [main_snak(chance, "P571") | {"property": "P585"}]}
        made["qualifiers-order"] = ["P585"]
    if chance.random() < 0.6:
        made["references"] = [reference(chance)]
    return made


def some(chance, most, scale):
    """A number around `most` times the scale, at least one."""
    return max(1, round(most * scale * chance.uniform(0.7, 1.3)))


def page(chance, item, scale):
    """A page of an item; a page of scale 1 has some 22,600 bytes."""
    languages = chance.sample(CODES, min(len(CODES), some(chance, 34, scale)))
    names = chance.choices(PROPERTIES, k=some(chance, 22, scale))
    return {"type": "item", "id": item, "labels": tagged(chance, languages), "descriptions": tagged(chance, languages[:some(chance, 20, scale)]),
            "aliases": {code: list(tagged(chance, [code]).values()) for code in languages[:some(chance, 6, scale)]},
            "claims": {name: [statement(chance, item, name) for _ in range(names.count(name))] for name in sorted(set(names))},
            "sitelinks": {f"{code}wiki": {"site": f"{code}wiki", "title": f"{word(chance)} {item}", "badges": [], "url": f"https://{code}.wikipedia.org/"}
                          for code in languages[:some(chance, 15, scale)]},
            "modified": "2024-05-01T12:00:00Z"}


def edit(chance, made):
    """Changes a label and a statement of a page."""
    made["labels"][chance.choice(list(made["labels"]))]["value"] += chance.choice(SYLLABLES)
    name = chance.choice(list(made["claims"]))
    made["claims"][name][-1] = statement(chance, made["id"], name)


def made_page(seed, size, number):
    """The first page of an item, which depends on nothing else; `size` is that of a page on average."""
    own = random.Random(f"{seed}/{number}")
    scale = min(4.0, max(0.35, own.lognormvariate(0, 0.6))) * (size - 100) / (1.03 * BYTES)
    return page(own, f"Q{number}", scale)


def put(folder, revision, made):
    """Writes a page, and gives the number of its bytes."""
    text = compact(made).encode()
    with open(f"{folder}/revs/{revision}.json", "wb") as file:
        file.write(text)
    return len(text)


def put_items(folder, seed, size, first, last):
    """Writes the first pages of the items from the first to the last, and gives the number of their bytes."""
    return sum(put(folder, number, made_page(seed, size, number)) for number in range(first, last + 1))


def put_edits(folder, seed, size, items, edits):
    """Writes the pages of the further edits, each made anew from the item's first page. Gives their items and the number of their bytes."""
    chance = random.Random(f"{seed}/{items}/{edits}")
    numbers, total = [], 0
    for revision in range(items + 1, items + edits + 1):
        numbers.append(chance.randint(1, items))
        made = made_page(seed, size, numbers[-1])
        edit(chance, made)
        total += put(folder, revision, made)
    return numbers, total


def put_line(files, value):
    """Writes a line into each of the files."""
    for file in files:
        file.write(compact(value) + "\n")


def put_lines(folder, numbers, parts):
    """Writes the events of these items, a revision each, and the watermarks, into the files of the parts."""
    names = ["input"] if parts == 1 else [f"input-{part}" for part in range(parts)]
    files = [open(folder / name, "w", encoding="utf-8") for name in names]
    for revision, number in enumerate(numbers, 1):
        event = {"kind": "edit", "entity": f"Q{number}", "rev": revision, "time": second(revision)}
        put_line([files[number % parts]], event)
        if revision % 50 == 0:
            put_line(files, {"watermark": second(revision)})
    put_line(files, {"watermark": second(len(numbers))})
    for file in files:
        file.close()


def make(folder, items, size, edits, parts, seed, processes=1):
    """Makes the workload by so many processes, and gives the number of pages and of their bytes."""
    (folder / "revs").mkdir(parents=True)
    with concurrent.futures.ProcessPoolExecutor(processes) as pool:
        # Each of the further edits begins where the one before it left chance, so one process makes them all, beside the first pages.
        edited = pool.submit(put_edits, folder, seed, size, items, edits)
        ranges = [(first, min(first + TASK - 1, items)) for first in range(1, items + 1, TASK)]
        tasks = [pool.submit(put_items, folder, seed, size, *ends) for ends in ranges]
        numbers, total = edited.result()
        total += sum(task.result() for task in tasks)
    put_lines(folder, [*range(1, items + 1), *numbers], parts)
    return items + edits, total


def main():
    """Makes the workload that the arguments ask for."""
    parser = argparse.ArgumentParser(description=__doc__, formatter_class=argparse.RawDescriptionHelpFormatter)
    parser.add_argument("--items", type=int, required=True)
    parser.add_argument("--bytes", type=int, default=BYTES)
    parser.add_argument("--edits", type=int, default=0)
    parser.add_argument("--parts", type=int, default=1)
    parser.add_argument("--into", type=pathlib.Path, required=True)
    parser.add_argument("--seed", default="1")
    parser.add_argument("--processes", type=int, default=os.cpu_count())
    given = parser.parse_args()
    if min(given.items, given.bytes, given.parts, given.processes) < 1 or given.edits < 0:
        parser.error("--items, --bytes, --parts and --processes are at least 1, and --edits is at least 0")
    if os.path.exists(given.into):
        parser.error(f"{given.into} is there already")
    pages, size = make(given.into, given.items, given.bytes, given.edits, given.parts, given.seed, given.processes)
    print(f"{pages} edits of {given.items} items, {size} bytes of pages, {size // pages} on average")


if __name__ == "__main__":
    main()
