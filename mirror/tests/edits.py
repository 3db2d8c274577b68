#!/usr/bin/python3
"""Makes a stream to try stores with: prints an event file, and writes the revisions that it names into a folder.

    edits.py --size 2000 --pages FOLDER > EVENTS

The pages of 40 items are edited in turn, and now and then one is deleted. A watermark follows each event. Each edit changes one
part of a page: its label, amounts, time or point. Amounts change between `+5`, `+5.00`, `5.0` and others, some of them at once on one
page; labels and titles of articles have characters that need escapes; there are dates before Christ, points on the Earth and on Mars, and numbers too long for
64 bits.
"""

import argparse
import datetime
import json
import pathlib

ITEMS = 40
AMOUNTS = ["+5", "+5.00", "5.0", "-7", "-7.10", "+0.50", "123456789012345678901234567890.5", "+99999999999999999999"]
LABELS = ["plain", 'a "quote"', "back\\slash", "two\nlines", "tab\there", "typed \\n and \\u0041", "ends \\",
          "naïve 東京 😀", "\\U", "a\rb\x01c"]
YEARS = ["+1952-03-11", "-0044-03-15", "+0044-03-15", "-13798000000-00-00", "+2024-02-29"]
TITLES = ["Plain", "Berlin (city)", "A: b; c, d/e~f", "100%", "%3A", "!*'@$ ?", "Übung"]
GLOBES = ["Q2", "Q2", "Q2", "Q111"]
ENTITY = "http://www.wikidata.org/entity/"


def statement(item, property_id, index, kind, value):
    snak = {"snaktype": "value", "property": property_id, "datavalue": {"type": kind, "value": value}}
    source = {"snaktype": "value", "property": "P9", "datavalue": {"type": "string", "value": f"source {item % 3}"}}
    references = [{"hash": f"{item % 3}", "snaks": {"P9": [source]}}]
    return {"mainsnak": snak, "id": f"Q{item}${property_id}-{index}", "rank": "normal", "references": references}


def page(item, step):
    """The page of an item at a step of the stream; from one to the next of an item one part changes."""
    turn = step // ITEMS + item
    label_turn, amount_turn, time_turn, point_turn = turn // 4, (turn + 1) // 4, (turn + 2) // 4, (turn + 3) // 4
    amounts = [AMOUNTS[(amount_turn + shift) % len(AMOUNTS)] for shift in range(amount_turn % 4)]
    time = {"time": YEARS[time_turn % len(YEARS)] + "T00:00:00Z", "timezone": 0, "before": 0, "after": 0, "precision": 11,
            "calendarmodel": ENTITY + "Q1985727"}
    point = {"latitude": item / 4, "longitude": point_turn / 8, "altitude": None, "precision": 0.0001,
             "globe": ENTITY + GLOBES[point_turn % len(GLOBES)]}
    claims = {
        "P1": [statement(item, "P1", index, "quantity", {"amount": amount, "unit": "1"}) for index, amount in enumerate(amounts)],
        "P2": [statement(item, "P2", 0, "globecoordinate", point)],
        "P3": [statement(item, "P3", 0, "time", time)],
    }
    label = {"language": "en", "value": f"{item} {LABELS[label_turn % len(LABELS)]}"}
    link = {"site": "enwiki", "title": f"{TITLES[label_turn % len(TITLES)]} {item}", "badges": []}
    claims = {key: value for key, value in claims.items() if value}
    return {"type": "item", "id": f"Q{item}", "labels": {"en": label}, "claims": claims, "sitelinks": {"enwiki": link}}


def main():
    parser = argparse.ArgumentParser(description=__doc__, formatter_class=argparse.RawDescriptionHelpFormatter)
    parser.add_argument("--size", type=int, required=True, metavar="N", help="how many events")
    parser.add_argument("--pages", type=pathlib.Path, required=True, metavar="FOLDER", help="where the revisions go")
    words = parser.parse_args()
    words.pages.mkdir(parents=True, exist_ok=True)
    begin = datetime.datetime(2024, 5, 1)
    for step in range(words.size):
        item, revision = step % ITEMS + 1, step + 1
        time = (begin + datetime.timedelta(seconds=step)).isoformat() + "Z"
        kind = "delete" if step % 20 == 19 and (step // ITEMS) % 2 else "edit"
        (words.pages / f"{revision}.json").write_text(json.dumps(page(item, step)))
        print(json.dumps({"kind": kind, "entity": f"Q{item}", "rev": revision, "time": time}))
        print(json.dumps({"watermark": time}))


if __name__ == "__main__":
    main()
