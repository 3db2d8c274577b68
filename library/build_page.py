#!/usr/bin/env python3
"""Puts the page together: build_page.py MODULE.wasm VERSION > wdq.html

The page has the module, the glue, the script and the examples within.
"""
import base64
import gzip
import json
import pathlib
import re
import sys

HERE = pathlib.Path(__file__).resolve().parent
EXAMPLES = HERE.parent / "examples"
NAMES = ["story", "redirects", "questions", "mapping", "item", "lexeme"]


def example(name):
    folder = EXAMPLES / name
    files = [file for file in folder.rglob("*.json") if re.fullmatch("[1-9][0-9]*", file.stem)]
    pages = [[file.stem, file.read_text(encoding="utf-8")] for file in sorted(files, key=lambda file: int(file.stem))]
    return {"name": name, "lines": (folder / "events.jsonl").read_text(encoding="utf-8"), "pages": pages}


def build(module, version, more=""):
    """Returns the page; its script has more behind it."""
    parts = {
        "EXAMPLES": json.dumps([example(name) for name in NAMES]).replace("<", "\\u003c"),
        "MODULE": base64.b64encode(gzip.compress(pathlib.Path(module).read_bytes(), mtime=0)).decode(),
        "GLUE": (HERE / "wdq.js").read_text(encoding="utf-8").replace("export async function", "async function"),
        "SCRIPT": (HERE / "page.js").read_text(encoding="utf-8") + more,
        "VERSION": version,
    }
    page = (HERE / "page.html").read_text(encoding="utf-8")
    return re.sub("@([A-Z]+)@", lambda found: parts[found[1]], page)


if __name__ == "__main__":
    sys.stdout.write(build(*sys.argv[1:]))
