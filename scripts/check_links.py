#!/usr/bin/env python3
"""Checks the links of the documents.

usage: scripts/check_links.py

Each relative link of a .md file has to name a file that is there, and each anchor a heading of it. A path that a page names without a link
(docs/.., examples/.., crates/.., scripts/..) has to be there too. Prints what isn't, and ends with 1 where there is any.
"""
import pathlib
import re
import sys

TOP = pathlib.Path(__file__).resolve().parent.parent
PATH = re.compile(r"(?<![\w./-])(?:docs|examples|crates|scripts)/[\w./-]*[\w/]")


def pages():
    """The documents of the repository."""
    found = [*TOP.glob("*.md"), *(TOP / "docs").glob("*.md"), *(TOP / "examples").rglob("*.md"), *TOP.glob("crates/*/*.md")]
    return sorted(page for page in found if "out" not in page.parts)


def anchors(page):
    """The anchors of a page's headings, as forges make them."""
    prose = re.sub(r"(?ms)^```.*?^```", "", page.read_text(encoding="utf-8"))
    for heading in re.findall(r"(?m)^#+ (.*)", prose):
        words = re.sub(r"[^\w\- ]", "", heading.strip().lower())
        yield words.replace(" ", "-")


def missing(page):
    """What a page names and isn't there."""
    text = page.read_text(encoding="utf-8")
    for target in re.findall(r"\]\(([^)\s]+)\)", text):
        if re.match(r"[a-z]+:", target):
            continue
        name, _, anchor = target.partition("#")
        file = (page.parent / name).resolve() if name else page
        if not file.exists():
            yield target
        elif anchor and anchor not in anchors(file):
            yield target
    for path in PATH.findall(re.sub(r"\]\([^)]*\)", "]", text)):
        if "NAME" not in path and "/out/" not in f"{path}/" and not (TOP / path).exists():
            yield path


def main():
    if len(sys.argv) > 1:
        is_asked = sys.argv[1] in ("-h", "--help")
        print(__doc__.strip(), file=sys.stdout if is_asked else sys.stderr)
        return 0 if is_asked else 64
    found = [(page.relative_to(TOP), target) for page in pages() for target in missing(page)]
    for page, target in found:
        print(f"{page} names what isn't there: {target}")
    print(f"{len(pages())} pages, {len(found)} missing")
    return 1 if found else 0


if __name__ == "__main__":
    sys.exit(main())
