#!/usr/bin/env python3
"""Draws the pictures of the documents.

usage: scripts/pictures.py [--check]

Writes docs/pictures/*.svg; the picture of the layers shows what crates.txt has. With --check it writes nothing, names each picture that
isn't as it would be drawn, and ends with 1 where there is any.
"""
import pathlib
import re
import sys
import textwrap
from xml.sax.saxutils import escape

TOP = pathlib.Path(__file__).resolve().parent.parent
FOLDER = TOP / "docs" / "pictures"
WIDTH = 640
LINE = 23
STYLE = """
.ground { fill: #ffffff } .box { fill: #eef3fa; stroke: #3b6ea5 } .store { fill: #e9f5ec; stroke: #3a8150 }
.out { fill: #fdf4e3; stroke: #a8741a } .arrow { stroke: #555555; fill: none } .head { fill: #555555 }
.box, .store, .out, .arrow { stroke-width: 2 }
text { font: 17px "DejaVu Sans", Verdana, sans-serif; fill: #1c1c1c } .name { font-weight: bold } .label { font-size: 16px; fill: #4a4a4a }
.code { font: 15px "DejaVu Sans Mono", Menlo, Consolas, monospace }
@media (prefers-color-scheme: dark) {
.ground { fill: #14181d } .box { fill: #1d2b3c; stroke: #7fb0e6 } .store { fill: #1c3324; stroke: #7cc795 }
.out { fill: #3a2e18; stroke: #e0b060 } .arrow { stroke: #b5b5b5 } .head { fill: #b5b5b5 }
text { fill: #ececec } .label { fill: #c4c4c4 }
}"""


class Picture:
    """Boxes, arrows and labels on a ground of a fixed width."""

    def __init__(self, title, height):
        self.title, self.height, self.parts = title, height, []

    def text(self, x, y, line, kind="", anchor="middle"):
        """Writes a line of text, whose baseline is at y."""
        self.parts.append(f'<text x="{x}" y="{y}" class="{kind}" text-anchor="{anchor}" xml:space="preserve">{escape(line)}</text>')

    def box(self, place, kind, lines, code=False, quiet=0):
        """Draws a box at (x, y, width, height), with a name in its first line and more lines below it, the first of them quiet."""
        x, y, width, height = place
        self.parts.append(f'<rect x="{x}" y="{y}" width="{width}" height="{height}" rx="8" class="{kind}"/>')
        first = y + (height - LINE * len(lines)) / 2 + 17
        for number, line in enumerate(lines):
            if code and number:
                self.text(x + 14, first + LINE * number, line, "code", "start")
            else:
                style = "name" if number == 0 else "label" if number <= quiet else ""
                self.text(x + width / 2, first + LINE * number, line, style)

    def arrow(self, start, end, label="", side="start"):
        """Draws an arrow, and puts a label beside its middle: to the right of it (start), or to the left (end)."""
        (x1, y1), (x2, y2) = start, end
        self.parts.append(f'<line x1="{x1}" y1="{y1}" x2="{x2}" y2="{y2}" class="arrow" marker-end="url(#head)"/>')
        if label:
            shift = 10 if side == "start" else -10
            self.text((x1 + x2) / 2 + shift, (y1 + y2) / 2 + 6, label, "label", side)

    def svg(self):
        """The picture as a file."""
        head = f'<svg xmlns="http://www.w3.org/2000/svg" viewBox="0 0 {WIDTH} {self.height}" width="{WIDTH}" height="{self.height}" role="img">'
        marker = ('<defs><marker id="head" viewBox="0 0 8 8" refX="8" refY="4" markerWidth="6" markerHeight="6" orient="auto">'
                  '<path d="M0 0 L8 4 L0 8 z" class="head"/></marker></defs>')
        ground = f'<rect width="{WIDTH}" height="{self.height}" class="ground"/>'
        lines = [head, f"<title>{escape(self.title)}</title>", f"<style>{STYLE}\n</style>", marker, ground, *self.parts, "</svg>"]
        return "\n".join(lines) + "\n"


def event():
    """The path of an event through wdq, and what comes out."""
    picture = Picture("The path of an event: from the event file through the reorder buffer to the store and the side output", 510)
    picture.box((20, 20, 290, 74), "box", ["event file", "edits, deletions, questions,", "repeated and out of order"])
    picture.box((350, 20, 270, 74), "box", ["pages", "one file for each revision"])
    picture.arrow((165, 94), (165, 150), "each line")
    picture.arrow((485, 94), (485, 150), "fetched")
    picture.box((20, 150, 290, 74), "box", ["reorder buffer", "events wait for a watermark,", "and leave in their order"])
    picture.box((350, 150, 270, 74), "box", ["each entity", "its state, and the page", "that it holds"])
    picture.arrow((310, 187), (350, 187))
    picture.arrow((40, 224), (40, 290), "late events")
    picture.arrow((390, 224), (290, 290))
    picture.text(312, 256, "unusable pages", "label", "end")
    picture.arrow((590, 224), (590, 290), "triples added and removed", "end")
    picture.box((20, 290, 290, 74), "out", ["side output", "what wasn't applied, and", "whether it is still open"])
    picture.box((350, 290, 270, 74), "store", ["store", "each triple once, with the", "number of its owners"])
    picture.arrow((165, 364), (165, 416))
    picture.arrow((485, 364), (485, 416))
    picture.box((20, 416, 290, 74), "out", ["printed at the end", "--side, and the states", "of the entities: --state"])
    picture.box((350, 416, 270, 74), "out", ["printed", "answers, --export,", "or a record of each change"])
    return picture


def read_layers():
    """The layers of crates.txt but for the tests, from the top down: the name, what it has, and its crates."""
    layers = []
    for line in (TOP / "crates.txt").read_text(encoding="utf-8").splitlines():
        if line == "# all tests":
            break
        layer, crate = re.match(r"# (\w+): (.*)", line), re.match(r"(\w+):", line)
        if layer and layer[1] != "Each":
            layers.append((layer[1], layer[2], []))
        elif crate and layers:
            layers[-1][2].append(crate[1])
    return layers[::-1]


def layers():
    """The layers of crates, each on those below it."""
    bands = [(name, textwrap.wrap(what, 60), textwrap.wrap(", ".join(crates), 56)) for name, what, crates in read_layers()]
    heights = [LINE * (len(what) + len(crates)) + 42 for _, what, crates in bands]
    picture = Picture("The layers of crates, each on those below it", 20 + sum(height + 18 for height in heights))
    y = 20
    kinds = {"store": "store", "top": "out", "engine": "out"}
    for (name, what, crates), height in zip(bands, heights):
        picture.box((20, y, 600, height), kinds.get(name, "box"), [name, *what, *crates], quiet=len(what))
        y += height + 18
    return picture


def update():
    """What an edit becomes on its way into a store that speaks SPARQL."""
    picture = Picture("From an edit to an update in SPARQL", 580)
    picture.box((20, 20, 600, 66), "box", ["an event", '{"kind":"edit","entity":"Q7","rev":5,"time":"2024-.."}'], code=True)
    picture.arrow((165, 86), (165, 130), "a watermark makes it due, and wdq fetches revision 5")
    picture.box((20, 130, 290, 90), "box", ["held page, revision 4", 'Q7 label "Ada"@en', "Q7 P31 Q5"], code=True)
    picture.box((330, 130, 290, 90), "box", ["new page, revision 5", 'Q7 label "Ada L."@en', "Q7 P31 Q5"], code=True)
    picture.arrow((165, 220), (165, 264), "wdq patches prints what differs")
    picture.arrow((590, 220), (590, 264))
    picture.box((20, 264, 600, 112), "store", ["the next record of changes", "# patch 12 +1 -1", '<Q7> <label> "Ada L."@en .', '<Q7> <label> "Ada"@en .'], code=True)
    picture.arrow((165, 376), (165, 430), "in the order of the numbers")
    picture.box((20, 430, 600, 130), "out", ["one SPARQL update, which also keeps the number", 'DELETE DATA { <Q7> <label> "Ada"@en } ;',
                'INSERT DATA { <Q7> <label> "Ada L."@en } ;', "INSERT DATA { GRAPH <urn:wdq:stream> { .. 12 } }"], code=True)
    return picture


def machines():
    """A mirror over several machines."""
    picture = Picture("A mirror over several machines: a part of the entities on each, and a graph for each part", 560)
    picture.box((20, 20, 600, 74), "box", ["the stream of events", "each event goes to the part of its entity;", "watermarks and versions of the mapping go to all"])
    for number, x in enumerate((20, 230, 440)):
        middle = x + 90
        picture.arrow((middle, 94), (middle, 140))
        picture.box((x, 140, 180, 120), "box", [f"part {number}", "wdq patches", "its own pages", "and snapshot"])
        picture.arrow((middle, 260), (middle, 310), "records")
        picture.box((x, 310, 180, 74), "store", [f"graph {number}", "the triples", f"of part {number}"])
        picture.arrow((middle, 384), (middle, 430))
    picture.box((20, 430, 600, 110), "out", ["the query service", "asks the union of the graphs.", "A triple of two parts is in two graphs,", "and stays until both have removed it"])
    return picture


def main():
    words = sys.argv[1:]
    if words not in ([], ["--check"]):
        is_asked = words[0] in ("-h", "--help")
        print(__doc__.strip(), file=sys.stdout if is_asked else sys.stderr)
        return 0 if is_asked else 64
    drawn = {FOLDER / f"{draw.__name__}.svg": draw().svg() for draw in (event, layers, update, machines)}
    if not words:
        FOLDER.mkdir(exist_ok=True)
        for file, svg in drawn.items():
            file.write_text(svg, encoding="utf-8")
        return 0
    old = [file for file, svg in drawn.items() if not file.exists() or file.read_text(encoding="utf-8") != svg]
    for file in old:
        print(f"{file.relative_to(TOP)} isn't as scripts/pictures.py draws it")
    return 1 if old else 0


if __name__ == "__main__":
    sys.exit(main())
