#!/usr/bin/env python3
"""Checks that the man page says what the manual says.

usage: scripts/check_manual.py

Compares docs/wdq.1 with docs/USAGE.md and docs/EVENT_LINES.md: the options with their ranges and defaults, the forms of event lines, the
causes, the printed lines, and the statuses with their texts. Prints what one has and the other lacks, and ends with 1 where there is any.
"""
import pathlib
import re
import sys

DOCS = pathlib.Path(__file__).resolve().parent.parent / "docs"


def read_man_page():
    """The text of the man page without its font requests and escapes."""
    lines = []
    for line in (DOCS / "wdq.1").read_text(encoding="utf-8").splitlines():
        line = re.sub(r"\\f[A-Z]", "", line.replace("\\-", "-"))
        request = re.match(r"\.(\w+) ?(.*)", line)
        if request and request[1] in ("SH", "TP", "PP", "EX", "EE", "TH"):
            lines.append("")
        if request and request[1] in ("B", "I"):
            lines.append(request[2])
        elif request and request[1] in ("BI", "BR", "IB", "IR", "RB"):
            # the macro's words in turn, put together
            lines.append("".join(a or b for a, b in re.findall(r'"([^"]*)"|(\S+)', request[2])))
        elif not request:
            lines.append(line)
    return re.sub(r" +", " ", " ".join(lines))


def rows_of(page, head):
    """The rows of the tables whose head begins so, each a list of cells."""
    rows, is_inside = [], False
    for line in (DOCS / page).read_text(encoding="utf-8").splitlines():
        if not line.startswith("|"):
            is_inside = False
        elif line.startswith(f"| {head} |"):
            is_inside = True
        elif is_inside and not line.startswith("|---"):
            rows.append([cell.strip() for cell in line.strip("|").split(" | ")])
    return rows


def facts():
    """Each fact of the manual that the man page has to have, and where the manual says it."""
    for cells in rows_of("USAGE.md", "Option"):
        yield cells[0].strip("`").split()[0], "an option"
        span = re.search(r"from ([\d,]+) to ([\d,]+)", cells[1])
        if span:
            yield f"from {span[1]} to {span[2]}".replace(",", ""), f"the range of {cells[0]}"
        if re.fullmatch(r"[\d,]+", cells[2]):
            yield cells[2].replace(",", ""), f"the default of {cells[0]}"
    for cells in rows_of("USAGE.md", "Status"):
        yield f" {cells[0]} ", "a status"
        text = re.match(r"`(wdq: [^<`]*)", cells[1]) if len(cells) > 2 else None
        if text:
            yield text[1].strip(), f"the text of status {cells[0]}"
    for cells in rows_of("USAGE.md", "Line"):
        word = re.match(r"`# (\w+)", cells[0])
        if word:
            yield f"# {word[1]}", "a printed line"
    for page in ("EVENT_LINES.md", "USAGE.md"):
        for cells in rows_of(page, "Cause"):
            yield cells[0].strip("`"), "a cause"
    for cells in rows_of("EVENT_LINES.md", "Form"):
        for key in re.findall(r'"(\w+)":', cells[0])[:1]:
            yield f'{{"{key}"', "a form of line"
    usage = (DOCS / "USAGE.md").read_text(encoding="utf-8")
    for word in set(re.findall(r"`(unfit-\w+|reconcile-\w+|missing|failed)`", usage)):
        yield word, "a word of the side output"


def main():
    if len(sys.argv) > 1:
        is_asked = sys.argv[1] in ("-h", "--help")
        print(__doc__.strip(), file=sys.stdout if is_asked else sys.stderr)
        return 0 if is_asked else 64
    page = f" {read_man_page()} "
    wanted = list(dict.fromkeys(facts()))
    lacking = [(fact, what) for fact, what in wanted if fact and fact not in page]
    for fact, what in lacking:
        print(f"docs/wdq.1 lacks {what}: {fact.strip()}")
    usage = (DOCS / "USAGE.md").read_text(encoding="utf-8")
    for option in sorted(set(re.findall(r"--[a-z][a-z-]*", page))):
        if option not in usage:
            lacking.append(option)
            print(f"docs/USAGE.md lacks an option: {option}")
    print(f"{len(wanted)} facts compared, {len(lacking)} missing")
    return 1 if lacking else 0


if __name__ == "__main__":
    sys.exit(main())
