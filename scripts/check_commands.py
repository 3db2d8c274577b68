#!/usr/bin/env python3
"""Tries the commands of the documents.

usage: scripts/check_commands.py

Finds the commands in the blocks and tables of the pages. What RUN names is run: each page's commands in their order, in a copy of the checkout,
without a network and for at most 60 seconds each. A command has to end with 0, and to print what a block of output below it shows. What
PASSED_OVER names isn't tried, and a command in neither list fails. Prints a line for each that failed, then counts, and ends with 1 where
there is any. WDQ names the program; without it, it is the one that ./wdq built.
"""
import concurrent.futures
import dataclasses
import gzip
import itertools
import json
import os
import pathlib
import re
import shutil
import signal
import subprocess
import sys
import tempfile

TOP = pathlib.Path(__file__).resolve().parent.parent
WDQ = pathlib.Path(os.environ.get("WDQ", TOP / "crates/wdq/out/wdq")).resolve()
LIMIT = 60

# The commands that are run: how they begin.
RUN = re.compile(r"(\(cd examples/\w+ && \.\./\.\./|\./)?wdq |(mirror/)?wdq-mirror |jq |ln -s |examples/many/replay\.py ")
# The commands that aren't tried, and why not.
PASSED_OVER = (
    (r"wdq .*\[--.*|wdq drill --size N", "says which words there are"),
    (r"cd crates/NAME && .*", "NAME stands for a crate"),
    (r"rt .*|scripts/(try|costs)\.sh.*", "builds or proves for minutes"),
    (r"cd (crates/cases/)?data; .*", "needs the program cases, which the gate builds"),
    (r"scripts/check(\.sh|_commands\.py)", "runs this check"),
    (r"examples/\w+/run\.sh", "scripts/check.sh runs it"),
    (r"examples/many/stream\.sh", "needs Redis, and takes minutes"),
    (r"mirror/tests/soak\.py .*", "takes as many minutes as it says"),
    (r"apt-get .*", "needs root and the network"),
    (r"(useradd|sudo|cp /opt/wdq/mirror/systemd/\S+) .*", "needs root"),
    (r"systemctl .*", "needs systemd"),
    (r"isql-vt .*", "needs Virtuoso"),
    (r"scripts/package\.sh.*|scripts/(try_packing|lean_streams|lean_demonstration|refuse_memory|memory)\.py.*|mirror/tests/latency\.py .*", "takes minutes"),
    (r"scripts/(library|page)\.sh.*", "builds for minutes; scripts/check.sh tries what they build"),
)
# What a command has that isn't here, and what is tried in its place.
STAND_INS = (
    (r"/backups/", "backups/"),
    (r"/usr/local/bin/", "bin/"),
    (r"wdq-mirror init (.* --store )", r"wdq-mirror --home another init \1"),
    (r"^(mirror/)?wdq-mirror (--home \S+ )?run ", r"timeout --preserve-status 10 \g<0>"),
)
# What a command needs, by a word of it: the name, and a command that succeeds where it is there.
NEEDS = (
    ("jq ", "jq", ("jq", "--version")),
    ("wdq-mirror ", "python3-aiohttp or python3-rdflib", ("/usr/bin/python3", "-c", "import aiohttp, rdflib")),
    ("replay.py ", "python3-distributed", ("/usr/bin/python3", "-c", "import distributed")),
)
# Where the commands of a page are run, if not at the top, and what makes the files that it presupposes.
PLACES = {"examples/feed/README.md": ("examples/feed", "wdq patches --save day1 < /dev/null && cp ../item/events.jsonl events2.jsonl")}
# A block of data begins so: output, triples, JSON, settings, a case, prefixes.
DATA = re.compile(r"[#<{\[]|case |\w+: +http")
TABLE_COMMAND = re.compile(r"`((?:scripts/|mirror/|examples/|rt |cd |(?:\./)?wdq |wdq-mirror )[^`]*)`")
SHELLS = ("", "sh", "bash", "shell", "console")
# Brings the loopback device up in a network of its own, and becomes the command.
ALONE = """
import fcntl, os, socket, struct, sys
fcntl.ioctl(socket.socket(), 0x8914, struct.pack("16sh14x", b"lo", 1))
os.execvp(sys.argv[1], sys.argv[1:])
"""


@dataclasses.dataclass
class Command:
    """A command of a page, and what the page says that it prints."""

    page: str
    line: int
    text: str
    output: str = ""

    def is_named_by(self, pattern):
        """Whether a pattern of PASSED_OVER means this command."""
        return re.fullmatch(pattern, " ".join(self.text.split())) is not None

    def fault(self, reason):
        """The line that says how it failed."""
        return f"{self.page}:{self.line}: {reason}: {' '.join(self.text.split())}"


def pages():
    """The documents that have commands."""
    found = [TOP / "README.md", TOP / "CONTRIBUTING.md", *sorted((TOP / "docs").glob("*.md"))]
    return found + sorted((TOP / "examples").rglob("README.md")) + sorted(TOP.glob("crates/*/README.md"))


def blocks_of(lines):
    """The parts of a page: what they are (`block`, `row`, `heading`), the number of the first line, and the lines."""
    block, fence, before = [], None, ""
    for number, line in enumerate([*lines, ""], 1):
        opened = re.match(r"```\s*(\w*)", line)
        is_code = fence in SHELLS and not opened if fence is not None else line.startswith("    ")
        if is_code and (block or fence is not None or not before.strip()):
            block.append(line if fence is not None else line[4:])
        elif block:
            yield "block", number - len(block), block
            block = []
        if opened:
            fence = opened[1] if fence is None else None
        elif fence is None and line.startswith(("|", "#")):
            yield "row" if line[0] == "|" else "heading", number, [line]
        before = line


def commands_of(page):
    """The commands of a page, in their order."""
    name, found, last = str(page.relative_to(TOP)), [], None
    for kind, first, lines in blocks_of(page.read_text(encoding="utf-8").splitlines()):
        if kind == "heading":
            last = None
        elif kind == "row":
            # What several rows advise is tried once.
            texts = {command.text for command in found}
            found += [Command(name, first, text) for text in TABLE_COMMAND.findall(lines[0]) if text not in texts]
        elif not DATA.match(lines[0]):
            for number, line in enumerate(lines, first):
                if line.startswith(" ") and number > first:
                    found[-1].text += "\n" + line
                else:
                    found.append(Command(name, number, line.removeprefix("$ ")))
            last = found[-1]
        elif lines[0].startswith("# ") and last:
            last.output, last = "\n".join(lines) + "\n", None
    return found


def write_dump(folder):
    """Writes a dump that has the page of examples/item."""
    page = json.loads((folder / "examples/item/2244512100.json").read_text(encoding="utf-8"))
    entity = {**page["entities"]["Q243"], "lastrevid": 2244512100, "modified": "2024-04-30T10:00:00Z"}
    with gzip.open(folder / "latest-all.json.gz", "wt") as file:
        file.write(f"[\n{json.dumps(entity)}\n]\n")


def make_folder(folder):
    """Makes a copy of the checkout, without the crates, that has what pages presuppose: a program, events, pages and a dump."""
    shutil.copytree(TOP, folder, symlinks=True, ignore=shutil.ignore_patterns(".git", "out", "crates", "__pycache__", "wdq"))
    (folder / "bin").mkdir()
    for place in ("wdq", "bin/wdq"):
        (folder / place).symlink_to(WDQ)
    (folder / "backups").mkdir()
    shutil.copy(folder / "examples/story/events.jsonl", folder)
    shutil.copytree(folder / "examples/story/pages", folder / "pages")
    write_dump(folder)


def run(text, folder, top):
    """Runs a command alone in its network, and gives its status, its output and what it told. After the limit it is killed."""
    path = f"{top}/bin:{os.environ['PATH']}"
    surroundings = {"PATH": path, "HOME": str(top), "WDQ": str(WDQ), "LC_ALL": "C.UTF-8", "PYTHONDONTWRITEBYTECODE": "1"}
    words = ["unshare", "-rn", sys.executable, "-c", ALONE, "bash", "-o", "pipefail", "-c", text]
    streams = {"stdin": subprocess.DEVNULL, "stdout": subprocess.PIPE, "stderr": subprocess.PIPE}
    child = subprocess.Popen(words, cwd=folder, env=surroundings, encoding="utf-8", errors="replace", start_new_session=True, **streams)
    try:
        said, told = child.communicate(timeout=LIMIT)
        return child.returncode, said, told
    except subprocess.TimeoutExpired:
        os.killpg(child.pid, signal.SIGKILL)
        child.communicate()
        return None, "", ""


def judge(command, folder, top):
    """Runs a command, and gives what is wrong with it."""
    text = command.text
    for pattern, stand_in in STAND_INS:
        text = re.sub(pattern, stand_in, text)
    status, said, told = run(text, folder, top)
    if status is None:
        return command.fault(f"stopped after {LIMIT} seconds")
    if status:
        return command.fault(f"status {status} ({' '.join(told.split())[-200:]})")
    if command.output and said != command.output:
        return command.fault("prints other lines than the page")
    return None


def try_page(commands):
    """Runs the commands of a page in their order, and gives what is wrong with them."""
    with tempfile.TemporaryDirectory() as room:
        top = pathlib.Path(room, "checkout")
        make_folder(top)
        place, preparation = PLACES.get(commands[0].page, (".", "true"))
        run(preparation, top / place, top)
        return [judge(command, top / place, top) for command in commands]


def succeeds(words):
    """Whether a command is there and ends with 0."""
    try:
        return subprocess.run(words, stdin=subprocess.DEVNULL, capture_output=True).returncode == 0
    except OSError:
        return False


def sort_out(commands):
    """Gives the commands to run, how many are passed over, and those that are in no list. Prints what is missing."""
    missing = [(word, name) for word, name, words in NEEDS if not succeeds(words)]
    chosen, unknown, lacking = [], [], set()
    for command in commands:
        if any(command.is_named_by(pattern) for pattern, _ in PASSED_OVER):
            continue
        lacks = {name for word, name in missing if word in command.text}
        lacking |= lacks
        if not RUN.match(command.text):
            unknown.append(command.fault("is in no list of this check"))
        elif not lacks:
            chosen.append(command)
    for name in sorted(lacking):
        print(f"passed over: {name} is missing")
    return chosen, len(commands) - len(chosen) - len(unknown), unknown


def main():
    if len(sys.argv) > 1:
        is_asked = sys.argv[1] in ("-h", "--help")
        print(__doc__.strip(), file=sys.stdout if is_asked else sys.stderr)
        return 0 if is_asked else 64
    if not os.access(WDQ, os.X_OK):
        print(f"check_commands.py: there is no program {WDQ}", file=sys.stderr)
        return 2
    if not succeeds(("unshare", "-rn", sys.executable, "-c", ALONE, "true")):
        print("passed over: unshare can't shut the network off here")
        return 0
    chosen, passed_over, faults = sort_out([command for page in pages() for command in commands_of(page)])
    by_page = [list(group) for _, group in itertools.groupby(chosen, key=lambda command: command.page)]
    with concurrent.futures.ThreadPoolExecutor(4) as pool:
        for found in pool.map(try_page, by_page):
            faults += [fault for fault in found if fault]
    print(*faults, sep="\n", end="\n" if faults else "")
    print(f"{len(chosen)} commands run, {passed_over} passed over, {len(faults)} failed")
    return 1 if faults else 0


if __name__ == "__main__":
    sys.exit(main())
