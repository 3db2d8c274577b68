#!/usr/bin/env python3
"""Measures how much memory an item takes, and where its bytes go.

    scripts/memory.py [--items 8000] [--bytes 22600] [--words 'replay'] -- PROGRAM

PROGRAM runs over a workload of so many items (item_workload.py) and over its first half; the peak's difference, by item, is what an item takes. A
table beside it calculates the parts from what is stored: the triples and terms of `PROGRAM replay --export`, and the triples of some pages
alone. What the table doesn't explain are holes of the heap, and what grows by doubling. `--words` are the words of the run that is measured,
without --from.
"""
import argparse
import collections
import multiprocessing
import os
import pathlib
import re
import shlex
import shutil
import subprocess
import sys
import tempfile

import item_workload

TRIPLE = re.compile(rb"(\S+) (\S+) (.+) \.\n")
ORDER = 13.7  # bytes of a triple in one of three orders: a key of 12, and what its block keeps free
TERM = 50  # bytes of a term beside its text: slot 20, hash table 30
OWNED = 18  # bytes of a triple of a page: its key 12, how often it comes 2, its place in the walk 4
RECORD = 210  # bytes of an entity's record
SAMPLE = 100  # pages whose triples are counted alone


def peak(program, words, folder, source):
    """The peak of memory, in bytes, of a run over the lines of a file."""
    with open(source, "rb") as lines:
        pid = os.fork()
        if pid == 0:
            os.dup2(lines.fileno(), 0)
            os.dup2(os.open(os.devnull, os.O_WRONLY), 1)
            os.execvp(program[0], program + words + ["--from", str(folder / "revs")])
        _, status, use = os.wait4(pid, 0)
    if status:
        sys.exit(f"memory.py: {shlex.join(program + words)} ended with status {os.waitstatus_to_exitcode(status)}")
    return use.ru_maxrss * 1024


def export(program, folder, lines):
    """The triples that a replay of the lines exports, as triples of texts of terms."""
    done = subprocess.run(program + ["replay", "--from", str(folder / "revs"), "--export"], input=lines, stdout=subprocess.PIPE, check=True)
    return [TRIPLE.fullmatch(line).groups() for line in done.stdout.splitlines(keepends=True) if not line.startswith(b"#")]


def parts(program, folder, items):
    """The calculated bytes of an item, by what they are for."""
    lines = (folder / "input").read_bytes().splitlines(keepends=True)
    triples = export(program, folder, b"".join(lines))
    terms = {term for triple in triples for term in triple}
    edits = [line for line in lines if b"kind" in line]
    sample = edits[::max(1, len(edits) // SAMPLE)]
    owned = sum(len(export(program, folder, line)) for line in sample) / len(sample)
    pages = sum(file.stat().st_size for file in (folder / "revs").iterdir())
    found = collections.OrderedDict()
    found["the page"] = pages / items
    found["texts of terms"] = sum(map(len, terms)) / items
    found["terms beside their texts"] = TERM * len(terms) / items
    found["triples in three orders"] = 3 * ORDER * len(triples) / items
    found["keys of the page's triples"] = OWNED * owned
    found["its record"] = RECORD
    print(f"{len(triples) / items:.0f} stored triples, {owned:.0f} triples of a page and {len(terms) / items:.0f} terms an item")
    return found


def main():
    """Measures, and prints the table."""
    if "--" not in sys.argv:
        sys.exit(__doc__)
    at = sys.argv.index("--")
    parser = argparse.ArgumentParser(description=__doc__, formatter_class=argparse.RawDescriptionHelpFormatter)
    parser.add_argument("--items", type=int, default=8000)
    parser.add_argument("--bytes", type=int, default=item_workload.BYTES)
    parser.add_argument("--words", default="replay")
    given = parser.parse_args(sys.argv[1:at])
    program = sys.argv[at + 1:]
    if not program or not shutil.which(program[0]):
        sys.exit("memory.py: a program is needed behind --")
    program[0] = os.path.abspath(shutil.which(program[0]))
    with tempfile.TemporaryDirectory(prefix="wdq-memory") as room:
        folder = pathlib.Path(room) / "workload"
        # in a process of its own, since a child's peak begins with its parent's
        maker = multiprocessing.Process(target=item_workload.make, args=(folder, given.items, given.bytes, 0, 1, "1", os.cpu_count()))
        maker.start()
        maker.join()
        lines = (folder / "input").read_text().splitlines(keepends=True)
        half = folder / "half"
        half.write_text("".join(lines[:len(lines) // 2]))
        words = shlex.split(given.words)
        most = peak(program, words, folder, folder / "input")
        taken = (most - peak(program, words, folder, half)) / (given.items - given.items // 2)
        print(f"{given.items} items: {most / 1e6:.0f} MB at the peak, {taken / 1000:.1f} kB an item")
        if words[0] == "replay":
            found = parts(program, folder, given.items)
            found["holes and what isn't explained"] = taken - sum(found.values())
            for name, size in found.items():
                print(f"{size / 1000:8.1f} kB  {name}")


if __name__ == "__main__":
    main()
