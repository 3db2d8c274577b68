#!/usr/bin/env python3
"""Keeps pages packed (crate page_packing), among them pages that are made to be slow, and refuses each request for memory in turn.

usage: scripts/try_packing.py

A small program (packing_trial.rs) puts all pages, lets half of them go and puts them again, and after each step reads all that are kept. First
it has 23 pages: of no byte, of one byte, noise, 8 MB of one byte, and the shapes of slow_pages.py. Then it has twelve short ones, and each request
for memory is refused, once alone and once with all that follow: no page that is kept may be read wrongly. Needs the Rattle kit (`rt` on PATH)
and a C compiler (cc); takes some minutes. The program isn't proved, page_packing is. Ends with 1 where something went wrong.
"""
import os
import pathlib
import random
import re
import shutil
import subprocess
import sys
import tempfile

import refuse_memory
import slow_pages

TOP = pathlib.Path(__file__).resolve().parent.parent
LINE = re.compile(r"(\d+) kept, (\d+) steps, (\d+) not put, (\d+) not read, (\d+) wrong\n")


def compile_program(room):
    """Compiles the program in a tree of its own, by try.sh, and gives its path."""
    crate = room / "crates" / "packing_trial"
    shutil.copytree(TOP / "crates", room / "crates", ignore=shutil.ignore_patterns("out", "proofs", "must-fail", "data"))
    (crate / "src").mkdir(parents=True)
    shutil.copy(TOP / "scripts" / "packing_trial.rs", crate / "src" / "main.rt")
    (room / "crates.txt").write_text((TOP / "crates.txt").read_text(encoding="utf-8") + "packing_trial: page_packing text_region\n", encoding="utf-8")
    (room / "scripts").mkdir()
    shutil.copy(TOP / "scripts" / "try.sh", room / "scripts" / "try.sh")
    settings = {**os.environ, "TRY_PLAIN": "yes"}
    if subprocess.run([room / "scripts" / "try.sh", "--compile", "packing_trial"], env=settings, check=False).returncode != 0:
        sys.exit("try_packing.py: the program could not be compiled")
    return room / "out" / "unproved" / "packing_trial-unproved"


def pages():
    """The pages of the first part, and those of the second."""
    chance = random.Random(1)
    yield b""
    yield b"x"
    yield b"a" * 8_388_608
    yield bytes(chance.randrange(256) for _ in range(100_000))
    yield bytes(chance.randrange(256) for _ in range(65_576)) * 2
    for shape in slow_pages.SHAPES:
        yield shape().encode()


def short_pages():
    chance = random.Random(2)
    for size in (0, 1, 3, 300):
        yield bytes(chance.randrange(256) for _ in range(size))
    for item in range(8):
        yield slow_pages.page(labels={"en": {"language": "en", "value": f"item {item}"}}, claims={}).encode()


def write(room, name, texts):
    """Writes these pages into files, and gives their paths."""
    folder = room / name
    folder.mkdir()
    paths = []
    for number, text in enumerate(texts):
        paths.append(folder / f"{number}.json")
        paths[-1].write_bytes(text)
    return paths


def counts(program, paths, **settings):
    """What the program counts, or None where it printed no line, and its status."""
    done = subprocess.run([program, *paths], env={**os.environ, **settings}, capture_output=True, text=True, check=False)
    line = LINE.fullmatch(done.stdout)
    return (tuple(map(int, line.groups())) if line else None), done.returncode


def refuse_each(program, refuse, paths, room, **settings):
    """Refuses each request in turn; gives how many runs said that memory was wanting, and how many went wrong."""
    counted = room / "count"
    counts(program, paths, LD_PRELOAD=refuse, REFUSE_COUNT=str(counted))
    wanting = wrong = 0
    for at in range(1, int(counted.read_text(encoding="utf-8")) + 1):
        found, status = counts(program, paths, LD_PRELOAD=refuse, REFUSE_AT=str(at), **settings)
        wanting += found is None or found[2] + found[3] > 0
        wrong += status < 0 or (found is not None and found[4] > 0)
    return wanting, wrong


def main():
    if len(sys.argv) > 1:
        print(__doc__)
        return 0 if sys.argv[1] in ("-h", "--help") else 64
    failed = False
    with tempfile.TemporaryDirectory() as name:
        room = pathlib.Path(name)
        program = compile_program(room)
        paths = write(room, "pages", pages())
        found, status = counts(program, paths)
        print(f"{len(paths)} pages: {found}")
        failed |= status != 0 or found is None or any(found[2:])
        refuse = refuse_memory.build(room)
        paths = write(room, "short", short_pages())
        for kind, settings in (("alone", {}), ("with all that follow", {"REFUSE_ALL": "1"})):
            wanting, wrong = refuse_each(program, refuse, paths, room, **settings)
            print(f"each request refused {kind}: {wanting} runs wanted memory, {wrong} went wrong")
            failed |= wrong > 0
    return 1 if failed else 0


if __name__ == "__main__":
    sys.exit(main())
