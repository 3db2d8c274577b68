#!/usr/bin/env python3
"""Refuses each request for memory of some runs of wdq in turn: once alone, and once with all that follow.

usage: scripts/refuse_memory.py [--lean] [PROGRAM]

The runs are two examples; three that save on the way (--every): changes, a replay with a horizon, and a split; and lean ones, which are
`patches --lean` over strange pages (lean_streams.py): over all events, with saves on the way, from a file, with a limit at which the store
is full, and over pages that differ little from those before. With --lean only these are tried. Each must end with status 7 and the first
bytes of its whole output, or as it does with all its memory. The file of --save must be whole or not there, and a run from it over the
lines behind it must end as one run does. Only where all that follow are refused too may a file be left beside it.

PROGRAM is the program to try; without it, the one that ./wdq built. Needs a C compiler (cc), and takes some minutes, with --lean one.
Prints a line for each run and for its first faults, and ends with 1 where something went wrong.
"""
import argparse
import collections
import dataclasses
import datetime
import json
import os
import pathlib
import random
import shutil
import subprocess
import sys
import tempfile

import lean_streams

TOP = pathlib.Path(__file__).resolve().parent.parent
FAULTS = 10  # how many faults of a run are printed
SEED, EVENTS = 16, 9  # of the strange pages; these lead a lean store to nearly all that it does, seen by valgrind
FEW = "78"  # the limit at which the last of these pages finds the store full
# Counts the requests of a process, and refuses the one with the number REFUSE_AT, with REFUSE_ALL those that follow too.
REFUSE = r"""
#define _GNU_SOURCE
#include <dlfcn.h>
#include <stdio.h>
#include <stdlib.h>
static long count, at = -1, all;
static void *(*next_malloc)(size_t), *(*next_calloc)(size_t, size_t), *(*next_realloc)(void *, size_t);
static int (*next_align)(void **, size_t, size_t);
static void *(*next_aligned)(size_t, size_t);
static int ready;
static void get_ready(void) {
  next_malloc = dlsym(RTLD_NEXT, "malloc"), next_calloc = dlsym(RTLD_NEXT, "calloc"), next_realloc = dlsym(RTLD_NEXT, "realloc");
  next_align = dlsym(RTLD_NEXT, "posix_memalign"), next_aligned = dlsym(RTLD_NEXT, "aligned_alloc");
  const char *text = getenv("REFUSE_AT");
  if (text) at = atol(text);
  all = getenv("REFUSE_ALL") != 0;
  ready = 1;
}
static int refuses(void) { count++; return at > 0 && (all ? count >= at : count == at); }
void *malloc(size_t size) { if (!ready) get_ready(); return refuses() ? 0 : next_malloc(size); }
void *realloc(void *old, size_t size) { if (!ready) get_ready(); return refuses() ? 0 : next_realloc(old, size); }
void *aligned_alloc(size_t align, size_t size) { if (!ready) get_ready(); return refuses() ? 0 : next_aligned(align, size); }
int posix_memalign(void **out, size_t align, size_t size) { if (!ready) get_ready(); return refuses() ? 12 : next_align(out, align, size); }
void *calloc(size_t number, size_t size) {
  static char early[4096]; static size_t used;
  if (!next_calloc) {
    if (!ready && !used) { used = 1; get_ready(); }
    if (!next_calloc) { void *place = early + used; used += number * size + 16 & ~15UL; return place; }
  }
  return refuses() ? 0 : next_calloc(number, size);
}
__attribute__((destructor)) static void tell(void) {
  const char *name = getenv("REFUSE_COUNT");
  if (!name) return;
  FILE *file = fopen(name, "w");
  if (file) { fprintf(file, "%ld\n", count); fclose(file); }
}
"""


@dataclasses.dataclass
class Run:
    """A run that is tried: its name, its words, its folder and its lines; whether it saves; the file that it goes on from, and how many
    lines this file has taken; and the status that it has with all its memory."""

    name: str
    words: list
    folder: pathlib.Path
    lines: list
    saves: bool = False
    source: str = None
    taken: int = 0
    status: int = 0

    def command(self, target, source):
        """The words of the run where it saves to this file, if it saves, and goes on from that one, if there is one."""
        saving = ["--save", target] if self.saves else []
        return self.words + saving + (["--resume", source] if source else [])


def edits(number):
    """The lines of edits of so many items, each with a watermark behind it."""
    lines = []
    for item in range(1, number + 1):
        time = datetime.datetime.fromtimestamp(1714557600 + item, datetime.timezone.utc).strftime("%Y-%m-%dT%H:%M:%SZ")
        lines.append(json.dumps({"kind": "edit", "entity": f"Q{item}", "rev": item, "time": time}))
        lines.append(json.dumps({"watermark": time}))
    return lines


def other_runs(room):
    """The runs that aren't lean."""
    for example in ("story", "item"):
        folder = TOP / "examples" / example
        pages = "pages" if (folder / "pages").is_dir() else "."
        words = ["replay", "--from", pages, "--export", "--state", "--side"]
        yield Run(example, words, folder, (folder / "events.jsonl").read_text(encoding="utf-8").splitlines())
    (room / "pages").mkdir()
    for item in range(1, 7):
        (room / "pages" / f"{item}.json").write_text(f'{{"entity":"Q{item}","redirect":"Q{item + 100}"}}', encoding="utf-8")
    for name, words in (
        ("changes", ["patches", "--every", "1"]),
        ("a replay", ["replay", "--export", "--every", "2", "--horizon", "1000000"]),
        ("a split", ["split", "--route", "people:Q5", "--every", "1"]),
    ):
        yield Run(name, words + ["--from", "pages"], room, edits(6), saves=True)


def strange_lines(pages, seed, events, page_of=lean_streams.page, entities=lean_streams.ENTITIES):
    """The lines of events over strange pages, which go to the folder. In the middle another version of the mapping comes into force."""
    pages.mkdir()
    lines = [line.rstrip("\n") for line in lean_streams.lines(random.Random(seed), events, str(pages), page_of, entities)]
    half = len(lines) // 2
    return lines[:half] + ['{"mapping":2}'] + lines[half:]


def lean_runs(program, room):
    """The lean runs. One before them, which has all its memory, saves the file from which two go on."""
    lines = strange_lines(room / "strange", SEED, EVENTS)
    words = ["patches", "--lean", "--from", "strange"]
    cut = len(lines) // 3
    text = "".join(line + "\n" for line in lines[:cut]).encode()
    subprocess.run([program, *words, "--save", "first"], input=text, cwd=room, stdout=subprocess.DEVNULL, check=True)
    rest = {"lines": lines[cut:], "source": "first", "taken": cut}
    yield Run("lean", words, room, lines)
    yield Run("lean, with saves", words + ["--every", "1"], room, lines, saves=True)
    yield Run("lean, from a file", words, room, **rest)
    yield Run("lean, from a file and with saves", words + ["--every", "1"], room, saves=True, **rest)
    yield Run("lean, with a full store", words + ["--max-terms", FEW], room, lines, status=6)
    edited = strange_lines(room / "edited", SEED, EVENTS, lean_streams.Edited().page, ["Q1"])
    yield Run("lean, with pages that are compared", ["patches", "--lean", "--from", "edited", "--every", "1"], room, edited, saves=True)


class Trial:
    """One run, of which each request for memory is refused."""

    def __init__(self, program, refuse, room, tried):
        self.program, self.refuse, self.room, self.tried = program, refuse, room, tried
        self.saved = room / "saved"
        self.whole_output, self.whole_file, self.judged = b"", None, {}

    def run(self, target, source, lines, **settings):
        """The status and the output of a run that saves to this file and goes on from that one."""
        text = "".join(line + "\n" for line in lines).encode()
        command = [self.program, *self.tried.command(target, source)]
        done = subprocess.run(command, input=text, cwd=self.tried.folder, env={**os.environ, **settings}, capture_output=True)
        return done.returncode, done.stdout

    def clear(self):
        """Takes away what an earlier run saved."""
        for name in ("saved", "saved.new", "end"):
            (self.room / name).unlink(missing_ok=True)

    def count(self):
        """How many requests the whole run makes."""
        self.clear()
        counted = self.room / "count"
        settings = {"LD_PRELOAD": self.refuse, "REFUSE_COUNT": str(counted)}
        status, self.whole_output = self.run("saved", self.tried.source, self.tried.lines, **settings)
        if status != self.tried.status:
            sys.exit(f"{self.tried.name}: status {status}, where {self.tried.status} was expected")
        if self.saved.exists():
            self.whole_file = self.saved.read_bytes()
        return int(counted.read_text(encoding="utf-8"))

    def judge_file(self, may_leave_another):
        """What is wrong with the file of --save, if something is. A file that was judged before isn't tried again."""
        if not may_leave_another and (self.room / "saved.new").exists():
            return "a file beside it is left"
        if not self.saved.exists():
            return None
        content = self.saved.read_bytes()
        if content not in self.judged:
            self.judged[content] = self.judge_content(content)
        return self.judged[content]

    def judge_content(self, content):
        """What is wrong with what the file of --save has, if something is."""
        rows = content.split(b"\n")
        if rows[-1] or json.loads(rows[-2]) != {"end": len(rows) - 2}:
            return "the file isn't whole"
        lines = self.tried.lines[json.loads(rows[0])["lines"] - self.tried.taken:]
        status, output = self.run("end", "saved", lines)
        if status != 0 or not self.whole_output.endswith(output):
            return "a run from the file prints something else"
        if comparable((self.room / "end").read_bytes(), self.tried) != comparable(self.whole_file, self.tried):
            return "a run from the file ends otherwise"
        return None

    def refused(self, at, **settings):
        """The status of a run in which a request is refused, and what is wrong with it, if something is."""
        self.clear()
        status, output = self.run("saved", self.tried.source, self.tried.lines, LD_PRELOAD=self.refuse, REFUSE_AT=str(at), **settings)
        if status not in (self.tried.status, 7):
            return status, "another status"
        if not self.whole_output.startswith(output) or (status != 7 and output != self.whole_output):
            return status, "another output"
        return status, self.judge_file(bool(settings))


def comparable(saved, tried):
    """A saved file as it is compared. Each run of `replay` or `split` that changes something passes over a number of records, so a run from
    a file passes over one more than one run does; there the number is left out."""
    head, rest = saved.split(b"\n", 1)
    fields = json.loads(head)
    if tried.words[0] != "patches":
        del fields["patches"]
    return fields, rest


def try_run(trial):
    """Tries a run, and prints how it went and its first faults; whether it went well."""
    name, requests = trial.tried.name, trial.count()
    statuses, faults = collections.Counter(), []
    for settings in ({}, {"REFUSE_ALL": "yes"}):
        for at in range(1, requests + 1):
            status, fault = trial.refused(at, **settings)
            statuses[status] += 1
            if fault is not None:
                faults.append(f"request {at}{' and all that follow' if settings else ''}: status {status}: {fault}")
    for fault in faults[:FAULTS]:
        print(f"{name}: {fault}")
    said = ", ".join(f"{count} with status {status}" for status, count in sorted(statuses.items()))
    went = f"; {len(faults)} went wrong" if faults else ""
    print(f"{name}: {requests} requests, each refused alone and with all that follow: {said}{went}", flush=True)
    return not faults


def build(room):
    """Compiles the library that refuses requests, and gives its path."""
    if shutil.which("cc") is None:
        sys.exit("a C compiler is missing: apt-get install gcc")
    refuse = str(room / "refuse.so")
    subprocess.run(["cc", "-shared", "-fPIC", "-x", "c", "-", "-o", refuse, "-ldl"], input=REFUSE.encode(), check=True)
    return refuse


def main():
    parser = argparse.ArgumentParser(description=__doc__, formatter_class=argparse.RawDescriptionHelpFormatter, usage=argparse.SUPPRESS)
    parser.add_argument("--lean", action="store_true", help="try only the lean runs")
    parser.add_argument("program", metavar="PROGRAM", nargs="?", default=TOP / "crates/wdq/out/wdq")
    given = parser.parse_args()
    program = pathlib.Path(given.program).resolve()
    if not program.exists():
        sys.exit(f"{program} isn't built")
    well = True
    with tempfile.TemporaryDirectory() as folder:
        room = pathlib.Path(folder)
        refuse = build(room)
        for runs in ([] if given.lean else [other_runs(room)]) + [lean_runs(program, room)]:
            for tried in runs:
                well &= try_run(Trial(program, refuse, room, tried))
    return 0 if well else 1


if __name__ == "__main__":
    sys.exit(main())
