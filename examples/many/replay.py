#!/usr/bin/python3
"""Replays an event file in parts, one process of wdq a part, and prints what they give together.

Each event goes to the part that its entity's number gives modulo the number of parts, and each watermark, question and version of the
mapping goes to every part (route.jq). Dask runs the parts as tasks: on this machine, or on the workers of a scheduler. Then the script
merges the answers to each question and the exports, each triple once, and counts them again; it merges the states in the order of the ids,
and prints the side output of part 0, then that of part 1, and so on. It can't answer a match, whose triples may lie in different parts.

If a process is killed, or its worker is lost, Dask runs the part again. If wdq ends with a status other than 0, the script ends with that
status, names the part, and prints nothing.

With --scheduler the folder of the pages, the program and --work are at the same paths on every machine.
"""

import argparse
import dataclasses
import fcntl
import heapq
import os
import pathlib
import re
import shutil
import subprocess
import sys
import tempfile

HERE = pathlib.Path(__file__).resolve().parent
ROWS_HEAD = re.compile(rb"# (ask \d+|export): \d+ triples\n")
BYTE_ORDER = {**os.environ, "LC_ALL": "C"}
# Statuses that wdq never has.
USAGE, LACKING, LOST = 64, 69, 71


class Ended(Exception):
    """Why the whole ends, with its status."""

    def __init__(self, status, reason):
        super().__init__(reason)
        self.status = status


@dataclasses.dataclass
class Job:
    """What a worker has to know to run a part: the file of its events, the program with its arguments and the folder that it runs in, and
    where to write."""

    part: int
    events: str
    program: str
    words: list
    folder: str
    work: str


@dataclasses.dataclass
class Outcome:
    """How the process of a part ended: its status, what it said on standard error, the folder of its sections, and what it took, in
    seconds of a processor and bytes of memory."""

    status: int
    message: str
    folder: str
    seconds: float
    memory: int


def route(events, parts, work):
    """Writes the lines of each part into a file of its own, and gives these files."""
    paths = [os.path.join(work, f"part-{part}.jsonl") for part in range(parts)]
    files = [open(path, "wb") for path in paths]
    with open(events, "rb") as lines:
        command = ["jq", "-R", "-r", "--argjson", "parts", str(parts), "-f", str(HERE / "route.jq")]
        router = subprocess.Popen(command, stdin=lines, stdout=subprocess.PIPE)
        for routed in router.stdout:
            part, line = routed.split(b"\t", 1)
            files[int(part)].write(line)
    for file in files:
        file.close()
    if router.wait() == 5:
        raise Ended(USAGE, f"{events} has a match, which needs one process")
    if router.returncode != 0:
        raise Ended(LOST, f"jq ended with status {router.returncode}")
    return paths


def section_name(line):
    """The section that a line begins or belongs to, or nothing where it goes on with the section before."""
    if not line.startswith(b"#"):
        return None
    if line.startswith((b"# state ", b"# side ")):
        return line.split()[1].decode()
    return ROWS_HEAD.fullmatch(line).group(1).decode().replace(" ", "-")


def peak_memory(process):
    """The most memory, in bytes, that a running process has had so far."""
    try:
        status = pathlib.Path(f"/proc/{process.pid}/status").read_text()
        return int(re.search(r"VmHWM:\s+(\d+) kB", status).group(1)) * 1024
    except (OSError, AttributeError):
        return 0


def split_sections(process, target):
    """Writes each section that a process prints into a file of its own, heads of rows left out, and tells the process's peak memory."""
    memory, section, file = 0, None, None
    for count, line in enumerate(process.stdout):
        name = section_name(line) or section
        if name != section:
            if file:
                file.close()
            section, file = name, open(target / name, "wb")
        if count % 1000 == 0:
            memory = max(memory, peak_memory(process))
        if not ROWS_HEAD.fullmatch(line):
            file.write(line)
    if file:
        file.close()
    return memory


def run_part(job):
    """Runs a part: its lines go through one process of wdq."""
    # A folder of this run's own, since a run that Dask holds for lost may still be writing.
    target = pathlib.Path(tempfile.mkdtemp(prefix=f"part-{job.part}-", dir=job.work))
    with open(job.events, "rb") as events, open(target / "message", "w+b") as message:
        process = subprocess.Popen([job.program, "replay", *job.words], cwd=job.folder, stdin=events, stdout=subprocess.PIPE, stderr=message)
        memory = split_sections(process, target)
        _, code, usage = os.wait4(process.pid, 0)
        process.returncode = status = os.waitstatus_to_exitcode(code)
        if status < 0:
            raise RuntimeError(f"its process was killed by signal {-status}")
        message.seek(0)
        return Outcome(status, message.read().decode(errors="replace").strip(), str(target), usage.ru_utime + usage.ru_stime, memory)


def merge(folders, name, merged):
    """Merges one section of all parts into a file, each line once; the lines of each part are in the order of their bytes."""
    files = [str(folder / name) for folder in folders if (folder / name).exists()]
    subprocess.run(["sort", "-m", "-u", "-o", str(merged), *files], env=BYTE_ORDER, check=True)


def place(state):
    """Where the line of a state stands: properties, then items, then lexemes, each by number."""
    entity = state.split()[2]
    return b"PQL".index(entity[:1]), int(entity[1:])


def merge_states(folders):
    """The states of all parts, in their order."""
    files = [open(folder / "state", "rb") for folder in folders if (folder / "state").exists()]
    yield from heapq.merge(*files, key=place)
    for file in files:
        file.close()


def copy_file(path, out):
    """Prints a file as it is."""
    with open(path, "rb") as file:
        shutil.copyfileobj(file, out)


def print_together(folders, merged, out):
    """Prints what the parts give together; a file for what is merged comes and goes."""
    names = {path.name for folder in folders for path in folder.iterdir()}
    answers = sorted((name for name in names if name.startswith("ask-")), key=lambda name: int(name[4:]))
    for name in answers + [name for name in ["export"] if name in names]:
        merge(folders, name, merged)
        with open(merged, "rb") as rows:
            count = sum(1 for _ in rows)
        out.write(f"# {name.replace('-', ' ')}: {count} triples\n".encode())
        copy_file(merged, out)
    if "state" in names:
        out.writelines(merge_states(folders))
    for folder in folders:
        if (folder / "side").exists():
            copy_file(folder / "side", out)
    merged.unlink(missing_ok=True)


def open_client(arguments):
    """A client of the scheduler that is named, or of a cluster of processes on this machine."""
    try:
        from distributed import Client
    except ImportError:
        raise Ended(LACKING, "Dask is missing (Debian's package python3-distributed)") from None
    if arguments.scheduler:
        return Client(arguments.scheduler)
    workers = arguments.workers or min(arguments.parts, os.cpu_count())
    return Client(n_workers=workers, threads_per_worker=1, host="127.0.0.1", dashboard_address=None, memory_limit=0, silence_logs=50)


def run_parts(client, jobs, figures):
    """Runs all parts, and gives the folders of their sections in the order of the parts."""
    from distributed import as_completed

    tasks = client.map(run_part, jobs, retries=2, pure=False)
    part_of = {task.key: job.part for task, job in zip(tasks, jobs)}
    folders = {}
    for task in as_completed(tasks):
        part = part_of[task.key]
        name = f"part {part} of {len(jobs)}"
        if task.status != "finished":
            raise Ended(LOST, f"{name}: {task.exception()}, each time that it was run")
        outcome = task.result()
        if outcome.status != 0:
            raise Ended(outcome.status, f"{name}: wdq ended with status {outcome.status}: {outcome.message}")
        if figures:
            print(f"{name}: {outcome.seconds:.2f} s of a processor, {outcome.memory / 1e6:.0f} MB", file=sys.stderr)
        folders[part] = pathlib.Path(outcome.folder)
    return [folders[job.part] for job in jobs]


class Parser(argparse.ArgumentParser):
    """A parser whose status for arguments that aren't understood is none of wdq's."""

    def error(self, message):
        raise Ended(USAGE, f"{message} (replay.py -h says its usage)")


def read_arguments():
    parser = Parser(description=__doc__, formatter_class=argparse.RawDescriptionHelpFormatter)
    parser.add_argument("--parts", type=int, default=os.cpu_count(), metavar="N", help="how many parts; without it, one a processor")
    parser.add_argument("--workers", type=int, metavar="N", help="how many parts run at a time on this machine; without it, one a processor")
    parser.add_argument("--scheduler", metavar="ADDRESS", help="a scheduler of Dask, as tcp://host:8786; without it, this machine alone")
    parser.add_argument("--program", default=str(HERE.parent.parent / "wdq"), metavar="FILE", help="the program; without it, this repository's wdq")
    parser.add_argument("--work", metavar="FOLDER", help="where the parts write what they print; without it, a folder that is removed at the end")
    parser.add_argument("--figures", action="store_true", help="tell on standard error what each part took")
    parser.add_argument("events", metavar="EVENTS", help="the event file")
    parser.add_argument("words", nargs="*", metavar="ARGUMENT", help="after --, the arguments of wdq replay, as --from pages --export")
    arguments = parser.parse_args()
    if arguments.parts < 1:
        raise Ended(USAGE, "--parts takes a number from 1 on")
    if arguments.scheduler and not arguments.work:
        raise Ended(USAGE, "--scheduler needs --work, a folder that all machines share")
    if not os.access(arguments.events, os.R_OK):
        raise Ended(USAGE, f"{arguments.events} can't be read")
    return arguments


def replay(arguments):
    """Replays the event file in parts and prints what they give together."""
    if not shutil.which("jq"):
        raise Ended(LACKING, "jq is missing (Debian's package jq)")
    # Over no lines it only says whether it understands the words; and where it isn't built yet, this builds it once, before the parts start.
    program = os.path.abspath(arguments.program)
    if not os.access(program, os.X_OK):
        raise Ended(LACKING, f"{arguments.program} is no program")
    tried = subprocess.run([program, "replay", *arguments.words], stdin=subprocess.DEVNULL, stdout=subprocess.DEVNULL)
    if tried.returncode != 0:
        raise Ended(tried.returncode, f"{arguments.program} ended with status {tried.returncode} over no lines")
    with tempfile.TemporaryDirectory() as temporary:
        work = os.path.abspath(arguments.work or temporary)
        os.makedirs(work, exist_ok=True)
        # Held until the process ends: another run would write the same files.
        lock = open(os.path.join(work, "lock"), "w")
        try:
            fcntl.flock(lock, fcntl.LOCK_EX | fcntl.LOCK_NB)
        except BlockingIOError:
            raise Ended(USAGE, f"another replay.py works in {work}") from None
        with open_client(arguments) as client:
            routed = route(arguments.events, arguments.parts, work)
            jobs = [Job(part, events, program, arguments.words, os.getcwd(), work) for part, events in enumerate(routed)]
            folders = run_parts(client, jobs, arguments.figures)
        print_together(folders, pathlib.Path(work) / "merged", sys.stdout.buffer)


def main():
    try:
        replay(read_arguments())
    except Ended as ended:
        print(f"replay.py: {ended}", file=sys.stderr)
        return ended.status
    return 0


if __name__ == "__main__":
    sys.exit(main())
