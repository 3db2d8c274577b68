"""Whether wdq-mirror and wdq refuse the same lines, for the same causes: over the inputs of all cases.

Each case's input goes through both as a whole: they must name the same first refused line and cause, or none. Then each refused line goes
through wdq alone, and all accepted ones together.
"""

import io
import pathlib
import re
import subprocess

import pytest

from wdq_mirror import program, settings
from wdq_mirror.event_lines import lines_of, refusal_of

CASES = sorted((pathlib.Path(__file__).resolve().parents[2] / "crates/cases/data").glob("*.case"))
HEAD = re.compile(r"(words|in|out|page|pages|status|records|rows|side|owners|fetches|waiting|bytes|failing|cut)\b")
EVENT = re.compile(rb"(edit|delete|undelete|reconcile) (\S+) r(\S+) t(\S+)(?: (\S+))?")


def time_text(seconds):
    return b"2024-05-01T10:00:" + (seconds if len(seconds.split(b".")[0]) > 1 else b"0" + seconds) + b"Z"


def spelt(line):
    """The bytes that a line of a case stands for (crates/cases/README.md). Prefixes stay: they are IRIs too."""
    line = re.sub(rb"\\x([0-9a-f]{2})", lambda match: bytes([int(match.group(1), 16)]), line)
    if match := re.fullmatch(rb"repeat (\d+) (.*)", line, re.DOTALL):
        return match.group(2) * int(match.group(1))
    if match := EVENT.fullmatch(line):
        kind, entity, revision, time, mode = match.groups()
        mode = b',"mode":"' + mode + b'"' if mode else b""
        return b'{"kind":"' + kind + b'","entity":"' + entity + b'","rev":' + revision + b',"time":"' + time_text(time) + b'"' + mode + b"}"
    if match := re.fullmatch(rb"watermark t(\S+)", line):
        return b'{"watermark":"' + time_text(match.group(1)) + b'"}'
    if match := re.fullmatch(rb"ask (.*)", line):
        return b'{"ask":[' + match.group(1) + b"]}"
    return line


def input_of(lines, row):
    """The input of a case with a row of its table."""
    whole = b""
    for line in lines:
        for number, part in enumerate(row, 1):
            line = line.replace(b"$%d" % number, part)
        end = b"" if line.endswith(b"\\") else b"\n"
        line = line.removesuffix(b"\\")
        if match := re.fullmatch(rb"times (\d+) (.*)", line):
            count, line = int(match.group(1)), match.group(2)
            whole += b"\n".join(spelt(line.replace(b"%d", b"%d" % number)) for number in range(1, count + 1)) + end
        else:
            whole += spelt(line) + end
    return whole


def inputs_of(path):
    """The inputs of all cases of a file."""
    with open(path, "rb") as file:
        cases = re.split(rb"^case ", file.read(), flags=re.MULTILINE)[1:]
    for case in cases:
        sections, name = {}, None
        for line in case.split(b"\n")[1:]:
            if line.startswith(b"  "):
                sections[name].append(line[2:])
            elif line and not line.startswith(b"#"):
                name = line.split()[0]
                sections[name] = []
        rows = [row.split(b" | ") for row in sections.get(b"rows", [])] or [[]]
        yield from (input_of(sections.get(b"in", []), row) for row in rows)


def verdict_of_program(program, text):
    """What wdq says of an input: nothing where it takes it all."""
    ended = subprocess.run([program, "replay", "--from", "/dev/null/none"], input=text, stdout=subprocess.DEVNULL, stderr=subprocess.PIPE)
    said = ended.stderr.decode().strip()
    if ended.returncode not in (0, 2):
        pytest.fail(f"wdq ended with status {ended.returncode}: {said}")
    return said.removeprefix("wdq: ")


def verdict_of_lines(lines):
    """What wdq-mirror holds of an input, in the same words."""
    for number, line in enumerate(lines, 1):
        if refusal := refusal_of(line):
            return f"line {number}: {refusal.cause}"
    return ""


@pytest.mark.skipif(not CASES, reason="the cases aren't there")
def test_wdq_and_wdq_mirror_refuse_the_same_lines():
    wdq = program.find(settings.Settings())
    inputs = list(dict.fromkeys(text for path in CASES for text in inputs_of(path)))
    lines = list(dict.fromkeys(line for text in inputs for line in lines_of(io.BytesIO(text))))
    refused = [line for line in lines if refusal_of(line)]
    accepted = [line for line in lines if not refusal_of(line)]
    assert len(refused) > 100 and len(accepted) > 100
    for text in inputs + [line + b"\n" for line in refused] + [b"".join(line + b"\n" for line in accepted)]:
        assert verdict_of_program(wdq, text) == verdict_of_lines(lines_of(io.BytesIO(text))), text[:200]
