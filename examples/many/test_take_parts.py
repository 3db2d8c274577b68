#!/usr/bin/python3
"""Tries take_parts.py without Redis: a process killed between two records, and one whose wdq fails, leave no records of two runs."""

import pathlib
import sys
import tempfile
import types

import take_parts

# A program in the place of wdq: it makes a record of each line, with the text that stands in the file beside it.
PROGRAM = """#!/usr/bin/python3
import pathlib, sys
words = sys.argv
count = int(pathlib.Path(words[words.index("--resume") + 1]).read_text()) if "--resume" in words else 0
mark = pathlib.Path(sys.argv[0] + ".mark").read_text()
for line in sys.stdin:
    count += 1
    print(f"# patch {count} +1 -0\\n<line:{line.strip()}> <by> <{mark}> .")
if mark == "fails":
    sys.exit(3)
pathlib.Path(words[words.index("--save") + 1]).write_text(str(count))
"""


class Killed(Exception):
    """The process is killed."""


class Server:
    """The streams and keys of a Redis server, which is left after so many records."""

    def __init__(self, lines):
        self.events = [(b"%d-0" % number, {b"line": line}) for number, line in enumerate(lines, 1)]
        self.records, self.ended, self.left_after = [], False, None

    def xread(self, streams, count):
        first = take_parts.ids_of(next(iter(streams.values())))
        found = [entry for entry in self.events if take_parts.ids_of(entry[0].decode()) > first][:count]
        return [(b"events", found)] if found else []

    def xadd(self, _, fields, id):
        if len(self.records) == self.left_after:
            raise Killed
        self.records.append((id.encode(), fields["record"]))

    def xrevrange(self, _, count):
        return self.records[-count:]

    def set(self, *_):
        self.ended = True


def main():
    """Tries both, and tells how they went."""
    take_parts.redis = types.SimpleNamespace(ResponseError=ValueError)
    with tempfile.TemporaryDirectory() as work:
        program = pathlib.Path(work) / "program"
        program.write_text(PROGRAM)
        program.chmod(0o755)
        given = types.SimpleNamespace(work=pathlib.Path(work) / "steps", pages="none", program=str(program), batch=3, lease=1000)
        server = Server([b"a", b"b", b"c", b"d", take_parts.END])

        def step(mark, left_after=None):
            """A process makes one step, with records of this text, and is killed after so many records."""
            pathlib.Path(str(program) + ".mark").write_text(mark)
            server.left_after = left_after
            try:
                take_parts.Part(given, server, 0).step()
            except (Killed, take_parts.subprocess.CalledProcessError):
                pass

        step("fails")
        step("first", left_after=2)
        step("second")
        numbers = [take_parts.ids_of(name.decode())[0] for name, _ in server.records]
        marks = [record.split(b"> <")[2].split(b">")[0] for _, record in server.records]
        went = numbers == [1, 2, 3, 4] and marks == [b"first"] * 3 + [b"second"] and server.ended
    print(f"{'as expected' if went else 'not as expected'}: the records of steps that failed or were killed are those of one run each")
    return not went


if __name__ == "__main__":
    sys.exit(main())
