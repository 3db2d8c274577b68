"""Names each line of an event file that wdq would refuse, why, and what would mend it."""

import sys
import typing

from .event_lines import lines_of, refusal_of
from .progress import Progress

# The first bytes of packed files: by what, and what unpacks them.
MAGIC = {b"\x1f\x8b": ("gzip", "zcat"), b"BZh": ("bzip2", "bzcat"), b"\xfd7zXZ": ("xz", "xzcat"), b"\x28\xb5\x2f\xfd": ("Zstandard", "zstdcat")}


def explain(file: typing.BinaryIO) -> bool:
    """Prints why lines are refused; says whether none is."""
    count = refused = 0
    with Progress("lines") as progress:
        for count, line in enumerate(lines_of(file), 1):
            progress.show(count)
            refusal = refusal_of(line)
            if not refusal:
                continue
            refused += 1
            packed = next((names for magic, names in MAGIC.items() if count == 1 and line.startswith(magic)), None)
            if packed:
                print(f"line 1: {refusal.cause}: the file is packed by {packed[0]}; unpack it on the way: {packed[1]} FILE | wdq-mirror explain")
                break
            print(f"line {count}: {refusal}")
    print(f"{count} lines, of which wdq refuses {refused}", file=sys.stderr)
    return not refused
