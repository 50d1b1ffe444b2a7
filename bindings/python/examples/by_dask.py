"""The report on a program, or how much of an analysis holds at each of its points, by the workers
of a Dask scheduler.

    by_dask.py ADDRESS FILE             the report, in parts, which tacview merges
    by_dask.py ADDRESS FILE ANALYSIS    a line for each point: how many bits its set has

Each worker is sent the text once, and there are as many parts as workers have threads. Workers need
the module tacflow with its library. TACVIEW=/path/to/program takes another program than tacview.
"""

from __future__ import annotations

import importlib
import os
import subprocess
import sys
import tempfile
from collections.abc import Callable, Sequence
from pathlib import Path
from typing import Any

import tacflow

WORD = 64


def counts_of(text: bytes, analysis: str, begin: int, end: int) -> list[int]:
    """How many of these bits each point has."""
    with tacflow.open(text, "large") as program:
        return [int(count) for count in program.facts(analysis, bits=range(begin, end)).counts()]


def part_of(text: bytes, part: int, count: int) -> str:
    """A part of the report."""
    return tacflow.report_part(text, part, count, "large")


def done_by(client: Any, text: bytes, work: Callable[..., Any], words: list[Any]) -> list[Any]:
    """What workers answer to this work on a text, once for each of these words."""
    there = client.scatter(text, broadcast=True)
    return list(client.gather([client.submit(work, there, *each, pure=False) for each in words]))


def merged(parts: list[str]) -> str:
    """The report that parts make."""
    with tempfile.TemporaryDirectory() as folder:
        paths = [Path(folder, str(number)) for number in range(1, len(parts) + 1)]
        for path, part in zip(paths, parts):
            path.write_text(part, encoding="ascii")
        command = [os.environ.get("TACVIEW", "tacview"), "--merge", *map(str, paths)]
        return subprocess.run(command, stdout=subprocess.PIPE, encoding="ascii", check=True).stdout


def answer(client: Any, text: bytes, analysis: str | None) -> str:
    """What is asked of a text."""
    count = max(1, sum(client.nthreads().values()))
    if analysis is None:
        return merged(done_by(client, text, part_of, [(at, count) for at in range(1, count + 1)]))
    with tacflow.open(text, "large") as program:
        bits, points = program.bit_count(analysis), program.sizes.points
    width = WORD * max(1, -(-bits // (WORD * count)))
    words = [(analysis, at, min(at + width, bits)) for at in range(0, bits, width)]
    counts = [sum(of_bits) for of_bits in zip([0] * points, *done_by(client, text, counts_of, words))]
    return "".join(f"{point} {count}\n" for point, count in enumerate(counts))


def main(words: Sequence[str]) -> int:
    if len(words) not in (2, 3):
        print(__doc__, file=sys.stderr)
        return 2
    try:
        text = Path(words[1]).read_bytes()
        with importlib.import_module("distributed").Client(words[0], set_as_default=False) as client:
            sys.stdout.write(answer(client, text, words[2] if len(words) == 3 else None))
    except (tacflow.Error, OSError, subprocess.CalledProcessError) as error:
        print(f"by_dask.py: {words[1]}: {error}", file=sys.stderr)
        return 1
    return 0


if __name__ == "__main__":
    sys.exit(main(sys.argv[1:]))
