"""Tries the line on a terminal that says how far a run is: `clusters` calls this.

Not verified.
"""

from __future__ import annotations

import os
import re
import subprocess
import sys
from collections.abc import Iterator

from farm import CHECK, WORDS, Farm

LINE = rb"\rcheck-c: (\d+) of %d files"
# What takes the line away.
GONE = re.compile(rb"\r +\r")


def run_on_terminal(command: list[str], folder: str, **environment: str) -> bytes:
    """What a command writes to a terminal that is its standard error."""
    reader, writer = os.openpty()
    with subprocess.Popen(
        command,
        cwd=folder,
        env=os.environ | environment,
        stdout=subprocess.DEVNULL,
        stderr=writer,
    ):
        os.close(writer)
        said = b""
        while True:
            try:
                part = os.read(reader, 4096)
            except OSError:  # nobody writes to it any more
                break
            if not part:
                break
            said += part
    os.close(reader)
    return said


def wrong_line(said: bytes, count: int) -> Iterator[str]:
    """What is wrong with the line of a run over so many files."""
    line, *rest = GONE.split(said)
    numbers = [int(number) for number in re.findall(LINE % count, line)]
    if not numbers or numbers != sorted(numbers) or len(rest) != 1 or b"remarks on" not in rest[0]:
        yield f"on a terminal: {said!r}"


def wrong_progress(farm: Farm) -> Iterator[str]:
    """What is wrong with the line of processes of this machine."""
    slow = os.path.join(farm.folder, "slow")
    with open(slow, "w", encoding="utf-8") as file:
        file.write(f'#!/bin/sh\nsleep 0.3\nexec {os.environ.get("GCC", "gcc")} "$@"\n')
    os.chmod(slow, 0o755)
    sources = farm.sources[:6]
    ways: list[list[str]] = [["-j", "2"], []]
    for words in ways:
        command = [sys.executable, CHECK, *WORDS, *words, *sources, "missing.c"]
        said = run_on_terminal(command, farm.machines[0], GCC=slow)
        yield from wrong_line(said, len(sources) + 1)
        if b"files, 1 failed" not in said:
            yield f"on a terminal: {said!r}"
    command = [sys.executable, CHECK, *WORDS, *sources]
    done = subprocess.run(command, cwd=farm.machines[0], capture_output=True, check=False)
    if b"\r" in done.stderr or b"remarks on" not in done.stderr:
        yield f"on no terminal: {done.stderr!r}"
