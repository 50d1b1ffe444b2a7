"""One run of a program: its time by the clock and by the processor, its answer, its memory, its
instructions."""

from __future__ import annotations

import hashlib
import os
import re
import shutil
import subprocess
import tempfile
import time
from typing import NamedTuple


# Runs that take longer than so many milliseconds together are enough.
LONG = 5000


class Times(NamedTuple):
    clock: float
    processor: float


class Answer(NamedTuple):
    status: int
    digest: str
    error: bytes


def timed(command: list[str], text: str, environment: dict[str, str]) -> Times:
    """Milliseconds; standard output goes to /dev/null."""
    source, sink = os.open(text, os.O_RDONLY), os.open(os.devnull, os.O_WRONLY)
    actions = [
        (os.POSIX_SPAWN_DUP2, source, 0),
        (os.POSIX_SPAWN_DUP2, sink, 1),
        (os.POSIX_SPAWN_DUP2, sink, 2),
    ]
    begin = time.perf_counter()
    process = os.posix_spawn(command[0], command, environment, file_actions=actions)
    _, _, usage = os.wait4(process, 0)
    clock = time.perf_counter() - begin
    os.close(source)
    os.close(sink)
    return Times(1000 * clock, 1000 * (usage.ru_utime + usage.ru_stime))


def limited(command: list[str], seconds: int | None) -> list[str]:
    """The command, stopped after so many seconds where some are said."""
    return [shutil.which("timeout") or "timeout", str(seconds), *command] if seconds else command


def least(
    command: list[str],
    text: str,
    environment: dict[str, str],
    times: int,
    seconds: int | None = None,
) -> float | None:
    """Milliseconds of the processor, the least of so many runs; where seconds are said, of fewer if
    they are long, and None if stopped."""
    command = limited(command, seconds)
    runs: list[Times] = []
    while len(runs) < times and not (seconds and sum(run.clock for run in runs) > LONG):
        runs.append(timed(command, text, environment))
    return (
        None if seconds and runs[0].clock >= 1000 * seconds else min(run.processor for run in runs)
    )


def answer(command: list[str], text: str, environment: dict[str, str]) -> Answer:
    """The answer's digest, as it may be of gigabytes."""
    digest = hashlib.blake2b()
    with open(text, "rb") as source, tempfile.TemporaryFile() as errors:
        process = subprocess.Popen(
            command, stdin=source, stdout=subprocess.PIPE, stderr=errors, env=environment, bufsize=0
        )
        assert process.stdout is not None
        while piece := process.stdout.read(1 << 20):
            digest.update(piece)
        process.stdout.close()
        status = process.wait()
        errors.seek(0)
        return Answer(status, digest.hexdigest(), errors.read())


def peak(helper: str, command: list[str], text: str, environment: dict[str, str]) -> int:
    """The most memory of a run, in KiB."""
    with open(text, "rb") as source, tempfile.NamedTemporaryFile() as told:
        subprocess.run(
            [helper, told.name, *command],
            stdin=source,
            stdout=subprocess.DEVNULL,
            stderr=subprocess.DEVNULL,
            env=environment,
        )
        return int(told.read() or 0)


def instructions(command: list[str], text: str, environment: dict[str, str]) -> int | None:
    """As callgrind counts them; None where it cannot."""
    counted = ["valgrind", "--tool=callgrind", "--callgrind-out-file=/dev/null", *command]
    with open(text, "rb") as source:
        run = subprocess.run(
            counted,
            stdin=source,
            stdout=subprocess.DEVNULL,
            stderr=subprocess.PIPE,
            env=environment,
        )
    found = re.search(rb"Collected : (\d+)", run.stderr)
    return int(found.group(1)) if found else None
