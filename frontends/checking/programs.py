"""The programs that find facts of a text, tacview and taclint: where they are, and what a run of one
answers.
"""

from __future__ import annotations

import os
import subprocess
import tempfile
from typing import Any, NamedTuple

from gimple.faults import Refusal

HERE = os.path.dirname(os.path.realpath(__file__))
ROOT = os.path.join(HERE, "..", "..")


class Answer(NamedTuple):
    """What a program answers: its status, what it wrote, and the lines of standard error, as that
    it runs unproved.
    """

    status: int
    written: str
    said: list[str]


def path_of(name: str) -> str:
    """Where a program is: as the environment says, TACVIEW or TACLINT, or in the repository."""
    return os.environ.get(name.upper(), os.path.join(ROOT, name))


def prepare(name: str) -> None:
    """Has the launcher of a program build it where that is still to be done, which it tells on
    standard error.
    """
    if name.upper() in os.environ:
        return
    out = os.path.join(ROOT, "crates", name, "out")
    if not any(os.path.exists(os.path.join(out, path)) for path in (name, f"unproved/{name}")):
        subprocess.run([path_of(name), "--help"], stdout=subprocess.DEVNULL, check=False)


def answer_of(name: str, *words: str, **given: Any) -> Answer:
    """What a program answers to words. given: its input."""
    try:
        done = subprocess.run([path_of(name), *words], **given, capture_output=True, check=False)
    except OSError as fault:
        raise Refusal(f"{path_of(name)}: {fault.strerror}") from None
    said = done.stderr.decode("utf-8", "replace").strip().splitlines()
    return Answer(done.returncode, done.stdout.decode(), said)


def answer_on(name: str, pieces: list[str], workers: int, *words: str) -> Answer:
    """What a program answers to words on a text, within the large limits, by so many workers."""
    with tempfile.TemporaryFile("w+", encoding="ascii") as text:
        text.writelines(pieces)
        text.seek(0)
        return answer_of(name, "--limits", "large", "--workers", str(workers), *words, stdin=text)


def failed(name: str, status: int, causes: list[str]) -> Refusal:
    """That a program failed, with the last of some causes where there are any."""
    told = f"{name} failed with the status {status}"
    return Refusal(told + (f": {causes[-1]}" if causes else ""))
