"""What git says changed: the lines of which `--since` tells."""

import os
import re
import subprocess

from .compiling import BadWords
from .remark import Remark

FILE = re.compile(r"\+\+\+ b/(.*?)\t?$")
LINES = re.compile(r"@@ -\d+(?:,(\d+))? \+(\d+)(?:,(\d+))? @@")
DIFF = [
    "-c",
    "core.quotePath=false",
    "diff",
    "--unified=0",
    "--no-color",
    "--no-ext-diff",
    "--src-prefix=a/",
    "--dst-prefix=b/",
]


def changed_since(revision: str, remarks: list[Remark]) -> list[Remark]:
    """The remarks that stand on lines which changed since a revision."""
    if revision.startswith("-"):
        raise BadWords(f"{revision} is no revision")
    top = asked_of_git("rev-parse", "--show-toplevel").rstrip("\n")
    changed = lines_in(asked_of_git(*DIFF, revision, "--"), os.path.realpath(top))
    return [
        remark
        for remark in remarks
        if any(
            first <= remark.line <= last
            for first, last in changed.get(os.path.realpath(remark.file), ())
        )
    ]


def asked_of_git(*words: str) -> str:
    """What git answers."""
    try:
        done = subprocess.run(
            ["git", *words], capture_output=True, text=True, errors="surrogateescape", check=False
        )
    except OSError as fault:
        raise BadWords(f"--since needs git: {fault.strerror}") from None
    if done.returncode:
        told = done.stderr.strip().splitlines()
        raise BadWords(f"--since: git: {told[0] if told else done.returncode}")
    return done.stdout


def lines_in(text: str, top: str) -> dict[str, list[tuple[int, int]]]:
    """The lines that a diff adds or changes, by the paths of the files."""
    found: dict[str, list[tuple[int, int]]] = {}
    path, inside = "", 0
    for line in text.split("\n"):
        if inside > 0:
            inside -= not line.startswith("\\")
            continue
        named, lines = FILE.match(line), LINES.match(line)
        if named:
            path = os.path.realpath(os.path.join(top, named[1]))
        elif lines:
            first, count = int(lines[2]), int(lines[3] or 1)
            inside = int(lines[1] or 1) + count
            if count:
                found.setdefault(path, []).append((first, first + count - 1))
    return found
