"""A project that several machines have, and runs of check-c on it, for `clusters` and its like.

Not verified.
"""

from __future__ import annotations

import os
import random
import subprocess
import sys
import time
from concurrent.futures import ThreadPoolExecutor

import project

HERE = os.path.dirname(os.path.realpath(__file__))
CHECK = os.path.join(HERE, "..", "check-c")
EXAMPLES = os.path.join(HERE, "..", "..", "examples", "clusters")
# Each machine has its own folder with the project's files.
MACHINES = 3
WORDS = ["-Iinclude"]
# Counts in a file how often it is run for a C file.
COUNTING = """#!/bin/sh
case " $* " in *" -S "*) echo >>"$COUNT" ;; esac
exec {} "$@"
"""
Done = subprocess.CompletedProcess[bytes]


def run(words: list[str], folder: str, **environment: str) -> Done:
    """Runs check-c in a folder."""
    command = [sys.executable, CHECK, *words]
    return subprocess.run(
        command, cwd=folder, capture_output=True, check=False, env=os.environ | environment
    )


class Farm:
    """A project, machines that have it, and the facts that they wrote."""

    def __init__(self, folder: str, seed: int, count: int) -> None:
        self.random = random.Random(seed)
        self.folder = folder
        self.project = project.Project(seed, count)
        self.machines = [os.path.join(folder, f"machine_{at}") for at in range(MACHINES)]
        for machine in self.machines:
            self.project.write(machine)
        self.sources = sorted(self.project.sources)

    def facts(self, source: str, ending: str) -> str:
        """The path of a source's facts."""
        return os.path.join(self.folder, source.replace("/", "_") + ending)

    def emit(self, words: list[str], ending: str) -> list[str]:
        """Has the machines write the facts of the sources, each of some, about half of them out of
        the first one's cache; answers what is wrong.
        """
        cache = ["--cache", os.path.join(self.machines[0], "cache")]
        given = [
            (source, self.random.choice(self.machines), self.random.choice([[], cache]))
            for source in self.sources
        ]

        def emitted(source: str, machine: str, how: list[str]) -> Done:
            """Has a machine write the facts of a source."""
            target = self.facts(source, ending)
            return run([*WORDS, *words, *how, "--emit", target, source], machine)

        with ThreadPoolExecutor(MACHINES) as pool:
            done = list(pool.map(emitted, *zip(*given)))
        return [str(one) for one in done if one.returncode or one.stdout or one.stderr]

    def merge(self, words: list[str], ending: str, folder: str) -> Done:
        """Merges all facts, in a random order, named in a file of words."""
        paths = [self.facts(source, ending) for source in self.sources]
        self.random.shuffle(paths)
        path = os.path.join(self.folder, "named")
        with open(path, "w", encoding="utf-8") as file:
            file.write("\n".join(f"'{name}'" for name in paths))
        return run([*words, "--merge", f"@{path}"], folder)


def told(done: Done) -> tuple[int, bytes, bytes]:
    """What a run answers."""
    return done.returncode, done.stdout, done.stderr


def text_in(*parts: str) -> str:
    """The text of the file that these parts name."""
    with open(os.path.join(*parts), encoding="utf-8") as file:
        return file.read()


def rewrite(path: str, text: str, gone: str = "") -> None:
    """Writes a file, and waits until it is older than what begins behind that; another one may be
    removed.
    """
    if gone:
        os.remove(gone)
    with open(path, "w", encoding="utf-8") as file:
        file.write(text)
    time.sleep(0.1)
