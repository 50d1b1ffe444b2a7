"""The programs that are measured, and how each is started."""

from __future__ import annotations

import os
import re
import shutil
import subprocess
from collections.abc import Sequence
from pathlib import Path
from typing import TYPE_CHECKING

if TYPE_CHECKING:
    from .benchmarks import Benchmark

BENCH = Path(__file__).resolve().parent.parent
ROOT = BENCH.parent
OUT = BENCH / "out"
TARGETS = {"native": "native", "x86-64": "x86-64"}


class Unready(Exception):
    """A program is not there; the message is one line."""


class Program:
    """`words` are added to those of a benchmark."""

    def __init__(
        self,
        label: str,
        path: str | Path,
        words: Sequence[str] = (),
        environment: dict[str, str] | None = None,
    ) -> None:
        self.label = label
        self.path = str(path)
        self.words = list(words)
        self.environment = environment or dict(os.environ)

    def command(self, benchmark: Benchmark) -> list[str]:
        return [self.path, *benchmark.words(), *self.words]


def launcher_environment() -> dict[str, str]:
    """As the script `./tacflow` starts its program: the settings of memory are read from there."""
    environment = dict(os.environ)
    text = (ROOT / "tacflow").read_text()
    setting = re.search(r"^memory=(\S+)$", text, re.MULTILINE)
    if setting is None or "GLIBC_TUNABLES" not in text:
        raise Unready("the script ./tacflow no longer says how it starts its program")
    environment.setdefault("GLIBC_TUNABLES", setting.group(1))
    return environment


def proved_program(name: str) -> str:
    """The program that $TACFLOW or $TACVIEW names, or the one that was proved and built from the
    sources as they are."""
    variable = name.upper()
    named = os.environ.get(variable)
    if named:
        if not os.access(named, os.X_OK):
            raise Unready("%s names %s, which is no program" % (variable, named))
        return os.path.abspath(named)
    told = subprocess.run(
        [str(ROOT / name), "--version"], stdout=subprocess.PIPE, stderr=subprocess.DEVNULL
    ).stdout
    if b", proved with " not in told:
        raise Unready(
            "%s is not proved and built: ./%s --prove does that; or %s=PATH names another program"
            % (name, name, variable)
        )
    return str(ROOT / "crates" / name / "out" / name)


def tacflow() -> Program:
    return Program("tacflow", proved_program("tacflow"), environment=launcher_environment())


def tacview() -> Program:
    return Program("tacview", proved_program("tacview"), environment=launcher_environment())


def build_plain(target: str = "native", large: bool = False) -> Path:
    """Compiles the plain program for this machine, or for any of its kind, and gives the folder of
    the programs."""
    if shutil.which("cargo") is None:
        raise Unready("cargo, which compiles the plain program, is not on the path")
    folder = OUT / ("plain-" + target + ("-large" if large else ""))
    environment = dict(os.environ, RUSTFLAGS="-C target-cpu=" + TARGETS[target])
    command = [
        "cargo",
        "build",
        "--release",
        "--offline",
        "--quiet",
        "--target-dir",
        str(folder),
        *(["--features", "large"] if large else []),
    ]
    built = subprocess.run(
        command,
        cwd=BENCH / "plain",
        env=environment,
        stdout=subprocess.PIPE,
        stderr=subprocess.STDOUT,
    )
    if built.returncode != 0:
        log = OUT / "plain.log"
        log.write_bytes(built.stdout)
        raise Unready("the plain program could not be compiled: %s says why" % log)
    return folder / "release"


def plain(target: str = "native", large: bool = False) -> Program:
    """The plain program; `large` takes what `tacview --limits large` takes."""
    return Program(
        "plain", build_plain(target, large) / "tacflow-plain", environment=launcher_environment()
    )


def other(word: str) -> Program:
    """Of PATH or LABEL=PATH."""
    label, sign, path = word.partition("=")
    if not sign:
        label, path = os.path.basename(word), word
    if not os.access(path, os.X_OK):
        raise Unready("%s is no program" % path)
    return Program(label, os.path.abspath(path), environment=launcher_environment())
