"""What facts are made by: this front end, gcc, tacview or taclint."""

from __future__ import annotations

import functools
import hashlib
import os
import re
import shutil
import subprocess
from collections.abc import Iterable
from typing import TYPE_CHECKING

from gimple.symbols import Symbols, read_sources

from .compiling import gcc
from .programs import HERE, ROOT, path_of

if TYPE_CHECKING:
    from .shares import Making

# What the launcher of a program starts, from the folder that it stands in.
STARTED = (
    "../libexec/tacflow/{0}",
    "crates/{0}/out/{0}",
    "crates/{0}/out/unproved/{0}",
)
# What `gcc -v` says of itself.
TOLD = re.compile(r"^Target: .*|^.* version .*", re.MULTILINE)
# The variables by which gcc finds other headers or other parts of itself.
ENVIRONMENT = ("CPATH", "C_INCLUDE_PATH", "GCC_EXEC_PREFIX", "COMPILER_PATH", "SOURCE_DATE_EPOCH")


def version() -> str:
    """The version of tacflow: in the repository, or where it is installed."""
    paths = [
        os.path.join(ROOT, *parts, "Cargo.toml") for parts in (("bindings", "rust"), ("rust",))
    ]
    with open(next(filter(os.path.exists, paths), paths[0]), encoding="utf-8") as file:
        return next(line.split('"')[1] for line in file if line.startswith("version ="))


def sum_of_files(paths: Iterable[str]) -> str:
    """One sum of what files have, with their names."""
    found = hashlib.sha256()
    for path in paths:
        with open(path, "rb") as file:
            data = file.read()
        found.update(f"{os.path.basename(path)} {len(data)}\n".encode("utf-8", "surrogateescape"))
        found.update(data)
    return found.hexdigest()


@functools.cache
def build() -> str:
    """The sum of this front end's own sources."""
    found = []
    for folder in ("checking", "gimple"):
        for name in sorted(os.listdir(os.path.join(HERE, "..", folder))):
            if name.endswith(".py"):
                found.append(os.path.join(HERE, "..", folder, name))
    return sum_of_files(found)[:16]


@functools.cache
def compiler() -> str:
    """What gcc says of its version and its machine."""
    return "; ".join(line.strip() for line in TOLD.findall(asked_of_gcc("-v").stderr))


@functools.cache
def read_always() -> list[str]:
    """The files that gcc reads for each C file, though nothing names them there."""
    known = Symbols()
    read_sources(asked_of_gcc("-M", "-x", "c", os.devnull).stdout, known, str)
    return [name for name in known.sources if name != os.devnull]


def asked_of_gcc(*words: str) -> subprocess.CompletedProcess[str]:
    """What gcc answers."""
    return subprocess.run(
        [gcc(), *words],
        stdin=subprocess.DEVNULL,
        capture_output=True,
        encoding="utf-8",
        errors="surrogateescape",
        env=dict(os.environ, LC_ALL="C"),
        check=False,
    )


def sum_of_program(name: str) -> str:
    """The sum of a program that finds facts, and of those that it starts where it is a launcher."""
    found = shutil.which(path_of(name))
    if found is None:
        return ""
    path = os.path.realpath(found)
    beside = [os.path.join(os.path.dirname(path), started.format(name)) for started in STARTED]
    return sum_of_files([path, *filter(os.path.isfile, beside)])


def makers(making: Making) -> dict[str, str]:
    """What shares are made by, each with what tells it from others of its name."""
    found = {"check-c": f"{version()} of the sources {build()}", "gcc": compiler()}
    return found if making.is_linked else found | sum_told(making.finder)


def sum_told(name: str) -> dict[str, str]:
    """A program that finds facts, told in the same way."""
    found = sum_of_program(name)
    return {name: f"of the sum {found[:16]}" if found else "missing"}


def surroundings() -> list[str]:
    """What else in the environment makes gcc read other files."""
    return [f"{name}={os.environ[name]}" for name in ENVIRONMENT if name in os.environ]
