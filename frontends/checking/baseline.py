"""Baselines: what was told once, so that only what is new is told."""

from __future__ import annotations

from collections import Counter
from typing import TYPE_CHECKING

from .compiling import BadWords

if TYPE_CHECKING:
    from .remark import Remark

HEAD = "# check-c baseline: kind, file, function and message of each remark"


def print_of(remark: Remark) -> str:
    """What a remark is known by: no line, so that it is known again where lines move."""
    return "\t".join(
        part.replace("\t", " ").replace("\n", " ")
        for part in (remark.kind, remark.file, remark.function, remark.text)
    )


def write(path: str, remarks: list[Remark]) -> None:
    """Writes a baseline of remarks."""
    with open(path, "w", encoding="utf-8", errors="surrogateescape") as file:
        file.write("\n".join([HEAD, *sorted(map(print_of, remarks))]) + "\n")


def without_known(path: str, remarks: list[Remark]) -> list[Remark]:
    """The remarks that a baseline has not: of several alike as many as there are more."""
    try:
        with open(path, encoding="utf-8", errors="surrogateescape") as file:
            lines = file.read().splitlines()
    except OSError as fault:
        raise BadWords(f"{path}: {fault.strerror}") from None
    if lines[:1] != [HEAD]:
        raise BadWords(f"{path} is no baseline that --write-baseline wrote")
    known = Counter(lines[1:])
    new = []
    for remark in remarks:
        if known[print_of(remark)] > 0:
            known[print_of(remark)] -= 1
        else:
            new.append(remark)
    return new
