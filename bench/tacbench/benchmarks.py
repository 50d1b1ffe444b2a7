"""Benchmarks by name: KIND-SHAPE, with :KEY=VALUE,.. behind it where keys are not the shape's own,
and -WORKERS where there are several."""

from __future__ import annotations

import re

from . import generators, hard, large, texts
from .programs import OUT
from .writing import Fault

KINDS = ["report", "list", "reach", "live", "avail", "busy"]
TABLE_SHAPES = ["mixed", "loops", "flat"]
VARIANTS = [
    "report-shuffled:far=1",
    "report-shuffled:far=2",
    "report-shuffled:far=1,callees=8",
    "report-nest:reversed=1",
    "report-feeders:far=1",
    "report-drip:recursive=1",
    "list-colliding:hash=0",
]
NAME = re.compile(r"([a-z]+)-([a-z-]+)(?::([a-z_]+=\d+(?:,[a-z_]+=\d+)*))?(?:-(\d+))?")
# What makes a text smaller, where a try is asked for.
SIZES = ("points", "bits", "size", "procedures", "heads")


class Benchmark:
    def __init__(self, name: str, divisor: int = 1) -> None:
        found = NAME.fullmatch(name)
        if (
            found is None
            or found.group(1) not in KINDS
            or found.group(2) not in generators.ALL
            or not 1 <= int(found.group(4) or 1) <= 64
        ):
            raise Fault("there is no benchmark %r; --list tells all" % name)
        self.name = name
        self.kind, self.shape = found.group(1), found.group(2)
        self.workers = int(found.group(4) or 1)
        given = generators.keys_of(found.group(3).split(",")) if found.group(3) else {}
        sizes = {
            key: max(1, value // divisor)
            for key, value in generators.defaults_of(self.shape).items()
            if key in SIZES
        }
        self.keys = {**sizes, **given}

    def words(self) -> list[str]:
        workers = ["--workers", str(self.workers)] if self.workers > 1 else []
        return ["--show", self.kind, *workers]

    def text(self) -> str:
        """The path of its text, which is made where it is not there."""
        name = "-".join([self.shape, *("%s%d" % pair for pair in self.keys.items())])
        path = OUT / "texts" / (name + ".tac")
        made = generators.generate(self.shape, self.keys)
        path.parent.mkdir(parents=True, exist_ok=True)
        if not path.exists() or path.read_bytes() != made:
            path.write_bytes(made)
        return str(path)


def standard() -> list[str]:
    """The names that are run where none is given."""
    reports = ["report-" + shape for shape in large.SHAPES]
    tables = ["%s-%s" % (kind, shape) for kind in KINDS[2:] for shape in TABLE_SHAPES]
    several = [name + "-4" for name in reports]
    hard_reports = ["report-" + shape for shape in hard.SHAPES]
    return (
        reports
        + several
        + tables
        + hard_reports
        + ["list-" + shape for shape in texts.SHAPES]
        + VARIANTS
    )
