"""Runs as lines of CSV behind a header, and tables of their ratios."""

from __future__ import annotations

import csv
import os
import platform
import shlex
import statistics
import subprocess
import sys
import time
from collections.abc import Sequence
from pathlib import Path
from typing import Any

from .programs import BENCH, ROOT, Program
from .writing import Fault

FIELDS = ["benchmark", "program", "round", "clock_ms", "processor_ms", "peak_kib", "instructions"]


def told_by(command: list[str]) -> str:
    try:
        run = subprocess.run(command, cwd=ROOT, stdout=subprocess.PIPE, stderr=subprocess.DEVNULL)
    except OSError:
        return "unknown"
    return run.stdout.decode(errors="replace").strip().split("\n")[0] or "unknown"


def processor() -> str:
    try:
        lines = Path("/proc/cpuinfo").read_text().split("\n")
    except OSError:
        lines = []
    names = [line.split(":", 1)[1].strip() for line in lines if line.startswith("model name")]
    return "%d of %s" % (os.cpu_count() or 1, names[0] if names else platform.machine())


def header(programs: Sequence[Program], target: str) -> list[str]:
    """What a reader of the run has to know, as lines of a comment."""
    # a file that is listed is changed; where none is, nothing is told
    changed = (
        ""
        if told_by(["git", "status", "--porcelain", "--untracked-files=no"]) == "unknown"
        else ", changed"
    )
    lines = [
        "command " + shlex.join(["bench/run", *sys.argv[1:]]),
        "date " + time.strftime("%Y-%m-%d %H:%M:%S UTC", time.gmtime()),
        "machine %s, %s, %s %s"
        % (platform.node(), processor(), platform.system(), platform.release()),
        "load " + " ".join("%.1f" % load for load in os.getloadavg()),
        "commit " + told_by(["git", "rev-parse", "HEAD"]) + changed,
        "kit " + told_by(["rt", "version"]),
        "plain program compiled by %s for %s" % (told_by(["rustc", "--version"]), target),
    ]
    return lines + [
        "program %s: %s" % (program.label, " ".join([program.path, *program.words]))
        for program in programs
    ]


class Record:
    """The measurements of a run: by benchmark and program a list of the fields behind them."""

    def __init__(self, lines: list[str]) -> None:
        self.header = lines
        self.rows: list[dict[str, Any]] = []

    def add(
        self,
        benchmark: str,
        program: str,
        round_number: int | str,
        clock: float | str = "",
        cpu: float | str = "",
        peak: int | str = "",
        instructions: int | str = "",
    ) -> None:
        shown = [
            "%.3f" % value if isinstance(value, float) else value
            for value in (clock, cpu, peak, instructions)
        ]
        self.rows.append(dict(zip(FIELDS, [benchmark, program, round_number, *shown])))

    def values(self, benchmark: str, program: str, field: str) -> list[float]:
        return [
            float(row[field])
            for row in self.rows
            if row["benchmark"] == benchmark
            and row["program"] == program
            and row[field] not in ("", None)
        ]

    def least(self, benchmark: str, program: str, field: str) -> float | None:
        return min(self.values(benchmark, program, field), default=None)

    def median(self, benchmark: str, program: str, field: str) -> float | None:
        values = self.values(benchmark, program, field)
        return statistics.median(values) if values else None

    def has_times(self, program: str) -> bool:
        return any(row["program"] == program and row["clock_ms"] != "" for row in self.rows)

    def benchmarks(self) -> list[str]:
        return list(dict.fromkeys(row["benchmark"] for row in self.rows))

    def programs(self) -> list[str]:
        return list(dict.fromkeys(row["program"] for row in self.rows))

    def write(self, path: Path) -> None:
        path.parent.mkdir(parents=True, exist_ok=True)
        with open(path, "w", newline="") as file:
            file.writelines("# %s\n" % line for line in self.header)
            writer = csv.DictWriter(file, FIELDS, lineterminator="\n")
            writer.writeheader()
            writer.writerows(self.rows)


def read(path: str | Path) -> Record:
    try:
        lines = Path(path).read_text().split("\n")
    except OSError as error:
        raise Fault("%s cannot be read: %s" % (path, error.strerror)) from None
    record = Record([line[2:] for line in lines if line.startswith("# ")])
    rows = list(csv.DictReader(line for line in lines if line and not line.startswith("#")))
    if not rows or list(rows[0]) != FIELDS:
        raise Fault("%s is no run" % path)
    record.rows = rows
    return record


def free_path() -> Path:
    """DATE-MACHINE.csv, with a number where that is taken."""
    stem = time.strftime("%Y-%m-%d", time.gmtime()) + "-" + (platform.node() or "machine")
    paths = (
        BENCH / "runs" / (stem + ("-%d" % number if number > 1 else "") + ".csv")
        for number in range(1, 10000)
    )
    return next(path for path in paths if not path.exists())


def ratio(value: float | None, other: float | None) -> str:
    return "%.2f" % (value / other) if value is not None and other else "-"


def shown(value: float | None, scale: float = 1.0, form: str = "%.1f") -> str:
    return form % (value / scale) if value is not None else "-"


def table_of(record: Record, first: str) -> str:
    """A line for each benchmark: the first program's measurements, and by each other's its
    ratios."""
    others = [
        program for program in record.programs() if program != first and record.has_times(program)
    ]
    rows = [["benchmark", first + " ms", "median", "cpu", "MiB"]]
    for other in others:
        rows[0] += ["| " + other + " ms", "ratio", "median", "cpu", "MiB"]
    for name in record.benchmarks():
        row = [name] + cells(record, name, first)
        for other in others:
            row += ["| " + shown(record.least(name, other, "clock_ms"))]
            row += [
                ratio(record.least(name, first, "clock_ms"), record.least(name, other, "clock_ms"))
            ]
            row += [
                ratio(
                    record.median(name, first, "clock_ms"), record.median(name, other, "clock_ms")
                )
            ]
            row += [
                ratio(
                    record.least(name, first, "processor_ms"),
                    record.least(name, other, "processor_ms"),
                )
            ]
            row += [shown(record.least(name, other, "peak_kib"), 1024)]
        rows.append(row)
    return aligned(rows)


def cells(record: Record, name: str, program: str) -> list[str]:
    return [
        shown(record.least(name, program, "clock_ms")),
        shown(record.median(name, program, "clock_ms")),
        shown(record.least(name, program, "processor_ms")),
        shown(record.least(name, program, "peak_kib"), 1024),
    ]


def aligned(rows: list[list[str]]) -> str:
    widths = [max(len(row[column]) for row in rows) for column in range(len(rows[0]))]
    lines = []
    for row in rows:
        first = row[0].ljust(widths[0])
        rest = [
            cell.ljust(width) if cell.startswith("|") else cell.rjust(width)
            for cell, width in zip(row[1:], widths[1:])
        ]
        lines.append(("  ".join([first, *rest])).rstrip())
    return "\n".join(lines) + "\n"


def instruction_table(record: Record, first: str) -> str:
    names = [name for name in record.benchmarks() if record.values(name, first, "instructions")]
    if not names:
        return ""
    others = [
        program
        for program in record.programs()
        if program != first and any(record.values(name, program, "instructions") for name in names)
    ]
    rows = [["instructions, millions", first]]
    for other in others:
        rows[0] += ["| " + other, "ratio"]
    for name in names:
        count = record.least(name, first, "instructions")
        row = [name, shown(count, 1e6)]
        for other in others:
            beside = record.least(name, other, "instructions")
            row += ["| " + shown(beside, 1e6), ratio(count, beside)]
        rows.append(row)
    return aligned(rows)


def comparison(before: Record, after: Record) -> str:
    """The second run by the first, for what both have."""
    rows = [["benchmark", "program", "least ms", "then", "ratio", "median", "cpu", "memory"]]
    for name in after.benchmarks():
        for program in after.programs():
            if not before.values(name, program, "clock_ms") or not after.values(
                name, program, "clock_ms"
            ):
                continue
            pair = [(record.least(name, program, "clock_ms")) for record in (before, after)]
            row = [name, program, shown(pair[0]), shown(pair[1]), ratio(pair[1], pair[0])]
            row += [
                ratio(
                    after.median(name, program, "clock_ms"),
                    before.median(name, program, "clock_ms"),
                )
            ]
            row += [
                ratio(after.least(name, program, field), before.least(name, program, field))
                for field in ("processor_ms", "peak_kib")
            ]
            rows.append(row)
    return aligned(rows)
