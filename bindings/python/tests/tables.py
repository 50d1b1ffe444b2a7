"""What the program `tacflow` writes of a text, and what the module tells of it in the same form."""

from __future__ import annotations

import importlib
import os
import random
import subprocess
import sys
from pathlib import Path

import tacflow

ROOT = Path(__file__).resolve().parents[3]
PROGRAM = os.environ.get("TACFLOW") or str(ROOT / "tacflow")
ANALYSES = ("reach", "live", "avail", "busy")

sys.path.insert(0, str(ROOT / "bench"))
generators = importlib.import_module("tacbench.generators")


def text_of(seed: int) -> bytes:
    """A random program; every tenth is broken."""
    draw = random.Random(seed)
    keys = {
        "procedures": draw.choice([1, 2, 4, 8]),
        "statements": draw.choice([4, 12, 30]),
        "variables": draw.choice([2, 5, 70]),
        "seed": seed,
    }
    made: bytes = generators.generate("broken" if seed % 10 == 0 else "small", keys)
    return made


def shown(kind: str, text: bytes) -> tuple[str, str]:
    """What the program writes on standard output, and the last line on standard error."""
    words = [PROGRAM, "--show", kind]
    run = subprocess.run(words, input=text, capture_output=True, check=False)
    said = [line for line in run.stderr.decode().splitlines() if "not proved" not in line]
    return run.stdout.decode(), "\n".join(said)


def line(program: tacflow.Program, facts: tacflow.Facts, point: int) -> str:
    """The line of a table that tells of a point."""
    at = program.points[point]
    mark = "" if facts.has_path(point) else " (no path)"
    held = ", ".join(facts.names_at(point)) or "-"
    return f"{program.procedures[at.procedure]} {at.place}{mark}: {held}\n"


def told(kind: str, text: bytes) -> tuple[str, str]:
    """What the module tells in place of that."""
    try:
        with tacflow.open(text) as program:
            if kind == "report":
                return program.report(), ""
            if kind == "list":
                return program.listing(), ""
            facts = program.facts(kind)
            return "".join(line(program, facts, point) for point in facts.points), ""
    except tacflow.Refused as refused:
        place = f"{refused.line}:{refused.column}"
        return "", f"tacflow: {place}: refusal {refused.number}: {refused.name}"
