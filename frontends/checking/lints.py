"""What taclint tells of a program: what its report has, but that no doubt takes a dead assignment
away which no execution meets; and the turns of ways to what is not set.
"""

from __future__ import annotations

import json
import os
import tempfile
from collections.abc import Iterator
from typing import TYPE_CHECKING, Any, NamedTuple

from gimple.faults import Refusal

from .programs import Answer, answer_of, answer_on, failed

if TYPE_CHECKING:
    from gimple.emit import Written

    from .findings import Facts

# A line that taclint writes (docs/taclint.schema.json), and which version of these is read here.
Row = dict[str, Any]
VERSION = 1
# What taclint tells for the kinds that are always looked for, and for those that are asked for.
ALWAYS = ("dead", "unset", "never-called", "never-reached")
ASKED = ("computed", "busy")
NAMED_BY = {"dead": "variable", "unset": "variable", "computed": "expression", "busy": "expression"}


def run_taclint(
    pieces: list[str], workers: int, kinds: frozenset[str]
) -> tuple[str, list[str]]:
    """The lines that taclint writes of a program by so many workers, of what these kinds are made
    of, and what it says on standard error.
    """
    wanted = ",".join([*ALWAYS, *(kind for kind in ASKED if kind in kinds)])
    answer = answer_on("taclint", pieces, workers, "--format", "json", "--kinds", wanted)
    return written_by(answer), answer.said


def written_by(answer: Answer) -> str:
    """What taclint wrote, where it did not refuse a text."""
    if answer.status:
        refused = [row for row in map(row_of, answer.written.splitlines()) if row["type"] == "error"]
        causes = [
            f"{row['line']}:{row['column']}: {row['words']} (refusal {row['refusal']})"
            for row in refused[:1]
        ]
        raise failed("taclint", answer.status, causes or answer.said)
    return answer.written


def row_of(line: str) -> Row:
    """A line as an object."""
    try:
        row = json.loads(line)
    except ValueError:
        row = None
    if not isinstance(row, dict) or "type" not in row:
        raise Refusal(f"taclint writes what are no lines of its own: {line[:60]}")
    return row


def rows_of(told: str) -> Iterator[Row]:
    """The lines on all files, which have to be of the version that is read here, and all there."""
    remarks: int | None = None
    for line in told.splitlines():
        row = row_of(line)
        if (row["type"] == "file") is (remarks is not None):
            raise Refusal("taclint's lines do not begin with the one of their file")
        if row["type"] == "file":
            if row.get("version") != VERSION:
                raise Refusal(
                    f"taclint writes lines of the version {row.get('version')}, and this check-c "
                    f"reads those of the version {VERSION}"
                )
            remarks = 0
        elif row["type"] == "end":
            if row.get("remarks") != remarks:
                raise Refusal(f"taclint tells {remarks} remarks of {row.get('remarks')}")
            remarks = None
        else:
            remarks += row["type"] == "remark"
        yield row
    if remarks is not None or not told:
        raise Refusal("taclint's lines are cut short: the last one is not there")


def read_facts(told: str, written: Written, unset: frozenset[int] | None = None) -> Facts:
    """The remarks of taclint's lines on a program, by its line, as a report has them: a kind and a
    name or expression. unset: the lines of which it is asked whether they read what is not set; all
    where it is None.
    """
    facts: Facts = {}
    never: list[int] = []
    name = ""
    for row in rows_of(told):
        kind = row.get("kind", "unset")
        if row["type"] == "remark" and kind == "never-called":
            never += lines_in(written, row["procedure"])
        elif row["type"] == "remark" and kind == "never-reached":
            never += range(row["line"], row["last_line"] + 1)
        elif row["type"] in ("remark", "later"):
            name = row[NAMED_BY[kind]] if row["type"] == "remark" else name  # a later use has none
            if kind != "unset" or unset is None or row["line"] in unset:
                facts.setdefault(row["line"], []).append((kind, name))
    for line in never:
        facts.setdefault(line, []).append(("never_reached", ""))
    return facts


def lines_in(written: Written, name: str) -> list[int]:
    """The lines of a procedure's statements."""
    named = (procedure for procedure in written.procedures if procedure.name == name)
    return [step.line for procedure in named for step in procedure.steps if step.line]


class Turns(NamedTuple):
    """The turns of a way that taclint tells, and whether the way has more."""

    rows: list[Row]
    has_more: bool


def turns_in(texts: list[list[str]], workers: int) -> list[dict[str, Turns]]:
    """Of each of these programs, for each variable that may be used before it is set the turns of a
    way to its first use.
    """
    with tempfile.TemporaryDirectory() as folder:
        paths = [os.path.join(folder, f"{number}.tac") for number in range(len(texts))]
        for path, pieces in zip(paths, texts):
            with open(path, "w", encoding="ascii") as file:
                file.writelines(pieces)
        words = ("--limits", "large", "--workers", str(workers), "--format", "json")
        told = written_by(answer_of("taclint", *words, "--why", "--kinds", "unset", *paths))
    found: list[dict[str, Turns]] = []
    name = ""
    for row in rows_of(told):
        if row["type"] == "file":
            found.append({})
        elif row["type"] == "remark":
            name = row["variable"]
            found[-1][name] = Turns([], False)
        elif row["type"] == "turn":
            found[-1][name].rows.append(row)
        elif row["type"] == "more_turns":
            found[-1][name] = Turns(found[-1][name].rows, True)
    if len(found) != len(texts):
        raise Refusal(f"taclint tells of {len(found)} files of {len(texts)}")
    return found
