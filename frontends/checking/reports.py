"""What tacview tells of a program: its report, also in parts, and lines of JSON."""

from __future__ import annotations

import re
from typing import TYPE_CHECKING, Any

from .programs import Answer, answer_of, answer_on, failed
from .remark import KINDS, ON_REQUEST

if TYPE_CHECKING:
    from .findings import Facts

# A line of a report, and how one ends that tells of a name or an expression.
REMARK = re.compile(r"^(\d+): (.*)$", re.MULTILINE)
ENDINGS = {
    "computed": " is already computed",
    "busy": " is very busy",
    "dead": " is dead",
    "unset": " may be used before it is set",
}


def run_tacview(pieces: list[str], workers: int, *words: str) -> tuple[str, list[str]]:
    """What tacview writes of a program by so many workers, its report unless words ask for other
    things, and what it says on standard error, as that it runs unproved.
    """
    words = words or ("--format", "report")
    return written_by(answer_on("tacview", pieces, workers, *words))


def answered(*words: str, **given: Any) -> tuple[str, list[str]]:
    """What tacview answers to words, and what it says on standard error. given: its input."""
    return written_by(answer_of("tacview", *words, **given))


def written_by(answer: Answer) -> tuple[str, list[str]]:
    """What tacview wrote and said, where it did not fail."""
    if answer.status:
        raise failed("tacview", answer.status, answer.said)
    return answer.written, answer.said


def part_of_report(text: bytes, number: int, count: int) -> str:
    """A part of the report on a text, of so many."""
    words = ("--limits", "large", "--format", "report", "--part", f"{number}/{count}")
    return answered(*words, input=text)[0]


def read_facts(
    told: str, kinds: frozenset[str] = frozenset(KINDS), unset: frozenset[int] | None = None
) -> Facts:
    """The remarks of a report, by the line of the program: a kind and a name or expression.

    Of expressions only those that are of these kinds. unset: the lines of which it is asked whether
    they read what is not set; all where it is None.
    """
    left_out = [kind for kind in ON_REQUEST if kind not in kinds]
    facts: Facts = {}
    known: dict[str, tuple[str, str]] = {}
    for found in REMARK.finditer(told):
        fact = known.get(found[2])
        if fact is None:
            fact = known[found[2]] = fact_of(found[2])
        line = int(found[1])
        is_asked = unset is None or fact[0] != "unset" or line in unset
        if fact[0] not in left_out and is_asked:
            facts.setdefault(line, []).append(fact)
    return facts


def fact_of(text: str) -> tuple[str, str]:
    """A remark's text as its kind and a name or expression."""
    if text == "never reached":
        return "never_reached", ""
    kind, ending = next((kind, end) for kind, end in ENDINGS.items() if text.endswith(end))
    return kind, text.removesuffix(ending).removeprefix("assignment to ")
