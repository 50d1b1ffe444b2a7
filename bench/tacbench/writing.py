"""Programs as text, procedure by procedure."""

from __future__ import annotations

from collections.abc import Iterable

BINARY = "+ - * / % & | ^ << >> < <= > >= == !=".split()
UNARY = "- ~ !".split()
COMPARISON = "< <= > >= == !=".split()


class Procedure:
    """Statements with their labels; each has one point, and the end has one more."""

    def __init__(self, name: str) -> None:
        self.name = name
        self.lines: list[str] = []
        self.waiting: list[str] = []
        self.points = 1
        self.labels = 0

    def label(self, name: str) -> None:
        self.waiting.append(name)

    def fresh(self) -> str:
        """A label's name that the procedure has not yet."""
        self.labels += 1
        return "L%d" % self.labels

    def add(self, *statements: str) -> None:
        for statement in statements:
            self.lines.append("".join(name + ": " for name in self.waiting) + statement)
            self.waiting = []
            self.points += 1

    def text(self) -> str:
        tail = ["".join(name + ": " for name in self.waiting)] if self.waiting else []
        return "\n".join(["proc " + self.name, *self.lines, *tail, "end", ""])


def text_of(procedures: Iterable[Procedure]) -> str:
    return "".join(procedure.text() for procedure in procedures)


def name_of(number: int) -> str:
    return "main" if number == 0 else "p%d" % number


class Fault(Exception):
    """A parameter that no program can be made with."""


def most_procedures(points: int) -> int:
    """A program of more points than the standard limits allow is one for the large limits."""
    return 256 if points <= 16384 else 262144


def need(holds: bool, message: str) -> None:
    if not holds:
        raise Fault(message)
