"""The labels of a function while it is turned: where a jump to a name of the dump leads."""

from __future__ import annotations

from collections.abc import Iterable
from typing import TYPE_CHECKING

from . import operands
from .code import Label

if TYPE_CHECKING:
    from .dump import Statement


class Labels:
    """The labels of a function, by their names in the dump."""

    def __init__(self) -> None:
        self.made: dict[str, Label] = {}

    def get(self, name: str) -> Label:
        """The label of this name."""
        label = self.made.get(name)
        if label is None:
            label = self.made[name] = Label()
        return label


class Exits:
    """Labels within a guarded body: a jump to one outside leads to a cleanup of its own."""

    def __init__(self, outer: Labels | Exits | Copies, inner: set[str]) -> None:
        self.outer = outer
        self.inner = inner
        self.made: dict[str, Label] = {}

    def get(self, name: str) -> Label:
        """The label to which a jump to this name leads."""
        return self.outer.get(name) if name in self.inner else self.made.setdefault(name, Label())


class Copies:
    """Labels within one copy of a cleanup: its own are new, all others are those outside."""

    def __init__(self, outer: Labels | Exits | Copies, inner: set[str]) -> None:
        self.outer = outer
        self.made = {name: Label() for name in inner}

    def get(self, name: str) -> Label:
        """The label of this name in this copy."""
        return self.made.get(name) or self.outer.get(name)


def label_name(word: str) -> str:
    """A label's name without its brackets."""
    return word.strip("<>")


def labels_in(statements: Iterable[Statement]) -> set[str]:
    """The names of all labels among statements."""
    return {
        label_name(statement.words[0]) for statement in statements if statement.kind == "label"
    }


def named_labels(statements: Iterable[Statement]) -> list[str]:
    """The labels that have a name in the source: those to which a computed jump may lead."""
    return sorted(
        name
        for name in labels_in(statements)
        if operands.is_declared(name) and operands.split_declared(name)[0]
    )
