"""What operands give while a function is turned: values, numbers for constants, and temporaries
that are still to be read.
"""

from __future__ import annotations

import re
from typing import TYPE_CHECKING, NamedTuple

from .code import Number

if TYPE_CHECKING:
    from .code import Variable
    from .dump import Statement

STRANGE_NUMBERS = 1 << 62


class Value(NamedTuple):
    """What an operand gives.

    reads: the variables that it reads. exact: the variable or number that it is exactly, if it is
    one.
    """

    reads: tuple[Variable, ...] = ()
    exact: Variable | Number | None = None


NOTHING = Value()


class Constants:
    """Numbers for the constants of C: small ones as they are, others by numbers of their own."""

    def __init__(self) -> None:
        self.numbers: dict[str | tuple[str, str], int] = {}

    def number(self, text: str, file: str) -> Number:
        """The number of a constant's text in a file; an address is told apart from one of another
        file.
        """
        if re.fullmatch(r"\d{1,18}", text):
            return Number(int(text), text)
        key = (file, text) if "D." in text else text
        if key not in self.numbers:
            self.numbers[key] = STRANGE_NUMBERS + len(self.numbers)
        return Number(self.numbers[key], text)


class Pending:
    """Values of gcc's temporaries whose reads were not yet written down.

    A temporary is no variable of the program: what it reads is read where its value is used, or
    before something that may change it, whichever comes first.
    """

    def __init__(self) -> None:
        self.values: dict[str, Value] = {}
        self.origins: dict[str, Statement | None] = {}
        self.unread: set[str] = set()
        self.reading: dict[Variable, set[str]] = {}
        self.holding: set[str] = set()
        self.reached: set[str] = set()

    def put(self, name: str, value: Value, origin: Statement | None = None) -> None:
        """Holds a temporary's value; where it reads something, that is still to be read."""
        if name in self.values:
            self.forget(name)
        self.values[name] = value
        self.origins[name] = origin
        if not value.reads:
            return
        self.unread.add(name)
        self.holding.add(name)
        for variable in value.reads:
            self.reading.setdefault(variable, set()).add(name)
            if variable.owner is None or variable.is_addressed:
                self.reached.add(name)

    def forget(self, name: str) -> None:
        """Takes a temporary's value out."""
        for variable in self.values.pop(name, NOTHING).reads:
            self.reading[variable].discard(name)
        for names in (self.unread, self.holding, self.reached):
            names.discard(name)

    def take(self, name: str) -> Value:
        """A temporary's value, which is used now."""
        self.unread.discard(name)
        return self.values.get(name, NOTHING)

    def flush(self, names: set[str]) -> list[tuple[Statement | None, tuple[Variable, ...]]]:
        """Ends the values of these temporaries; answers what is to be read before that, with its
        statement.
        """
        wanted = [
            (self.origins[name], self.values[name].reads)
            for name in sorted(names & self.unread, key=self.order)
        ]
        for name in list(names):
            self.forget(name)
        return wanted

    def order(self, name: str) -> tuple[int, str]:
        """Temporaries in the order in which their values were put."""
        origin = self.origins[name]
        return (origin.number if origin else 0, name)

    def flush_all(self) -> list[tuple[Statement | None, tuple[Variable, ...]]]:
        """Ends all values."""
        return self.flush(self.holding)

    def flush_reached(self) -> list[tuple[Statement | None, tuple[Variable, ...]]]:
        """Ends the values that read what other code may write."""
        return self.flush(self.reached)

    def flush_variable(
        self, variable: Variable
    ) -> list[tuple[Statement | None, tuple[Variable, ...]]]:
        """Ends the values that read this variable."""
        return self.flush(self.reading[variable])
