"""Why there is no answer."""

from __future__ import annotations

from typing import NamedTuple

from tacflow._words import Limits


class Refusal(NamedTuple):
    """A row of the table of refusals in `docs/LANGUAGE.md`: the name, and what it means."""

    name: str
    meaning: str


REFUSALS = {
    1: Refusal("BadByte", "a byte outside a comment that is no blank and begins no token"),
    2: Refusal("NumberTooLarge", "a number above 9223372036854775807"),
    3: Refusal("NameTooLong", "a name of more than 64 bytes"),
    4: Refusal("Syntax", "the line is no line form"),
    5: Refusal("Unclosed", "the text ends inside a procedure"),
    6: Refusal("NoMain", "no procedure is called `main`"),
    7: Refusal("DuplicateProcedure", "a name that an earlier procedure has"),
    8: Refusal("DuplicateLabel", "a label that this procedure has already"),
    9: Refusal("UnknownLabel", "a jump to a label that this procedure lacks"),
    10: Refusal("UnknownProcedure", "a call of a name that no procedure has"),
    11: Refusal("TextTooLong", "more than 1,048,576 bytes"),
    12: Refusal("TooManyProcedures", "more than 256 procedures"),
    13: Refusal("DuplicateCallee", "a name that stands earlier in the same call"),
}
# What is told in their place within the large limits.
LARGE_REFUSALS = {
    11: Refusal("TextTooLong", "more than 536,870,912 bytes"),
    12: Refusal("TooManyProcedures", "more than 262,144 procedures"),
}


class Error(Exception):
    """What this module raises, but for wrong types, which are `TypeError`."""


class Refused(Error, ValueError):
    """The text is no program.

    `number`, `name` and `meaning` are those of the table in `docs/LANGUAGE.md`; `line` and `column`
    tell where the text's first fault stands, both from 1, the column in bytes.
    """

    def __init__(self, number: int, line: int, column: int, limits: Limits) -> None:
        super().__init__(number, line, column, limits)
        large = LARGE_REFUSALS if limits is Limits.LARGE else REFUSALS
        refusal = large.get(number, REFUSALS[number])
        self.number = number
        self.line = line
        self.column = column
        self.limits = limits
        self.name = refusal.name
        self.meaning = refusal.meaning

    def __str__(self) -> str:
        return f"{self.line}:{self.column}: refusal {self.number}: {self.name}: {self.meaning}"


# What may be wrong with what a program is built of, by the library's numbers.
BUILD_FAULTS = {
    1: "statement {}: its kind, operator, operands, target, label or callees are not there, or not"
    " of its form",
    2: "label {}: it stands behind its procedure, or before the label ahead of it",
    3: "procedure {}: its name is none of the language, or an earlier one has it",
    4: "variable {}: its name is none of the language, or an earlier one has it",
    5: "label name {}: it is none of the language",
    6: "numbers do not fit one another",
    7: "no procedure is called main",
    8: "there are more procedures than the limits allow",
    9: "there are more statements, labels or variables than a text within the limits has bytes",
}


class NotBuilt(Error, ValueError):
    """What was to be built is no program.

    `fault` is the library's number of what is wrong, `number` which statement, label, procedure or
    variable it is, counted through the whole program from 0.
    """

    def __init__(self, fault: int, number: int) -> None:
        super().__init__(fault, number)
        self.fault = fault
        self.number = number

    def __str__(self) -> str:
        return BUILD_FAULTS[self.fault].format(self.number)


class TooManyPoints(Error, ValueError):
    """The program has more points than the limits allow."""


class TooManyBits(Error, ValueError):
    """Some analysis of the program has more bits than the limits allow."""


class OutOfMemory(Error, MemoryError):
    """Memory was refused."""


class ClosedProgram(Error, ValueError):
    """The program is closed: it is asked or closed once more."""


class BadAnalysis(Error, ValueError):
    """There is no analysis of this name or number."""


class BadLimits(Error, ValueError):
    """There are no limits of this name or number."""


class BadRange(Error, IndexError):
    """The points are none of the program or of the facts, or the bits none of the analysis."""
