"""What is told of a C program, and of which kinds it is."""

from dataclasses import dataclass
from typing import NamedTuple


class Kind(NamedTuple):
    """A kind of remarks: what they say, for those who choose kinds, and more for those who read
    one.

    is_told: whether it is told where none are chosen. weakness: its number in the list CWE, 0 where
    it has none there. act: what to do about it.
    """

    says: str
    is_told: bool
    weakness: int
    act: str


KINDS = {
    "dead": Kind(
        "no execution reads the value that is assigned",
        True,
        563,
        "Delete the assignment, or use the value where it was meant to be used.",
    ),
    "dead-initial": Kind(
        "no execution reads a constant that a declaration sets, as 0, NULL, {0}, -1",
        False,
        563,
        "Many write such values for safety. Declare the variable where it gets its value.",
    ),
    "dead-last": Kind(
        "the same of what is only counted on: pos = add(.., pos, ..), the last n += 2 of several",
        False,
        563,
        "Nothing needs to be done: what stands there is as regular as it was.",
    ),
    "unset": Kind(
        "a local is read that is set on no way to the place",
        True,
        457,
        "Set the variable before this place, on each way.",
    ),
    "maybe-unset": Kind(
        "a local is read that is not set on some way to the place",
        False,
        457,
        "See whether that way can be taken. If so, set the variable on it.",
    ),
    "never": Kind(
        "a statement or function to which no way leads",
        True,
        561,
        "Delete it, or see why the way to it is gone.",
    ),
    "computed": Kind(
        "each way to the place has evaluated the expression already",
        False,
        0,
        "Keep the value that was evaluated before.",
    ),
    "busy": Kind(
        "each way from the test on evaluates the expression",
        False,
        0,
        "Evaluate it once, before the test.",
    ),
}
# The kinds that are looked for, or of which more is found out, only where they are told.
ON_REQUEST = ("computed", "busy", "maybe-unset")


@dataclass(frozen=True)
class Note:
    """A further place that a remark speaks of."""

    file: str
    line: int
    column: int
    text: str


@dataclass(frozen=True)
class Remark:
    """A remark at a place of a C source.

    The column is in bytes, from 1; function is the one that it stands in.
    """

    file: str
    line: int
    column: int
    kind: str
    text: str
    function: str = ""
    notes: tuple[Note, ...] = ()

    def order(self) -> tuple[int, int, str]:
        """What remarks of one file are sorted by."""
        return (self.line, self.column, self.text)


def in_source_order(remarks: list[Remark], files: list[str]) -> list[Remark]:
    """The remarks, file by file, the named ones first, by line and column."""
    numbers = {name: number for number, name in enumerate(files)}
    return sorted(
        remarks,
        key=lambda remark: (numbers.get(remark.file, len(files)), remark.file, remark.order()),
    )
