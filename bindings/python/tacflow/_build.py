"""Programs that are built without a text."""

from __future__ import annotations

import ctypes
from collections.abc import Iterable, Sequence
from itertools import accumulate
from typing import Any, NamedTuple

from tacflow import _library as library
from tacflow._arrays import room
from tacflow._errors import NotBuilt
from tacflow._program import SIGNS, Operand, Program, limits_of, opened
from tacflow._words import Limits, StatementKind

NUMBER_KIND = 2


class Built(NamedTuple):
    """A statement to be built, of `x = y op z` and the like. What its form has not is not looked
    at. One operand is on the right."""

    kind: StatementKind | int
    target: int = 0
    """x, a variable by number."""
    operator: str = "+"
    left: Operand | None = None
    right: Operand | None = None
    label: int = 0
    """The number of a label of the procedure."""
    callees: Sequence[int] = ()
    """The procedures of a call, by number: one to eight."""
    line: int = 0
    """A line of one's own: points and reports tell it."""


class BuiltProcedure(NamedTuple):
    """A procedure to be built: its statements, and for each label how many of these stand before
    it; labels do not fall."""

    name: str
    statements: Sequence[Built]
    labels: Sequence[int] = ()


def raw_operand(operand: Operand | None) -> library.RawOperand:
    if operand is None:
        return library.RawOperand()
    if operand.variable is not None:
        return library.RawOperand(library.VARIABLE, operand.variable, 0)
    return library.RawOperand(NUMBER_KIND, 0, operand.number or 0)


def filled(kind: Any, items: Sequence[Any]) -> tuple[Any, int]:
    """Items in a room, and how many they are."""
    made = room(kind, len(items))
    for number, item in enumerate(items):
        made[number] = item
    return made, len(items)


def raw_names(names: Sequence[str]) -> tuple[Any, int, bytes, int]:
    texts = [name.encode("utf-8", "surrogateescape") for name in names]
    joined = b"".join(texts)
    return *filled(ctypes.c_size_t, list(accumulate(map(len, texts)))), joined, len(joined)


def raw_statements(statements: Sequence[Built]) -> tuple[tuple[Any, int], tuple[Any, int]]:
    """Statements, and all their callees."""
    made = room(library.RawBuiltStatement, len(statements))
    callees: list[int] = []
    for number, it in enumerate(statements):
        sign = SIGNS.index(it.operator) if it.operator in SIGNS else library.NONE
        calls = len(callees), len(it.callees)
        operands = raw_operand(it.left), raw_operand(it.right)
        numbers = int(it.kind), it.target, sign, it.label, *calls, it.line
        made[number] = library.RawBuiltStatement(*numbers, *operands)
        callees.extend(it.callees)
    return (made, len(statements)), filled(ctypes.c_uint32, callees)


def build(
    procedures: Iterable[BuiltProcedure],
    variables: Sequence[str] | int,
    limits: Limits | str | int = "standard",
) -> Program:
    """Builds a program without a text, and keeps it open. Bits, points and labels are numbered as
    the procedures, statements and variables are.

    Args:
        procedures: the procedures, one of which is called `main`.
        variables: the names of the variables, or how many there are: `v0`, `v1` and so on.
        limits: `standard` or `large`.

    Raises:
        NotBuilt: it is no program; tells which statement, label or name.
        TooManyPoints: it has more points than the limits allow.
        TooManyBits: some analysis of it has more bits than the limits allow.
        BadLimits: there are no such limits.
        OutOfMemory: memory was refused.
    """
    size, all_of = limits_of(limits), list(procedures)
    statements, callees = raw_statements([it for each in all_of for it in each.statements])
    counts = [library.RawBuiltProcedure(len(it.statements), len(it.labels)) for it in all_of]
    labels = [place for it in all_of for place in it.labels]
    named = [f"v{n}" for n in range(variables)] if isinstance(variables, int) else variables
    label_names = [f"L{n}" for n in range(max((len(it.labels) for it in all_of), default=0))]
    handle, place = library.RawHandle(), library.RawBuildPlace()
    status: int = library.BUILD(
        *filled(library.RawBuiltProcedure, counts),
        *statements,
        *filled(ctypes.c_uint32, labels),
        *callees,
        *raw_names([it.name for it in all_of]),
        *raw_names(named),
        *raw_names(label_names),
        int(size),
        handle,
        place,
    )
    if status == library.NOT_BUILT:
        raise NotBuilt(place.fault, place.number)
    return opened(status, handle, size)
