"""The analyses and the limits, by their words."""

from __future__ import annotations

import enum
from typing import TypeVar


class Analysis(enum.IntEnum):
    """The four analyses. Each has a word too, which is taken in its place."""

    REACH = 0
    """Reaching definitions: those that some valid path brings to the point."""
    LIVE = 1
    """Live variables: those that some valid path from the point reads before writing them."""
    AVAIL = 2
    """Available expressions: those that every valid path to the point evaluates, with no operand
    written since."""
    BUSY = 3
    """Very busy expressions: those that every valid path from the point evaluates before an operand
    is written."""


class Limits(enum.IntEnum):
    """How large a text and its program may be. Each has a word too, which is taken in its place."""

    STANDARD = 0
    """1 MiB of text, 256 procedures, 16,384 points, 4,096 bits in each analysis."""
    LARGE = 1
    """512 MiB of text, 262,144 procedures, 16,777,216 points, 4,194,304 variables and as many
    expressions."""


class StatementKind(enum.IntEnum):
    """What a statement is: x = y, x = op y, x = y op z, goto L, if y goto L, ifFalse y goto L,
    if y op z goto L, call p | q .., return, read x, print y, skip."""

    NONE = 0
    """No statement: the point is a procedure's end."""
    COPY = 1
    UNARY = 2
    BINARY = 3
    GOTO = 4
    IF = 5
    IF_FALSE = 6
    IF_COMPARE = 7
    CALL = 8
    """Its edges lead to the callees."""
    RETURN = 9
    READ = 10
    PRINT = 11
    SKIP = 12


class EdgeKind(enum.IntEnum):
    """What an edge is."""

    STEP = 0
    """To where control may be next in the procedure."""
    CALL = 1
    """From a call to the first point of a callee."""
    RETURN = 2
    """From the last point of a callee to the point behind a call."""


class RemarkKind(enum.IntEnum):
    """What a remark says."""

    NEVER_REACHED = 0
    """No valid path leads to the statement."""
    UNSET = 1
    """The statement reads the variable, which may not be set there."""
    ALREADY_COMPUTED = 2
    """It evaluates the expression, which is available there."""
    VERY_BUSY = 3
    """It is a test at which the expression is very busy."""
    DEAD = 4
    """No execution reads what it assigns to the variable: it can be deleted."""


class NearbyKind(enum.IntEnum):
    """What stands around a remark. A way goes on to the end of `main`; ways that never get there
    are left out."""

    NEXT_WRITE = 0
    """Of a dead assignment: the statement at the point may write the variable next."""
    END_UNWRITTEN = 1
    """Of a dead assignment: on some way nothing writes the variable any more."""
    LAST_EVALUATION = 2
    """Of an expression that is already computed: the statement at the point may have evaluated it
    last."""
    HOLDER = 3
    """Of such a one: the variable was assigned it and holds its value, on every valid path."""
    NEXT_EVALUATION = 4
    """Of a very busy expression: the statement at the point may evaluate it next."""
    LAST_REACHED = 5
    """Of what is never reached: the nearest point before it in its procedure to which a valid path
    leads."""


class HopKind(enum.IntEnum):
    """What a hop of a path is."""

    STEP = 0
    """A step inside a procedure."""
    ENTER = 1
    """From a call to its callee's first point: the callee is not left again on the way. For `live`
    and `busy` from the point behind a call to its callee's last point: the call does not lie on the
    way."""
    PASS = 2
    """From a call to the point behind it, by some path through the callee that has the effect. For
    `live` and `busy` from the point behind the call to the call."""


class Effect(enum.IntEnum):
    """What a path through a callee does with the bit."""

    REACHES = 0
    """Nothing is said of the bit: the path is there."""
    GENERATES = 1
    """It has the bit at its end, whether the bit was there before or not."""
    PRESERVES = 2
    """No step of it kills the bit."""


Word = TypeVar("Word", Analysis, Limits)


def member_of(kind: type[Word], wanted: object) -> Word | None:
    """The analysis or the limits of this word or number; None where there are none."""
    if isinstance(wanted, str):
        return next((it for it in kind if it.name.lower() == wanted), None)
    is_number = isinstance(wanted, int) and not isinstance(wanted, bool)
    return next((it for it in kind if is_number and it == wanted), None)


def words_of(kind: type[Word]) -> str:
    """All words, for who asked for another one."""
    return ", ".join(it.name.lower() for it in kind)
