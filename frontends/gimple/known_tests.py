"""Ways round tests whose outcome is known: gcc writes `a ? (x = 1, 1) : 0` as a value that is set
on two ways and tested behind them.

Where a local was set to a number and then tested, with nothing between but copies of such locals, a
way of its own leads from there to what the test leads to. So the ways on which the value is another
one are no ways of the program. What is passed is written again on the new way, as copies of the
same statements.
"""

from __future__ import annotations

import copy
from typing import TYPE_CHECKING

from .code import Label, Number, Step, Variable

if TYPE_CHECKING:
    from .code import Procedure

LONGEST = 60
OUTCOMES = {
    "ne_expr": lambda left, right: left != right,
    "eq_expr": lambda left, right: left == right,
}


def lead_past(procedure: Procedure) -> None:
    """Writes the ways round tests of a procedure."""
    steps = procedure.steps
    starts = [
        at
        for at, step in enumerate(steps)
        if step.kind == "set" and step.operands and is_number(procedure, step)
    ]
    if not starts:
        return
    places = {step.label: at for at, step in enumerate(steps) if step.kind == "label"}
    tried = {at: Way(procedure, places, at) for at in starts}
    ways = {at: way for at, way in tried.items() if way.target is not None}
    if not ways:
        return
    targets = {way.target: Label() for way in ways.values()}
    procedure.steps = []
    for at, step in enumerate([*steps, None]):
        if at in targets:
            procedure.steps.append(Step("label", label=targets[at]))
        # a jump behind a way of its own is passed by nobody
        if step is not None and not (at - 1 in ways and step.kind == "goto"):
            procedure.steps.append(step)
        if at in ways:
            procedure.steps += [*ways[at].copies, Step("goto", label=targets[ways[at].target])]


def is_plain(procedure: Procedure, step: Step) -> bool:
    """Whether a step sets a local, that no pointer leads to, to one number or variable."""
    variable = step.variable
    return (
        step.kind == "set"
        and not step.weak
        and not step.operator
        and len(step.operands) == 1
        and not step.ends_life
        and not step.result_of_call
        and variable.owner is procedure
        and not variable.is_addressed
    )


def is_number(procedure: Procedure, step: Step) -> bool:
    """Whether a step sets such a local to a number."""
    return is_plain(procedure, step) and number_of(step.operands[0]) is not None


def number_of(part: Number | Variable | None) -> int | None:
    """The value of an operand that is a plain number, else None."""
    return (
        part.value
        if isinstance(part, Number) and part.text.isascii() and part.text.isdigit()
        else None
    )


class Way:
    """The way on from a step that sets a local to a number.

    target: the place behind the last test of known outcome, or None.
    """

    def __init__(self, procedure: Procedure, places: dict[Label, int], start: int) -> None:
        self.procedure = procedure
        self.places = places
        self.values = {
            procedure.steps[start].variable: number_of(procedure.steps[start].operands[0])
        }
        self.passed = []
        self.copies = []
        self.target = None
        at = start + 1
        for _ in range(LONGEST):
            at = self.next_place(at)
            if at is None:
                return

    def next_place(self, at: int) -> int | None:
        """The place behind the step of this one, None where the way is not known."""
        steps = self.procedure.steps
        if at >= len(steps):
            return None
        step = steps[at]
        if step.kind == "label":
            return at + 1
        if step.kind == "goto":
            return self.places.get(step.label)
        if is_plain(self.procedure, step):
            return self.pass_copy(step, at)
        if step.kind == "use" and step.compares:
            return self.pass_test(step, at)
        return None

    def pass_copy(self, step: Step, at: int) -> int | None:
        """A copy of a local whose value is known, or of a number."""
        part = step.operands[0]
        value = self.values.get(part) if isinstance(part, Variable) else number_of(part)
        if value is None:
            return None
        self.values[step.variable] = value
        self.passed.append(copy.copy(step))
        return at + 1

    def pass_test(self, step: Step, at: int) -> int | None:
        """A test of a local whose value is known."""
        variable, operation, number = step.compares
        if variable not in self.values:
            return None
        read = copy.copy(step)
        read.label = None
        self.passed.append(read)
        self.target = (
            self.places[step.label]
            if OUTCOMES[operation](self.values[variable], number)
            else at + 1
        )
        self.copies = list(self.passed)
        return self.target
