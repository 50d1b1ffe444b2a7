"""Programs of tacflow's language while they are made: variables, statements, procedures."""

from __future__ import annotations

import copy
from collections.abc import Iterable
from dataclasses import dataclass, field
from typing import TYPE_CHECKING, NamedTuple

if TYPE_CHECKING:
    from .dump import Function, Place, Statement
    from .faults import Refusal


@dataclass(eq=False, slots=True)
class Variable:
    """A variable of the program, which stands for one of the C program or for a value that gcc
    made.

    source: its name in C, or empty. owner: the procedure whose local it is, or None. home: of a
    static, the file's name or the procedure in which it stands. is_addressed: a pointer may lead to
    it. whole: the variable of which it is a part, or the pointer that leads to it.
    """

    wish: str
    source: str = ""
    owner: Procedure | None = None
    home: Procedure | str | None = None
    is_array: bool = False
    is_addressed: bool = False
    is_parameter: bool = False
    whole: Variable | None = None
    name: str = ""

    def is_in_scope(self, procedure: Procedure) -> bool:
        """Whether a procedure can name it."""
        if self.owner is not None:
            return self.owner is procedure
        return (
            self.home is None
            or self.home is procedure
            or bool(procedure.function)
            and self.home == procedure.function.file
        )


class Number(NamedTuple):
    """A number that stands for a constant of the C program; `text` is how C writes it."""

    value: int
    text: str


@dataclass(eq=False, slots=True)
class Label:
    """A place in a procedure."""

    name: str = ""


class Step:
    """One statement of the program.

    kind: 'set', 'read', 'use', 'fork', 'goto', 'call', 'return', 'label', 'note'. A set has
    `variable` and, for an expression, `operator` and `operands`; one that is `weak` may also leave
    the variable as it is. A use reads its operands; one with a `label` is a test, which leads there
    or on. A fork leads to `label` or on. A note stands for no statement: it says that the variables
    of `touched` may be written from there on, through an address or a part; once a program is made,
    the next step says so. A test that compares one variable with a number has variable, operation
    and number in `compares`, one of two numbers its outcome in `outcome`. Of a set that is
    `told_once` a copy in a procedure of one activation tells whether its value is read. One that
    `is_copy` sets its variable to its operand, as it is; one that is `chained` stands behind
    another sign of assignment at that place, as `y = 0` in `x = y = 0`. `line` is a statement's
    line in the text, once that was written, and 0 for others.
    """

    # What most steps have; all else stands in a step's own dictionary where it is not as below.
    __slots__ = (
        "kind",
        "variable",
        "operator",
        "operands",
        "label",
        "callees",
        "weak",
        "origin",
        "slot",
        "role",
        "line",
        "expression",
        "is_copy",
        "__dict__",
    )
    touched: tuple[Variable, ...] = ()
    ends_life: bool = False
    unset: tuple[Variable, ...] = ()
    surely_unset: tuple[Variable, ...] = ()
    result_of_call: bool = False
    is_element: bool = False
    compares: tuple[Variable, str, int] | None = None
    outcome: bool | None = None
    told_once: bool = False
    chained: Place | None = None

    def __init__(
        self,
        kind: str,
        variable: Variable | None = None,
        operands: tuple[Variable | Number, ...] = (),
        operator: str = "",
        label: Label | None = None,
        callees: tuple[Procedure, ...] = (),
        weak: bool = False,
        origin: Statement | None = None,
        slot: int = 0,
        role: str = "made",
    ) -> None:
        self.kind = kind
        self.variable = variable
        self.operands = operands
        self.operator = operator
        self.label = label
        self.callees = callees
        self.weak = weak
        self.origin = origin
        self.slot = slot
        self.role = role
        self.line = 0
        self.expression = ""
        self.is_copy = False

    def setting(self, variable: Variable) -> Step:
        """This step with another variable, which is set to a value that is not told."""
        own = copy.copy(self)
        own.variable, own.operator, own.operands = variable, "", ()
        return own

    def reads(self) -> list[Variable]:
        """The variables that it reads."""
        return [operand for operand in self.operands if isinstance(operand, Variable)]

    def jump(self) -> Step:
        """Another step that leads where this one leads."""
        return Step(
            self.kind,
            label=self.label,
            callees=self.callees,
            origin=self.origin,
            slot=self.slot,
            role=self.role,
        )


@dataclass(eq=False)
class Procedure:
    """A procedure of the program.

    function: the C function's dump, or None where the front end made it. named: what its names of
    the dump stand for, of those that were asked for. refusal: why it stands for
    unknown code, or None. is_once: it has the locals of one activation of the function and nothing
    else.
    """

    wish: str
    source: str = ""
    function: Function | None = None
    named: dict[str, Variable | None] = field(default_factory=dict)
    steps: list[Step] = field(default_factory=list)
    parameters: list[Variable | None] = field(default_factory=list)
    result: Variable | None = None
    stop: Label | None = None
    refusal: Refusal | None = None
    is_once: bool = False
    name: str = ""

    def locals(self) -> list[Variable]:
        """The variables of its own that its statements name."""
        named: dict[Variable | Number | None, None] = {}
        for step in self.steps:
            named[step.variable] = None
            for part in step.operands or step.touched:
                named[part] = None
        return [part for part in named if isinstance(part, Variable) and part.owner is self]


class Builder:
    """Puts steps behind one another in a procedure."""

    def __init__(self, procedure: Procedure) -> None:
        self.procedure = procedure
        self.origin: Statement | None = None
        self.role = "made"
        self.slot = 0

    def add(
        self,
        kind: str,
        variable: Variable | None = None,
        operands: tuple[Variable | Number, ...] = (),
        operator: str = "",
        label: Label | None = None,
        callees: tuple[Procedure, ...] = (),
        weak: bool = False,
        role: str | None = None,
    ) -> Step:
        """Adds a step of this kind for the C statement at hand."""
        self.slot = slot = self.slot + 1
        role = role or self.role
        step = Step(
            kind, variable, operands, operator, label, callees, weak, self.origin, slot, role
        )
        self.procedure.steps.append(step)
        return step

    def note(self, touched: tuple[Variable, ...]) -> None:
        """Notes that these variables may be written from here on."""
        self.add("note").touched = touched

    def label(self, given: Label | None = None) -> Label:
        """Sets a label, a new one unless one is given."""
        label = given or Label()
        self.procedure.steps.append(Step("label", label=label))
        return label

    def use(self, variables: Iterable[Variable], role: str | None = None) -> None:
        """Reads the variables, two a statement."""
        read = tuple(dict.fromkeys(variables))
        for at in range(0, len(read), 2):
            self.add("use", None, read[at : at + 2], role=role)

    def set(
        self,
        variable: Variable,
        operands: tuple[Number | Variable, ...] = (),
        operator: str = "",
        weak: bool = False,
        role: str | None = None,
    ) -> Step:
        """Sets a variable to an expression, a copy, or a value that is not told."""
        return self.add("set", variable, operands, operator, None, (), weak, role)

    def call(self, procedures: Iterable[Procedure]) -> None:
        """Calls one of these procedures, eight a statement, more by tests."""
        callees = tuple(dict.fromkeys(procedures))
        if len(callees) == 1:
            self.add("call", callees=callees)
            return
        done = Label()
        for at in range(0, len(callees), 8):
            is_last = at + 8 >= len(callees)
            other = Label()
            if not is_last:
                self.add("fork", label=other, role="made")
            self.add("call", callees=callees[at : at + 8])
            if not is_last:
                self.add("goto", label=done, role="made")
                self.label(other)
        if len(callees) > 8:
            self.label(done)
