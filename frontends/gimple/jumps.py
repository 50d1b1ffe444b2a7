"""Tests, switches, jumps and labels as steps of a procedure."""

from __future__ import annotations

from typing import TYPE_CHECKING

from . import operands
from .code import Label, Variable
from .dump import cases_of
from .known_tests import OUTCOMES, number_of
from .labels import Copies, label_name, named_labels
from .state import State

if TYPE_CHECKING:
    from .dump import Statement


class Jumps:
    """Turns tests and jumps."""

    def __init__(self, state: State) -> None:
        self.state = state

    def lead_anywhere(self, names: list[str]) -> None:
        """What each computed jump leads to: all labels with a name."""
        if self.state.procedure.steps[-1].kind not in ("goto", "return"):
            self.state.build.add("return", role="made")
        self.state.build.label(self.state.anywhere)
        for name in names[1:]:
            self.state.build.add("fork", label=self.state.labels.get(name), role="made")
        self.state.build.add("goto", label=self.state.labels.get(names[0]), role="made")

    def turn_cond(self, statement: Statement) -> None:
        """A test."""
        operation, left, right, if_true, if_false = statement.words
        values = [self.state.value(left), self.state.value(right)]
        numbers = [number_of(value.exact) for value in values]
        self.test([*values[0].reads, *values[1].reads], label_name(if_true), "test")
        if (
            operation in OUTCOMES
            and numbers[1] is not None
            and isinstance(values[0].exact, Variable)
        ):
            self.state.procedure.steps[-1].compares = (values[0].exact, operation, numbers[1])
        elif operation in OUTCOMES and None not in numbers:
            self.state.procedure.steps[-1].outcome = OUTCOMES[operation](*numbers)
        self.jump(label_name(if_false), "made")

    def test(self, reads: list[Variable] | tuple[Variable, ...], name: str, role: str) -> None:
        """A test that reads these variables and leads to a label or on."""
        reads = list(dict.fromkeys(reads))
        self.state.build.use(reads[2:])
        self.state.flush_all()
        if reads:
            self.state.build.add(
                "use", operands=tuple(reads[:2]), label=self.state.labels.get(name), role=role
            )
        else:
            self.state.build.add("fork", label=self.state.labels.get(name), role=role)

    def turn_switch(self, statement: Statement) -> None:
        """A switch: one test for each case, the first of which reads the value."""
        names = list(dict.fromkeys(cases_of(statement)))
        reads = self.state.value(statement.words[0]).reads
        if len(names) == 1:
            self.state.build.use(reads)
        for number, name in enumerate(names[1:]):
            self.test(reads if number == 0 else (), name, "test" if number == 0 else "made")
        self.jump(names[0], "made")

    def turn_goto(self, statement: Statement) -> None:
        """A jump, to a label or to a place that is computed."""
        name = label_name(statement.words[0])
        if (
            statement.words[0].startswith("<")
            or operands.is_declared(name)
            and not self.is_variable(name)
        ):
            self.jump(name, "jump")
            return
        if isinstance(self.state.labels, Copies) or not named_labels(
            self.state.procedure.function.statements
        ):
            self.state.refuse("a computed jump in a cleanup can't be turned")
        self.state.anywhere = self.state.anywhere or Label()
        self.state.build.use(self.state.value(statement.words[0]).reads)
        self.state.flush_all()
        self.state.build.add("goto", label=self.state.anywhere, role="jump")

    def is_variable(self, name: str) -> bool:
        """Whether a declared name is a variable and no label."""
        return (
            self.state.world.is_local(self.state.procedure, name)
            or operands.split_declared(name)[1] in self.state.file.statics
        )

    def jump(self, name: str, role: str) -> None:
        """A jump to a label of the dump."""
        self.state.flush_all()
        self.state.build.add("goto", label=self.state.labels.get(name), role=role)

    def turn_label(self, statement: Statement) -> None:
        """A label."""
        if "non-local" in statement.rest:
            self.state.refuse("a label to which a nested function jumps can't be turned")
        self.state.flush_all()
        self.state.build.label(self.state.labels.get(label_name(statement.words[0])))
