"""Calls as steps of a procedure: of functions with a body, of the C library's, of what a pointer
leads to.
"""

from __future__ import annotations

from dataclasses import dataclass
from typing import TYPE_CHECKING

from . import library, operands
from .state import State
from .values import Value

if TYPE_CHECKING:
    from .code import Procedure
    from .dump import Statement
    from .world import Callee


@dataclass(frozen=True)
class NamedOnly:
    """A function that gcc provides."""

    name: str
    procedure: Procedure | None = None
    is_endless: bool = False
    is_replaceable: bool = False
    is_foreign: bool = False


class Calls:
    """Turns calls."""

    def __init__(self, state: State) -> None:
        self.state = state

    def turn_call(self, statement: Statement) -> None:
        """A call."""
        callee, target, *words = statement.words
        self.state.note_addresses(words)
        values = [self.state.value(word) for word in words]
        found = self.target_of(callee)
        if getattr(found, "name", "") == "__builtin_expect" and target != "NULL":
            # what is expected says nothing of what is
            exact = values[0].exact
            self.state.store(
                target,
                "",
                () if exact is None else (exact,),
                values[0].reads if exact is None else (),
            )
        elif isinstance(found, Value):
            self.call_any(found, values, target)
        elif found.procedure:
            others = [self.state.services.unknown] if found.is_replaceable else []
            self.call_procedures([found.procedure], others, values, target, found.is_endless)
        else:
            self.call_library(found, values, target)

    def target_of(self, word: str) -> Callee | NamedOnly | Value:
        """The callee that is named, or the value of a pointer."""
        if word.startswith("."):
            return NamedOnly(word)
        if not operands.is_declared(word) or self.state.world.is_local(self.state.procedure, word):
            return self.state.value(word)
        source = operands.split_declared(word)[0]
        if source.startswith("__builtin_") and not self.state.world.is_function(
            self.state.file, word
        ):
            return NamedOnly(source)
        return self.state.world.callee(self.state.file, word)

    def call_library(self, callee: Callee | NamedOnly, values: list[Value], target: str) -> None:
        """A call of a function that has no body here."""
        behaviour = "unknown" if callee.is_foreign else library.behaviour(callee.name)
        if behaviour == "jumping":
            self.state.refuse(f"{callee.name}, which may come back more than once, can't be turned")
        self.state.build.use(variable for value in values for variable in value.reads)
        if behaviour in ("reading", "writing"):
            self.state.read_memory()
        if behaviour == "writing":
            self.state.write_memory()
        if behaviour == "unknown":
            self.call_unknown(callee.is_endless)
        if behaviour == "ending" or callee.is_endless:
            self.state.flush_all()
            self.state.build.add("goto", label=self.state.procedure.stop, role="made")
        elif target != "NULL":
            self.state.store(target, "", (), ())

    def call_unknown(self, is_endless: bool = False) -> None:
        """A call of code of which nothing is known, which may end the program."""
        self.state.flush_reached()
        self.state.build.call([self.state.services.unknown])
        if not is_endless:
            self.state.build.add("fork", label=self.state.procedure.stop, role="made")

    def call_any(self, pointer: Value, values: list[Value], target: str) -> None:
        """A call through a pointer."""
        self.state.build.use(variable for value in [pointer, *values] for variable in value.reads)
        self.state.flush_reached()
        self.state.build.call([self.state.services.through_pointer(self.state.world, len(values))])
        self.state.build.add("fork", label=self.state.procedure.stop, role="made")
        if target != "NULL":
            self.state.store(target, "", (), ())

    def call_procedures(
        self,
        procedures: list[Procedure],
        others: list[Procedure],
        values: list[Value],
        target: str,
        is_endless: bool,
    ) -> None:
        """A call of one of these procedures, by way of their parameters and results."""
        self.pass_arguments(procedures, values)
        self.state.flush_reached()
        call = (*others, *procedures)
        self.state.build.call(call)
        if is_endless:
            self.state.flush_all()
            self.state.build.add("goto", label=self.state.procedure.stop, role="made")
            return
        self.state.build.add("fork", label=self.state.procedure.stop, role="stop", callees=call)
        if target == "NULL":
            return
        results = [procedure.result for procedure in procedures if procedure.result]
        is_one = len(call) == 1 and results
        start = len(self.state.procedure.steps)
        self.state.store(
            target, "", tuple(results) if is_one else (), () if is_one else tuple(results)
        )
        if operands.is_temporary(target):
            self.flush_all_of(target)
        for step in self.state.procedure.steps[start:]:
            step.result_of_call = True

    def flush_all_of(self, temporary: str) -> None:
        """Reads at once what a temporary would read later."""
        self.state.build.use(self.state.pending.take(temporary).reads, "made")
        self.state.pending.put(temporary, Value())

    def pass_arguments(self, procedures: list[Procedure], values: list[Value]) -> None:
        """Sets the parameters of the procedures; all arguments are read before the first one is set
        where that matters.
        """
        parameters = {
            parameter for procedure in procedures for parameter in procedure.parameters if parameter
        }
        reads = [variable for value in values for variable in value.reads]
        is_mixed = any(variable in parameters for variable in reads)
        count = min([len(procedure.parameters) for procedure in procedures], default=0)
        extra = (
            reads
            if is_mixed
            else [variable for value in values[count:] for variable in value.reads]
        )
        self.state.build.use(extra)
        for procedure in procedures:
            for number, parameter in enumerate(procedure.parameters):
                value = values[number] if number < len(values) and not is_mixed else Value()
                if parameter is None:  # it is volatile, and reads its argument all the same
                    self.state.build.use(value.reads)
                    continue
                self.state.flush_variable(parameter)
                self.state.build.use(value.reads[1:])
                self.state.build.set(parameter, value.reads[:1], role="argument")
