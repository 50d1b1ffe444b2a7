"""What a function's translation has at hand: the values of operands, and what is written to
targets.
"""

from __future__ import annotations

import re
from collections.abc import Sequence
from typing import TYPE_CHECKING, NoReturn

from . import operands
from .code import Builder, Variable
from .faults import Refusal
from .labels import Labels
from .parts import Parts
from .values import NOTHING, Pending, Value
from .world import function_place

if TYPE_CHECKING:
    from .code import Label, Number, Procedure, Step
    from .dump import Place, Statement
    from .labels import Copies, Exits
    from .operands import Reference
    from .services import Services
    from .values import Constants
    from .world import File, World

NUMBER = re.compile(r"-?\d+")


class State:
    """The state of one function's translation, with what reads and writes of operands are as steps.

    services: the procedures that stand for memory and for unknown code. Where these keep
    temporaries, each of gcc's is a variable of its own, and address arithmetic an expression.
    steady: the values of operands that are the same wherever they stand in the function.
    """

    def __init__(
        self,
        world: World,
        file: File,
        procedure: Procedure,
        services: Services,
        constants: Constants,
    ) -> None:
        self.world = world
        self.file = file
        self.procedure = procedure
        self.services = services
        self.constants = constants
        self.build = Builder(procedure)
        self.pending = Pending()
        self.parts = Parts(world, file, procedure)
        self.steady: dict[str, Value] = {"NULL": NOTHING}
        self.kept: dict[str, Variable] = {}
        self.evaluations: dict[str, Step] = {}
        self.halves: dict[str, str | None] = {}
        self.labels: Labels | Exits | Copies = Labels()
        self.anywhere: Label | None = None
        self.statement: Statement | None = None
        self.previous: Statement | None = None
        self.start = self.previous_start = 0
        self.given = self.previous_given = NOTHING
        self.last_place: Place | None = None

    def begin(self, statement: Statement) -> None:
        """Takes up a statement; the one at hand is the previous one from now on."""
        self.previous, self.statement = self.statement, statement
        self.previous_start, self.start = self.start, len(self.procedure.steps)
        self.previous_given, self.given = self.given, NOTHING
        self.last_place = statement.place or self.last_place
        build = self.build
        build.origin, build.slot, build.role = statement, 0, "plain"

    def refuse(self, message: str) -> NoReturn:
        """Refuses the statement at hand."""
        raise Refusal(message, self.last_place or function_place(self.file, self.procedure))

    # Values

    def name_value(self, name: str) -> Value:
        """The value of a temporary, a variable, or a function's name."""
        if name in self.kept:
            return Value((self.kept[name],), self.kept[name])
        if not operands.is_declared(name) and name != "<retval>":
            return self.pending.take(name)
        if (
            name != "<retval>"
            and not self.world.is_local(self.procedure, name)
            and self.world.is_function(self.file, name)
        ):
            return Value(exact=self.constants.number(name, self.file.name))
        variable = self.world.variable(self.file, self.procedure, name)
        return Value((variable,), variable) if variable else NOTHING

    def reads_of(self, names: Sequence[str]) -> tuple[Variable, ...]:
        """The variables that are read with these names."""
        if not names:
            return ()
        if len(names) == 1:
            return self.name_value(names[0]).reads
        return tuple(variable for name in names for variable in self.name_value(name).reads)

    def value(self, word: str) -> Value:
        """The value of an operand. What is behind a pointer is read at once."""
        known = self.steady.get(word)
        if known is not None:
            return known
        if not self.parts.of_whole and operands.is_temporary(word):
            return self.name_value(word)
        reference = operands.parse(word)
        value = self.value_of(reference, word)
        if not reference.is_memory and self.is_steady(reference):
            self.steady[word] = value
        return value

    def is_steady(self, reference: Reference) -> bool:
        """Whether an operand has no temporary in it, and is of nothing that has parts."""
        if reference.reads:
            return False
        if reference.base is None:
            return True
        return (
            operands.is_declared(reference.base)
            and self.name_value(reference.base).exact not in self.parts.of_whole
        )

    def value_of(self, reference: Reference, word: str) -> Value:
        """The value of an operand, by what it stands for."""
        if reference.is_address or reference.constant is not None:
            reads = self.reads_of(reference.reads)
            return Value(reads, self.constants.number(word, self.file.name) if not reads else None)
        if reference.is_memory:
            self.build.use(self.reads_of(reference.reads))
            self.read_memory()
            return NOTHING
        base = self.name_value(reference.base)
        parts = self.part_reads(word, base.exact) if self.parts.of_whole else ()
        if reference.is_whole:
            return Value(base.reads + parts, base.exact) if parts else base
        return Value(base.reads + parts + self.reads_of(reference.reads))

    def part_reads(self, word: str, whole: Variable | None) -> tuple[Variable, ...]:
        """The parts of a variable that an operand may read."""
        exact, others = self.parts.read_as(word, whole)
        if others:  # nothing is told of those that are unset
            self.build.note(tuple(others))
        return (*exact, *others)

    def element(self, word: str) -> tuple[Variable, Variable] | None:
        """The array and the index, as operands, where a word is an element of a variable at one
        index; else None.
        """
        reference = operands.parse(word)
        if reference.index is None or reference.base is None or NUMBER.fullmatch(reference.index):
            return None
        array = self.name_value(reference.base).exact
        index = self.name_value(reference.index).exact
        return (
            (array, index) if isinstance(array, Variable) and isinstance(index, Variable) else None
        )

    def read_memory(self) -> None:
        """Reads what pointers may lead to."""
        if self.parts.behind:
            self.build.use(self.parts.behind.values(), "made")
        if self.services.reading:
            self.build.call([self.services.reading])

    def read_now(self, wanted: list[tuple[Statement | None, tuple[Variable, ...]]]) -> None:
        """Reads what temporaries still had to read, as their own statements do."""
        at_hand = self.build.origin
        for origin, reads in wanted:
            self.build.origin = origin
            self.build.use(reads, "made")
        self.build.origin = at_hand

    def flush_all(self) -> None:
        """Reads what the temporaries still have to read."""
        if self.pending.holding:
            self.read_now(self.pending.flush_all())

    def flush_reached(self) -> None:
        """The same of those whose variables may be written by other code."""
        if self.pending.reached:
            self.read_now(self.pending.flush_reached())

    def flush_variable(self, variable: Variable) -> None:
        """The same of those that read this variable."""
        if self.pending.reading.get(variable):
            self.read_now(self.pending.flush_variable(variable))

    def store(
        self,
        target: str,
        operator: str,
        parts: tuple[Number | Variable, ...],
        reads: tuple[Variable, ...],
    ) -> None:
        """Writes to a target the value of an expression, a copy, or something that was made of what
        is read.
        """
        if operands.is_temporary(target):
            self.hold(target, operator, parts, reads)
            return
        reference = operands.parse(target)
        extra = self.reads_of(reference.reads)
        if reference.is_memory:
            self.build.use(
                [*[part for part in parts if isinstance(part, Variable)], *reads, *extra]
            )
            self.write_memory()
            if target in self.parts.behind:
                self.build.set(self.parts.behind[target])
            return
        variable = self.world.variable(self.file, self.procedure, reference.base)
        if variable is None:
            self.build.use(
                [*[part for part in parts if isinstance(part, Variable)], *reads, *extra]
            )
            return
        self.flush_variable(variable)
        if not parts and reads:
            parts, reads = reads[:1], reads[1:]
        if reads or extra:
            self.build.use([*reads, *extra])
        self.build.set(variable, parts, operator, weak=not reference.is_whole)
        if variable in self.parts.of_whole:
            self.store_parts(target, variable)

    def store_parts(self, target: str, whole: Variable) -> None:
        """Writes the parts that a store writes."""
        exact, others = self.parts.written_as(target, whole)
        if others:
            self.build.note(tuple(others))
        for part in exact:
            self.build.set(part, role="made" if operands.is_declared(target) else self.build.role)

    def hold(
        self,
        temporary: str,
        operator: str,
        parts: tuple[Number | Variable, ...],
        reads: tuple[Variable, ...],
    ) -> None:
        """A temporary's value: an expression is evaluated at once, into a variable that nobody
        reads; all else is held.
        """
        if self.services.keeps_temporaries:
            self.keep(temporary, operator, parts, reads)
        elif operator:
            if reads:
                self.build.use(reads)
            self.evaluations[temporary] = self.build.set(self.services.scratch, parts, operator)
            self.pending.put(temporary, NOTHING)
        elif parts:
            exact = parts[0]
            self.pending.put(
                temporary,
                Value((exact,) if isinstance(exact, Variable) else (), exact),
                self.statement,
            )
        else:
            self.pending.put(temporary, Value(reads), self.statement)

    def keep(
        self,
        temporary: str,
        operator: str,
        parts: tuple[Variable | Number, ...],
        reads: tuple[Variable, ...],
    ) -> None:
        """A temporary's value, in a variable of its own."""
        variable = self.kept.setdefault(
            temporary, Variable(f"{self.procedure.wish}_{temporary}", owner=self.procedure)
        )
        if not parts:
            parts, reads = reads[:1], reads[1:]
        self.build.use(reads)
        self.build.set(variable, parts, operator)

    def write_memory(self) -> None:
        """Writes to what pointers may lead to."""
        self.flush_reached()
        if self.services.writing:
            self.build.call([self.services.writing])

    def note_addresses(self, words: list[str]) -> None:
        """Notes the locals whose address a statement takes."""
        found = []
        for word in words:
            for name in operands.parse(word).addressed if "&" in word else ():
                if operands.is_declared(name) and self.world.is_local(self.procedure, name):
                    found.append(self.world.variable(self.file, self.procedure, name))
        touched = tuple(variable for variable in found if variable)
        if touched:
            self.build.note(touched)
