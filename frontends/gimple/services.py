"""What stands for memory, for code that is not known, and for calls through pointers."""

from __future__ import annotations

from dataclasses import dataclass, field
from typing import TYPE_CHECKING

from .code import Builder, Label, Procedure, Variable

if TYPE_CHECKING:
    from .world import File, World


@dataclass(eq=False)
class Services:
    """The procedures for memory, for unknown code and for calls through pointers, and a variable
    that nobody reads.

    keeps_temporaries: whether gcc's temporaries are variables of the program. any_of: for each file
    with a function that is taken as unknown code, what such a function may do.
    """

    reading: Procedure | None
    writing: Procedure | None
    unknown: Procedure
    scratch: Variable
    keeps_temporaries: bool
    pointed: dict[int, Procedure] = field(default_factory=dict)
    any_of: dict[File, Procedure] = field(default_factory=dict)

    def all(self) -> list[Procedure]:
        """All these procedures."""
        return [
            helper
            for helper in (
                self.reading,
                self.writing,
                self.unknown,
                *self.pointed.values(),
                *self.any_of.values(),
            )
            if helper
        ]

    def through_pointer(self, world: World, count: int) -> Procedure:
        """A call through a pointer with so many arguments: of what has its address taken and no
        more parameters, or unknown.
        """
        if count not in self.pointed:
            self.pointed[count] = procedure = Procedure(f"pointed_{count}")
            candidates = [
                found
                for found in world.addressed_procedures
                if len(found.function.parameters) <= count
            ]
            build = Builder(procedure)
            for candidate in candidates:
                read_parameters(build, candidate)
            build.call([self.unknown, *candidates])
            build.use(candidate.result for candidate in candidates if candidate.result)
        return self.pointed[count]

    def make_unknown(self, file: File, procedure: Procedure) -> None:
        """Has a function's procedure stand for any code of its file: it takes the parameters, and
        gives any result.
        """
        if file not in self.any_of:
            self.any_of[file] = Procedure(f"any_of_{len(self.any_of) + 1}")
        procedure.steps = []
        procedure.stop = Label()
        build = Builder(procedure)
        build.use(parameter for parameter in procedure.parameters if parameter)
        build.call([self.any_of[file]])
        build.add("fork", label=procedure.stop, role="made")
        if procedure.result:
            build.set(procedure.result)

    def fill_any(self, world: World, named: set[Variable]) -> None:
        """Writes what functions of a file may do of which nothing is known: all that the file can
        name, any number of times.

        Of its variables those count that some function names.
        """
        for file, procedure in self.any_of.items():
            build = Builder(procedure)
            again, done = Label(), Label()
            build.label(again)
            build.add("fork", label=done)
            variables = [variable for variable in world.variables_of(file) if variable in named]
            build.use(variables)
            for variable in variables:
                build.set(variable, weak=True)
            call_from_outside(build, world.procedures_of(file), None)
            build.call([self.unknown])
            build.add("goto", label=again)
            build.label(done)


def make_services(has_memory: bool, keeps_temporaries: bool) -> Services:
    """Empty procedures for memory, where pointers may lead to any, and for unknown code."""
    reading, writing = (
        (Procedure("memory_read"), Procedure("memory_written")) if has_memory else (None, None)
    )
    return Services(reading, writing, Procedure("unknown"), Variable("t"), keeps_temporaries)


def fill_memory(services: Services, variables: list[Variable]) -> None:
    """Reads and writes of what pointers may lead to."""
    if services.reading:
        Builder(services.reading).use(variables)
        build_writing = Builder(services.writing)
        for variable in variables:
            build_writing.set(variable, weak=True)


def called_back(world: World) -> list[Procedure]:
    """The functions that code outside may call."""
    main = world.public.get("main")
    found = dict.fromkeys([*world.addressed_procedures, *world.visible, *world.own_starts])
    return [
        procedure
        for procedure in found
        if procedure is not main or procedure in world.addressed_procedures
    ]


def fill_unknown(services: Services, world: World) -> None:
    """Code outside: any number of times, in any order, all that it can do."""
    build = Builder(services.unknown)
    again, done = Label(), Label()
    build.label(again)
    build.add("fork", label=done)
    for helper in (services.reading, services.writing):
        if helper:
            build.call([helper])
    call_from_outside(build, called_back(world), None)
    build.add("goto", label=again)
    build.label(done)


def call_from_outside(build: Builder, procedures: list[Procedure], target: Label | None) -> None:
    """Calls of these procedures with any arguments, eight at a time, each on an outcome of a test,
    which then leads to `target`.
    """
    for at in range(0, len(procedures), 8):
        some = procedures[at : at + 8]
        other = Label()
        build.add("fork", label=other)
        for procedure in some:
            read_parameters(build, procedure)
        build.call(some)
        build.use(procedure.result for procedure in some if procedure.result)
        if target:
            build.add("goto", label=target)
        build.label(other)


def read_parameters(build: Builder, procedure: Procedure) -> None:
    """Parameters that come from outside."""
    for parameter in procedure.parameters:
        if parameter is not None:
            build.add("read", variable=parameter)
