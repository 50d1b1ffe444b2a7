"""The whole program: the functions of all files, and where it begins."""

from __future__ import annotations

from dataclasses import dataclass
from typing import TYPE_CHECKING

from . import flow, operands
from .activations import callees_of, keep_activations_apart
from .code import Builder, Label, Procedure, Step, Variable
from .faults import Refusal
from .known_tests import lead_past
from .services import (
    call_from_outside,
    called_back,
    fill_memory,
    fill_unknown,
    make_services,
    read_parameters,
)
from .state import State
from .translate import Translator
from .values import Constants

if TYPE_CHECKING:
    from .dump import Statement
    from .services import Services
    from .world import World


@dataclass(eq=False)
class Program:
    """A program before it is written.

    procedures: all that its beginning leads to, `main` first. never_called: the functions to which
    it does not lead, which are left out. refused: those that stand for unknown code.
    """

    procedures: list[Procedure]
    never_called: list[Procedure]
    refused: list[Procedure]


def build(world: World, keeps_temporaries: bool = False) -> Program:
    """The program of all files; with variables for gcc's temporaries where they are kept."""
    world.take_addresses()
    prepare_functions(world)
    reached = world.reached_by_pointers()
    services = make_services(bool(reached), keeps_temporaries)
    functions = list(world.procedures.values())
    refused = translate_all(world, services)
    if services.any_of:
        services.fill_any(world, named_in(functions))
    fill_unknown(services, world)
    helpers = services.all()
    close_stops(
        functions, [services.unknown, *services.pointed.values(), *services.any_of.values()]
    )
    called = reached_from(first_calls(services, world))
    kept = [procedure for procedure in functions if procedure in called]
    note_unset(kept)
    named = named_in(kept)
    fill_memory(services, [variable for variable in reached if variable in named])
    helpers = [helper for helper in helpers if helper in called]
    kept += helpers
    root = Procedure("main")
    fill_root(root, services, world, kept, named | named_in(helpers))
    changes, single = keep_activations_apart(
        [procedure for procedure in kept if procedure.function], [root, *kept]
    )
    begin_with(root, single)
    everything = [root, *kept, *changes, *single]
    for procedure in everything:
        tidy(procedure)
    operands.forget()
    return Program(
        everything, [procedure for procedure in functions if procedure not in called], refused
    )


def note_unset(procedures: list[Procedure]) -> None:
    """Notes which reads of functions may be of locals that are not set."""
    for procedure in procedures:
        own = [
            variable
            for variable in procedure.locals()
            if not variable.is_parameter and variable is not procedure.result
        ]
        flow.mark_unset(procedure.steps, own)


def named_in(procedures: list[Procedure]) -> set[Variable]:
    """The variables that these procedures name."""
    named = {
        part
        for procedure in procedures
        for step in procedure.steps
        for part in (step.variable, *step.operands)
    }
    return {part for part in named if isinstance(part, Variable)}


def translate_all(world: World, services: Services) -> list[Procedure]:
    """Turns each function; answers those that can't be turned, which stand for unknown code."""
    constants = Constants()
    refused = []
    for (file, _), procedure in world.procedures.items():
        try:
            Translator(State(world, file, procedure, services, constants)).translate()
            lead_past(procedure)
        except Refusal as refusal:
            procedure.refusal = refusal
            services.make_unknown(file, procedure)
            refused.append(procedure)
        procedure.named.clear()  # it is written
    return refused


def reached_from(first: list[Procedure]) -> dict[Procedure, None]:
    """All procedures that calls from these lead to."""
    found = dict.fromkeys(first)
    waiting = list(found)
    while waiting:
        for callee in callees_of(waiting.pop()):
            if callee not in found:
                found[callee] = None
                waiting.append(callee)
    return found


def first_calls(services: Services, world: World) -> list[Procedure]:
    """What the program's beginning calls."""
    main = world.public.get("main")
    return [*([main] if main else called_back(world)), *world.own_starts, services.unknown]


def prepare_functions(world: World) -> None:
    """Gives each function its parameters and its result."""
    for (file, _), procedure in world.procedures.items():
        function = procedure.function
        procedure.wish = "main_c" if function.name == "main" else function.name
        procedure.parameters = [
            world.variable(file, procedure, name) for name in function.parameters
        ]
        returned = returned_words(function.statements)
        if not returned and not function.fault and not procedure.refusal:
            continue
        only = returned[0] if len(set(returned)) == 1 else ""
        variable = world.locals.get((procedure, only))
        if (
            variable is None
            or variable.source
            or variable.is_addressed
            or only in file.symbols.volatile
        ):
            variable = Variable(f"{procedure.wish}__result", "", procedure)
        procedure.result = variable


def returned_words(statements: list[Statement]) -> list[str]:
    """What the returns among statements give."""
    return [
        statement.words[0]
        for statement in statements
        if statement.kind == "return" and statement.words[0] != "NULL"
    ]


def fill_root(
    root: Procedure,
    services: Services,
    world: World,
    procedures: list[Procedure],
    named: set[Variable],
) -> None:
    """Where the program begins: its variables that are named have values, some code runs by itself,
    then `main` or code outside.
    """
    build = Builder(root)
    for variable in world.globals.values():
        if variable in named:
            build.add("read", variable=variable)
    end = Label()
    main = world.public.get("main")
    first = [main] if main else called_back(world)
    unset = [
        procedure
        for procedure in procedures
        if procedure not in first and any(step.unset for step in procedure.steps)
    ]
    call_from_outside(build, unset, end)
    run_alone(build, world.own_starts)
    if main:
        read_parameters(build, main)
        build.call([main])
        build.use([main.result] if main.result else ())
    build.label(end)
    build.call([services.unknown])


def begin_with(root: Procedure, procedures: list[Procedure]) -> None:
    """Has the program begin with one of these procedures and end, or go on as it was."""
    start = Procedure("start")
    over = Label()
    call_from_outside(Builder(start), procedures, over)
    root.steps = [*start.steps, *root.steps, *([Step("label", label=over)] if procedures else [])]


def run_alone(build: Builder, procedures: dict[Procedure, None]) -> None:
    """Constructors, any number of times in any order."""
    if procedures:
        again, done = Label(), Label()
        build.label(again)
        build.add("fork", label=done)
        build.call(procedures)
        build.add("goto", label=again)
        build.label(done)


def close_stops(functions: list[Procedure], others: list[Procedure]) -> None:
    """Takes out the tests for an end of the program behind calls that don't lead to one; adds what
    such a test leads to.

    Of the procedures in `others` it is known that they may end the program.
    """
    stopping = set(others)
    leading = {
        procedure: [step for step in procedure.steps if step.label is procedure.stop]
        for procedure in functions
    }
    changed = True
    while changed:
        found = {
            procedure
            for procedure, steps in leading.items()
            if any(may_stop(procedure, step, stopping) for step in steps)
        }
        changed = not found <= stopping
        stopping |= found
    for procedure in functions:
        steps = procedure.steps
        procedure.steps = [
            step for step in steps if step.role != "stop" or may_stop(procedure, step, stopping)
        ]
        if procedure in stopping:
            build = Builder(procedure)
            if not procedure.steps or procedure.steps[-1].kind != "return":
                build.add("return")
            build.label(procedure.stop)
            if procedure.result:
                build.set(procedure.result)


def may_stop(procedure: Procedure, step: Step, stopping: set[Procedure]) -> bool:
    """Whether a step may lead to an end of the program, given the procedures of which that is
    known.
    """
    if step.label is not procedure.stop:
        return False
    return step.role != "stop" or any(callee in stopping for callee in step.callees)


def tidy(procedure: Procedure) -> None:
    """Takes out jumps to the next statement, and notes, of which the next step keeps what they
    say.
    """
    kept: list[Step] = []
    for step in reversed(procedure.steps):
        if step.kind == "note":
            if kept:
                kept[-1].touched += step.touched
            continue
        if step.kind in ("goto", "fork") and leads_on(step.label, kept):
            continue
        if step.kind == "return" and not any(later.kind != "label" for later in kept):
            continue
        kept.append(step)
    procedure.steps = kept[::-1]


def leads_on(label: Label, kept: list[Step]) -> bool:
    """Whether only labels stand before this one, in a list of steps that is turned round."""
    for step in reversed(kept):
        if step.kind != "label":
            return False
        if step.label is label:
            return True
    return False
