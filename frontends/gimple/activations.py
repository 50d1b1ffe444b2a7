"""Functions that may be active twice: their locals are written so that activations are not taken
for one another.
"""

from dataclasses import replace

from . import flow
from .code import Builder, Procedure, Step, Variable


def callees_of(procedure: Procedure) -> list[Procedure]:
    """The procedures that a procedure calls."""
    return [callee for step in procedure.steps if step.kind == "call" for callee in step.callees]


def keep_activations_apart(
    functions: list[Procedure], everything: list[Procedure]
) -> tuple[list[Procedure], list[Procedure]]:
    """Writes the locals of procedures that may recur as docs/ENCODINGS.md says.

    Answers the procedures that were made for it, and those that stand for one activation each.
    """
    callees = {procedure: callees_of(procedure) for procedure in everything}
    number = flow.components(everything, callees)
    made, single = [], []
    shared = {}
    for procedure in functions:
        again = {
            id(step)
            for step in procedure.steps
            if step.kind == "call"
            and any(number[callee] == number[procedure] for callee in step.callees)
        }
        if again:
            shared[procedure], unread = variables_in_use(procedure, again)
            single += [one_activation(procedure, unread)] if unread else []
    weak = {variable for variables in shared.values() for variable in variables}
    for procedure in everything:
        for step in procedure.steps:
            if step.variable in weak:
                step.weak = True
    for procedure, variables in shared.items():
        again = [
            step
            for step in procedure.steps
            if step.kind == "call"
            and any(number[callee] == number[procedure] for callee in step.callees)
        ]
        made += change_locals(procedure, variables, again)
    return made, single


def variables_in_use(
    procedure: Procedure, again: set[int]
) -> tuple[list[Variable], list[Variable]]:
    """The locals that are in use across one of these calls, or at the entry, or that pointers may
    lead to.

    Beside them those of which some value seems to be read by nobody, as far as one activation goes.
    """
    own = list(
        dict.fromkeys(
            [*procedure.locals(), *[parameter for parameter in procedure.parameters if parameter]]
        )
    )
    if not own:
        return [], []
    live, numbers = flow.live_before(procedure.steps, own)
    used = unread = 0
    for at, step in enumerate(procedure.steps):
        if id(step) in again:
            used |= live[at + 1]
        if step.kind == "set" and is_own_set(step) and not step.weak:
            unread |= numbers.get(step.variable, 0) & ~live[at + 1]
    found = []
    for variable in own:
        at_entry = live[0] & numbers[variable] and not variable.is_parameter
        if variable.is_addressed or used & numbers[variable] or at_entry:
            found.append(variable)
    return found, [
        variable
        for variable in found
        if variable.source and not variable.is_addressed and unread & numbers[variable]
    ]


def is_own_set(step: Step) -> bool:
    """Whether a step sets a variable, and is not the passing of an argument, to an inner activation
    for one.
    """
    return step.kind == "set" and step.role != "argument"


def one_activation(procedure: Procedure, variables: list[Variable]) -> Procedure:
    """A procedure that does what one activation of a function does with these locals, to which no
    pointer leads.

    Whatever it calls leaves them as they are, so all else that it does is left out. It has all ways
    of the function.
    """
    single = Procedure(
        f"{procedure.wish}__once", procedure.source, procedure.function, is_once=True
    )
    copies = {variable: replace(variable, owner=single, name="") for variable in variables}
    build = Builder(single)
    for step in procedure.steps:
        reads = tuple(copies[part] for part in step.reads() if part in copies)
        if step.kind in ("label", "goto", "return", "fork"):
            single.steps.append(step.jump())
        elif step.kind == "use" and step.label:
            build.add("use" if reads else "fork", operands=reads, label=step.label)
        elif step.kind == "use" and not reads:
            build.slot += 1
            build.label()
        else:
            build.use(reads)
        if is_own_set(step) and step.variable in copies:
            single.steps.append(step.setting(copies[step.variable]))
            step.told_once = True
    return single


def change_locals(
    procedure: Procedure, variables: list[Variable], calls: list[Step]
) -> list[Procedure]:
    """Has the locals change at the entry and behind these calls; by a procedure of its own where
    there are several.
    """
    variables = [variable for variable in variables if variable is not procedure.result]
    if not variables:
        return []
    change = Procedure(f"{procedure.wish}__changed")
    build = Builder(change)
    for variable in variables:
        build.set(variable, weak=True)
    is_long = len(variables) > 1
    wanted = {id(step) for step in calls}
    steps = []
    for step in [None, *procedure.steps]:
        if step is not None:
            steps.append(step)
        if step is None or id(step) in wanted:
            steps += (
                [Step("call", callees=(change,))]
                if is_long
                else [Step("set", variable=variables[0], weak=True)]
            )
    procedure.steps = steps
    return [change] if is_long else []
