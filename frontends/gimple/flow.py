"""Small analyses of one procedure that the encodings rest on: what may run next, what is in use,
what may be unset.
"""

from __future__ import annotations

from collections.abc import Mapping
from typing import TYPE_CHECKING

if TYPE_CHECKING:
    from .code import Number, Procedure, Step, Variable


def leads(steps: list[Step], by_outcome: bool = False) -> dict[int, tuple[int, ...]]:
    """For each step behind which not only the next one comes, the places that may come next; the
    end is the number of steps.

    by_outcome: a test of two numbers leads one way. A program has both ways of it: which numbers
    they are is a matter of how it was compiled, and nothing is to be told of that.
    """
    marked = [
        (at, step)
        for at, step in enumerate(steps)
        if step.label is not None or step.kind == "return"
    ]
    places = {step.label: at for at, step in marked if step.kind == "label"}
    found: dict[int, tuple[int, ...]] = {}
    for at, step in marked:
        if step.kind == "label":
            continue
        if step.kind == "return":
            found[at] = ()
        elif step.kind == "goto":
            found[at] = (places[step.label],)
        elif by_outcome and step.outcome is not None:
            found[at] = (places[step.label] if step.outcome else at + 1,)
        else:
            found[at] = (at + 1, places[step.label])
    return found


def successors(steps: list[Step]) -> list[tuple[int, ...]]:
    """For each step the places that may come next; the end is the number of steps."""
    found = leads(steps)
    return [found[at] if at in found else (at + 1,) for at in range(len(steps))]


def blocks_of(
    steps: list[Step], by_outcome: bool = False
) -> tuple[list[tuple[int, int]], list[list[int]]]:
    """The stretches of steps that run one after the other, as pairs of first place and the place
    behind, and where each leads.
    """
    follow = leads(steps, by_outcome)
    marks = {0}
    for at, places in follow.items():
        marks.add(at + 1)
        marks.update(places)
    firsts = sorted(first for first in marks if first < len(steps))
    numbers = {first: number for number, first in enumerate(firsts)}
    ends = [*firsts[1:], len(steps)]
    ways = [follow[end - 1] if end - 1 in follow else (end,) for end in ends]
    behind = [[numbers[place] for place in places if place in numbers] for places in ways]
    return list(zip(firsts, ends)), behind


def bits_of(
    variables: tuple[Number | Variable, ...], numbers: Mapping[Number | Variable | None, int]
) -> int:
    """A set of variables as the bits of a number."""
    bits = 0
    for variable in variables:
        bits |= numbers.get(variable, 0)
    return bits


def live_before(
    steps: list[Step], variables: list[Variable]
) -> tuple[list[int], dict[Number | Variable | None, int]]:
    """For each place the bits of the variables whose values are still read from there on, and the
    bit of each variable.

    What a step reads of the result of a call is left out: that value was made by the callee.
    """
    numbers: dict[Number | Variable | None, int]
    numbers = {variable: 1 << number for number, variable in enumerate(variables)}
    reads = [
        bits_of(step.operands, numbers) if step.operands and not step.result_of_call else 0
        for step in steps
    ]
    kills = [0 if step.weak else numbers.get(step.variable, 0) for step in steps]
    blocks, leads = blocks_of(steps)
    behind = live_behind(blocks, leads, reads, kills)
    live = [0] * (len(steps) + 1)
    for (first, end), value in zip(blocks, behind):
        for at in range(end - 1, first - 1, -1):
            value = live[at] = reads[at] | (value & ~kills[at])
    return live, numbers


def live_behind(
    blocks: list[tuple[int, int]], leads: list[list[int]], reads: list[int], kills: list[int]
) -> list[int]:
    """The bits of what is still read behind each block."""
    before = [[] for _ in blocks]
    for block, places in enumerate(leads):
        for place in places:
            before[place].append(block)
    read, killed = [0] * len(blocks), [0] * len(blocks)
    for block, (first, end) in enumerate(blocks):
        for at in range(end - 1, first - 1, -1):
            read[block] = reads[at] | (read[block] & ~kills[at])
            killed[block] |= kills[at]
    live, behind = list(read), [0] * len(blocks)
    # most places that a block leads to stand behind it, so that few turns are taken
    changed = bytearray(b"\1") * len(blocks)
    while any(changed):
        for block in range(len(blocks) - 1, -1, -1):
            if not changed[block]:
                continue
            changed[block] = 0
            value = 0
            for place in leads[block]:
                value |= live[place]
            behind[block] = value
            value = read[block] | (value & ~killed[block])
            if value != live[block]:
                live[block] = value
                for place in before[block]:
                    changed[place] = 1
    return behind


def mark_unset(steps: list[Step], variables: list[Variable]) -> None:
    """Notes at each step the variables that it reads and that nothing on some way from the entry
    has touched, and those that nothing has touched on any way.
    """
    if not variables or not steps:
        return
    numbers: dict[Number | Variable | None, int]
    numbers = {variable: 1 << number for number, variable in enumerate(variables)}
    touches = [
        bits_of(step.touched, numbers) if step.kind == "note" else numbers.get(step.variable, 0)
        for step in steps
    ]
    ends = [touches[at] if bits and steps[at].ends_life else 0 for at, bits in enumerate(touches)]
    blocks, leads = blocks_of(steps, True)
    for (first, end), state in zip(
        blocks, states_before(blocks, leads, touches, ends, (1 << len(variables)) - 1)
    ):
        if state is None:
            continue
        unset, touched = state
        for at in range(first, end):
            if unset and steps[at].operands:
                note_unset(steps[at], numbers, unset, touched)
            if touches[at]:
                unset = unset & ~touches[at] | ends[at]
                touched = (touched | touches[at]) & ~ends[at]


def states_before(
    blocks: list[tuple[int, int]],
    leads: list[list[int]],
    touches: list[int],
    ends: list[int],
    every: int,
) -> list[tuple[int, int] | None]:
    """What some way to each block has not touched, and what some way has; None where no way leads
    to it.
    """
    changes = []
    for first, end in blocks:
        touching = ending = made = 0
        for at in range(first, end):
            if touches[at]:
                touching |= touches[at]
                ending = ending & ~touches[at] | ends[at]
                made = (made | touches[at]) & ~ends[at]
        changes.append((touching, ending, made))
    states = [(every, 0), *[None] * (len(blocks) - 1)]
    changed = bytearray(len(blocks))
    changed[0] = 1
    while any(changed):
        for block, (touching, ending, made) in enumerate(changes):
            if not changed[block]:
                continue
            changed[block] = 0
            unset, touched = states[block]
            unset, touched = unset & ~touching | ending, touched & ~ending | made
            for place in leads[block]:
                known = states[place] or (0, 0)
                joined = unset | known[0], touched | known[1]
                if joined != states[place]:
                    states[place] = joined
                    changed[place] = 1
    return states


def note_unset(
    step: Step, numbers: Mapping[Number | Variable | None, int], unset: int, touched: int
) -> None:
    """Notes at a step which of the variables that it reads are unset before it."""
    found = tuple(variable for variable in step.operands if numbers.get(variable, 0) & unset)
    if found:
        step.unset = found
        step.surely_unset = tuple(variable for variable in found if not numbers[variable] & touched)


def components(
    procedures: list[Procedure], callees: dict[Procedure, list[Procedure]]
) -> dict[Procedure, int]:
    """The number of the strongly connected component of each procedure, by Tarjan's way without
    recursion.
    """
    order, low, number, stack = {}, {}, {}, []
    closed = 0
    for start in procedures:
        if start in order:
            continue
        work = [(start, iter(callees[start]))]
        order[start] = low[start] = len(order)
        stack.append(start)
        while work:
            node, rest = work[-1]
            following = next(rest, None)
            if following is None:
                work.pop()
                if work:
                    low[work[-1][0]] = min(low[work[-1][0]], low[node])
                if low[node] == order[node]:
                    close_component(node, stack, number, closed)
                    closed += 1
            elif following not in order:
                order[following] = low[following] = len(order)
                stack.append(following)
                work.append((following, iter(callees[following])))
            elif following not in number:
                low[node] = min(low[node], order[following])
    return number


def close_component(
    node: Procedure, stack: list[Procedure], number: dict[Procedure, int], component: int
) -> None:
    """Takes the component of this node from the stack."""
    while True:
        member = stack.pop()
        number[member] = component
        if member is node:
            return
