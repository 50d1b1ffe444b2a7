"""Walks along the steps of one procedure: where a value is overwritten, where an expression was or
will be evaluated.
"""

from __future__ import annotations

from collections.abc import Callable, Iterable
from typing import TYPE_CHECKING

from gimple import flow
from gimple.code import Procedure, Step

if TYPE_CHECKING:
    from gimple.dump import Place

MOST = 3
# Of so many procedures is kept what walks need: remarks are made procedure by procedure.
KEPT = 64


# What follows and what comes before each step of a procedure, the number of each step, and who
# evaluates what.
Known = tuple[list[tuple[int, ...]], list[list[int]], dict[Step, int], dict[str, list[Step]]]


class Traces:
    """Walks, with what they need of each procedure kept."""

    def __init__(self) -> None:
        self.known: dict[Procedure, Known] = {}

    def of(self, procedure: Procedure) -> Known:
        """A procedure's steps that follow and that come before each, the number of each step, and
        who evaluates what.
        """
        if procedure not in self.known:
            if len(self.known) == KEPT:
                del self.known[next(iter(self.known))]
            follow = flow.successors(procedure.steps)
            before: list[list[int]] = [[] for _ in range(len(procedure.steps) + 1)]
            numbers: dict[Step, int] = {}
            evaluations: dict[str, list[Step]] = {}
            for at, step in enumerate(procedure.steps):
                numbers[step] = at
                if step.expression:
                    evaluations.setdefault(step.expression, []).append(step)
                for place in follow[at]:
                    before[place].append(at)
            self.known[procedure] = follow, before, numbers, evaluations
        return self.known[procedure]

    def evaluations(self, procedure: Procedure) -> dict[str, list[Step]]:
        """The steps of a procedure that evaluate each expression."""
        return self.of(procedure)[3]

    def overwritten(self, procedure: Procedure, step: Step) -> list[Place]:
        """The places that write the variable next, of a local that no pointer leads to."""
        if step.variable.is_addressed:
            return []
        follow, _, numbers, _ = self.of(procedure)
        return places_of(
            self.walk(
                procedure,
                follow[numbers[step]],
                follow,
                lambda other: other.kind in ("set", "read")
                and other.variable is step.variable
                and not other.weak,
            )
        )

    def set_before(self, procedure: Procedure, step: Step) -> list[Step]:
        """The steps that may have set the variable last before this one."""
        _, before, numbers, _ = self.of(procedure)
        return self.walk(
            procedure,
            before[numbers[step]],
            before,
            lambda other: other.kind in ("set", "read") and other.variable is step.variable,
        )

    def evaluated(self, procedure: Procedure, step: Step) -> list[Place]:
        """The places that evaluated the step's expression last."""
        _, before, numbers, _ = self.of(procedure)
        found = self.walk(
            procedure,
            before[numbers[step]],
            before,
            lambda other: other.expression == step.expression,
        )
        return [place for place in places_of(found) if place != step.origin.place]

    def evaluated_next(
        self, procedure: Procedure, step: Step, expression: str
    ) -> list[list[Place]]:
        """The places that evaluate an expression next, for each of the ways that lead on.

        Those that step a variable, as i++, do not count.
        """
        follow, _, numbers, _ = self.of(procedure)
        ways = [
            self.walk(procedure, [start], follow, lambda other: other.expression == expression)
            for start in follow[numbers[step]]
        ]
        return [
            places_of(found for found in way if found.variable not in found.operands)
            for way in ways
        ]

    @staticmethod
    def walk(
        procedure: Procedure,
        starts: list[int] | tuple[int, ...],
        leads: list[list[int] | tuple[int, ...]],
        stops: Callable[[Step], bool],
    ) -> list[Step]:
        """The first steps on each way that stop it."""
        steps = procedure.steps
        seen, waiting, found = set(), list(starts), []
        while waiting:
            at = waiting.pop()
            if at in seen or at >= len(steps):
                continue
            seen.add(at)
            if stops(steps[at]):
                found.append(steps[at])
            else:
                waiting += leads[at]
        return found


def places_of(steps: Iterable[Step]) -> list[Place]:
    """The places of steps that stand in the source, in its order, a few of them."""
    found = {
        step.origin.place
        for step in steps
        if step.origin and step.origin.place and step.role != "made"
    }
    return sorted(found, key=lambda place: (place.file, place.line, place.column))[:MOST]
