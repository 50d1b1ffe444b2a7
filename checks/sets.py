"""Sets around remarks, found anew over the flow graph that lines of JSON tell: a search of its own for
each statement that one of them may have. Nothing here is tacview's: a way is followed in two phases, up
through returns to any caller that a valid path reaches, and then down into calls that are left open."""

from __future__ import annotations

import re
from collections.abc import Callable
from typing import Any

Row = dict[str, Any]  # an object of a line of JSON
Stops = Callable[[int], bool]  # whether the statement at a point ends a way

NAME = re.compile(r"[A-Za-z_]\w*")


class Statement:
    """What the statement of a listing does: the variable that it sets, whether it assigns it, what it
    reads, and the expression that it evaluates."""

    def __init__(self, text: str | None) -> None:
        text = text or ""
        assigned = re.match(r"(\S+) = (.*)", text)
        read = re.match(r"read (\S+)$", text)
        tested = re.match(r"(?:if|ifFalse) (.*) goto \S+$|print (.*)$", text)
        self.assigns = bool(assigned)
        self.sets: str | None = assigned[1] if assigned else read[1] if read else None
        right = assigned[2] if assigned else ""
        self.evaluates = right if re.search(r"^[-~!]|\s", right) else None
        operands = right if assigned else (tested[1] or tested[2]) if tested else ""
        self.reads = set(NAME.findall(operands))


class Ways:
    """The paths in one direction: steps with the point whose statement they pass, calls with their
    callee, and where each procedure begins and ends."""

    def __init__(self, root: int) -> None:
        self.root = root
        self.steps: dict[int, list[tuple[int, int]]] = {}
        self.calls: dict[int, list[tuple[str, int]]] = {}
        self.callers: dict[str, list[tuple[int, int]]] = {}
        self.entry: dict[str, int] = {}
        self.exit: dict[str, int] = {}
        self.ends: dict[int, str] = {}
        self.has: set[int] = set()

    def begin(self) -> None:
        """Finds which points a valid path reaches, once all edges are there."""
        self.ends = {point: name for name, point in self.exit.items()}
        self.has = self.from_root(lambda point: False)

    def inside(self, point: int, stops: Stops, through: set[str]) -> set[int]:
        """The points next behind a point in its procedure."""
        stepped = {to for to, at in self.steps.get(point, []) if not stops(at)}
        return stepped | {to for callee, to in self.calls.get(point, []) if callee in through}

    def through(self, stops: Stops) -> set[str]:
        """The procedures with a way through them on which nothing stops."""
        passed: set[str] = set()
        while True:
            more = {name for name in self.entry if self.is_passed(name, stops, passed)}
            if more == passed:
                return passed
            passed = more

    def is_passed(self, name: str, stops: Stops, through: set[str]) -> bool:
        seen, left = {self.entry[name]}, [self.entry[name]]
        while left:
            for to in self.inside(left.pop(), stops, through) - seen:
                seen.add(to)
                left.append(to)
        return self.exit[name] in seen

    def spread(self, begun: set[tuple[int, bool]], stops: Stops) -> set[int]:
        """The points to which ways lead; those that are still to go up may return."""
        through = self.through(stops)
        seen, left = set(begun), list(begun)
        while left:
            point, rises = left.pop()
            behind = {(to, rises) for to in self.inside(point, stops, through)}
            behind |= {(self.entry[callee], False) for callee, _ in self.calls.get(point, [])}
            if rises and point in self.ends:
                callers = self.callers.get(self.ends[point], [])
                behind |= {(to, True) for site, to in callers if site in self.has}
            left.extend(behind - seen)
            seen |= behind
        return {point for point, _ in seen}

    def from_root(self, stops: Stops) -> set[int]:
        """The points to which ways from where all begin lead, past nothing that stops."""
        return self.spread({(self.root, False)}, stops)

    def from_statement(self, at: int, stops: Stops) -> set[int]:
        """The points to which ways lead that pass a statement and nothing behind it that stops."""
        begun = {
            (to, True)
            for point, steps in self.steps.items()
            for to, passed in steps
            if passed == at and point in self.has
        }
        return self.spread(begun, stops)


class Graph:
    """A program by the lines of its points."""

    def __init__(self, rows: list[Row]) -> None:
        self.points = [row for row in rows if row["type"] == "point"]
        self.variables: list[str] = rows[0]["variables"]
        self.statements = [Statement(row["statement"]) for row in self.points]
        self.edges = [[edge["to"] for edge in row["edges"]] for row in self.points]
        entry = {row["procedure"]: row["point"] for row in self.points if row["place"] == 0}
        ending = {row["procedure"]: row["point"] for row in self.points if not row["statement"]}
        self.forward = Ways(entry["main"])
        self.backward = Ways(ending["main"])
        self.forward.entry, self.forward.exit = entry, ending
        self.backward.entry, self.backward.exit = ending, entry
        for row in self.points:
            self.add(row, {point: name for name, point in entry.items()})
        self.forward.begin()
        self.backward.begin()

    def add(self, row: Row, entered: dict[int, str]) -> None:
        """Adds the edges of a point; the place behind a call is the next point."""
        point = row["point"]
        for edge in row["edges"]:
            if edge["kind"] == "step":
                self.forward.steps.setdefault(point, []).append((edge["to"], point))
                self.backward.steps.setdefault(edge["to"], []).append((point, point))
            elif edge["kind"] == "call":
                callee = entered[edge["to"]]
                self.forward.calls.setdefault(point, []).append((callee, point + 1))
                self.forward.callers.setdefault(callee, []).append((point, point + 1))
                self.backward.calls.setdefault(point + 1, []).append((callee, point))
                self.backward.callers.setdefault(callee, []).append((point + 1, point))

    def met(self, ways: Ways, wanted: Stops, stops: Stops, at: int) -> list[int]:
        """The statements among some from which a way comes to a point past nothing that stops."""
        points = range(len(self.points))
        return [q for q in points if wanted(q) and at in ways.from_statement(q, stops)]

    def writes(self, variable: str) -> Stops:
        return lambda point: self.statements[point].sets == variable

    def reads(self, variable: str) -> Stops:
        return lambda point: variable in self.statements[point].reads

    def evaluates(self, expression: str) -> Stops:
        return lambda point: self.statements[point].evaluates == expression

    def changes(self, expression: str) -> Stops:
        operands = set(NAME.findall(expression))
        return lambda point: self.statements[point].sets in operands

    def makes(self, expression: str) -> Stops:
        """The statements behind which an expression's value is there: they change no operand."""
        here, changed = self.evaluates(expression), self.changes(expression)
        return lambda point: here(point) and not changed(point)

    def next_writes(self, variable: str, point: int) -> list[int]:
        writes = self.writes(variable)
        return self.met(self.backward, writes, writes, point + 1)

    def may_end_unwritten(self, variable: str, point: int) -> bool:
        return point + 1 in self.backward.from_root(self.writes(variable))

    def last_evaluations(self, expression: str, point: int) -> list[int]:
        makes, changes = self.makes(expression), self.changes(expression)
        return self.met(self.forward, makes, lambda x: makes(x) or changes(x), point)

    def next_evaluations(self, expression: str, point: int) -> list[int]:
        here, changes = self.evaluates(expression), self.changes(expression)
        return self.met(self.backward, here, lambda x: here(x) or changes(x), point)

    def holds(self, variable: str, expression: str, point: int) -> bool:
        """Whether a variable holds the value on every way: on none it does not."""
        makes, changes = self.makes(expression), self.changes(expression)
        writes = self.writes(variable)

        def made(x: int) -> bool:
            return makes(x) and writes(x)

        def lost(x: int) -> bool:
            return (writes(x) or changes(x)) and not made(x)

        never = point in self.forward.from_root(made)
        return point in self.forward.has and not never and not self.met(
            self.forward, lost, made, point
        )

    def holders(self, expression: str, point: int) -> list[str]:
        return [v for v in self.variables if self.holds(v, expression, point)]

    def last_reached(self, point: int) -> int | None:
        """The nearest point before one, in its procedure, that a valid path reaches."""
        first = point - self.points[point]["place"]
        before = [x for x in range(first, point) if x in self.forward.has]
        return before[-1] if before else None

    def is_live(self, variable: str, point: int) -> bool:
        reads, writes = self.reads(variable), self.writes(variable)
        return bool(self.met(self.backward, reads, writes, point))

    def ahead(self, point: int) -> set[int]:
        """The points to which any path leads, whichever call a return belongs to."""
        seen, left = {point}, [point]
        while left:
            for to in set(self.edges[left.pop()]) - seen:
                seen.add(to)
                left.append(to)
        return seen

    def endless(self, point: int) -> set[int]:
        """Those of them from which no valid path leads to the end of main."""
        return self.ahead(point) - self.backward.has

    def doubted(self) -> list[tuple[int, str]]:
        """The assignments that no path reads and that are not called dead because of doubt."""
        found = []
        for point in sorted(self.forward.has):
            statement = self.statements[point]
            if statement.assigns and statement.sets and self.endless(point + 1):
                if not self.is_live(statement.sets, point + 1):
                    found.append((point, statement.sets))
        return found
