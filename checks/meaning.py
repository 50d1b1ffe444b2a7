"""What a program means, worked out plainly for checks/executions: its points and edges, what valid
paths bring to a point, what a linter is to tell, and what single executions do. docs/LANGUAGE.md
and docs/ANALYSES.md have the definitions.

Nothing of it is taken from the proved program. That finds summaries of each procedure and solves
all bits together; here a state is a point and the value of one bit, and states are followed one by
one, each under the state by which its procedure was entered.
"""

from __future__ import annotations

import random
import re
from collections import defaultdict
from collections.abc import Callable, Iterator
from typing import NamedTuple

TOKEN = re.compile(r"[A-Za-z_]\w*|\d+|<<|>>|[<>=!]=|\S", re.ASCII)
NAME = re.compile(r"[A-Za-z_]\w*", re.ASCII)
State = tuple[int, bool]  # a point, and whether the bit is there
# What a step from a point makes of the bit.
Change = Callable[[int, bool], bool]


class Statement(NamedTuple):
    """A statement: where it stands, its first word or "" of an assignment, and what it does."""

    line: int
    column: int
    word: str
    target: str | None = None  # the variable that it writes
    operands: tuple[str, ...] = ()  # variables and numbers that it reads
    expression: str | None = None  # what it evaluates, as a listing writes it
    names: tuple[str, ...] = ()  # its label, or the procedures that it may call


class Point(NamedTuple):
    """A point: its procedure, and the statement behind it, None at the procedure's end."""

    procedure: str
    statement: Statement | None


class Edge(NamedTuple):
    """An edge, in the direction of a search: whether it opens its site, closes it or is a step; the
    point of the program that it leaves, whose statement a step passes."""

    kind: str  # "step", "opens", "closes"
    site: int
    begin: int
    end: int
    leaves: int


class Program:
    """The points of a text that is a program, and its edges."""

    def __init__(self, text: str) -> None:
        self.points: list[Point] = []
        self.entry: dict[str, int] = {}
        self.end: dict[str, int] = {}
        self.labels: dict[tuple[str, str], int] = {}
        self.variables: list[str] = []
        procedure = ""
        for number, line in enumerate(text.split("\n"), 1):
            found = list(TOKEN.finditer(line.split("#")[0]))
            words = [token.group() for token in found]
            if words[:1] == ["proc"]:
                procedure = words[1]
                self.entry[procedure] = len(self.points)
            elif words == ["end"]:
                self.end[procedure] = len(self.points)
                self.points.append(Point(procedure, None))
            else:
                while words[1:2] == [":"]:
                    self.labels[procedure, words[0]] = len(self.points)
                    words, found = words[2:], found[2:]
                if words:
                    statement = statement_of(number, found[0].start() + 1, words)
                    self.points.append(Point(procedure, statement))
                    self.note(words)
        self.edges = list(self.all_edges())

    def note(self, words: list[str]) -> None:
        """Notes the variables of a statement's words in the order of their first occurrence."""
        if words[0] in ("goto", "call"):
            return
        if "goto" in words:
            words = words[: words.index("goto")]
        for word in words:
            if NAME.fullmatch(word) and word not in (*self.variables, *KEYWORDS):
                self.variables.append(word)

    def statement(self, point: int) -> Statement:
        """The statement behind a point; at a procedure's end one that does nothing."""
        return self.points[point].statement or Statement(0, 1, "end")

    def expressions(self) -> list[str]:
        """All of them, in the order of their first occurrence."""
        found = (self.statement(point).expression for point in range(len(self.points)))
        return list(dict.fromkeys(text for text in found if text is not None))

    def next_points(self, point: int) -> list[int]:
        """Where steps lead."""
        procedure, statement = self.points[point]
        if statement is None or statement.word == "call":
            return []
        if statement.word == "return":
            return [self.end[procedure]]
        ahead = [] if statement.word == "goto" else [point + 1]
        return ahead + [self.labels[procedure, name] for name in statement.names]

    def all_edges(self) -> Iterator[Edge]:
        for point in range(len(self.points)):
            for end in dict.fromkeys(self.next_points(point)):
                yield Edge("step", point, point, end, point)
            statement = self.statement(point)
            for name in statement.names if statement.word == "call" else ():
                yield Edge("opens", point, point, self.entry[name], point)
                yield Edge("closes", point, self.end[name], point + 1, self.end[name])


KEYWORDS = "proc end goto if ifFalse call return read print skip".split()


def operand(word: str) -> str:
    """An operand as a listing writes it."""
    return str(int(word)) if word.isdigit() else word


def statement_of(line: int, column: int, words: list[str]) -> Statement:
    """The statement of a line's words behind its labels."""
    first = words[0]
    if first in ("return", "skip"):
        return Statement(line, column, first)
    if first == "goto":
        return Statement(line, column, first, names=(words[1],))
    if first == "call":
        return Statement(line, column, first, names=tuple(words[1::2]))
    if first == "read":
        return Statement(line, column, first, target=words[1])
    if first in ("if", "ifFalse"):
        operands = tuple(operand(word) for word in words[1:-2:2])
        return Statement(line, column, first, operands=operands, names=(words[-1],))
    if first == "print":
        return Statement(line, column, first, operands=(operand(words[1]),))
    value = [operand(word) for word in words[2:]]
    text = {1: None, 2: "".join(value), 3: " ".join(value)}[len(value)]
    operands = (value[-1],) if len(value) < 3 else (value[0], value[2])
    return Statement(line, column, "", target=first, operands=operands, expression=text)


def reversed_edge(edge: Edge) -> Edge:
    kind = {"step": "step", "opens": "closes", "closes": "opens"}[edge.kind]
    return Edge(kind, edge.site, edge.end, edge.begin, edge.leaves)


class Search:
    """The states to which valid paths lead from the first one. Each is kept with the state by which
    the latest call that is still open was entered: where that call is closed, its callers go on."""

    def __init__(self, edges: list[Edge], start: State, change: Change) -> None:
        self.ahead: dict[int, list[Edge]] = defaultdict(list)
        for edge in edges:
            self.ahead[edge.begin].append(edge)
        self.change = change
        # of each state that enters: the states and sites that called it, and what it closes
        self.callers: dict[State, set[tuple[State, int]]] = defaultdict(set)
        self.closed: dict[State, set[tuple[int, State]]] = defaultdict(set)
        self.seen = {(start, start)}
        self.work = [(start, start)]
        while self.work:
            self.go_on(*self.work.pop())
        self.states = {state for _, state in self.seen}

    def add(self, entered: State, state: State) -> None:
        if (entered, state) not in self.seen:
            self.seen.add((entered, state))
            self.work.append((entered, state))

    def go_on(self, entered: State, state: State) -> None:
        point, value = state
        for edge in self.ahead[point]:
            if edge.kind == "step":
                self.add(entered, (edge.end, self.change(edge.leaves, value)))
            elif edge.kind == "opens":
                inner = (edge.end, value)
                self.callers[inner].add((entered, edge.site))
                self.add(inner, inner)
                for site, behind in list(self.closed[inner]):
                    if site == edge.site:
                        self.add(entered, behind)
            else:
                self.closed[entered].add((edge.site, (edge.end, value)))
                for caller, site in list(self.callers[entered]):
                    if site == edge.site:
                        self.add(caller, (edge.end, value))


class Lint(NamedTuple):
    """What is told of a point; of a procedure that is never called the place is left out."""

    line: int
    column: int
    kind: str
    words: str


class Meaning:
    """What valid paths bring to the points of a program, and what is to be told."""

    def __init__(self, program: Program) -> None:
        self.program = program
        self.backward = [reversed_edge(edge) for edge in program.edges]
        self.root, self.final = program.entry["main"], program.end["main"]
        self.reached = {point for point, _ in self.forward(False, lambda _, value: value)}
        self.finishing = {point for point, _ in self.backwards(lambda _, value: value)}
        self.doubtful = self.leading(program.edges)
        inside = [edge for edge in program.edges if {edge.begin, edge.end} <= self.reached]
        self.doubtful_on_executions = self.leading(inside) & self.reached
        self.unset = {name: self.forward(True, self.keeps(name)) for name in program.variables}
        self.live = {name: self.backwards(self.reads_or(name)) for name in program.variables}
        expressions = program.expressions()
        self.available = {text: self.forward(False, self.has(text)) for text in expressions}
        self.busy = {text: self.backwards(self.evaluates_or(text)) for text in expressions}

    def forward(self, value: bool, change: Change) -> set[State]:
        return Search(self.program.edges, (self.root, value), change).states

    def backwards(self, change: Change) -> set[State]:
        return Search(self.backward, (self.final, False), change).states

    def leading(self, edges: list[Edge]) -> set[int]:
        """The points from which these edges lead to a point that cannot finish."""
        found = set(range(len(self.program.points))) - self.finishing
        if edges is not self.program.edges:
            found &= self.reached
        while True:
            more = {edge.begin for edge in edges if edge.end in found} - found
            if not more:
                return found
            found |= more

    def keeps(self, name: str) -> Change:
        return lambda point, value: value and self.program.statement(point).target != name

    def reads_or(self, name: str) -> Change:
        keeps = self.keeps(name)
        statement = self.program.statement
        return lambda point, value: name in statement(point).operands or keeps(point, value)

    def keeps_operands(self, text: str) -> Change:
        operands = NAME.findall(text)
        return lambda point, value: value and self.program.statement(point).target not in operands

    def has(self, text: str) -> Change:
        keeps = self.keeps_operands(text)
        statement = self.program.statement
        return lambda point, value: keeps(point, value or statement(point).expression == text)

    def evaluates_or(self, text: str) -> Change:
        keeps = self.keeps_operands(text)
        statement = self.program.statement
        return lambda point, value: statement(point).expression == text or keeps(point, value)

    def lints(self) -> Iterator[Lint]:
        """All that is told, in order."""
        for name, entry in self.program.entry.items():
            if entry not in self.reached:
                yield Lint(0, 0, "never-called", f"procedure {name} is never called")
            for point in range(entry, self.program.end[name]):
                line, column, *_ = self.program.statement(point)
                for kind, words in self.told(point):
                    yield Lint(line, column, kind, words)

    def told(self, point: int) -> Iterator[tuple[str, str]]:
        program, statement = self.program, self.program.statement(point)
        if point not in self.reached:
            if point - 1 in self.reached and program.points[point - 1].statement is not None:
                yield "never-reached", self.unreached_words(point)
            return
        for name in program.variables:
            if name in statement.operands and (point, True) in self.unset[name]:
                yield "unset", f"{name} may be used before it is set"
        text = statement.expression
        if text is not None and (point, False) not in self.available[text]:
            yield "computed", f"{text} is already computed"
        if statement.word in ("if", "ifFalse") and point not in self.doubtful:
            for text in self.busy:
                if (point, False) not in self.busy[text]:
                    yield "busy", f"{text} is very busy"
        if self.is_dead(point) and point + 1 not in self.doubtful_on_executions:
            yield "dead", f"the value assigned to {statement.target} is never used"

    def is_dead(self, point: int) -> bool:
        """Whether an assignment is reached and its variable not live behind it."""
        statement = self.program.statement(point)
        is_assignment = statement.word == "" and point in self.reached
        return is_assignment and (point + 1, True) not in self.live[str(statement.target)]

    def unreached_words(self, point: int) -> str:
        last = point
        while self.program.points[last + 1].statement and last + 1 not in self.reached:
            last += 1
        if last == point:
            return "this statement is never reached"
        line = self.program.statement(last).line
        return f"no statement from here to line {line} is ever reached"

    def left_out(self) -> int:
        """How many assignments look dead and are not told."""
        points = range(len(self.program.points))
        return sum(self.is_dead(p) and p + 1 in self.doubtful_on_executions for p in points)

    def first_endless(self) -> int:
        """The line of the first point that is reached and cannot finish, 0 at a procedure's end."""
        return self.program.statement(min(self.reached - self.finishing)).line


def execution(program: Program, draw: random.Random, steps: int) -> tuple[list[int], bool]:
    """The points whose statements one execution passes, up to so many, and whether it ended then:
    where several ways lead on, one is drawn."""
    point, sites, passed = program.entry["main"], list[int](), list[int]()
    while len(passed) < steps:
        procedure, statement = program.points[point]
        if statement is None:
            if not sites:
                return passed, True
            point = sites.pop() + 1
            continue
        passed.append(point)
        if statement.word == "call":
            sites.append(point)
            point = program.entry[draw.choice(statement.names)]
        else:
            point = draw.choice(program.next_points(point))
    return passed, False
