"""By which way a local that may be unset comes to its use: notes of paths that tacview shows.

Functions with such uses are written once more, as a program of what one activation does to these
locals: what takes the address of one sets it, and all else but assignments, tests and jumps does
nothing. Its paths are proved to be such. What is told of them are the tests that matter: those by
whose other way the local may be set, or the use not be reached.
"""

from __future__ import annotations

import re
from collections.abc import Iterable, Iterator
from typing import TYPE_CHECKING, Any, NamedTuple

from gimple import flow
from gimple.code import Builder, Procedure, Step, Variable
from gimple.dump import Place

from .remark import Note

if TYPE_CHECKING:
    from gimple.dump import Statement

    from .findings import Line
    from .sources import Source, Sources

# So many notes are told of a way.
MOST = 6
# A hop of a path as tacview tells it (docs/PATHS.md).
Hop = dict[str, Any]
SIGNS = {
    "lt_expr": "<",
    "le_expr": "<=",
    "gt_expr": ">",
    "ge_expr": ">=",
    "eq_expr": "==",
    "ne_expr": "!=",
}
# What a line has that decides something itself, and not in the text of a macro.
DECIDING = re.compile(r"\b(?:if|while|for|switch)\b|&&|\|\||\?")
IF = re.compile(r"\bif\s*$")
# Brackets, and what may have some that are none.
TOKEN = re.compile(r"\"(?:\\.|[^\"\\])*\"|'(?:\\.|[^'\\])*'|/\*.*?\*/|//[^\n]*|[()]", re.DOTALL)
# A condition has no more lines than that behind its first.
LONGEST = 20


class Excerpt:
    """What one activation of a function does to some of its locals, as a procedure.

    own: what stands for each local. never: the lines of the program that are never reached. reader:
    the one step of the function whose reads it has, all where it is None. uses: the step that reads
    locals where a step of the function does.
    """

    def __init__(
        self,
        function: Procedure,
        own: dict[Variable, Variable],
        never: set[int],
        reader: Step | None = None,
    ) -> None:
        self.function = function
        self.own = own
        self.never = never
        self.reader = reader
        self.procedure = Procedure(f"{function.wish}__way", function.source, function.function)
        self.uses: dict[Step, Step] = {}
        self.nothing = Variable("t")
        for step in function.steps:
            self.take(step)

    def take(self, step: Step) -> None:
        """Takes in a step of the function."""
        if step.kind == "label":
            self.procedure.steps.append(step.jump())
        for part in step.touched:
            if part in self.own:
                self.add(step, "set", variable=self.own[part])
        if step.kind == "label":
            return
        if step.line in self.never:
            self.add(step, "return")
        elif step.kind in ("goto", "return"):
            self.procedure.steps.append(step.jump())
        elif step.label:
            self.take_test(step)
        else:
            self.take_other(step)

    def take_test(self, step: Step) -> None:
        """A test; of two numbers there is one way, and that a call may end the program is none."""
        reads = self.reads_of(step)
        if step.outcome is not None:
            if step.outcome:
                self.add(step, "goto", label=step.label)
        elif reads:
            self.uses[step] = self.add(step, "use", operands=reads, label=step.label)
        elif step.label is not self.function.stop:
            self.add(step, "fork", label=step.label)

    def take_other(self, step: Step) -> None:
        """What leads to the next step."""
        reads = self.reads_of(step)
        if reads:
            self.uses[step] = self.add(step, "use", operands=reads)
        is_set = step.origin and not step.ends_life
        variable = self.own.get(step.variable) if is_set else None
        self.add(step, "set", variable=variable or self.nothing)

    def reads_of(self, step: Step) -> tuple[Variable, ...]:
        """What a step reads of the locals."""
        if self.reader not in (None, step):
            return ()
        return tuple(self.own[part] for part in step.reads() if part in self.own)

    def add(self, step: Step, kind: str, **parts: Any) -> Step:
        """Adds a step that stands where one of the function does."""
        made = Step(kind, origin=step.origin, role=step.role, **parts)
        self.procedure.steps.append(made)
        return made


class Ways:
    """Ways to uses of locals, each a line of a program and the local that may be unset there.

    One of the functions runs, and one variable stands for a local of each: tacview takes a search
    for a variable.
    """

    def __init__(
        self, uses: Iterable[tuple[Line, Variable]], never: set[int], sources: Sources
    ) -> None:
        variables: dict[Procedure, dict[Variable, None]] = {}
        for (_, _, function), variable in uses:
            variables.setdefault(function, {})[variable] = None
        shared = [Variable("x") for _ in range(max(map(len, variables.values())))]
        self.excerpts = {
            function: Excerpt(function, dict(zip(own, shared)), never)
            for function, own in variables.items()
        }
        self.sources = sources

    def program(self) -> list[Procedure]:
        """A program of these functions."""
        main = Procedure("main")
        excerpts = [excerpt.procedure for excerpt in self.excerpts.values()]
        Builder(main).call(excerpts)
        return [main, *excerpts]

    def notes(
        self, line: Line, variable: Variable, paths: dict[tuple[int, str], list[Hop]]
    ) -> tuple[Note, ...]:
        """What is to be said of the way to a use, by paths of the program that was made."""
        _, step, function = line
        excerpt = self.excerpts[function]
        own, use = excerpt.own[variable], excerpt.uses.get(step)
        hops = paths.get((use.line, own.name)) if use else None
        if not hops:
            return ()
        moves = moves_of(excerpt.procedure, hops)
        return Way(excerpt.procedure, own, moves, self.sources).notes()


class Move(NamedTuple):
    """A move of a path from a step of a procedure to another."""

    at: int
    after: int


def moves_of(procedure: Procedure, hops: list[Hop]) -> list[Move]:
    """What the last activation on a path does, which is one of this procedure."""
    entered = max(number for number, hop in enumerate(hops) if hop["kind"] == "enter")
    first = hops[entered]["to"]
    known = [at for at, step in enumerate(procedure.steps) if step.kind != "label"]
    rest = hops[entered + 1 :]
    return [Move(known[hop["from"] - first], known[hop["to"] - first]) for hop in rest]


class Way:
    """A way of a local through a procedure.

    places: of each step on it the number of the move that leaves it last. tests: the places of the
    function's tests.
    """

    def __init__(
        self, procedure: Procedure, variable: Variable, moves: list[Move], sources: Sources
    ) -> None:
        self.variable = variable
        self.moves = moves
        self.sources = sources
        self.steps = procedure.steps
        self.follow = flow.successors(procedure.steps)
        self.places = {move.at: number for number, move in enumerate(moves)}
        self.places.update((move.after, len(moves)) for move in moves[-1:])
        self.tests = [
            statement.place
            for statement in procedure.function.statements
            if statement.kind == "cond" and statement.place
        ]

    def notes(self) -> tuple[Note, ...]:
        """What is to be said of it."""
        found: dict[Note, bool] = {}
        for note, is_setting in self.told():
            found[note] = found.get(note, False) or is_setting
        return tuple(few(found))

    def told(self) -> Iterator[tuple[Note, bool]]:
        """The notes of all moves, each with whether another way may set the local."""
        for number, move in enumerate(self.moves):
            step = self.steps[move.at]
            if is_test(step) and self.outcome(move) is not None:
                others = self.other_ways(number)
                text = self.told_of_test(number) if any(others) else ""
                if text:
                    yield Note(*step.origin.place, f"on the way {text}"), others[0]

    def outcome(self, move: Move) -> bool | None:
        """Whether a test leads to its label, None where that is not another place."""
        ways = [behind_labels(self.steps, at) for at in self.follow[move.at]]
        return move.after == ways[1] if len(ways) == 2 and ways[0] != ways[1] else None

    def other_ways(self, number: int) -> tuple[bool, bool]:
        """Whether the other way of a test may set the local before it is back on this one, and
        whether it leads to the procedure's end.
        """
        move = self.moves[number]
        others = self.follow[move.at]
        waiting = [at for at in others if behind_labels(self.steps, at) != move.after]
        seen: set[int] = set()
        ends = False
        while waiting:
            at = waiting.pop()
            if at >= len(self.steps) or self.steps[at].kind == "return":
                ends = True
            elif at not in seen and self.places.get(at, 0) <= number:
                seen.add(at)
                if self.steps[at].variable is self.variable:
                    return True, ends
                waiting += self.follow[at]
        return False, ends

    def told_of_test(self, number: int) -> str:
        """What is told of a test, '' where nothing is that would be understood."""
        move = self.moves[number]
        statement = self.steps[move.at].origin
        if statement.kind == "cond" and self.is_as_written(statement):
            return "the test is taken" if self.outcome(move) else "the test is not taken"
        line = self.line_behind(number)
        text = self.source_of(statement).line(statement.place.line)
        if not line or not DECIDING.search(text):
            return ""
        return f"the {'switch' if statement.kind == 'switch' else 'test'} leads to line {line}"

    def source_of(self, statement: Statement) -> Source:
        """The source that a statement stands in."""
        return self.sources.get(statement.place.file)

    def line_behind(self, number: int) -> int:
        """The line to which a test leads, 0 where it is its own or another file's."""
        test = self.steps[self.moves[number].at].origin
        for move in self.moves[number:]:
            step = self.steps[move.after]
            origin = step.origin
            if origin and origin is not test and origin.place and step.role not in ("made", "stop"):
                file, line, _ = origin.place
                return line if file == test.place.file and line != test.place.line else 0
        return 0

    def is_as_written(self, statement: Statement) -> bool:
        """Whether gcc's test is the source's, and not its contrary or a part of it: it stands at
        the same sign, or is all of the condition of an `if`.
        """
        place = statement.place
        source = self.source_of(statement)
        behind = source.behind(place.line, place.column)
        sign = SIGNS.get(statement.words[0])
        if sign and re.match(rf"{sign}(?![<=>])", behind):
            return True
        line = source.line(place.line)
        if not behind.startswith("(") or not IF.search(line[: len(line) - len(behind)]):
            return False
        below = source.lines[place.line : place.line + LONGEST]
        inside = in_brackets("\n".join([behind, *below]))
        if not inside or re.search(r"&&|\|\||\?", inside):
            return False
        end = end_of(place, inside)
        return sum(place <= test <= end for test in self.tests) == 1


def few(notes: dict[Note, bool]) -> list[Note]:
    """Not too many of the notes, in their order: first those of which it is so, of many of these
    the first and the last ones; then the last ones of the others.
    """
    setting = [note for note, is_setting in notes.items() if is_setting]
    if len(setting) > MOST:
        return setting[: MOST // 2] + setting[-MOST // 2 :]
    others = [note for note in notes if note not in setting]
    kept = {*setting, *others[max(len(notes) - MOST, 0) :]}
    return [note for note in notes if note in kept]


def behind_labels(steps: list[Step], at: int) -> int:
    """The first step from a place on that is no label."""
    while at < len(steps) and steps[at].kind == "label":
        at += 1
    return at


def is_test(step: Step) -> bool:
    """Whether a step is a test of the source, or a case of a switch."""
    statement = step.origin
    if step.kind not in ("use", "fork") or not step.label or not statement or not statement.place:
        return False
    return statement.kind == "switch" or statement.kind == "cond" and step.role == "test"


def in_brackets(text: str) -> str:
    """A text up to the bracket that closes its first one, '' where none does."""
    depth = 0
    for found in TOKEN.finditer(text):
        depth += (found[0] == "(") - (found[0] == ")")
        if depth == 0:
            return text[: found.end()]
    return ""


def end_of(place: Place, text: str) -> Place:
    """The place behind a text that stands at a place."""
    *above, last = text.split("\n")
    column = len(last.encode("utf-8", "surrogateescape")) + (1 if above else place.column)
    return Place(place.file, place.line + len(above), column)


def paths_in(told: str) -> dict[tuple[int, str], list[Hop]]:
    """The paths that lines of JSON have, by the program's lines and variables."""
    import json  # few runs need it

    found = {}
    for line in told.splitlines():
        if line.startswith('{"type":"remark"') and '"kind":"unset"' in line:
            remark = json.loads(line)
            found[remark["line"], remark["variable"]] = remark["path"]
    return found
