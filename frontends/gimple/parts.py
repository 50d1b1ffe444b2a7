"""Parts of locals, and what a pointer leads to, as variables of their own beside those that stand
for the whole.

`s.f` and `a[2]` are parts of a local to which no pointer leads. What may be the same place by
another name, as another member of a union, is read or written with them. `*p` and `p->f` are what a
local pointer leads to: each read of memory reads them, and each call.
"""

import re
from collections import Counter
from collections.abc import Iterable
from dataclasses import dataclass

from . import operands
from .code import Procedure, Step, Variable
from .dump import Statement
from .world import File, World

NAMED = r"[A-Za-z_$][\w$]*D\.\d+"
FIELD = r"\.[\w$]*D\.\d+"
PART = re.compile(rf"({NAMED})((?:{FIELD}|\[\d+\])+)$")
BEHIND = re.compile(rf"\*({NAMED})$|({NAMED})->[\w$]*D\.\d+(?:{FIELD}|\[\d+\])*$")
STEP = re.compile(rf"{FIELD}|\[\d+\]")
ANONYMOUS = re.compile(r"\.D\.\d+|D\.\d+")
# Of a variable with more parts than these, and of more than these that pointers lead to, none is
# told apart.
MOST = 16


@dataclass(eq=False)
class Part:
    """A part of a local: how the dump writes it, and the ways to it from the whole."""

    word: str
    path: list[str]
    variable: Variable
    is_in_struct: bool

    def is_apart_from(self, path: list[str]) -> bool:
        """Whether a part on another way is another place for sure.

        Fields are, of what is declared as a struct; deeper ones may be those of a union.
        """
        for depth, (mine, other) in enumerate(zip(self.path, path)):
            if mine != other:
                return mine[0] == other[0] == "[" or depth == 0 and self.is_in_struct
        return False


class Parts:
    """The parts that the statements of a function name."""

    def __init__(self, world: World, file: File, procedure: Procedure) -> None:
        self.world = world
        self.file = file
        self.procedure = procedure
        self.of_whole: dict[Variable, list[Part]] = {}
        self.behind: dict[str, Variable] = {}
        self.by_pointer: dict[Variable, list[Variable]] = {}
        words = procedure.function.placed
        self.take_parts(word for word in words if word.endswith("]") or word.count("D.") > 1)
        if any(word.startswith("*") or "->" in word for word in words):
            stored = Counter(
                statement.words[1]
                for statement in procedure.function.statements
                if statement.kind in ("assign", "call") and len(statement.words) > 1
            )
            self.take_behind([word for word, count in stored.items() if count > 1])

    def variable(self, name: str) -> Variable | None:
        """The local of this name that no pointer leads to, or None."""
        if not self.world.is_local(self.procedure, name):
            return None
        found = self.world.variable(self.file, self.procedure, name)
        return None if found is None or found.is_addressed or not found.source else found

    def take_parts(self, words: Iterable[str]) -> None:
        """Makes variables for the parts that these words name."""
        by_name: dict[str, list[tuple[str, str]]] = {}
        for word in words:
            found = PART.match(word)
            if found:
                by_name.setdefault(found[1], []).append((word, found[2]))
        for name, named in by_name.items():
            whole = self.variable(name)
            if whole is None or len(named) > MOST:
                continue
            is_in_struct = name in self.procedure.function.structs
            self.of_whole[whole] = [
                Part(
                    word,
                    STEP.findall(path),
                    self.new(word, whole, whole.is_parameter),
                    is_in_struct,
                )
                for word, path in named
            ]

    def take_behind(self, words: list[str]) -> None:
        """Makes variables for what these words find behind pointers."""
        found = [match for match in map(BEHIND.match, words) if match]
        for match in found if len(found) <= MOST else ():
            word = match.group()
            pointer = self.variable(match[1] or match[2])
            key = self.procedure.function.uid, pointer.source if pointer else ""
            if pointer is not None and key not in self.file.symbols.volatile_behind:
                self.behind[word] = self.new(word, pointer, True)
                self.by_pointer.setdefault(pointer, []).append(self.behind[word])

    def new(self, word: str, whole: Variable, is_set_at_first: bool) -> Variable:
        """The variable of a part."""
        source = ANONYMOUS.sub("", word)
        return Variable(
            f"{self.procedure.wish}__{source}",
            source,
            self.procedure,
            whole=whole,
            is_parameter=is_set_at_first,
        )

    def read_as(self, word: str, whole: Variable) -> tuple[list[Variable], list[Variable]]:
        """The parts that an operand reads by their own names, and may read by others."""
        exact, others = [], []
        for part in self.of_whole.get(whole, ()):
            if part.word == word:
                exact.append(part.variable)
            elif not self.is_apart(part, word):
                others.append(part.variable)
        return exact, others

    def written_as(self, word: str, whole: Variable) -> tuple[list[Variable], list[Variable]]:
        """The parts that a store to a word writes as they are, and those of which it may write
        something.
        """
        found = self.of_whole.get(whole, ())
        if operands.is_declared(word):
            return [part.variable for part in found], []
        return self.read_as(word, whole)

    @staticmethod
    def is_apart(part: Part, word: str) -> bool:
        """Whether a word names another place than a part for sure."""
        found = PART.match(word)
        return bool(found) and part.is_apart_from(STEP.findall(found[2]))

    def add_reads_behind(self, writing: Procedure | None) -> None:
        """Has each step that may read memory read what pointers lead to.

        writing: the procedure that stands for a write to memory.
        """
        if not self.behind:
            return
        every = list(self.behind.values())
        kept: list[Step] = []
        for step in self.procedure.steps:
            if step.variable in self.by_pointer and step.kind in ("set", "read"):
                kept += reading(step.origin, self.by_pointer[step.variable])
            elif may_read_memory(step, self.procedure, writing):
                kept += reading(step.origin, every)
            kept.append(step)
        if not kept or kept[-1].kind not in ("goto", "return"):
            kept += reading(None if is_reading(kept[-1]) else kept[-1].origin, every)
        self.procedure.steps = kept


def may_read_memory(step: Step, procedure: Procedure, writing: Procedure | None) -> bool:
    """Whether a step may read what a pointer leads to, or ends the procedure."""
    if step.kind == "call":
        return not (len(step.callees) == 1 and step.callees[0] is writing)
    if step.kind == "return" or step.kind == "goto" and step.label is procedure.stop:
        return True
    return any(operand.is_addressed for operand in step.reads())


def is_reading(step: Step) -> bool:
    """Whether a step reads variables and does nothing else."""
    return step.kind == "use" and step.label is None


def reading(origin: Statement | None, variables: list[Variable]) -> list[Step]:
    """Steps that read variables for a C statement."""
    return [
        Step("use", operands=tuple(variables[at : at + 2]), origin=origin)
        for at in range(0, len(variables), 2)
    ]
