"""The program's text, the map beside it, and the limits that both must keep."""

from __future__ import annotations

import re
from collections.abc import Iterable, Iterator
from dataclasses import dataclass
from typing import TYPE_CHECKING

from .code import Variable
from .faults import Refusal

if TYPE_CHECKING:
    from .code import Label, Number, Procedure, Step

KEYWORDS = frozenset("proc end goto if ifFalse call return read print skip".split())
LONGEST_NAME = 64
NO_NAME = re.compile(r"[^A-Za-z0-9_]")
# tacview's larger limits.
LIMITS = {
    "procedures": 1 << 18,
    "points": 1 << 24,
    "variables": 1 << 22,
    "expressions": 1 << 22,
    "bytes of text": 1 << 29,
}


class Names:
    """Names of the language, no two alike."""

    def __init__(self, taken: Iterable[str] = ()) -> None:
        self.taken = set(taken) | KEYWORDS

    def new(self, wish: str) -> str:
        """A name that looks like what is wished for."""
        plain = NO_NAME.sub("_", wish) or "_"
        plain = "_" + plain if plain[0].isdigit() else plain
        name = plain[:LONGEST_NAME]
        count = 1
        while name in self.taken:
            count += 1
            name = f"{plain[:LONGEST_NAME - 1 - len(str(count))]}_{count}"
        self.taken.add(name)
        return name


class TooLarge(Refusal):
    """A program beyond a limit of the language."""


@dataclass
class Written:
    """A program's text, in pieces, and its procedures, whose steps know their lines."""

    pieces: list[str]
    expressions: dict[str, str]
    procedures: list[Procedure]

    def notes(self) -> Iterator[tuple[int, Step, Procedure]]:
        """What the lines of the text stand for."""
        for procedure in self.procedures:
            for step in procedure.steps:
                if step.line:
                    yield step.line, step, procedure


class Writer:
    """Writes procedures as lines, and notes what each line stands for."""

    def __init__(self) -> None:
        self.variables = Names()
        self.pieces: dict[Procedure, str] = {}
        self.line = 0
        self.expressions: dict[str, str] = {}
        self.points: dict[Procedure, int] = {}

    def write(self, procedures: list[Procedure]) -> Written:
        """The text and the map of a program."""
        procedure_names = Names()
        for procedure in procedures:
            procedure.name = procedure_names.new(procedure.wish)
        for procedure in procedures:
            self.write_procedure(procedure)
        self.check()
        return Written(list(self.pieces.values()), self.expressions, procedures)

    def name(self, variable: Variable) -> str:
        """A variable's name."""
        if not variable.name:
            variable.name = self.variables.new(variable.wish)
        return variable.name

    def write_procedure(self, procedure: Procedure) -> None:
        """One procedure."""
        first = self.line
        lines = [f"proc {procedure.name}"]
        labels: dict[Label | Step, str] = {}
        points = 1
        for step in procedure.steps:
            label = ""
            # what only reads leads on by a test, and what is weak has a way round it
            key = step.label or (step if step.weak or step.kind == "use" else None)
            if key is not None:
                label = labels.get(key, "")
                if not label:
                    label = labels[key] = f"L{len(labels) + 1}"
            if step.kind == "label":
                lines.append(f"{label}:")
                continue
            points += 1
            if step.weak:
                points += 1
                lines.append(f"  if 0 goto {label}")
            lines.append(self.statement(step, label))
            step.line = first + len(lines)
            if key is step:
                lines.append(f"{label}:")
        lines.append("end\n")
        self.line += len(lines)
        self.points[procedure] = points
        self.pieces[procedure] = "\n".join(lines)

    def statement(self, step: Step, label: str) -> str:
        """The line of a statement."""
        kind = step.kind
        if kind == "set":
            value = self.right_side(step)  # its names are given first
            return f"  {self.name(step.variable)} = {value}"
        if kind == "use":
            return f"  if {' < '.join(map(self.operand, step.operands))} goto {label}"
        if kind == "call":
            return "  call " + " | ".join([callee.name for callee in step.callees])
        if kind == "goto":
            return f"  goto {label}"
        if kind == "fork":
            return f"  if 0 goto {label}"
        return f"  read {self.name(step.variable)}" if kind == "read" else "  return"

    def operand(self, part: Variable | Number) -> str:
        """An operand's word."""
        return self.name(part) if isinstance(part, Variable) else str(part.value)

    def right_side(self, step: Step) -> str:
        """What a variable is set to."""
        if not step.operands:
            return "0"
        if not step.operator:
            return self.operand(step.operands[0])
        operands = [self.operand(part) for part in step.operands]
        shown = [part.source if isinstance(part, Variable) else part.text for part in step.operands]
        text = (
            f"{step.operator}{operands[0]}"
            if len(operands) == 1
            else f"{operands[0]} {step.operator} {operands[1]}"
        )
        self.expressions[text] = source_expression(step, shown) if all(shown) else ""
        step.expression = text
        return text

    def check(self) -> None:
        """Refuses a program beyond a limit of the language."""
        totals = {
            "procedures": len(self.pieces),
            "expressions": len(self.expressions),
            "bytes of text": sum(map(len, self.pieces.values())),
        }
        totals["points"] = sum(self.points.values())
        totals["variables"] = len(self.variables.taken) - len(KEYWORDS)
        for what, limit in LIMITS.items():
            if totals[what] > limit:
                raise TooLarge(
                    f"the program has {totals[what]} {what}, {totals[what] - limit} more than "
                    f"the {limit} that tacflow takes; " + self.advice(what)
                )

    def weight(self, procedure: Procedure, what: str) -> int:
        """How much of a limit a procedure takes, as far as that is counted."""
        if what == "points":
            return self.points[procedure]
        return len(self.pieces[procedure]) if what == "bytes of text" else 1

    def advice(self, what: str) -> str:
        """Where such a program is split best."""
        functions = [procedure for procedure in self.points if procedure.source]
        weights = [self.weight(procedure, what) for procedure in functions]
        if not functions:
            return "give it fewer files"
        largest = functions[weights.index(max(weights))]
        if len({procedure.function for procedure in functions}) == 1:
            return f"'{largest.source}' by itself takes that"
        rest = sum(weights)
        half = next(
            number for number in range(len(weights)) if sum(weights[: number + 1]) * 2 >= rest
        )
        return (
            f"'{largest.source}' takes the most, {max(weights)}; "
            "split the sources before or behind "
            f"'{functions[half].source}' ({functions[half].function.file}), where one half ends"
        )


def map_lines(written: Written) -> Iterator[str]:
    """The lines of a map: names, expressions, then what each line of the text stands for."""
    seen: set[Variable] = set()
    for procedure in written.procedures:
        yield "\t".join(["procedure", procedure.name, procedure.source]) + "\n"
        for step in procedure.steps:
            for variable in [step.variable, *step.operands]:
                if isinstance(variable, Variable) and variable not in seen:
                    seen.add(variable)
                    parts = ["variable", variable.name, variable.source, kind_of(variable)]
                    yield "\t".join(parts) + "\n"
    for text, in_source in written.expressions.items():
        yield "\t".join(["expression", text, in_source]) + "\n"
    for line, step, procedure in written.notes():
        place = step.origin.place if step.origin else None
        where = f"{place.file}\t{place.line}\t{place.column}" if place else "\t0\t0"
        unset = " ".join([variable.name for variable in step.unset]) if step.unset else ""
        made_of = f"{id_of(step)}\t{step.slot}\t{step.role}"
        yield f"line\t{line}\t{where}\t{made_of}\t{procedure.name}\t{unset}\n"


def kind_of(variable: Variable) -> str:
    """Whether a variable is a local, so that it has no value at first."""
    return "local" if variable.owner is not None and not variable.is_parameter else "set"


def id_of(step: Step) -> str:
    """The number of a step's C statement, with its file's name; '-' where there is none."""
    return f"{step.origin.number}:{step.origin.file}" if step.origin else "-"


def source_expression(step: Step, shown: list[str]) -> str:
    """An expression as C writes it."""
    if step.is_element:
        return f"{shown[0]}[{shown[1]}]"
    if len(shown) == 1:
        return step.operator + shown[0]
    if step.operator == "+" and shown[1].startswith("-"):
        return f"{shown[0]} - {shown[1][1:]}"
    return f"{shown[0]} {step.operator} {shown[1]}"
