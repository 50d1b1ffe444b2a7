"""gcc's own form of a C program as C again, changed where tacflow's facts say that it does not
matter. Not verified.

A value that is dead is overwritten, a statement that is never reached ends the program by a trap,
an expression that is already computed is compared with what it gave the last time, and one that is
very busy with what it gives the next time.
"""

from __future__ import annotations

import re
from collections.abc import Callable, Iterable
from typing import TYPE_CHECKING

from gimple import operands
from gimple.code import Number, Procedure, Step, Variable
from gimple.dump import statements_in

if TYPE_CHECKING:
    from gimple.dump import Function, Statement
    from gimple.emit import Written
    from gimple.world import World

HEADER = re.compile(r";; Function (?P<name>\S+) \(.*decl_uid=(?P<uid>\d+)")
UNTURNED = re.compile(
    r"VIEW_CONVERT|BIT_FIELD|FRAME|CHAIN|__builtin_va|\.VA_ARG|MEM ?[<\[]"
    r"|<retval>|\bMIN|\bMAX|\bABS|__asm|\*\.LC|= \"|\{[^}C]"
)
HALF = re.compile(r"\b(REAL|IMAG)PART_EXPR <([^<>]*)>")
WHOLE = re.compile(r"\bCOMPLEX_EXPR <([^<>]*), ([^<>]*)>")
SOURCE_NAME = re.compile(r"(?<![\w.'\\])[A-Za-z_]\w*")
NAME = re.compile(
    rf"(?<![\w$])(?P<declared>{operands.DECLARED})"
    rf"|(?<![\w$.])(?P<temporary>{operands.TEMPORARY})|\b0B\b"
)
GUARD = "unsigned *guard{0} __attribute__((cleanup(leave_guard))) = {1};"
CHANGED = 0x5A


class CanNotTurn(Exception):
    """A form of gcc's that this script does not write as C."""


class Body:
    """A function's lines in gcc's form, as C: pairs of a text and its statement, None where there
    is none.
    """

    def __init__(self, function: Function, lines: list[str]) -> None:
        self.function = function
        self.own = {
            name: re.sub(r"\W", "_", name) for name in [*function.parameters, *function.locals]
        }
        self.typed = set()
        self.statements = iter(list(statements_in(function.body)))
        opened = lines.index("{")
        self.heading = self.name_all(
            " ".join(line for line in lines[:opened] if not line.startswith("__attribute__"))
        )
        plain = [operands.without_places(line.strip()) for line in lines[opened + 1 : -1]]
        plain = [line for line in plain if line and not line.startswith("//")]
        count = self.declared(plain)
        self.top = [self.name_all(line) for line in plain[:count]]
        self.rows = [
            (line, None) if line in ("{", "}", "try", "finally") else self.statement(line)
            for line in plain[count:]
        ]
        self.take_cleanups()

    @staticmethod
    def declared(plain: list[str]) -> int | None:
        """How many lines are declarations."""
        for count, line in enumerate(plain):
            if (
                line.startswith("static ")
                or "(*" in line
                and line.endswith(";")
                and " = " not in line
            ):
                raise CanNotTurn(line)
            is_declaration = (
                line.endswith(";") and re.search(r"D\.\d+(\[\d+\])*;$", line) and " = " not in line
            )
            if not is_declaration or line.startswith(("goto ", "return ")):
                return count
        return len(plain)

    def statement(self, line: str) -> tuple[str, Statement]:
        """A line with its statement."""
        statement = next(self.statements)
        return (self.turned(line, statement), statement)

    def take_cleanups(self) -> None:
        """Writes what runs at the end of blocks as gcc's own cleanups."""
        opened, starts = [], {}
        rows, skipped = [], 0
        at = 0
        while at < len(self.rows):
            text = self.rows[at][0]
            if text == "try":
                opened.append(len(rows))
            elif text == "finally":
                end = next(
                    place for place in range(at, len(self.rows)) if self.rows[place][0] == "}"
                )
                calls = [row[0] for row in self.rows[at + 2 : end] if row[0] != ";"]
                start = opened.pop()
                guards = [re.match(r"leave \((&\w+)\);$", call) for call in calls]
                if None in guards or len(guards) > 1:
                    raise CanNotTurn(calls)
                starts[start] = GUARD.format(start, guards[0][1]) if guards else ""
                skipped += end - at
                at = end
            else:
                rows.append(self.rows[at])
            at += 1
        self.rows = []
        for number, row in enumerate(rows):
            self.rows.append(row)
            if number in starts and starts[number]:
                self.rows.append((starts[number], None))

    def text(
        self,
        before: dict[Statement, list[str]],
        after: dict[Statement, list[str]],
        top: Iterable[str],
    ) -> str:
        """The function, with lines before and behind the rows of statements, and at its top."""
        lines = [self.heading, "{", *self.top, *top]
        for text, statement in self.rows:
            lines += [*before.get(statement, ()), text, *after.get(statement, ())]
        return "\n".join([*lines, "}"])

    def name_all(self, text: str) -> str:
        """A text with names that C takes."""
        parts = operands.STRING.split(text)
        strings = [*operands.STRING.findall(text), ""]
        named = "".join(NAME.sub(self.named, part) + string for part, string in zip(parts, strings))
        return re.sub(r"\bcomplex double\b", "_Complex double", named)

    def named(self, found: re.Match[str]) -> str:
        """A name of gcc's as C takes it."""
        name = found.group()
        if name == "0B":
            return "0"
        if name in self.own:
            return self.own[name]
        if found["temporary"]:
            return "t_" + re.sub(r"\W", "_", name)
        return re.sub(r"D\.\d+$", "", name) or f"D_{name[2:]}"

    def turned(self, plain: str, statement: Statement) -> str:
        """A statement as C."""
        plain = plain.replace(" [return slot optimization]", "").replace(" [tail call]", "")
        if UNTURNED.search(plain):
            raise CanNotTurn(plain)
        plain = HALF.sub(lambda found: f"(__{found[1].lower()}__ {found[2]})", plain)
        plain = WHOLE.sub(r"__builtin_complex ((double)(\1), (double)(\2))", plain)
        if plain.startswith("<"):
            return re.sub(r"<D\.(\d+)>:", r"L\1:;", plain)
        if "= {CLOBBER" in plain:
            return ";"
        if plain.startswith(("if ", "goto ", "switch ")):
            plain = re.sub(r"<D\.(\d+)>", r"L\1", re.sub(r" ?\[(?:INV|[\d.]+%)\]", "", plain))
            return self.switch(plain) if plain.startswith("switch") else self.name_all(plain)
        if statement.kind == "label":
            return self.name_all(plain) + ";"
        return self.assigned(plain, statement)

    def switch(self, plain: str) -> str:
        """A switch: `switch (x) <default: L1, case 2: L3>`."""
        value, cases = re.match(r"switch \((.*)\) <(.*)>$", plain).groups()
        rows = " ".join(
            re.sub(r": (L\d+)$", r": goto \1;", case.strip()) for case in cases.split(", ")
        )
        return f"switch ({self.name_all(value)}) {{ {rows} }}"

    def assigned(self, plain: str, statement: Statement) -> str:
        """An assignment or a call."""
        if statement.kind == "return":
            return self.name_all(plain)
        target, sign, value = plain.rstrip(";").partition(" = ")
        if not sign:
            return self.name_all(plain)
        if value == "{}":
            return (
                f"__builtin_memset(&{self.name_all(target)}, 0, sizeof({self.name_all(target)}));"
            )
        shown, given = self.name_all(target), self.name_all(value)
        if statement.kind == "assign" and statement.words[0] == "pointer_plus_expr":
            left, right = (self.name_all(part) for part in value.split(" + "))
            given = f"(__typeof__({left}))((char *)({left}) + ({right}))"
        kind = (
            "__auto_type "
            if re.fullmatch(operands.TEMPORARY, target) and target not in self.typed
            else ""
        )
        self.typed.add(target)
        return f"{kind}{shown} = {given};"


class Changes:
    """What is added to the bodies of one program."""

    def __init__(
        self,
        world: World,
        bodies: dict[int, Body],
        written: Written,
        facts: dict[int, list[tuple[str, str]]],
        shown: Callable[[Step, Procedure], str],
        never_called: list[Procedure],
    ) -> None:
        self.world = world
        self.named = shown
        self.never_called = never_called
        self.bodies = bodies
        self.facts = facts
        self.declared = {variable: declared for (_, declared), variable in world.locals.items()}
        self.notes = [note for note in written.notes() if note[1].origin and not note[2].is_once]
        self.once = [
            note
            for note in written.notes()
            if note[1].origin and note[2].is_once and note[1].kind == "set"
        ]
        self.never = {number for number, told in facts.items() if ("never_reached", "") in told}
        self.before, self.after, self.top, self.globals = {}, {}, {}, []
        self.counts = dict.fromkeys(
            ("dead", "never", "computed", "busy", "unset", "uncalled", "named"), 0
        )
        self.copies = {}
        for number, step, procedure in [*self.notes, *self.once]:
            self.copies.setdefault((step.origin, step.slot), []).append((number, step, procedure))

    def make(self, kinds: tuple[str, ...]) -> None:
        """Makes the changes of these kinds."""
        if "dead" in kinds:
            self.overwrite()
        if "never" in kinds:
            self.trap()
        if "unset" in kinds:
            self.trap_unset()
        if "uncalled" in kinds:
            self.trap_uncalled()
        self.compare(kinds)

    def body_of(self, procedure: Procedure) -> Body | None:
        """The body of a procedure, None where it has none as C."""
        return self.bodies.get(procedure.function.uid) if procedure.function else None

    def holds(self, step: Step, kind: str, name: str) -> bool:
        """Whether all copies of a step that are reached have a fact."""
        copies = [
            (number, other)
            for number, other, procedure in self.copies[step.origin, step.slot]
            if number not in self.never
            and not (other.told_once if kind == "dead" else procedure.is_once)
        ]
        return bool(copies) and all(
            (kind, name or other.variable.name) in self.facts.get(number, ())
            for number, other in copies
        )

    def overwrite(self) -> None:
        """Overwrites each value that is dead."""
        done = set()
        for _, step, procedure in [*self.notes, *self.once]:
            statement = step.origin
            if (
                step.kind != "set"
                or step.role != "plain"
                or statement in done
                or self.body_of(procedure) is None
            ):
                continue
            if step.chained:
                continue  # gcc's form reads it again
            if re.fullmatch(operands.TEMPORARY, statement.words[1]):
                continue
            if statement.kind in ("assign", "call") and self.holds(step, "dead", ""):
                target = self.body_of(procedure).name_all(statement.words[1])
                self.after.setdefault(statement, []).append(
                    f"__builtin_memset((void *)&({target}), {CHANGED}, sizeof({target}));"
                )
                done.add(statement)
                self.counts["dead"] += 1

    def trap(self) -> None:
        """Ends the program where no way leads."""
        reached = {step.origin for number, step, _ in self.notes if number not in self.never}
        for statement in {step.origin for _, step, _ in self.notes} - reached:
            self.before.setdefault(statement, []).append("__builtin_trap();")
            self.counts["never"] += 1

    def trap_uncalled(self) -> None:
        """Ends the program in each function that is told as never called."""
        for procedure in self.never_called:
            if self.body_of(procedure) is not None:
                self.top.setdefault(procedure.function.uid, []).append("__builtin_trap();")
                self.counts["uncalled"] += 1

    def trap_unset(self) -> None:
        """Ends the program where a local is surely unset: the programs read none."""
        for origin, slot in list(self.copies):
            reached = [copy for copy in self.copies[origin, slot] if copy[0] not in self.never]
            if reached and all(self.has_unset(number, step) for number, step, _ in reached):
                self.before.setdefault(origin, []).append("__builtin_trap();")
                self.counts["unset"] += 1

    def has_unset(self, number: int, step: Step) -> bool:
        """Whether a line reads a local that is surely unset."""
        return any(("unset", part.name) in self.facts.get(number, ()) for part in step.surely_unset)

    def check_name(self, step: Step, procedure: Procedure, form: str) -> None:
        """Compares an expression as the source has it with gcc's form of it."""
        shown = self.named(step, procedure)
        if not shown:
            return
        names = {part.source: self.name_of(part, procedure) for part in step.reads()}
        for part in step.operands:
            if isinstance(part, Number):
                for declared in operands.DECLARED_FIRST.findall(part.text):
                    name = self.body_of(procedure).name_all(declared)
                    names[operands.split_declared(declared)[0]] = name
        text = SOURCE_NAME.sub(lambda found: names.get(found.group(), found.group()), shown)
        self.before.setdefault(step.origin, []).append(
            f"if (({text}) != ({form})) __builtin_trap();"
        )
        self.counts["named"] += 1

    def name_of(self, part: Variable | Number, procedure: Procedure) -> str:
        """An operand as C, '' where it has no name in the procedure."""
        if not isinstance(part, Variable):
            named = self.body_of(procedure).name_all(part.text)
            number = int(part.text) if part.text.isdigit() else 0
            # a number has gcc's type, and not the next wider one with a sign
            return named + ("u" if number >> 31 == 1 else "ull" if number >> 63 == 1 else "")
        if part.owner is None:
            return part.source
        if part.owner is procedure and part in self.declared:
            return self.body_of(procedure).own[self.declared[part]]
        return ""

    def shown(self, step: Step, procedure: Procedure) -> str:
        """An expression as C, None where a variable has no name in the procedure."""
        names = [self.name_of(part, procedure) for part in step.operands]
        if not all(names):
            return None
        if step.is_element:
            return f"{names[0]}[{names[1]}]"
        return (
            f"({step.operator}{names[0]})"
            if len(names) == 1
            else f"({names[0]} {step.operator} {names[1]})"
        )

    def compare(self, kinds: tuple[str, ...]) -> None:
        """Compares what expressions give that are already computed, or very busy."""
        evaluations = {}
        for _, step, procedure in self.notes:
            if step.expression and step.slot == min(other.slot for other in [step]):
                evaluations.setdefault(step.expression, {}).setdefault(
                    (step.origin, procedure), step
                )
        for number, (text, places) in enumerate(evaluations.items()):
            shown = {
                key: self.shown(step, key[1]) if self.body_of(key[1]) else None
                for key, step in places.items()
            }
            for (_, procedure), step in places.items() if "named" in kinds else ():
                if self.body_of(procedure) and self.shown(step, procedure):
                    self.check_name(step, procedure, self.shown(step, procedure))
            if None not in shown.values():
                self.compare_one(text, places, shown, number, kinds)

    def compare_one(
        self,
        text: str,
        places: dict[tuple[Statement, Procedure], Step],
        shown: dict[tuple[Statement, Procedure], str],
        number: int,
        kinds: tuple[str, ...],
    ) -> None:
        """The same of one expression."""
        tests = self.tests_of(text, next(iter(places.values()))) if "busy" in kinds else []
        again = {
            key
            for key, step in places.items()
            if "computed" in kinds and self.holds(step, "computed", text)
        }
        if not tests and not again:
            return
        (_, first_procedure), first_step = next(iter(places.items()))
        is_local = any(isinstance(part, Variable) and part.owner for part in first_step.operands)
        form = shown[first_step.origin, first_procedure]
        lines = [
            f"__typeof__({form}) old_{number}, next_{number};",
            f"int known_{number} = 0, awaited_{number} = 0;",
        ]
        if is_local:
            self.top.setdefault(first_procedure.function.uid, []).extend(lines)
        else:
            self.globals += ["static " + line for line in lines]
        self.compare_evaluations(shown, again, number)
        for step, procedure in tests:
            self.counts["busy"] += 1
            expression = self.shown(first_step, procedure)
            self.before.setdefault(step.origin, []).append(
                f"next_{number} = {expression}; awaited_{number} = 1;"
            )
        self.at_ends(first_procedure if is_local else None, f"awaited_{number}")

    def tests_of(self, text: str, evaluation: Step) -> list[tuple[Step, Procedure]]:
        """The tests before which an expression is very busy, where it can be written."""
        return [
            (step, procedure)
            for _, step, procedure in self.notes
            if step.role == "test"
            and self.holds(step, "busy", text)
            and self.body_of(procedure)
            and self.shown(evaluation, procedure)
        ]

    def compare_evaluations(
        self,
        shown: dict[tuple[Statement, Procedure], str],
        again: set[tuple[Statement, Procedure]],
        number: int,
    ) -> None:
        """Compares where an expression is evaluated what it gave, and what was awaited."""
        for key, expression in shown.items():
            added = [
                f"if (awaited_{number} && next_{number} != {expression}) __builtin_trap();",
                f"awaited_{number} = 0;",
            ]
            if key in again:
                self.counts["computed"] += 1
                test = f"!known_{number} || old_{number} != {expression}"
                added.append(f"if ({test}) __builtin_trap();")
            added.append(f"old_{number} = {expression}; known_{number} = 1;")
            self.before.setdefault(key[0], []).extend(added)

    def at_ends(self, procedure: Procedure | None, awaited: str) -> None:
        """Where a function ends, or main for what is no local, no expression is awaited."""
        for body in self.bodies.values():
            if (
                body.function is (procedure.function if procedure else None)
                or procedure is None
                and body.function.name == "main"
            ):
                for _, statement in body.rows:
                    if statement is not None and statement.kind == "return":
                        self.before.setdefault(statement, []).append(
                            f"if ({awaited}) __builtin_trap();"
                        )


def bodies_of(text: str, functions: list[Function]) -> dict[int, Body]:
    """The functions of a dump that can be written as C, by their numbers."""
    by_uid = {function.uid: function for function in functions}
    found = {}
    for part in re.split(r"\n(?=;; Function )", text):
        head = HEADER.match(part)
        function = by_uid.get(int(head["uid"])) if head else None
        if function is None:
            continue
        try:
            found[function.uid] = Body(
                function, [line for line in part.rstrip().split("\n")[1:] if line.strip()]
            )
        except CanNotTurn:
            pass
    return found
