"""From facts of a program to remarks on the C sources that it was made of."""

import re
from collections.abc import Callable, Iterable, Iterator

from gimple.code import Procedure, Step, Variable
from gimple.dump import Function, Place
from gimple.emit import Written
from gimple.operands import split_declared
from gimple.program import Program
from gimple.translate import COPIES
from gimple.world import File

from .expressions import Operand, canonical
from .macros import Macros
from .remark import Note, Remark
from .sources import Sources
from .traces import Traces
from .written import part_named

# Of each line of a program what tacflow tells: kinds, each with a name or an expression.
Facts = dict[int, list[tuple[str, str]]]
# A line of a program, and what it stands for.
Line = tuple[int, Step, Procedure]
# What could be told: a place, a kind, a name.
Claim = tuple[Place, str, str]
# What is told only where it holds in every copy of its place.
COPIED = ("dead", "computed", "busy")
WORD = re.compile(r"[A-Za-z_$][\w$]*")
# What stands at the place of a statement that makes a variable's value of its older one.
COUNTING = re.compile(r"\+\+|--|(?:[-+*/%&|^]|<<|>>)=")
CONSTANTS = ("integer_cst", "real_cst", "string_cst")
SHOWN_ROLES = ("plain", "test", "result")
PLAIN_VALUES = frozenset(["0", "0B", "0.0", "{}", '""', "0.0e+0", "0x0"])


class Findings:
    """The remarks on one program.

    remarks: by keys, which are the same for all copies of a place in all programs. tried: the keys
    that were looked at. told: the lines of which there are facts. unsure: the uses of variables
    that may be unset and are told of, by the keys of their remarks.
    """

    def __init__(
        self,
        program: Program,
        written: Written,
        facts: Facts,
        sources: Sources,
        files: list[File],
        shows_all: bool,
    ) -> None:
        self.program = program
        self.written = written
        self.facts = facts
        self.sources = sources
        self.files = {file.name: file for file in files}
        self.macros = {file.name: Macros(sources, file.symbols.sources) for file in files}
        self.shows_all = shows_all
        self.told: list[Line] = []
        self.by_file: dict[str, list[Line]] = {}
        self.never = {number for number, told in facts.items() if ("never_reached", "") in told}
        self.by_claim: dict[Claim, list[Line]] = {}
        self.traces = Traces()
        self.remarks: dict[Claim, Remark] = {}
        self.unsure: dict[Claim, tuple[Line, Variable]] = {}
        self.tried: set[Claim] = set()
        self.texts: set[tuple] = set()
        self.words: dict[Place, str] = {}
        self.named: dict[Function, frozenset[str]] = {}

    @classmethod
    def of(
        cls,
        program: Program,
        written: Written,
        facts: Facts,
        sources: Sources,
        files: list[File],
        shows_all: bool,
    ) -> "Findings":
        """The remarks on a program of which tacflow tells these facts."""
        found = cls(program, written, facts, sources, files, shows_all)
        found.told = [line for line in found.both() if line[0] in facts]
        told = {
            line[1].origin.place
            for line in found.told
            if any(kind in COPIED for kind, _ in facts[line[0]])
        }
        found.by_claim = found.gather(line for line in found.both() if line[1].origin.place in told)
        found.take_all()
        return found

    def lines(self, is_once: bool = False) -> Iterator[Line]:
        """The lines that stand for what has a place in the source; those of one activation are
        asked for by themselves.
        """
        for line in self.written.notes():
            _, step, procedure = line
            if procedure.is_once is is_once and step.origin and step.origin.place:
                yield line

    def both(self) -> Iterator[Line]:
        """The lines, and behind them those that set something of one activation."""
        yield from self.lines()
        yield from (line for line in self.lines(True) if line[1].kind == "set")

    def lines_in(self, file: str) -> list[Line]:
        """Those of one file of the source."""
        if file not in self.by_file:
            self.by_file[file] = [line for line in self.both() if line[1].origin.place.file == file]
        return self.by_file[file]

    # What can be told at a place

    def claims(self, line: tuple[int, Step, Procedure]) -> Iterator[tuple[Place, str, str]]:
        """What could be told of a line, by keys that all copies of its place share."""
        _, step, procedure = line
        place = step.origin.place
        if step.role in SHOWN_ROLES or self.shows_all:
            if step.kind == "set" and self.name(step.variable) and not step.told_once:
                yield place, "dead", self.name(step.variable)
            if step.expression and self.plain_expression(step):
                yield place, "computed", self.plain_expression(step)
        if step.role == "test":
            yield place, "busy", ""
        if not procedure.is_once:
            yield place, "never", ""

    def gather(
        self, lines: Iterable[Line]
    ) -> dict[tuple[Place, str, str], list[tuple[int, Step, Procedure]]]:
        """Lines by what could be told of them."""
        found = {}
        for line in lines:
            for claim in self.claims(line):
                found.setdefault(claim, []).append(line)
        return found

    def name(self, variable: Variable) -> str:
        """What a variable is called, '' where it has no name in the source."""
        return variable.source or (variable.name if self.shows_all else "")

    def plain_expression(self, step: Step) -> str:
        """A step's expression by the source's names, '' where some operand has none."""
        parts = [
            self.name(part) if isinstance(part, Variable) else part.text for part in step.operands
        ]
        operands = [Operand(part, True) for part in parts]
        return canonical(step.operator, operands, step.is_element) if all(parts) else ""

    def holds(self, claim: tuple[Place, str, str], told: Callable[[Line], bool]) -> bool:
        """Whether each copy that is reached has what is told, and at least one is."""
        lines = [line for line in self.by_claim[claim] if line[0] not in self.never]
        return bool(lines) and all(told(line) for line in lines)

    def has_fact(self, line: tuple[int, Step, Procedure], kind: str, name: str) -> bool:
        """Whether tacflow tells this of a line."""
        return (kind, name) in self.facts.get(line[0], ())

    # Kinds

    def take_all(self) -> None:
        """Makes all remarks."""
        for line in self.told:
            for kind, name in self.facts[line[0]]:
                if kind == "dead" and not line[1].told_once:
                    self.take_dead(line)
                elif kind == "computed":
                    self.take_computed(line, name)
                elif kind == "busy" and line[1].role == "test":
                    self.take_busy(line, name)
        self.take_unset()
        self.take_copies()
        self.take_never_reached()
        self.take_never_called()

    def is_new(self, key: tuple[Place, str, str]) -> bool:
        """Whether a key was not looked at before."""
        known = key in self.tried
        self.tried.add(key)
        return not known

    def put(self, key: Claim, remark: Remark) -> None:
        """Keeps a remark unless a comment silences it."""
        text = remark.file, remark.line, remark.column, remark.text
        if (
            key not in self.remarks
            and text not in self.texts
            and not self.sources.get(remark.file).is_silenced(remark.kind, remark.line)
        ):
            self.remarks[key] = remark
            self.texts.add(text)

    def take_dead(self, line: Line) -> None:
        """An assignment whose value nobody reads."""
        _, step, procedure = line
        name = self.name(step.variable)
        claim = (step.origin.place, "dead", name)
        if not name or step.role not in SHOWN_ROLES and not self.shows_all:
            return
        if not self.is_new(claim) or not self.is_dead(claim) or not self.is_worth(line):
            return
        kind = self.kind_of_dead(claim, procedure)
        what = "initial value of" if kind == "dead-initial" else "assignment to"
        places = []
        if step.variable.owner is procedure:
            places = self.traces.overwritten(procedure, step)
        notes = tuple(Note(*place, "overwritten here") for place in places)
        text = f"{what} '{part_named(step) or name}' is dead"
        self.put(claim, self.remark(line, kind, text, notes))

    def is_worth(self, line: Line) -> bool:
        """Whether a dead assignment is the source's, not meant to be, and not told of the whole."""
        _, step, procedure = line
        if self.is_meant(procedure, step.variable) or not self.holds_for_macro(step, procedure):
            return False
        whole = step.variable.whole
        is_told = whole and self.is_dead((step.origin.place, "dead", whole.source))
        return not is_told and self.is_chain(step) and self.is_part_written(step)

    def is_part_written(self, step: Step) -> bool:
        """Whether the source writes a part by its name, or sets it in a declaration or a macro.

        gcc writes a whole one part by part where it is set to `(struct point){ 1, 2 }`.
        """
        place = step.origin.place
        source = self.sources.get(place.file)
        if not step.variable.whole or not source.lines or self.is_plain_initial(step):
            return True
        if self.macro_at(step):
            return True
        name = spaced(step.variable.source)
        behind = source.behind(place.line, place.column)
        line = source.line(place.line)
        before = f"{source.line(place.line - 1)}\n{line[: len(line) - len(behind)]}"
        is_target = re.search(rf"{name}[\s)]*(?:=[^=;][^;]*)?$", before)
        return bool(is_target or re.match(rf"(?:\+\+|--)[\s(]*{name}", behind))

    def is_dead(self, claim: Claim) -> bool:
        """Whether an assignment is dead in all copies of its place."""
        return claim in self.by_claim and self.holds(
            claim, lambda copy: self.has_fact(copy, "dead", copy[1].variable.name)
        )

    def kind_of_dead(self, claim: tuple[Place, str, str], procedure: Procedure) -> str:
        """Of which kind a dead assignment is."""
        steps = [copy[1] for copy in self.by_claim[claim]]
        if all(self.is_plain_initial(step) for step in steps):
            return "dead-initial"
        own = [copy[1] for copy in self.by_claim[claim] if copy[2] is procedure]
        is_last = own and all(self.is_last_of_run(procedure, step) for step in own)
        return "dead-last" if is_last else "dead"

    def is_last_of_run(self, procedure: Procedure, step: Step) -> bool:
        """Whether a value is only counted on.

        A call makes it of the older one, or an operation that a statement before did too.
        """
        if step.variable.is_addressed or not self.counts_on(step):
            return False
        if step.origin.kind == "call":
            return True
        return any(
            other.origin and other.origin.words[0] == step.origin.words[0] and self.counts_on(other)
            for other in self.traces.set_before(procedure, step)
        )

    def counts_on(self, step: Step) -> bool:
        """Whether a statement sets a variable to what it makes of its older value."""
        statement = step.origin
        if statement.kind not in ("assign", "call") or not statement.place:
            return False
        if statement.words[1] in statement.words[2:]:
            return statement.words[0] not in COPIES
        source, place = self.sources.get(statement.place.file), statement.place
        return bool(COUNTING.match(source.behind(place.line, place.column)))

    def is_chain(self, step: Step) -> bool:
        """Whether a chained assignment is one in the source, as `y = 0` in `x = y = 0`; so is what
        is not chained.
        """
        if step.chained is None:
            return True
        place = step.chained
        source = self.sources.get(place.file)
        text = (
            source.behind(place.line, place.column)
            + source.line(place.line + 1)
            + source.line(place.line + 2)
        )
        name = spaced(part_named(step) or step.variable.source)
        return bool(re.match(rf"(?:\w+\s*)?=[\s(]*{name}\s*=(?!=)", text))

    def holds_for_macro(self, step: Step, procedure: Procedure) -> bool:
        """Whether an assignment is no macro's, or each use of the macro makes one that is dead.

        Where a macro sets a variable to zero, as one that frees does, that is meant for other uses;
        so is what a macro of a header sets.
        """
        word = self.macro_at(step)
        if not word:
            return True
        if has_plain_value(step):
            return False
        name, file = step.variable.source, step.origin.place.file
        if self.macros[procedure.function.file].is_of_other(word, file):
            return False
        uses: dict[Place, bool] = {}
        for line in self.lines_in(file):
            _, other, _ = line
            place = other.origin.place
            if line[0] in self.never or self.word_at(place) != word:
                continue
            is_set = other.kind == "set" and not other.told_once and other.role in SHOWN_ROLES
            is_set = is_set and bool(other.variable.source)
            is_dead = is_set and self.has_fact(line, "dead", other.variable.name)
            if is_set and other.variable.source == name and not is_dead:
                return False
            uses[place] = uses.get(place, False) or is_dead
        return all(uses.values())

    def word_at(self, place: Place) -> str:
        """The word that stands at a place."""
        if place not in self.words:
            source = self.sources.get(place.file)
            found = WORD.match(source.behind(place.line, place.column))
            self.words[place] = found.group() if found else ""
        return self.words[place]

    def macro_at(self, step: Step) -> str:
        """The macro at whose name an assignment stands.

        '' where it stands at its own sign, its variable or the function it calls.
        """
        statement = step.origin
        word = self.word_at(statement.place)
        is_callee = word and statement.kind == "call" and statement.words[0].startswith(word + "D.")
        return "" if is_callee or word == whole_name(step.variable) else word

    def is_meant(self, procedure: Procedure, variable: Variable) -> bool:
        """Whether the source says that a variable need not be read."""
        function = procedure.function
        if function is None or procedure not in (variable.owner, variable.home):
            return False
        file = self.files[function.file]
        if (function.name, whole_name(variable)) in file.symbols.cast_away:
            return True
        name, first, last = self.span_of(procedure)
        return self.sources.get(name).is_marked_unused(whole_name(variable), first, last)

    def is_plain_initial(self, step: Step) -> bool:
        """Whether an assignment is a declaration's, of a constant or of a part."""
        place = step.origin.place
        behind = self.sources.get(place.file).behind(place.line, place.column)
        if step.variable.whole:
            name = re.escape(step.variable.whole.source)
            return bool(re.match(rf"{name}\s*(?:\[[^]]*\]\s*)*=", behind))
        is_constant = has_plain_value(step) or step.origin.words[0] in CONSTANTS
        return is_constant and behind.startswith(step.variable.source)

    def take_computed(self, line: tuple[int, Step, Procedure], name: str) -> None:
        """An expression that is evaluated once more."""
        _, step, procedure = line
        claim = (step.origin.place, "computed", self.plain_expression(step))
        if (
            step.expression != name
            or not claim[2]
            or step.role not in SHOWN_ROLES
            and not self.shows_all
            or not self.is_new(claim)
        ):
            return
        if not self.holds(claim, lambda copy: self.has_fact(copy, "computed", copy[1].expression)):
            return
        shown = self.expression_shown(step, procedure)
        if shown:
            notes = tuple(
                Note(place.file, place.line, place.column, "evaluated here")
                for place in self.traces.evaluated(procedure, step)
            )
            self.put(claim, self.remark(line, "computed", f"'{shown}' is already computed", notes))

    def expression_shown(self, step: Step, procedure: Procedure) -> str:
        """An expression as its source has it, '' where it stands there in no form."""
        if self.shows_all:
            return self.plain_expression(step)
        operands = [
            Operand(part.source, True) if isinstance(part, Variable) else Operand(part.text, False)
            for part in step.operands
        ]
        place = step.origin.place
        macros = self.macros[procedure.function.file]
        source = self.sources.get(place.file)
        return source.expression_at(
            place.line,
            place.column,
            step.operator,
            operands,
            step.is_element,
            macros,
            self.variables_in(procedure),
        )

    def variables_in(self, procedure: Procedure) -> frozenset[str]:
        """The names of variables and functions that a function's statements may have."""
        function = procedure.function
        if function not in self.named:
            declared = [*function.parameters, *function.locals, *function.statics]
            own = {split_declared(name)[0] for name in declared}
            self.named[function] = own.union(self.files[function.file].symbols.by_name)
        return self.named[function]

    def take_busy(self, line: tuple[int, Step, Procedure], name: str) -> None:
        """An expression that each way from a test evaluates."""
        _, step, procedure = line
        found = self.evaluation_in(procedure, name)
        if found is None:
            return
        claim = (step.origin.place, "busy", "")
        key = (step.origin.place, "busy", self.plain_expression(found))
        if not self.is_new(key) or not self.holds(
            claim, lambda copy: self.is_busy_copy(copy, key[2])
        ):
            return
        ways = self.traces.evaluated_next(procedure, step, name)
        if not all(ways) or all(way == ways[0] for way in ways):
            return  # nothing is gained before this test that isn't behind it
        places = sorted(
            {place for way in ways for place in way},
            key=lambda place: (place.file, place.line, place.column),
        )
        notes = tuple(
            Note(place.file, place.line, place.column, "evaluated here") for place in places
        )
        self.put(
            key,
            self.remark(
                line, "busy", f"'{self.expression_shown(found, procedure)}' is very busy", notes
            ),
        )

    def is_busy_copy(self, line: tuple[int, Step, Procedure], expression: str) -> bool:
        """Whether a copy of a test has an expression, by the source's names, as very busy."""
        for kind, name in self.facts.get(line[0], ()):
            if kind == "busy":
                found = self.evaluation_in(line[2], name)
                if found is not None and self.plain_expression(found) == expression:
                    return True
        return False

    def evaluation_in(self, procedure: Procedure, name: str) -> Step | None:
        """A step of a procedure that evaluates an expression of its own scope which stands in the
        source, or None.
        """
        for step in self.traces.evaluations(procedure).get(name, ()):
            if (
                step.role not in SHOWN_ROLES
                and not self.shows_all
                or not step.origin
                or not step.origin.place
            ):
                continue
            is_in_scope = all(part.is_in_scope(procedure) for part in step.reads())
            if (
                is_in_scope
                and self.plain_expression(step)
                and self.expression_shown(step, procedure)
            ):
                return step
        return None

    def take_unset(self) -> None:
        """Uses of locals that are not set: the first use of each, with the others as notes."""
        uses = {}
        for line in self.told:
            for kind, name in () if line[2].is_once else self.facts[line[0]]:
                variable = (
                    next((found for found in line[1].unset if found.name == name), None)
                    if kind == "unset"
                    else None
                )
                if (
                    variable is None
                    or variable.owner is None
                    or variable.is_parameter
                    or not self.name(variable)
                ):
                    continue
                is_sure = variable in line[1].surely_unset
                if is_sure or not variable.is_array and variable.whole is None:
                    uses.setdefault(variable, {}).setdefault(line[1].origin.place, []).append(
                        (line, is_sure)
                    )
        for variable, places in uses.items():
            if variable.whole not in uses:
                self.take_uses(variable, places)

    def take_uses(
        self, variable: Variable, places: dict[Place, list[tuple[tuple[int, object, object], bool]]]
    ) -> None:
        """The uses of one variable, by place."""
        sure = {place for place, told in places.items() if all(is_sure for _, is_sure in told)}
        first = min(sure or places, key=lambda place: (place.file, place.line, place.column))
        line = places[first][0][0]
        kind = "unset" if first in sure else "maybe-unset"
        shown = self.sources.get(first.file).use_at(first.line, self.name(variable))
        text = (
            f"'{shown}' is used before it is set"
            if kind == "unset"
            else f"'{shown}' may be used before it is set"
        )
        others = sorted(
            ((place.file, place.line, place.column) for place in places if place.line != first.line)
        )
        notes = tuple(Note(*place, "used here too") for place in others[:4])
        key = first, "unset", self.name(variable)
        remark = self.remark(line, kind, text, notes)
        self.put(key, remark)
        if kind == "maybe-unset" and self.remarks.get(key) is remark:
            self.unsure[key] = line, variable

    def take_copies(self) -> None:
        """Assignments of variables to themselves."""
        for line in self.lines():
            _, step, procedure = line
            if (
                is_own_copy(step)
                and step.role == "plain"
                and line[0] not in self.never
                and self.name(step.variable)
            ):
                claim = (step.origin.place, "dead", self.name(step.variable))
                if (
                    self.is_meant(procedure, step.variable)
                    or not self.is_own_in_source(step)
                    or not self.is_new(claim)
                ):
                    continue
                lines = [
                    other
                    for other in self.lines()
                    if other[1].origin.place == step.origin.place and other[1].kind == "set"
                ]
                if all(is_own_copy(other[1]) for other in lines):
                    self.put(
                        claim,
                        self.remark(
                            line, "dead", f"'{self.name(step.variable)}' is assigned to itself"
                        ),
                    )

    def is_own_in_source(self, step: Step) -> bool:
        """Whether the source assigns a variable to itself where gcc does, and not what gives the
        same.
        """
        place, name = step.origin.place, re.escape(step.variable.source)
        text = self.sources.get(place.file).behind(place.line, place.column)
        return bool(re.match(rf"(?:{name}\s*)?=[\s(]*{name}[\s)]*[;,]", text))

    def take_never_reached(self) -> None:
        """The first statement of each stretch that is never reached."""
        reached = {line[1].origin for line in self.lines() if line[0] not in self.never}
        reached_places = {origin.place for origin in reached}
        last = None
        for line in self.lines():
            _, step, procedure = line
            if step.origin in reached:
                last = None
            elif (
                last is not procedure
                and (step.role in SHOWN_ROLES or self.shows_all)
                and step.origin.place not in reached_places
            ):
                last = procedure
                self.put(
                    (step.origin.place, "never", ""), self.remark(line, "never", "never reached")
                )

    def take_never_called(self) -> None:
        """Functions to which no way leads."""
        called = {
            self.definition_of(procedure)
            for procedure in self.program.procedures
            if procedure.function
        }
        for procedure in self.program.never_called:
            place = self.definition_of(procedure)
            if (
                place
                and place not in called
                and not procedure.function.is_nested
                and "unused" not in procedure.function.attributes
            ):
                remark = Remark(
                    *place, "never", f"'{procedure.source}' is never called", procedure.source
                )
                self.put((Place(*place[:2], 0), "never", procedure.source), remark)

    # Places

    def definition_of(self, procedure: Procedure) -> tuple[str, int, int]:
        """Where a function's name stands in its definition: file, line and column; None where that
        is not known.
        """
        function = procedure.function
        found = self.files[function.file].symbols.definitions.get(function.name)
        if found is None:
            return None
        column = self.sources.get(found[0]).line(found[1]).find(function.name) + 1
        return (*found, max(column, 1))

    def span_of(self, procedure: Procedure) -> tuple[str, int, int]:
        """The file and the lines that a function spans, by its definition and its statements."""
        places = [
            step.origin.place for step in procedure.steps if step.origin and step.origin.place
        ]
        start = self.definition_of(procedure) or places[0]
        lines = [place.line for place in places if place.file == start[0]]
        return start[0], min([start[1], *lines]), max([start[1], *lines])

    @staticmethod
    def remark(
        line: tuple[int, Step, Procedure], kind: str, text: str, notes: tuple[Note, ...] = ()
    ) -> Remark:
        """A remark at a line's place."""
        place = line[1].origin.place
        return Remark(place.file, place.line, place.column, kind, text, line[2].source, notes)

    def seen_at(self, is_shared: Callable[[Place], bool]) -> set[Claim]:
        """The keys of all that could be told at places that are shared."""
        found = set(
            self.gather(
                line
                for line in self.both()
                if line[0] not in self.never and is_shared(line[1].origin.place)
            )
        )
        for procedure in self.program.procedures:
            place = self.definition_of(procedure) if procedure.function else None
            if place and is_shared(Place(*place[:2], 0)):
                found.add((Place(*place[:2], 0), "never", procedure.source))
        return found


def spaced(text: str) -> str:
    """A pattern of a text with blanks or none between its words and signs."""
    return r"\s*".join(map(re.escape, re.findall(r"\w+|\S", text)))


def is_own_copy(step: Step) -> bool:
    """Whether a step sets a variable to itself."""
    return step.is_copy and step.operands[:1] == (step.variable,) and not step.weak


def whole_name(variable: Variable) -> str:
    """The name of a variable, or of the one of which it is a part."""
    return variable.whole.source if variable.whole else variable.source


def has_plain_value(step: Step) -> bool:
    """Whether a step is an assignment of zero or the like."""
    return step.origin.kind == "assign" and step.origin.words[2] in PLAIN_VALUES
