"""The statements of a C function as steps of a procedure."""

from __future__ import annotations

from collections.abc import Callable
from typing import TYPE_CHECKING

from . import operands
from .calls import Calls
from .code import Label, Number, Variable
from .dump import Statement, Try, statements_in
from .faults import Refusal
from .jumps import Jumps
from .labels import Copies, Exits, label_name, labels_in, named_labels
from .state import State
from .values import Value
from .world import function_place

if TYPE_CHECKING:
    from .dump import Assembler

BINARY = {
    "plus_expr": "+",
    "minus_expr": "-",
    "pointer_diff_expr": "-",
    "mult_expr": "*",
    "trunc_div_expr": "/",
    "exact_div_expr": "/",
    "rdiv_expr": "/",
    "trunc_mod_expr": "%",
    "bit_and_expr": "&",
    "bit_ior_expr": "|",
    "bit_xor_expr": "^",
    "lshift_expr": "<<",
    "rshift_expr": ">>",
    "lt_expr": "<",
    "le_expr": "<=",
    "gt_expr": ">",
    "ge_expr": ">=",
    "eq_expr": "==",
    "ne_expr": "!=",
}
ADDRESSES = {"pointer_plus_expr": "+"}
UNARY = {"negate_expr": "-", "bit_not_expr": "~", "truth_not_expr": "!"}
COPIES = {
    "var_decl",
    "parm_decl",
    "result_decl",
    "ssa_name",
    "integer_cst",
    "real_cst",
    "string_cst",
    "addr_expr",
    "mem_ref",
    "component_ref",
    "array_ref",
    "bit_field_ref",
    "realpart_expr",
    "imagpart_expr",
    "view_convert_expr",
    "constructor",
    "complex_cst",
    "vector_cst",
}
HALVES = ("realpart_expr", "imagpart_expr")
SIMPLE = {"predict", "nop", "debug"}
DAMAGE = (ValueError, IndexError, AttributeError, TypeError)


class Translator:
    """Turns one function."""

    def __init__(self, state: State) -> None:
        self.state = state
        self.calls = Calls(state)
        self.jumps = Jumps(state)

    def translate(self) -> None:
        """Writes the procedure's steps."""
        function = self.state.procedure.function
        self.state.procedure.stop = Label()
        if function.fault or self.state.procedure.refusal:
            raise function.fault or self.state.procedure.refusal
        self.block(function.body)
        self.state.flush_all()
        if self.state.anywhere:
            self.jumps.lead_anywhere(named_labels(function.statements))
        self.state.parts.add_reads_behind(self.state.services.writing)
        missing = set(self.state.labels.made) - labels_in(function.statements)
        if missing:
            raise Refusal(
                f"a jump to {missing.pop()}, which is not there",
                function_place(self.state.file, self.state.procedure),
            )

    def block(self, body: list[Statement | Try]) -> None:
        """Statements one after the other."""
        for item in body:
            if isinstance(item, Try):
                self.guarded(item)
            else:
                self.turn(item)

    def guarded(self, item: Try) -> None:
        """A body whose cleanup runs on each way out: behind its end, and before each jump out of
        it.
        """
        if not any(self.does_something(statement) for statement in statements_in(item.cleanup)):
            self.block(item.body)
            return
        outer = self.state.labels
        self.state.labels = exits = Exits(outer, labels_in(statements_in(item.body)))
        self.block(item.body)
        self.state.flush_all()
        self.state.labels = outer
        after = Label()
        if self.state.procedure.steps[-1:] and self.state.procedure.steps[-1].kind not in (
            "goto",
            "return",
        ):
            self.cleanup(item)
            self.state.build.add("goto", label=after, role="made")
        for name, label in exits.made.items():
            self.state.build.label(label)
            self.cleanup(item)
            self.jumps.jump(name, "made")
        self.state.build.label(after)

    def does_something(self, statement: Statement) -> bool:
        """Whether a statement of a cleanup leaves anything behind in the program."""
        if statement.kind != "assign" or not statement.words[2].startswith("{CLOBBER"):
            return True
        declared = statement.words[1]
        variable = (
            self.state.world.variable(self.state.file, self.state.procedure, declared)
            if operands.is_declared(declared)
            else None
        )
        return variable is not None and variable.is_addressed

    def cleanup(self, item: Try) -> None:
        """One copy of a cleanup. Its own labels are new ones each time."""
        outer = self.state.labels
        self.state.labels = Copies(outer, labels_in(statements_in(item.cleanup)))
        self.block(item.cleanup)
        self.state.flush_all()
        self.state.labels = outer

    def turn(self, statement: Statement) -> None:
        """One statement."""
        self.state.begin(statement)
        if statement.kind in SIMPLE:
            return
        turn = TURNS.get(statement.kind)
        if turn is None:
            self.state.refuse(f"gimple_{statement.kind} can't be turned")
        try:
            turn(self, statement)
        except DAMAGE:
            self.state.refuse(f"a gimple_{statement.kind} that is not written as expected")

    # Statements

    def turn_assign(self, statement: Statement) -> None:
        """An assignment."""
        state = self.state
        operation, target = statement.words[0], statement.words[1]
        words = [word for word in statement.words[2:] if word != "NULL"]
        if words[0].startswith("{CLOBBER"):
            self.end_life(target)
            return
        state.note_addresses(words)
        self.follow_scaling(operation, target, words)
        if operation == "complex_expr" and self.keeps_half(target, words):
            return
        operator, parts, reads, is_element = self.right_side(operation, words)
        start = len(state.procedure.steps)
        state.store(target, operator, parts, reads)
        if operation in HALVES and operands.is_temporary(target):
            state.halves[target] = operands.parse(words[0]).base
        if is_element:
            for step in state.procedure.steps[start:]:
                step.is_element = True
        elif parts and not operator:
            for step in state.procedure.steps[start:]:
                step.is_copy = True
            state.given = Value((parts[0],) if isinstance(parts[0], Variable) else (), parts[0])

    def follow_scaling(self, operation: str, target: str, words: list[str]) -> None:
        """Follows what gcc multiplies, negates or adds to, as it may add that to a pointer."""
        evaluations = self.state.evaluations
        if operation == "pointer_plus_expr":
            self.pass_over_scaling(words)
        elif words[0] in evaluations and (
            operation == "negate_expr"
            or operation == "plus_expr"
            and not self.state.reads_of(words[1:])
        ):
            evaluations[target] = evaluations[words[0]]

    def right_side(
        self, operation: str, words: list[str]
    ) -> tuple[str, tuple[Variable | Number, ...], tuple[Variable, ...], bool]:
        """The operator of an assignment, '' for none, its operands, and what else it reads.

        Behind these whether it is an element of an array at an index.
        """
        chained = self.chained_value(operation, words[0])
        element = self.state.element(words[0]) if operation == "array_ref" else None
        if element and chained is None:
            return "^", element, self.state.part_reads(words[0], element[0]), True
        values = [chained] if chained is not None else [self.state.value(word) for word in words]
        return *self.expression(operation, values), False

    def chained_value(self, operation: str, word: str) -> Value | None:
        """What `y` was just set to in `x = y = 0`, where the setting of `x` is at hand; else None.

        The source does not read `y` then. The sign of `x` stands before that of `y`; whether a sign
        of assignment stands between them is for those to see who have the source.
        """
        last, place = self.state.previous, self.state.statement.place
        if operation not in COPIES or operands.is_temporary(word):
            return None
        if last is None or last.kind not in ("assign", "call") or last.words[1] != word:
            return None
        if place is None or last.place is None or not place < last.place:
            return None
        for step in self.state.procedure.steps[self.state.previous_start :]:
            if step.kind == "set":
                step.chained = place
        return self.state.previous_given

    def keeps_half(self, target: str, words: list[str]) -> bool:
        """Whether one half of a complex number is its own older one: then the other half alone is
        written, as a part is.
        """
        kept = [word for word in words if self.state.halves.get(word) == target]
        if len(kept) != 1:
            return False
        variable = self.state.world.variable(self.state.file, self.state.procedure, target)
        if variable is None or self.state.pending.values.get(kept[0]) != Value((variable,)):
            return False  # it was written since
        self.state.pending.take(kept[0])
        self.state.flush_variable(variable)
        reads = [read for word in words if word != kept[0] for read in self.state.value(word).reads]
        self.state.build.use(reads[1:])
        self.state.build.set(variable, reads[:1], weak=True)
        return True

    def pass_over_scaling(self, words: list[str]) -> None:
        """What gcc multiplied or negated, and added a constant to, to add it to a pointer was not
        evaluated by the source.
        """
        for word in words:
            if word in self.state.evaluations:
                self.state.evaluations[word].role = "made"

    def expression(
        self, operation: str, values: list[Value]
    ) -> tuple[str, tuple[Number | Variable, ...], tuple[Variable, ...]]:
        """An operation's operator, '' for none, its operands, and what else it reads."""
        first = values[0].exact
        if len(values) == 1:
            is_variable = isinstance(first, Variable)
            if first is not None and operation in COPIES:
                return "", (first,), values[0].reads[1:] if is_variable else ()
            if first is not None and is_variable and operation in UNARY:
                return UNARY[operation], (first,), ()
        elif len(values) == 2:
            second = values[1].exact
            operator = BINARY.get(operation)
            if operator is None and self.state.services.keeps_temporaries:
                operator = ADDRESSES.get(operation)
            is_told = operator is not None and first is not None and second is not None
            if is_told and (isinstance(first, Variable) or isinstance(second, Variable)):
                return operator, (first, second), ()
        return "", (), tuple(dict.fromkeys(read for value in values for read in value.reads))

    def end_life(self, target: str) -> None:
        """The end of a variable's life: what pointers may have read of it is read no more."""
        variable = (
            self.state.world.variable(self.state.file, self.state.procedure, target)
            if operands.is_declared(target)
            else None
        )
        if variable and variable.is_addressed:
            self.state.flush_variable(variable)
            self.state.build.set(variable, role="made").ends_life = True

    def turn_asm(self, statement: Assembler) -> None:
        """Assembler: reads and writes of its operands; what touches memory may do anything."""
        words = [word for _, word in [*statement.inputs, *statement.outputs]]
        self.state.note_addresses(words)
        self.state.build.use(
            variable for _, word in statement.inputs for variable in self.state.value(word).reads
        )
        self.state.flush_all()
        if statement.touches_memory:
            self.calls.call_unknown()
        for constraint, word in statement.outputs:
            start = len(self.state.procedure.steps)
            self.state.store(word, "", (), ())
            for step in self.state.procedure.steps[start:]:
                step.role = "made"
                step.weak = step.weak or step.kind == "set" and set(constraint) <= set("=+&mo ,")
        for name in statement.labels:
            self.state.build.add("fork", label=self.state.labels.get(label_name(name)), role="made")

    def turn_return(self, statement: Statement) -> None:
        """A return, with the result."""
        word = statement.words[0]
        if word != "NULL" and self.state.procedure.result:
            value = self.state.value(word)
            if value.exact is not self.state.procedure.result:
                self.state.build.role = "result"
                self.state.build.use(value.reads[1:])
                self.state.build.set(self.state.procedure.result, value.reads[:1])
        self.state.flush_all()
        self.state.build.add("return", role="jump")


# What turns a statement of each kind.
TURNS: dict[str, Callable[[Translator, Statement], None]] = {
    "assign": Translator.turn_assign,
    "asm": Translator.turn_asm,
    "return": Translator.turn_return,
    "call": lambda own, statement: own.calls.turn_call(statement),
    "cond": lambda own, statement: own.jumps.turn_cond(statement),
    "switch": lambda own, statement: own.jumps.turn_switch(statement),
    "goto": lambda own, statement: own.jumps.turn_goto(statement),
    "label": lambda own, statement: own.jumps.turn_label(statement),
}
