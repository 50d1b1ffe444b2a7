"""All files together: which variable or function a name of a dump stands for, and what pointers may
lead to.
"""

from __future__ import annotations

import re
from collections import Counter
from dataclasses import dataclass, field
from typing import TYPE_CHECKING

from . import library, operands
from .code import Procedure, Variable
from .faults import Refusal

if TYPE_CHECKING:
    from .dump import Function
    from .symbols import Symbols

NO_NAME = re.compile(r"[^A-Za-z0-9_]")
ARTIFICIAL = re.compile(r"^$|\.|^<|^__(?:PRETTY_)?(?:func|FUNCTION)__$")


@dataclass(eq=False)
class Callee:
    """A function that is named: its procedure where it has a body here.

    is_foreign: its body is known, but left to other programs.
    """

    name: str
    procedure: Procedure | None = None
    is_replaceable: bool = False
    is_endless: bool = False
    is_foreign: bool = False


@dataclass(eq=False)
class File:
    """A file's dumps: its functions, and what is known beside."""

    name: str
    functions: list[Function]
    symbols: Symbols
    statics: dict[int, Variable] = field(default_factory=dict)
    by_uid: dict[int, Procedure] = field(default_factory=dict)
    by_name: dict[str, Procedure] = field(default_factory=dict)
    outside: set[int] = field(default_factory=set)
    naming: dict[str, int] | None = None

    def named_outside(self) -> list[str]:
        """The names that functions have which are taken as other code."""
        if not self.outside:
            return []
        inside = Counter(
            name
            for function in self.functions
            if function.uid not in self.outside
            for name in function.names()
        )
        return [name for name, count in self.functions_naming().items() if count > inside[name]]

    def functions_naming(self) -> dict[str, int]:
        """For each name of a function, or of a variable that lives between calls, how many
        functions have it.
        """
        if self.naming is None:
            own = {function.uid for function in self.functions}
            own.update(
                operands.split_declared(name)[1]
                for function in self.functions
                for name in function.statics
            )
            counts = Counter(name for function in self.functions for name in function.names())
            parts = {name: operands.split_declared(name) for name in counts}
            self.naming = {
                name: count
                for name, count in counts.items()
                if parts[name][1] in own or parts[name][0] in self.symbols.by_name
            }
        return self.naming


class World:
    """The variables and functions of all files.

    is_whole: no other file names them but the C library's. outside: functions of these files that
    are taken as other code.
    """

    def __init__(
        self, files: list[File], is_whole: bool, outside: frozenset[Function] = frozenset()
    ) -> None:
        self.files = files
        self.is_whole = is_whole
        self.outside = outside
        self.globals: dict[str | tuple[File, str], Variable] = {}
        self.locals: dict[tuple[Procedure, str], Variable] = {}
        self.procedures: dict[tuple[File, int], Procedure] = {}
        self.public: dict[str, Procedure] = {}
        self.callees: dict[tuple[File, str], Callee] = {}
        self.addressed_procedures: dict[Procedure, None] = {}
        self.visible: dict[Procedure, None] = {}
        self.own_starts: dict[Procedure, None] = {}
        self.defined_here = {
            symbol.linkage
            for file in files
            for symbol in file.symbols.by_name.values()
            if symbol.is_public and symbol.is_defined
        }
        for file in files:
            file.statics, file.by_uid, file.by_name, file.outside = {}, {}, {}, set()
            for function in file.functions:
                self.take_function(file, function)
        for file in files:
            self.take_symbols(file)

    def take_function(self, file: File, function: Function) -> None:
        """Takes in a function and the statics in it."""
        is_outside = function in self.outside
        if is_outside:
            file.outside.add(function.uid)
            if not function.statics:
                return
        procedure = Procedure(function.name, function.name, function)
        for name in function.statics:
            source, uid = operands.split_declared(name)
            file.statics[uid] = self.new_static(file, procedure, name, source)
        if is_outside:
            return
        self.procedures[file, function.uid] = procedure
        file.by_uid[function.uid] = procedure
        if function.is_nested:
            return
        file.by_name[function.name] = procedure
        symbol = file.symbols.by_name.get(function.name)
        if symbol and symbol.is_public:
            if symbol.linkage in self.public:
                raise Refusal(
                    f"{function.name} has a body here, "
                    f"and in {self.public[symbol.linkage].function.file} too",
                    file.name,
                )
            self.public[symbol.linkage] = procedure

    def new_static(self, file: File, procedure: Procedure, name: str, source: str) -> Variable:
        """The variable of a static in a function."""
        variable = Variable(
            f"{procedure.source}__{source or 'static'}", "" if ARTIFICIAL.search(source) else source
        )
        variable.home = procedure
        variable.is_addressed = source in file.symbols.addressed
        self.globals[file, name] = variable
        return variable

    def take_symbols(self, file: File) -> None:
        """Marks what the symbol table knows: who is called from outside, who runs by itself, whose
        address is taken.
        """
        for symbol in file.symbols.by_name.values():
            procedure = self.defined(file, symbol.name) if symbol.is_function else None
            if procedure is None:
                continue
            if symbol.is_addressed or symbol.section or procedure.function.is_kept:
                self.addressed_procedures[procedure] = None
            if symbol.is_public and not self.is_whole:
                self.visible[procedure] = None
            if symbol.runs_alone:
                self.own_starts[procedure] = None

    def defined(self, file: File, name: str) -> Procedure | None:
        """The procedure of a function of a file's own level, or None."""
        symbol = file.symbols.by_name.get(name)
        if symbol and symbol.alias_of:
            return self.defined(file, symbol.alias_of)
        if symbol and symbol.is_public and symbol.linkage in self.public:
            return self.public[symbol.linkage]
        return file.by_name.get(name) or (self.public.get(name) if symbol is None else None)

    def callee(self, file: File, declared: str) -> Callee:
        """The function that a declared name stands for."""
        key = file, declared
        if key not in self.callees:
            self.callees[key] = self.find_callee(file, declared)
        return self.callees[key]

    def find_callee(self, file: File, declared: str) -> Callee:
        """The same where it was not asked for before."""
        source, uid = operands.split_declared(declared)
        procedure = file.by_uid.get(uid)
        is_nested = bool(procedure and procedure.function.is_nested)
        symbol = None if is_nested else file.symbols.by_name.get(source)
        if procedure is None and uid not in file.outside:
            procedure = self.defined(file, source)
        endless = uid in file.symbols.endless or bool(
            procedure and procedure.function.is_noreturn
        )
        name = symbol.linkage if symbol and not source.startswith("__builtin_") else source
        is_foreign = procedure is None and (
            uid in file.outside or bool(symbol and symbol.linkage in self.defined_here)
        )
        return Callee(
            name,
            procedure,
            bool(symbol and symbol.is_weak and not self.is_whole),
            endless,
            is_foreign,
        )

    def without_body(self) -> set[str]:
        """The functions that were asked for and have no body here, but for those that are known of
        the C library, and weak ones, which need none.
        """
        found: set[str] = set()
        for (file, declared), callee in self.callees.items():
            source = operands.split_declared(declared)[0]
            symbol = file.symbols.by_name.get(source)
            is_here = callee.procedure is not None or callee.is_foreign
            if not is_here and not (symbol and symbol.is_weak):
                found |= {source} if library.behaviour(callee.name) == "unknown" else set()
        return found

    def is_function(self, file: File, declared: str) -> bool:
        """Whether a declared name that is no variable of the function at hand is a function."""
        source, uid = operands.split_declared(declared)
        if uid in file.by_uid or uid in file.outside:
            return True
        symbol = file.symbols.by_name.get(source)
        return bool(symbol and symbol.is_function and uid not in file.statics)

    def variable(self, file: File, procedure: Procedure, declared: str) -> Variable | None:
        """The variable of a declared name in a procedure, or None where it is volatile and may not
        be followed.
        """
        named = procedure.named
        if declared not in named:
            named[declared] = self.find_variable(file, procedure, declared)
        return named[declared]

    def find_variable(self, file: File, procedure: Procedure, declared: str) -> Variable | None:
        """The same where it was not asked for before."""
        if declared in file.symbols.volatile:
            return None
        if declared == "<retval>" or self.is_local(procedure, declared):
            return self.local(procedure, declared)
        source, uid = operands.split_declared(declared)
        if uid in file.statics:
            return file.statics[uid]
        if ARTIFICIAL.search(source):
            key = (file, declared)
            return self.globals.setdefault(key, Variable("made", home=file.name))
        return self.file_variable(file, source)

    @staticmethod
    def is_local(procedure: Procedure, declared: str) -> bool:
        """Whether a declared name is a parameter or local of the procedure."""
        return declared in procedure.function.own

    def local(self, procedure: Procedure, declared: str) -> Variable:
        """The variable of a parameter or local."""
        key = (procedure, declared)
        if key not in self.locals:
            source = "" if declared == "<retval>" else operands.split_declared(declared)[0]
            wish = f"{procedure.wish}__{NO_NAME.sub('_', source) or 'value'}"
            variable = Variable(wish, "" if ARTIFICIAL.search(source) else source, procedure)
            variable.is_parameter = declared in procedure.function.parameters
            variable.is_array = declared in procedure.function.arrays
            self.locals[key] = variable
        return self.locals[key]

    def file_variable(self, file: File, source: str) -> Variable:
        """The variable of a name of the file's own level."""
        symbol = file.symbols.by_name.get(source)
        if symbol and symbol.alias_of:
            return self.file_variable(file, symbol.alias_of)
        is_public = symbol is None or symbol.is_public
        key = symbol.linkage if symbol else source
        key = key if is_public else (file, source)
        if key not in self.globals:
            self.globals[key] = Variable(source, source, home=None if is_public else file.name)
        variable = self.globals[key]
        if source in file.symbols.addressed:
            variable.is_addressed = True
        if is_public and not (self.is_whole and key in self.defined_here):
            variable.is_addressed = True
        return variable

    def variables_of(self, file: File) -> list[Variable]:
        """All variables that a file's own level or its functions keep between calls."""
        named = [
            self.file_variable(file, symbol.name)
            for symbol in file.symbols.by_name.values()
            if not symbol.is_function
        ]
        made = [
            variable
            for key, variable in self.globals.items()
            if isinstance(key, tuple) and key[0] is file
        ]
        return list(dict.fromkeys([*named, *file.statics.values(), *made]))

    def procedures_of(self, file: File) -> list[Procedure]:
        """All functions with a body here that a file's code may call."""
        named = [
            self.defined(file, symbol.name)
            for symbol in file.symbols.by_name.values()
            if symbol.is_function
        ]
        return list(
            dict.fromkeys([procedure for procedure in [*named, *file.by_uid.values()] if procedure])
        )

    def reached_by_pointers(self) -> list[Variable]:
        """The variables that a pointer may lead to, or that other files may name."""
        found = [*self.globals.values(), *self.locals.values()]
        return [variable for variable in found if variable.is_addressed]

    def take_addresses(self) -> None:
        """Marks each variable and function whose address the statements take."""
        for file in self.files:
            for name in file.named_outside():
                self.take_outside_name(file, name)
            taken: set[tuple[str, bool]] = set()
            for function in file.functions:
                procedure = file.by_uid.get(function.uid)
                if procedure is None:
                    continue  # its names were taken
                if function.fault:
                    self.take_all(file)
                else:
                    self.take_uses(file, procedure, taken)
        if any(file.symbols.starts_by_table for file in self.files):
            self.own_starts.update(self.addressed_procedures)

    def take_uses(self, file: File, procedure: Procedure, taken: set[tuple[str, bool]]) -> None:
        """Marks what a function's statements take the address of.

        taken: the names that are no function's own, of those that were marked for this file.
        """
        names, unknown = procedure.function.uses()
        own = procedure.function.own
        for pair in names:
            if pair[0] in own or pair not in taken:
                self.take_name(file, procedure, *pair)
        taken.update(pair for pair in names if pair[0] not in own)
        if unknown:
            procedure.refusal = Refusal(
                f"an operand that is not known: {unknown[0]}",
                unknown[1] or function_place(file, procedure),
            )
            self.take_all(file)

    def take_name(self, file: File, procedure: Procedure, name: str, is_address: bool) -> None:
        """Marks a name that an operand has."""
        is_own = self.is_local(procedure, name)
        if not is_own and self.is_function(file, name):
            found = self.callee(file, name).procedure
            if found:
                self.addressed_procedures[found] = None
            return
        variable = self.variable(file, procedure, name)
        if is_address and variable:
            variable.is_addressed = True

    def take_all(self, file: File) -> None:
        """Marks all that a file has, since some function of it can't be read."""
        for variable in self.variables_of(file):
            variable.is_addressed = True
        self.addressed_procedures.update(dict.fromkeys(self.procedures_of(file)))

    def take_outside_name(self, file: File, name: str) -> None:
        """Marks a name that a function of other code has, none of its locals."""
        source, uid = operands.split_declared(name)
        if self.is_function(file, name):
            found = self.callee(file, name).procedure
            if found:
                self.visible[found] = None
        elif uid in file.statics:
            file.statics[uid].is_addressed = True
        elif source in file.symbols.by_name and name not in file.symbols.volatile:
            self.file_variable(file, source).is_addressed = True


def function_place(file: File, procedure: Procedure) -> str:
    """What a message names where a statement has no place."""
    return f"{file.name}: in {procedure.source}"
