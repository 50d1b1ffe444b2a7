"""Reading gcc's dump `-fdump-tree-lower-raw-lineno-uid`: functions, what they declare, and their
statements.
"""

from __future__ import annotations

import functools
import re
import sys
from collections.abc import Callable, Iterator
from dataclasses import dataclass, field
from typing import NamedTuple

from . import operands
from .faults import Refusal

HEADER = re.compile(
    r"^;; Function (?P<name>\S+) \((?P<linkage>[^,\n]*), .*decl_uid=(?P<uid>\d+)", re.MULTILINE
)
FIRST_STATEMENT = re.compile(r"^(?: *(?:\[[^\[\]\"\n]*\] )?(?:gimple_|//)|\}$)", re.MULTILINE)
STATEMENT_PLACE = re.compile(
    r"^ *\[([^\[\]\"\n]*:\d+:\d+)(?: discrim \d+)?\] gimple_", re.MULTILINE
)
SWITCH = re.compile(r"^ *gimple_switch .*", re.MULTILINE)
# A text without them falls apart into words, in which alone there are declared names.
SIGNS = str.maketrans(dict.fromkeys("[]<>(),;:&+-={}\"/!|^%~?'\\", " "))
STATEMENT = re.compile(
    r"\s*(?:\[([^\[\]\"]*:\d+:\d+)(?: discrim \d+)?\] ?)?gimple_(\w+) <(.*)>([^>]*)$"
)
# Of statements that are written in one line, those that are read in another way, or not at all.
OTHERWISE = ("nop", "debug", "asm", "try")
CASE = re.compile(r"(?:default|case [^:]*): <([^>]*)>")
OPERAND_NAME = re.compile(r'(?:"\w+" )?"(?P<constraint>[^"]*)" (?P<operand>.*)$')
VALUES = {
    "assign": slice(1, None),
    "call": slice(1, None),
    "cond": slice(1, 3),
    "switch": slice(0, 1),
    "return": slice(0, 1),
    "goto": slice(0, 1),
}
NONE = slice(0, 0)
PLACED = re.compile(r"\]$|D\..*D\.|^\*|->", re.DOTALL)
STRUCT = re.compile(r"(?:const )?struct [\w$]+ [\w$]+D\.\d+$")
# What stands behind a declared name, and the bounds of arrays.
VALUE = re.compile(r" = | \[value-expr:")
BOUND = re.compile(r"\[[^\[\]]*\]")
BOUNDS_AT_END = re.compile(r"(\[[^\[\]]*\])+$")
PASSED_OVER = ("//", "#", "gimple_nop", "GIMPLE_NOP", "gimple_debug")


class Place(NamedTuple):
    """A place in a C source. The column counts bytes, from 1."""

    file: str
    line: int
    column: int

    def __str__(self) -> str:
        return f"{self.file}:{self.line}:{self.column}"


@dataclass(eq=False, slots=True)
class Statement:
    """A statement: its kind, its words as the dump has them but for places, and its own place, None
    where gcc made it.
    """

    kind: str
    words: tuple[str, ...]
    place: Place | None
    number: int
    file: str
    rest: str = ""


@dataclass(eq=False, slots=True)
class Assembler(Statement):
    """A statement of assembler: its operands with their constraints, and where it may jump to.

    outputs, inputs: pairs of a constraint and an operand. touches_memory: it may do more than its
    operands say.
    """

    outputs: list[tuple[str, str]] = field(default_factory=list)
    inputs: list[tuple[str, str]] = field(default_factory=list)
    labels: list[str] = field(default_factory=list)
    touches_memory: bool = False


@dataclass(eq=False)
class Try:
    """Statements, and others that run whenever the first ones are left."""

    body: list[Statement | Try]
    cleanup: list[Statement | Try]


@dataclass(eq=False)
class Function:
    """A function's dump: what it declares, by names as `xD.12`, and its statements, which are read
    when they are asked for.

    attributes: what stands before its heading. arrays: the locals that are arrays. structs: what is
    declared as a struct, of locals and parameters. text: the lines of its statements, of which the
    first has this `number` in the dump. known: the places of the dump. used: what `uses` answers,
    once that was asked for, and placed, those of its operands that are parts of something or behind
    a pointer.
    """

    name: str
    linkage: str
    uid: int
    file: str
    known: KnownPlaces
    attributes: str = ""
    parameters: list[str] = field(default_factory=list)
    locals: set[str] = field(default_factory=set)
    arrays: set[str] = field(default_factory=set)
    structs: set[str] = field(default_factory=set)
    statics: list[str] = field(default_factory=list)
    text: str = ""
    number: int = 1
    named: tuple[str, ...] | None = None
    used: tuple[tuple[tuple[str, bool], ...], tuple[str, Place | None] | None] | None = None
    placed: tuple[str, ...] = ()

    @functools.cached_property
    def contents(self) -> tuple[list[Statement | Try], list[Statement], Refusal | None]:
        """Its statements, as they stand and one behind the other, and why they can't be read, or
        None.
        """
        try:
            reader = Reader(self)
            return reader.block("}"), reader.statements, None
        except Refusal as refusal:
            return [], [], refusal
        except (ValueError, IndexError):
            told = f"'{self.name}' has a dump that is not written as expected"
            return [], [], Refusal(told, self.file)

    @property
    def body(self) -> list[Statement | Try]:
        """Its statements."""
        return self.contents[0]

    @property
    def statements(self) -> list[Statement]:
        """All of its statements, those of cleanups too."""
        return self.contents[1]

    @property
    def fault(self) -> Refusal | None:
        """Why its statements can't be read, or None."""
        return self.contents[2]

    @functools.cached_property
    def own(self) -> frozenset[str]:
        """The names of its parameters and locals."""
        return frozenset(self.locals.union(self.parameters))

    def names(self) -> tuple[str, ...]:
        """The declared names in its statements that are none of its locals, callees and fields too;
        its statements need not be read.
        """
        if self.named is None:
            words = [
                word for word in dict.fromkeys(self.text.translate(SIGNS).split()) if "D." in word
            ]
            self.named = tuple(
                name
                for name in dict.fromkeys(name for word in words for name in declared_in(word))
                if name not in self.own
            )
        return self.named

    def places(self) -> set[str]:
        """The places of its statements, as the dump has them; its statements need not be read."""
        found = set(STATEMENT_PLACE.findall(self.text))
        if "gimple_switch" in self.text:
            for switch in SWITCH.findall(self.text):
                found.update(":".join(place) for place in operands.PLACE.findall(switch))
        return found

    def uses(
        self,
    ) -> tuple[tuple[tuple[str, bool], ...], tuple[str, Place | None] | None]:
        """The names that its operands have, each with whether its address is taken there, and the
        operand that is not known, if any, with its place.
        """
        if self.used is None and not self.fault:
            found: dict[tuple[str, bool], None] = {}
            unknown = None
            words = {
                word: statement.place
                for statement in self.statements
                for word in words_of(statement)
            }
            self.placed = tuple(word for word in words if PLACED.search(word))
            for word, place in words.items():
                named = operands.names_in(word)
                if named is None:
                    unknown = word, place
                    continue
                for pair in named:
                    found[pair] = None
            self.used = tuple(found), unknown
        return self.used or ((), None)

    def size(self) -> int:
        """How many statements it has, about."""
        return self.text.count("gimple_") + 1

    @property
    def is_nested(self) -> bool:
        """Whether it stands in another function."""
        return "." in self.linkage

    @property
    def is_noreturn(self) -> bool:
        """Whether it never comes back."""
        return "noreturn" in self.attributes

    @property
    def is_kept(self) -> bool:
        """Whether something that gcc doesn't see may call it."""
        return bool(re.search(r"\b(?:__)?used\b", self.attributes))


class Reader:
    """A reader of a function's statements."""

    def __init__(self, function: Function) -> None:
        self.file = function.file
        self.lines = function.text.split("\n")
        self.number = function.number
        self.at = 0
        self.known = function.known
        self.last_place: Place | None = None
        self.statements: list[Statement] = []

    def next_line(self) -> str:
        """The next line, which has to be there."""
        if self.at >= len(self.lines):
            raise Refusal("the dump ends within a function", self.last_place or self.file)
        self.at += 1
        return self.lines[self.at - 1]

    def block(self, closing: str) -> list[Statement | Try]:
        """The statements up to this closing line."""
        found: list[Statement | Try] = []
        lines, match = self.lines, STATEMENT.match
        while self.at < len(lines):
            line = lines[self.at]
            self.at += 1
            parts = match(line)
            if parts and not parts[2].startswith(OTHERWISE):
                statement = self.statement(line, *parts.groups())
                self.statements.append(statement)
                found.append(statement)
                continue
            line = line.strip()
            if line == closing:
                return found
            self.take_other(line, found)
        raise Refusal("the dump ends within a function", self.last_place or self.file)

    def take_other(self, line: str, found: list[Statement | Try]) -> None:
        """Takes in what is not written as most statements are."""
        place, line = self.placed(line)
        self.last_place = place or self.last_place
        if line.startswith("gimple_try <"):
            found.append(self.try_block(line))
        elif line.startswith("gimple_asm"):
            statement = self.assembler(place)
            self.statements.append(statement)
            found.append(statement)
        elif line and not line.startswith(PASSED_OVER):
            told = f"a statement that is not known: {line[:60]}"
            raise Refusal(told, place or self.last_place)

    def try_block(self, line: str) -> Try:
        """A try with its cleanup, the first line passed."""
        if "GIMPLE_TRY_FINALLY" not in line:
            raise Refusal(f"{line.split('<')[1].rstrip(',')} can't be turned", self.last_place)
        self.pass_line("EVAL <")
        body = self.block(">")
        self.pass_line("CLEANUP <")
        cleanup = self.block(">")
        self.pass_line(">")
        return Try(body, cleanup)

    def placed(self, line: str) -> tuple[Place | None, str]:
        """The place that a line begins with, or None, and the line without it."""
        found = operands.PLACE.match(line)
        if not found:
            return None, line
        return self.known.place(":".join(found.groups())), line[found.end() :]

    def first_place(self, line: str) -> Place | None:
        """The first place that a line names: a switch of which gcc tells none is placed at its
        first case.
        """
        places = [self.placed(found.group())[0] for found in operands.PLACE.finditer(line)]
        return min(filter(None, places), key=lambda place: (place.line, place.column), default=None)

    def pass_line(self, wanted: str) -> None:
        """Passes a line that has to be there."""
        line = self.next_line().strip()
        if line != wanted:
            raise Refusal(
                f"a dump in which '{line}' stands where '{wanted}' should", self.last_place
            )

    def statement(
        self, line: str, place_text: str | None, kind: str, inside: str, rest: str
    ) -> Statement:
        """A statement of one line."""
        place = self.known.place(place_text) if place_text else None
        if place is not None:
            self.last_place = place
        elif kind == "switch":
            place = self.first_place(line)
        # most words stand in many statements: one of each is kept
        words = tuple(map(sys.intern, operands.split_words(operands.without_places(inside))))
        return Statement(sys.intern(kind), words, place, self.number + self.at, self.file, rest)

    def assembler(self, place: Place | None) -> Assembler:
        """A statement of assembler, its first line passed."""
        found = Assembler("asm", (), place, self.number + self.at, self.file)
        opening = self.next_line()
        if opening.strip() != "STRING <":
            raise Refusal("assembler that is not written as expected", place or self.last_place)
        closing = opening.replace("STRING <", ">")
        while self.next_line() != closing:
            pass
        line = self.next_line().strip()
        is_bare = line == ">"
        while line != ">":
            self.take_operands(found, line)
            line = self.next_line().strip()
        found.touches_memory = found.touches_memory or is_bare
        return found

    @staticmethod
    def take_operands(statement: Assembler, line: str) -> None:
        """Takes in a line of operands of a statement of assembler."""
        kind, rest = line.split(": ", 1)
        if kind == "CLOBBER":
            statement.touches_memory = '"memory"' in rest
            return
        for word in operands.split_words(operands.without_places(rest)):
            named = OPERAND_NAME.match(word)
            if kind == "LABEL":
                statement.labels.append(word.split()[-1])
            elif kind in ("INPUT", "OUTPUT") and named:
                target = statement.inputs if kind == "INPUT" else statement.outputs
                target.append((named["constraint"], named["operand"]))
            else:
                raise Refusal("assembler that is not written as expected", statement.place)


class KnownPlaces:
    """The places of a dump, each read once.

    shown: what a file of the dump's is called in places. files: those of the places.
    """

    def __init__(self, shown: Callable[[str], str]) -> None:
        self.shown = functools.cache(shown)
        self.known: dict[str, Place | None] = {}
        self.files: set[str] = set()

    def place(self, text: str) -> Place | None:
        """The place of a text as `file:line:column`, None where gcc made the statement."""
        if text not in self.known:
            file, line, column = text.rsplit(":", 2)
            is_made = file == "<built-in>" or line == "0"
            self.known[text] = None if is_made else self.new(file, line, column)
        return self.known[text]

    def new(self, file: str, line: str, column: str) -> Place:
        """A place by its parts as the dump has them."""
        name = self.shown(file)
        self.files.add(name)
        return Place(name, int(line), int(column))


@functools.lru_cache(maxsize=1 << 16)
def declared_in(word: str) -> tuple[str, ...]:
    """The declared names in a word without signs."""
    return tuple(operands.DECLARED_FIRST.findall(word))


def closing_bracket(text: str) -> int:
    """The place of the bracket that closes the text's first one."""
    depth = 0
    for at, sign in enumerate(text):
        depth += (sign == "(") - (sign == ")")
        if depth == 0:
            return at
    return len(text)


def take_parameters(function: Function, heading: str, name: str) -> None:
    """Takes in the parameters in a function's heading, in order."""
    inside = heading[heading.index(name) + len(name) :].strip()
    for word in operands.split_words(inside[1 : closing_bracket(inside)]):
        declared = operands.DECLARED_FIRST.findall(word)
        if declared:
            function.parameters.append(declared[-1])
            if is_struct(word):
                function.structs.add(declared[-1])


def is_struct(declaration: str) -> bool:
    """Whether a declaration without brackets is one of a struct by name."""
    return bool(STRUCT.match(declaration))


def declare(function: Function, text: str) -> None:
    """Takes in one declaration."""
    plain = VALUE.split(text.rstrip(";"), maxsplit=1)[0]
    is_array = plain.endswith("]")
    if "[" in plain:
        plain = BOUND.sub("", BOUNDS_AT_END.sub("", plain))
    declared = operands.DECLARED_FIRST.findall(plain)
    if not declared:
        return
    if plain.startswith("static "):
        function.statics.append(declared[-1])
    elif not plain.startswith("extern ") and "[value-expr:" not in text:
        function.locals.add(declared[-1])
        if is_array:
            function.arrays.add(declared[-1])
        elif is_struct(plain):
            function.structs.add(declared[-1])


def cases_of(statement: Statement) -> list[str]:
    """The labels of a switch, the default first."""
    return CASE.findall(", ".join(statement.words[1:]))


def read(text: str, file: str, shown: Callable[[str], str]) -> list[Function]:
    """The functions of a dump."""
    known = KnownPlaces(shown)
    starts = [found.start() for found in HEADER.finditer(text)]
    found, number = [], 1
    for start, end in zip(starts, [*starts[1:], len(text)]):
        part = text[start:end]
        found.append(function_in(part, number, file, known))
        number += part.count("\n")
    return found


def function_in(text: str, number: int, file: str, known: KnownPlaces) -> Function:
    """The function of a part of a dump, whose first line has this number."""
    header = HEADER.match(text)
    function = Function(header["name"], header["linkage"], int(header["uid"]), file, known)
    heading, _, inside = text[text.index("\n") :].partition("\n{\n")
    heading = heading.replace("\n", " ")
    name = f"{function.name}D.{function.uid}"
    if name not in heading:
        raise Refusal(
            "no raw dump with numbers; run gcc with -fdump-tree-lower-raw-lineno-uid", file
        )
    function.attributes = heading.split(name)[0]
    take_parameters(function, heading, name)
    first = FIRST_STATEMENT.search(inside)
    if first:
        take_declarations(function, inside[: first.start()])
        function.text = inside[first.start() :]
        function.number = number + text[: len(text) - len(function.text)].count("\n")
    return function


def take_declarations(function: Function, text: str) -> None:
    """Takes in a function's declarations."""
    depth = 0
    declaration = ""
    for line in text.split("\n"):
        line = line.strip()
        declaration += " " + line
        depth += line.count("{") - line.count("}")
        if depth == 0 and line.endswith(";"):
            declare(function, declaration.strip())
            declaration = ""


def words_of(statement: Statement) -> tuple[str, ...]:
    """The operands of a statement, without the function that it calls."""
    if isinstance(statement, Assembler):
        return tuple(word for _, word in [*statement.outputs, *statement.inputs])
    words = statement.words[VALUES.get(statement.kind, NONE)]
    if statement.rest and "[static-chain:" in statement.rest:
        words += (statement.rest.split("[static-chain:")[1].rstrip("] "),)
    return tuple(word for word in words if word != "NULL") if "NULL" in words else words


def statements_in(body: list[Statement | Try]) -> Iterator[Statement]:
    """All statements of a body, those of cleanups too."""
    for item in body:
        if isinstance(item, Try):
            yield from statements_in(item.body)
            yield from statements_in(item.cleanup)
        else:
            yield item
