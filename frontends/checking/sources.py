"""The text of C sources: what stands at a place, how an expression is written there, and which
remarks a comment silences.
"""

from __future__ import annotations

import re
from collections.abc import Iterable
from typing import TYPE_CHECKING

from .expressions import BEFORE, NO_VALUE, Operand, canonical, written_at
from .macros import COMMENT, NAME, Macros, enumerators_in, macros_in
from .silencing import is_silenced

if TYPE_CHECKING:
    from .remark import Note, Remark

UNUSED = (
    r"__attribute__\s*\(\([^;]*\b(?:__)?unused(?:__)?\b|\[\[[^;]*\bunused\]\]"
    r"|\bmaybe_unused\]\]|\b[A-Z_]*UNUSED[A-Z_]*\b"
)
# A function's name in a declaration or a definition, as most write one: behind words of its type, or
# where its line begins.
DECLARED = re.compile(
    r"^(?:[ \t]*(?!(?:return|else|case|goto)\b)[A-Za-z_][\w \t*]*[ \t*])?([A-Za-z_]\w*)[ \t]*\(",
    re.MULTILINE,
)


def text_of(path: str) -> str | None:
    """The text of a file, None where it can't be read."""
    try:
        with open(path, encoding="utf-8", errors="surrogateescape") as file:
            return file.read()
    except OSError:
        return None


def behind(line: str, column: int) -> str:
    """What a line has from a column on, which counts bytes."""
    text = line.encode("utf-8", "surrogateescape")
    return text[column - 1 :].decode("utf-8", "replace")


class Source:
    """One source file's lines; none where there is no text of it."""

    def __init__(self, text: str | None) -> None:
        self.lines = [] if text is None else text.split("\n")
        self.defined: dict[str, str] | None = None
        self.enumerated: dict[str, int | None] | None = None

    def line(self, number: int) -> str:
        """The text of a line, '' where there is none."""
        return self.lines[number - 1] if 0 < number <= len(self.lines) else ""

    def behind(self, line: int, column: int) -> str:
        """What a line has from a column on, which counts bytes."""
        return behind(self.line(line), column)

    def is_silenced(self, kind: str, line: int) -> bool:
        """Whether a comment on a line, or on one of its own before it, silences remarks of a kind
        there.
        """
        return is_silenced(kind, self.line(line), self.line(line - 1))

    def is_marked_unused(self, name: str, first: int, last: int) -> bool:
        """Whether lines declare a variable of this name as one that need not be used."""
        word = re.compile(rf"\b{re.escape(name)}\b")
        return any(
            word.search(text) and re.search(UNUSED, text)
            for text in self.lines[max(first - 1, 0) : last]
        )

    def declared(self) -> set[str]:
        """The functions that it declares, and some names more."""
        return set(DECLARED.findall(COMMENT.sub("", "\n".join(self.lines))))

    def macros(self) -> dict[str, str]:
        """The macros that it defines, by name."""
        if self.defined is None:
            self.defined = macros_in("\n".join(self.lines))
        return self.defined

    def enumerators(self) -> dict[str, int | None]:
        """The values of its enumerators, None of those that are not known."""
        if self.enumerated is None:
            self.enumerated = enumerators_in("\n".join(self.lines))
        return self.enumerated

    def expression_at(
        self,
        line: int,
        column: int,
        operator: str,
        operands: list[Operand],
        is_element: bool,
        macros: Macros,
        variables: frozenset[str],
    ) -> str:
        """How an expression is written at a place, '' where it is not there.

        macros: those of the sources, not of the system. variables: the names that are no constants.
        """

        def meaning(name: str) -> float | None:
            if name in variables or not variables.isdisjoint(macros.names_in(name)):
                return NO_VALUE
            return macros.value_of(name)

        above = "".join(self.line(number) + "\n" for number in range(line - 1, line))
        below = "\n".join(self.line(number) for number in range(line, line + 3))
        behind = self.behind(line, column)
        at = len(above) + len(self.line(line)) - len(behind)
        shown = written_at(above + below, at, operator, operands, is_element, meaning)
        if shown:
            return shown
        # a macro's expressions stand at its name
        name = NAME.match(behind)
        is_written = not self.lines or name and macros.may_write(name.group(), operator, is_element)
        return canonical(operator, operands, is_element) if is_written else ""

    def use_at(self, line: int, name: str) -> str:
        """How a variable, or the part of it that is meant, is named on a line."""
        text = self.line(line)
        found = {
            re.sub(r"\s", "", part)
            for part in re.findall(
                rf"{BEFORE}{re.escape(name)}((?:\s*\.\s*[A-Za-z_]\w*|\[\w+\])*)", text
            )
        }
        return name + found.pop() if len(found) == 1 else name


class Sources:
    """All source files that are asked for.

    texts: the texts that there are, by the files' names; None where they are to be read.
    """

    def __init__(self, texts: dict[str, str | None] | None = None) -> None:
        self.texts = texts
        self.known: dict[str, Source] = {}

    def get(self, file: str) -> Source:
        """A source file by its name."""
        if file not in self.known:
            text = text_of(file) if self.texts is None else self.texts.get(file)
            self.known[file] = Source(text)
        return self.known[file]


class Lines:
    """The lines of sources that remarks stand on, by file and number."""

    def __init__(self) -> None:
        self.known: dict[tuple[str, int], str] = {}

    def take(self, sources: Sources, remarks: Iterable[Remark]) -> None:
        """Takes in the lines of remarks and of their notes."""
        for remark in remarks:
            places: list[Remark | Note] = [remark, *remark.notes]
            for at in places:
                if (at.file, at.line) not in self.known:
                    self.known[at.file, at.line] = sources.get(at.file).line(at.line)

    def line(self, at: Remark | Note) -> str:
        """The line that a remark or a note stands on, '' where there is none."""
        return self.known.get((at.file, at.line), "")

    def before(self, at: Remark | Note) -> str:
        """What its line has before its place."""
        line = self.line(at)
        return line[: len(line) - len(behind(line, at.column))]
