"""The macros of the sources: whether what stands at a macro's name may be written in its text."""

from __future__ import annotations

import re
from typing import TYPE_CHECKING

from .expressions import value_of

if TYPE_CHECKING:
    from .sources import Sources

DEFINED = re.compile(r"^[ \t]*#[ \t]*define[ \t]+([A-Za-z_$][\w$]*)((?:\\\r?\n|.)*)", re.MULTILINE)
DEEPEST = 8
NAME = re.compile(r"[A-Za-z_$][\w$]*")
COMPARING = ("<", ">", "=", "!")
# How gcc's operators may be written.
WRITTEN = {
    "+": ("+", "-"),
    "-": ("-", "+"),
    **dict.fromkeys(("<", ">", "<=", ">=", "==", "!="), COMPARING),
}


ENUMERATION = re.compile(r"\benum\b[^{};()]*\{([^{}]*)\}")
COMMENT = re.compile(r"/\*.*?\*/|//[^\n]*", re.DOTALL)


def enumerators_in(text: str) -> dict[str, int | None]:
    """The enumerators that a source defines, each with its value, None where it is not known."""
    found: dict[str, int | None] = {}
    for inside in ENUMERATION.findall(text):
        value: int | None = -1
        for entry in COMMENT.sub("", inside).split(","):
            name, equals, given = (part.strip() for part in entry.partition("="))
            known = value_of(given) if equals else value + 1 if value is not None else None
            is_plain = NAME.fullmatch(name) and isinstance(known, int)
            # behind a line of the preprocessor, or a macro's name, values are not known
            value = known if is_plain else None
            if name:
                found[name] = None if name in found else value
    return found


def macros_in(text: str) -> dict[str, str]:
    """The macros that a source defines, by name: what they stand for, of those with several
    definitions all of it.
    """
    found = {}
    for name, meaning in DEFINED.findall(text):
        found[name] = found.get(name, "") + " " + meaning
    return found


class Macros:
    """The macros that some source files define, as they are when somebody asks for one."""

    def __init__(self, sources: Sources, files: list[str]) -> None:
        self.sources = sources
        self.files = files

    def text_of(self, name: str) -> str:
        """What a macro stands for, other macros that it names too; '' where these files define none
        of the name.
        """
        texts, waiting = {}, [name]
        while waiting:
            name = waiting.pop()
            if name not in texts:
                texts[name] = "".join(
                    self.sources.get(file).macros().get(name, "") for file in self.files
                )
                waiting += NAME.findall(texts[name])
        return "".join(texts.values())

    def is_of_other(self, name: str, file: str) -> bool:
        """Whether another file than this one defines a macro of a name."""
        others = [other for other in self.files if other != file]
        return any(name in self.sources.get(other).macros() for other in others)

    def names_in(self, name: str) -> list[str]:
        """The names that a macro's text has, with those of other macros that it names."""
        return NAME.findall(self.text_of(name))

    def value_of(self, name: str) -> int | None:
        """The value of a macro or an enumerator, None where it is no plain number."""
        if name == "NULL":
            return 0
        for _ in range(DEEPEST):
            sources = [self.sources.get(file) for file in self.files]
            text = COMMENT.sub("", "".join(source.macros().get(name, "") for source in sources))
            if not text:
                values = {
                    source.enumerators()[name] for source in sources if name in source.enumerators()
                }
                return values.pop() if len(values) == 1 else None
            name = text.strip(" \t()")
            known = value_of(name)
            if known is not None or not NAME.fullmatch(name):
                return known if isinstance(known, int) else None
        return None

    def may_write(self, name: str, operator: str, is_element: bool) -> bool:
        """Whether a macro of this name has an operator in its text."""
        text = self.text_of(name)
        return any(
            sign in text for sign in (("[",) if is_element else WRITTEN.get(operator, (operator,)))
        )
