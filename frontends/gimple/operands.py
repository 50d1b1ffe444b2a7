"""The operands of gcc's raw dumps: splitting a statement's words, and what an operand reads, writes
or points to.
"""

import functools
import re
from dataclasses import dataclass

PLACE = re.compile(r"\[([^\[\]\"]*):(\d+):(\d+)(?: discrim \d+)?\] ?")
STRING = re.compile(r'[uUL8]{0,2}"(?:\\.|[^"\\])*"')
DECLARED = r"(?:(?:\*\.)?[\w$]+?(?:\.[\w$]+?)*?)??D\.\d+(?!\w)"
TEMPORARY = r"(?:[A-Za-z_$][\w$]*(?:\.\d+)?)?_\d+(?:\(D\))?(?![\w.$])"
DECLARED_FIRST = re.compile(DECLARED)
TEMPORARY_NAME = re.compile(TEMPORARY)
PIECE = re.compile(
    rf"(?P<name>{DECLARED}|{TEMPORARY}|<retval>)|(?P<word>[A-Za-z_$][\w$.]*)|(?P<arrow>->)"
    r"|(?P<number>[-+]?\d+(?:\.\d+)?(?:[eE][-+]\d+)?\w*)|(?P<sign>\S)"
)
# A number, or a name with fields behind it, behind a pointer or with its address taken.
COMMON = re.compile(
    rf"(?:(-?\d+)|([&*]?)({DECLARED}|{TEMPORARY}|<retval>)((?:->{DECLARED})?(?:\.{DECLARED})*))$"
)
MARK = re.compile(rf"{STRING.pattern}|->|[<>()\[\]{{}},]")
OPENING = {"<": ">", "(": ")", "[": "]", "{": "}"}
# Words without strings, and without brackets but those of labels: each comma is of the outermost
# level.
FLAT = re.compile(r'[^<(\[{"]*(?:<[\w.$]+>[^<(\[{"]*)*$')


def without_places(text: str) -> str:
    """The text with gcc's [file:line:column] marks taken out, strings left alone."""
    if "[" not in text:
        return text
    if '"' not in text:
        return PLACE.sub("", text)
    parts = []
    at = 0
    for string in STRING.finditer(text):
        parts.append(PLACE.sub("", text[at : string.start()]))
        parts.append(string.group())
        at = string.end()
    parts.append(PLACE.sub("", text[at:]))
    return "".join(parts)


def split_words(text: str) -> list[str]:
    """The words between the commas of the outermost level."""
    if FLAT.match(text):
        return [word.strip() for word in text.split(",")] if "  " in text else text.split(", ")
    words = []
    depth = start = 0
    for found in MARK.finditer(text):
        mark = found.group()
        if mark in "<([{":
            depth += 1
        elif mark in ">)]}":
            depth -= 1
        elif mark == "," and depth == 0:
            words.append(text[start : found.start()].strip())
            start = found.end()
    words.append(text[start:].strip())
    return words


@functools.lru_cache(maxsize=1 << 16)
def is_declared(text: str) -> bool:
    """Whether a text is one declared name, as `xD.12`, and no field of one."""
    found = DECLARED_FIRST.match(text)
    return bool(found) and found.end() == len(text)


@functools.lru_cache(maxsize=1 << 16)
def is_temporary(text: str) -> bool:
    """Whether a text is a temporary of gcc's, as `_12`."""
    return bool(TEMPORARY_NAME.fullmatch(text))


@functools.lru_cache(maxsize=1 << 16)
def split_declared(name: str) -> tuple[str, int]:
    """A dump's `xD.12` as the source's name, empty where gcc made it, and the number 12."""
    source, number = name.rsplit("D.", 1)
    return source, int(number)


@dataclass(slots=True)
class Reference:
    """What an operand stands for.

    base: the name of the variable that is read or written, in whole or in part; None behind a
    pointer and for constants. is_whole: whether that is the whole variable. is_memory: whether it
    is read or written through a pointer. is_address: whether it is an address, so that `base` is
    not read. reads: names read to find the place. index: the name or number in `base[index]`, where
    the operand is just that. constant: the text of a constant.
    """

    base: str | None = None
    is_whole: bool = True
    is_memory: bool = False
    is_address: bool = False
    reads: tuple[str, ...] = ()
    addressed: tuple[str, ...] = ()
    index: str | None = None
    constant: str | None = None


class Parser:
    """A parser of one operand. `parse` answers a Reference, or None where the form is not known."""

    def __init__(self, text: str) -> None:
        self.pieces = [(piece.lastgroup, piece.group()) for piece in PIECE.finditer(text)]
        self.at = 0

    def next_is(self, sign: str) -> bool:
        """Whether the next piece is this sign, which is then passed."""
        if self.at < len(self.pieces) and self.pieces[self.at][1] == sign:
            self.at += 1
            return True
        return False

    def expect(self, sign: str) -> None:
        """Passes the sign, or gives up."""
        if not self.next_is(sign):
            raise ValueError(sign)

    def parse(self) -> Reference | None:
        """The whole operand."""
        try:
            reference = self.place()
            return reference if self.at == len(self.pieces) else None
        except (ValueError, IndexError):
            return None

    def place(self) -> Reference:
        """A place with the fields and indices behind it."""
        reference = self.beginning()
        while self.at < len(self.pieces):
            if self.next_is("."):
                self.at += 1
                self.make_part(reference)
            elif self.next_is("->"):
                self.at += 1
                reference = self.behind(reference)
            elif self.next_is("["):
                self.take_index(reference)
            else:
                break
        return reference

    @staticmethod
    def make_part(reference: Reference) -> None:
        """The reference is now to a part of what it was to."""
        reference.is_whole = False
        reference.index = None

    def take_index(self, reference: Reference) -> None:
        """An index in brackets, the first one passed already."""
        index = self.place()
        was_whole = reference.is_whole and not reference.is_memory
        self.skip_to("]")
        self.make_part(reference)
        reference.reads += names_read(index)
        reference.addressed += index.addressed
        if was_whole and not index.is_address:
            reference.index = index.base if index.base and index.is_whole else index.constant

    def skip_to(self, closing: str) -> None:
        """Passes pieces up to this closing sign of the level, and the sign."""
        depth = 0
        while True:
            sign = self.pieces[self.at][1]
            self.at += 1
            if depth == 0 and sign == closing:
                return
            if sign in OPENING:
                depth += 1
            elif sign in OPENING.values():
                depth -= 1

    @staticmethod
    def behind(pointer: Reference) -> Reference:
        """What the pointer points to."""
        if pointer.is_address and not pointer.is_memory and pointer.base:
            return Reference(
                base=pointer.base, is_whole=False, reads=pointer.reads, addressed=pointer.addressed
            )
        return Reference(
            is_memory=True, is_whole=False, reads=names_read(pointer), addressed=pointer.addressed
        )

    def beginning(self) -> Reference:
        """What a place begins with."""
        kind, text = self.pieces[self.at]
        self.at += 1
        if kind == "name":
            return Reference(base=text)
        if text == "*":
            return self.behind(self.place())
        if text == "&":
            return self.address()
        if text == "(":
            return self.bracketed()
        if text == "MEM":
            return self.memory()
        if text == "VIEW_CONVERT_EXPR":
            self.expect("<")
            self.skip_to(">")
            self.expect("(")
            return self.part_up_to(")")
        if text in ("BIT_FIELD_REF", "REALPART_EXPR", "IMAGPART_EXPR"):
            self.expect("<")
            return self.part_up_to(">")
        if text == "{":
            return self.elements()
        if text == "<":
            self.skip_to(">")
            return Reference(constant="label")
        return self.number(kind, text)

    def number(self, kind: str, text: str) -> Reference:
        """A constant: a number, a string's stand-in, or a word such as Inf."""
        if kind == "word" and self.next_is("("):
            self.skip_to(")")
        if kind in ("number", "word"):
            return Reference(constant=text)
        if text in "+-" and self.at < len(self.pieces):
            self.at += 1
            return Reference(constant=text + self.pieces[self.at - 1][1])
        raise ValueError(text)

    def part_up_to(self, closing: str) -> Reference:
        """A place of which a part is meant, up to this closing sign."""
        reference = self.place()
        self.skip_to(closing)
        self.make_part(reference)
        return reference

    def address(self) -> Reference:
        """Behind an ampersand."""
        reference = self.place()
        if reference.base is None:
            return Reference(
                constant="address", reads=reference.reads, addressed=reference.addressed
            )
        return Reference(
            base=reference.base,
            is_address=True,
            reads=reference.reads,
            addressed=(*reference.addressed, reference.base),
        )

    def bracketed(self) -> Reference:
        """A place in brackets, or a cast before one."""
        start = self.at
        try:
            reference = self.place()
            if self.next_is(")"):
                return reference
        except (ValueError, IndexError):
            pass
        self.at = start
        self.skip_to(")")
        return self.place()

    def memory(self) -> Reference:
        """MEM[(type)pointer + offset] or MEM <type> [..]."""
        if self.next_is("<"):
            self.skip_to(">")
        self.expect("[")
        pointer = self.place()
        self.skip_to("]")
        return self.behind(pointer)

    def elements(self) -> Reference:
        """A constructor in braces."""
        whole = Reference(constant="elements")
        while not self.next_is("}"):
            if self.next_is(",") or self.next_is("="):
                continue
            if self.next_is("."):
                self.at += 1
                continue
            element = self.place()
            whole.reads += names_read(element)
            whole.addressed += element.addressed
        return whole


def names_read(reference: Reference) -> tuple[str, ...]:
    """The names that are read for the value of a reference; not what is behind a pointer."""
    if reference.base and not reference.is_address:
        return (reference.base, *reference.reads)
    return reference.reads


@functools.lru_cache(maxsize=1 << 16)
def names_in(text: str) -> tuple[tuple[str, bool], ...] | None:
    """The declared names in an operand, each with whether its address is taken there; None where
    the operand is not known.
    """
    reference = parse(text)
    if reference is None or (
        reference.base is None and reference.constant is None and not reference.is_memory
    ):
        return None
    names = [name for name in reference.addressed + names_read(reference) if is_declared(name)]
    return tuple((name, name in reference.addressed) for name in names)


@functools.lru_cache(maxsize=1 << 16)
def parse(text: str) -> Reference | None:
    """The Reference of an operand without places, or None where its form is not known.

    It is shared: nobody changes it.
    """
    found = COMMON.match(text)
    if found:
        return common(*found.groups())
    if text.startswith("{CLOBBER"):
        return Reference(constant="clobber")
    return Parser(STRING.sub(" string_ ", text)).parse()


def common(number: str | None, sign: str, name: str, way: str) -> Reference:
    """What the parser makes of an operand as most are, by the parts of its text."""
    if number:
        return Reference(constant=number)
    is_behind = sign == "*" or way.startswith("->")
    if sign == "&" and is_behind:
        return Reference(constant="address", reads=(name,))
    if sign == "&":
        return Reference(base=name, is_address=True, addressed=(name,))
    if is_behind:
        return Reference(is_memory=True, is_whole=False, reads=(name,))
    return Reference(base=name, is_whole=not way)


def forget() -> None:
    """Gives back the memory of what was kept of operands, when a program is made."""
    for function in (is_declared, is_temporary, split_declared, names_in, parse):
        function.cache_clear()
