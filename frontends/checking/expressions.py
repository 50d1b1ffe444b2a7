"""How an expression of gcc's is written in a source."""

import re
from collections.abc import Callable, Iterator
from typing import NamedTuple

CONSTANT = r"(?:[A-Za-z_]\w*|\.?\d[\w.]*|'(?:\\.|[^'\\])+')"
NUMBER = re.compile(r"(-?)(0[xX][0-9A-Fa-f]+|\d+)[uUlL]*$")
REAL = re.compile(r"-?(?:\d+\.\d*|\.\d+|\d+)(?:[eE][-+]?\d+)?[fFlL]?$")
NAME = re.compile(r"[A-Za-z_$][\w$]*$")
ADDRESS = re.compile(r"&?([A-Za-z_$][\w$]*?)D\.\d+(?:\[0\])?$")
# What a type begins with, as that of a cast.
TYPE_WORDS = frozenset(
    """void char short int long float double signed unsigned struct union enum const volatile
    _Bool bool sizeof""".split()
)
ESCAPES = {"n": 10, "t": 9, "r": 13, "a": 7, "b": 8, "f": 12, "v": 11, "e": 27}
BEFORE = r"(?<![\w$.])(?<!->)"
AFTER = r"(?![\w$]|\s*(?:\(|\[|\.\w|->))"
# What may not stand behind an operator, since it would be another one.
CLOSED = {
    "+": r"(?!\+)",
    "-": "(?![->])",
    "&": "(?!&)",
    "|": r"(?!\|)",
    "<": "(?![<=])",
    ">": "(?![>=])",
    "/": "(?![/*])",
}
ASSIGNING = {"+", "-", "*", "/", "%", "&", "|", "^", "<<", ">>"}
SWAPPED = {
    "+": "+",
    "*": "*",
    "&": "&",
    "|": "|",
    "^": "^",
    "==": "==",
    "!=": "!=",
    "<": ">",
    ">": "<",
    "<=": ">=",
    ">=": "<=",
}
# What stands between the place of a statement and an expression that is all of its right side.
ASSIGNED = re.compile(r"(?:[A-Za-z_$][\w$]*\s*)?=[\s(]*$|\(*$")
ALL_OF_IT = re.compile(r"[\s)]*[;,]")

# The value of a constant's name, None where it is not known, NO_VALUE of what is no constant.
Meaning = Callable[[str], float | None]
NO_VALUE = float("nan")


class Operand(NamedTuple):
    """An operand: a variable's name, or a constant as gcc writes it."""

    text: str
    is_name: bool


class Form(NamedTuple):
    """One way to write an expression.

    is_exact: it may be another expression elsewhere, as `x % 2` is for a signed `x`.
    is_taken_away: its last constant is taken away where gcc adds one.
    """

    sign: str
    first: Operand
    second: Operand
    is_exact: bool = False
    is_taken_away: bool = False


class Candidate(NamedTuple):
    """A part of a source's text that may be an expression.

    shown: how it is told. is_same: whether its constants are gcc's, None where that is not known.
    """

    shown: str
    start: int
    sign: int
    end: int
    is_same: bool | None


def written_at(
    text: str, at: int, operator: str, operands: list[Operand], is_element: bool, meaning: Meaning
) -> str:
    """How an expression whose statement is placed at `at` stands in a text, '' where it doesn't."""
    found = list(candidates(text, operator, operands, is_element, meaning))
    there = [candidate for candidate in found if stands_at(candidate, text, at)]
    known = [candidate for candidate in found if candidate.is_same]
    nearest = sorted(known, key=lambda one: (one.sign < at, abs(one.sign - at)))
    return next((candidate.shown for candidate in there + nearest), "")


def stands_at(candidate: Candidate, text: str, at: int) -> bool:
    """Whether a candidate's operator is at a place, or it is all that a statement there assigns."""
    if candidate.sign == at:
        return True
    is_first = at <= candidate.start and ASSIGNED.match(text[at : candidate.start])
    return bool(is_first and ALL_OF_IT.match(text, candidate.end))


def candidates(
    text: str, operator: str, operands: list[Operand], is_element: bool, meaning: Meaning
) -> Iterator[Candidate]:
    """The parts of a text that may be an expression of these operands."""
    first, *others = operands
    if not others:
        pattern = rf"({re.escape(operator)})\s*\(*\s*{BEFORE}{re.escape(first.text)}{AFTER}"
        for found in re.finditer(pattern, text):
            yield Candidate(operator + first.text, *spots(found, 1), True)
        return
    if is_element:
        pattern = rf"{BEFORE}{re.escape(first.text)}\s*(\[)\s*{word(others[0])}\s*\]"
        for found in re.finditer(pattern, text):
            yield Candidate(f"{first.text}[{others[0].text}]", *spots(found, 1), True)
        return
    for form in forms_of(operator, first, others[0]):
        yield from binary(text, form, meaning)
        is_step = form.sign in ("+", "-") and form.first.is_name and not form.second.is_name
        if is_step and agrees("1", form.second, form.is_taken_away, meaning):
            yield from stepped(text, form)


def spots(found: re.Match[str], sign: int) -> tuple[int, int, int]:
    """Where a match begins, where its operator stands, where it ends."""
    return found.start(), found.start(sign), found.end()


def word(operand: Operand) -> str:
    """The pattern of an operand."""
    if operand.is_name:
        return BEFORE + re.escape(operand.text) + AFTER
    return BEFORE + CONSTANT + AFTER


def forms_of(operator: str, first: Operand, second: Operand) -> Iterator[Form]:
    """The ways in which a source may write an expression of two operands."""
    yield Form(operator, first, second)
    if operator in ("+", "-") and not second.is_name:
        yield Form("-" if operator == "+" else "+", first, second, is_taken_away=True)
    if operator in SWAPPED:
        yield Form(SWAPPED[operator], second, first)
    # what gcc makes of a division without sign by a power of two
    known = None if second.is_name else value_of(second.text)
    if operator == "&" and isinstance(known, int) and known > 0 and known & (known + 1) == 0:
        yield Form("%", first, Operand(str(known + 1), False), is_exact=True)
    if operator == ">>" and isinstance(known, int) and 0 <= known < 128:
        yield Form("/", first, Operand(str(1 << known), False), is_exact=True)


def binary(text: str, form: Form, meaning: Meaning) -> Iterator[Candidate]:
    """The parts of a text that have an operator between two operands, also as an assignment."""
    mark = re.escape(form.sign) + CLOSED.get(form.sign, "")
    mark += "=?" if form.sign in ASSIGNING and form.first.is_name else ""
    pattern = rf"({word(form.first)})\s*\)*\s*({mark})\s*\(*\s*({word(form.second)})"
    for found in re.finditer(pattern, text):
        pairs = (found[1], form.first), (found[3], form.second)
        same = [agrees(told, operand, form.is_taken_away, meaning) for told, operand in pairs]
        if False not in same:
            is_same = None if None in same or form.is_exact else True
            is_address = not form.first.is_name and is_behind_ampersand(text, found.start())
            shown = f"{'&' * is_address}{found[1]} {form.sign} {found[3]}"
            yield Candidate(shown, *spots(found, 2), is_same)


def is_behind_ampersand(text: str, at: int) -> bool:
    """Whether the address of what stands at a place is meant."""
    before = text[:at].rstrip()
    return before.endswith("&") and not before.endswith("&&")


def stepped(text: str, form: Form) -> Iterator[Candidate]:
    """The parts of a text that step a variable by one."""
    name, doubled = word(form.first), re.escape(form.sign * 2)
    for found in re.finditer(rf"({name})\s*(?={doubled})|(?={doubled})..\s*({name})", text):
        shown = f"{found[1] or found[2]} {form.sign} 1"
        sign = found.end() if found[1] else found.start()
        yield Candidate(shown, found.start(), sign, found.end(), True)


def agrees(told: str, operand: Operand, is_taken_away: bool, meaning: Meaning) -> bool | None:
    """Whether what a source has is an operand, None where that is not known.

    gcc adds what is taken away, in a type of some width.
    """
    if operand.is_name:
        return True
    known = value_of(operand.text)
    if told in TYPE_WORDS:
        return False
    if known is None:
        # the name of an array or a function is its address, that of another variable is not
        address = ADDRESS.match(operand.text)
        return None if address and address[1] == told else False
    value = meaning(told) if NAME.match(told) else value_of(told)
    if value is None:
        return None
    if not is_taken_away:
        return value == known
    return known in (-value, *((1 << bits) - value for bits in (8, 16, 32, 64)))


def value_of(text: str) -> int | float | None:
    """The value of a constant as C or gcc writes it, None where that is not known."""
    found = NUMBER.match(text)
    if found:
        digits = found[2]
        is_octal = digits.isdigit() and digits[0] == "0"
        return int(found[1] + digits, 8 if is_octal and set(digits) <= set("01234567") else 0)
    if text == "0B":
        return 0
    if text[:1] == "'":
        return character(text[1:-1])
    return float(text.rstrip("fFlL")) if REAL.match(text) else None


def character(text: str) -> int | None:
    """The value of what stands between the quotes of a character, None where that is not known."""
    if len(text) == 1:
        return ord(text) if text.isascii() else None
    rest = text[1:]
    if rest[0] in "01234567" and len(rest) <= 3:
        return int(rest, 8)
    if len(rest) == 1:
        return ESCAPES.get(rest, ord(rest))
    return None


def canonical(operator: str, operands: list[Operand], is_element: bool) -> str:
    """An expression as C writes it, of gcc's operands."""
    shown = [text for text, _ in operands]
    if is_element:
        return f"{shown[0]}[{shown[1]}]"
    if len(shown) == 1:
        return operator + shown[0]
    if operator == "+" and re.fullmatch(r"\d+", shown[1]) and int(shown[1]) >= 1 << 31:
        wide = 32 if int(shown[1]) < 1 << 32 else 64
        operator, shown[1] = "-", str((1 << wide) - int(shown[1]))
    if operator == "+" and shown[1].startswith("-"):
        operator, shown[1] = "-", shown[1][1:]
    return f"{shown[0]} {operator} {re.sub(r'D[.][0-9]+', '', shown[1])}"
