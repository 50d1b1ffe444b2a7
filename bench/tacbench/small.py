"""Small random programs, of all forms of statements and any layout, and small texts that are mostly
refused."""

from __future__ import annotations

import random
import re
from collections.abc import Callable

from .writing import BINARY, COMPARISON, UNARY, name_of

TOKEN = re.compile(r"[A-Za-z_]\w*|\d+|<<|>>|[<>=!]=|\S", re.ASCII)
ODD_BYTES = b"\0\t\r\n #:;=@$\\\xff\xc3xX_0189|<>"


class Small:
    def __init__(self, seed: int, procedures: int, statements: int, variables: int) -> None:
        draw = self.draw = random.Random(seed)
        self.names = [name_of(number) for number in range(draw.randint(1, procedures))]
        draw.shuffle(self.names)
        self.most = statements
        self.variables = ["v%d" % number for number in range(draw.randint(1, variables))]
        self.several = draw.random() < 0.6
        self.calls = draw.choice([0.05, 0.15, 0.4])
        self.jumps = draw.choice([0.1, 0.25, 0.5])
        self.endless = draw.choice([0.05, 0.3, 1])

    def variable(self) -> str:
        return self.draw.choice(self.variables)

    def operand(self) -> str:
        draw = self.draw
        return (
            draw.choice(["0", "1", "01", "7", "9223372036854775807"])
            if draw.random() < 0.15
            else self.variable()
        )

    def value(self) -> str:
        draw = self.draw
        kind = draw.random()
        if kind < 0.25:
            return self.operand()
        if kind < 0.4:
            return draw.choice(UNARY) + " " + self.operand()
        return "%s %s %s" % (
            self.operand(),
            draw.choice(BINARY[:2] if draw.random() < 0.7 else BINARY),
            self.operand(),
        )

    def statement(self, labels: list[str]) -> str:
        draw, kind = self.draw, self.draw.random()
        if kind < self.calls:
            most = min(8, len(self.names)) if self.several else 1
            return "call " + " | ".join(draw.sample(self.names, draw.randint(1, most)))
        if kind < self.calls + self.jumps and labels:
            target = draw.choice(labels)
            return ("%s goto %s" % ("" if draw.random() < 0.1 else self.test(), target)).strip()
        rest = ["print %s" % self.operand(), "read %s" % self.variable(), "skip"] + [
            "%s = %s" % (self.variable(), self.value())
        ] * 6
        return "return" if draw.random() < 0.02 else draw.choice(rest)

    def test(self) -> str:
        draw = self.draw
        return draw.choice(
            [
                "if %s" % self.operand(),
                "ifFalse %s" % self.operand(),
                "if %s %s %s" % (self.operand(), draw.choice(COMPARISON), self.operand()),
            ]
        )

    def guarded(self, statement: str, number: int) -> list[str]:
        """A call is often gone round by a test, so that recursion can end."""
        if not statement.startswith("call") or self.draw.random() < self.endless:
            return [statement]
        return ["%s goto G%d" % (self.test(), number), statement, "G%d :" % number]

    def procedure(self, name: str) -> list[str]:
        """Lines of tokens."""
        draw = self.draw
        size = draw.randint(0, self.most)
        places = sorted(draw.randint(0, size) for _ in range(draw.randint(0, 1 + size // 2)))
        labels = ["L%d" % number for number in range(len(places))]
        lines = ["proc " + name]
        for place in range(size + 1):
            begin = "".join(label + " : " for label, at in zip(labels, places) if at == place)
            made = self.guarded(self.statement(labels), place) if place < size else [""]
            made[0] = begin + made[0]
            lines += made
        return [*lines, "end"]

    def lines(self) -> list[str]:
        return [line for name in self.names for line in self.procedure(name)]


class Layout:
    """How tokens become lines: blanks, tabs, comments, CR LF, empty lines."""

    def __init__(self, draw: random.Random) -> None:
        self.draw = draw
        self.is_tight = draw.random() < 0.3
        self.has_comments = draw.random() < 0.3
        self.has_returns = draw.random() < 0.2
        self.has_end = draw.random() < 0.9

    def blank(self, before: str, after: str) -> str:
        found = TOKEN.match(before + after)
        joined = found is None or found.group() != before
        if self.is_tight and not joined:
            return ""
        return self.draw.choice([" ", " ", " ", "  ", "\t"])

    def line(self, tokens: list[str]) -> str:
        draw = self.draw
        text = draw.choice(["", "", "  ", "\t"]) + tokens[0] if tokens else ""
        for before, after in zip(tokens, tokens[1:]):
            text += self.blank(before, after) + after
        if self.has_comments and draw.random() < 0.3:
            text += " #" + draw.choice(["", " x = y", "#", "proc"])
        return text + ("\r" if self.has_returns and draw.random() < 0.8 else "")

    def text(self, lines: list[str]) -> bytes:
        made = []
        for line in lines:
            if self.has_comments and self.draw.random() < 0.1:
                made.append(self.line([]))
            made.append(self.line(TOKEN.findall(line)))
        text = "\n".join(made)
        is_whole = self.has_end or text.endswith("\r")
        return (text + "\n" if is_whole else text).encode()


def small(procedures: int = 4, statements: int = 12, variables: int = 5, seed: int = 1) -> bytes:
    """a random program with recursion, several callees, unreached procedures and all forms of
    statements"""
    program = Small(seed, procedures, statements, variables)
    return Layout(program.draw).text(program.lines())


def broken(procedures: int = 4, statements: int = 12, variables: int = 5, seed: int = 1) -> bytes:
    """such a program with one to three changes of bytes, tokens or lines, which most are refused
    for"""
    program = Small(seed, procedures, statements, variables)
    draw, lines = program.draw, program.lines()
    if draw.random() < 0.6:
        for _ in range(draw.randint(1, 2)):
            change_line(draw, lines)
        return Layout(draw).text(lines)
    text = bytearray(Layout(draw).text(lines))
    for _ in range(draw.randint(1, 3)):
        at = draw.randrange(len(text) + 1)
        text[at : at + draw.randint(0, 2)] = draw.choices(ODD_BYTES, k=draw.randint(0, 2))
    return bytes(text)


def change_line(draw: random.Random, lines: list[str]) -> None:
    """A token lost, doubled, or one of another line's in its place; or a line lost or doubled."""
    at = draw.randrange(len(lines))
    tokens = TOKEN.findall(lines[at])
    other = TOKEN.findall(draw.choice(lines)) or ["end"]
    place = draw.randrange(len(tokens) + 1)
    change = draw.randrange(6)
    if change == 0:
        tokens[place : place + 1] = []
    elif change == 1:
        tokens[place:place] = tokens[place : place + 1]
    elif change == 2:
        tokens[place : place + 1] = [draw.choice(other)]
    elif change == 3:
        tokens[place:place] = [
            draw.choice(
                [
                    "n" * 64,
                    "n" * 65,
                    "9223372036854775808",
                    "00009",
                    "if",
                    "=",
                    "|",
                    "L0",
                    "call",
                    "goto",
                ]
            )
        ]
    lines[at] = " ".join(tokens)
    if change == 4:
        del lines[at]
    if change == 5:
        lines.insert(draw.randrange(len(lines)), lines[at])
    if not lines:
        lines.append("end")


SHAPES: dict[str, Callable[..., bytes]] = {"small": small, "broken": broken}
