"""Tries the pass in C on random programs and on files: `try_pass.py PASS TACFLOW FILE..`.

What the pass leaves prints what the program printed, for some draws of what it reads, of the values
at the beginning and of callees; no assignment in it is told as dead; and the pass leaves it as it
is. One line for each fault, and status 1 where there is one.
"""

from __future__ import annotations

import importlib
import random
import re
import subprocess
import sys
import zlib
from collections.abc import Callable
from pathlib import Path
from typing import NamedTuple

ROOT = Path(__file__).resolve().parents[2]
sys.path.insert(0, str(ROOT / "bench"))
generators = importlib.import_module("tacbench.generators")

COUNT = 200
# How many statements that are no assignment a run may pass.
MOST = 400
TOKEN = re.compile(r"[A-Za-z_]\w*|\d+|<<|>>|[<>=!]=|\S")
WORD = 2**64

BINARY: dict[str, Callable[[int, int], int]] = {
    "+": lambda x, y: x + y,
    "-": lambda x, y: x - y,
    "*": lambda x, y: x * y,
    "/": lambda x, y: x // y if y else 0,
    "%": lambda x, y: x % y if y else x,
    "&": lambda x, y: x & y,
    "|": lambda x, y: x | y,
    "^": lambda x, y: x ^ y,
    "<<": lambda x, y: x << y % 64,
    ">>": lambda x, y: x >> y % 64,
    "<": lambda x, y: int(x < y),
    "<=": lambda x, y: int(x <= y),
    ">": lambda x, y: int(x > y),
    ">=": lambda x, y: int(x >= y),
    "==": lambda x, y: int(x == y),
    "!=": lambda x, y: int(x != y),
}
UNARY: dict[str, Callable[[int], int]] = {
    "-": lambda x: -x,
    "~": lambda x: ~x,
    "!": lambda x: int(not x),
}


class Procedure(NamedTuple):
    statements: list[list[str]]
    labels: dict[str, int]


def parsed(text: str) -> dict[str, Procedure]:
    """The procedures of a program, by name."""
    procedures = {}
    at = Procedure([], {})
    for line in text.splitlines():
        tokens = TOKEN.findall(line.split("#")[0])
        while len(tokens) > 1 and tokens[1] == ":":
            at.labels[tokens[0]] = len(at.statements)
            tokens = tokens[2:]
        if tokens[:1] == ["proc"]:
            at = procedures[tokens[1]] = Procedure([], {})
        elif tokens and tokens != ["end"]:
            at.statements.append(tokens)
    return procedures


class Run:
    """A run of a program. Inputs and callees are drawn in their order, and what a variable holds at
    the beginning goes by its name."""

    def __init__(self, text: str, seed: int) -> None:
        self.procedures = parsed(text)
        self.values: dict[str, int] = {}
        self.draw = random.Random(seed)
        self.seed = seed
        self.printed: list[int] = []
        self.left = MOST

    def value(self, token: str) -> int:
        if token.isdigit():
            return int(token)
        first = zlib.crc32(f"{token} {self.seed}".encode()) % 5
        return self.values.setdefault(token, first)

    def evaluated(self, tokens: list[str]) -> int:
        if len(tokens) == 1:
            return self.value(tokens[0])
        if len(tokens) == 2:
            return UNARY[tokens[0]](self.value(tokens[1])) % WORD
        return BINARY[tokens[1]](self.value(tokens[0]), self.value(tokens[2])) % WORD

    def prints(self) -> list[int]:
        """What it prints until it ends, or has passed so many statements."""
        name, place = "main", 0
        callers: list[tuple[str, int]] = []
        while self.left:
            procedure = self.procedures[name]
            tokens = [*procedure.statements, ["return"]][place]
            place += 1
            if tokens[1:2] == ["="]:
                self.values[tokens[0]] = self.evaluated(tokens[2:])
                continue
            self.left -= 1
            if tokens[0] == "return":
                if not callers:
                    break
                name, place = callers.pop()
            elif tokens[0] == "call":
                callers.append((name, place))
                name, place = self.draw.choice(tokens[1::2]), 0
            elif "goto" in tokens:
                goes = len(tokens) == 2 or bool(self.evaluated(tokens[1:-2]))
                if goes != (tokens[0] == "ifFalse"):
                    place = procedure.labels[tokens[-1]]
            elif tokens[0] == "read":
                self.values[tokens[1]] = self.draw.randrange(4)
            elif tokens[0] == "print":
                self.printed.append(self.value(tokens[1]))
        return self.printed


def written(words: list[str], text: str) -> str:
    """What a command writes, of this text as its input."""
    return subprocess.run(words, input=text, capture_output=True, text=True, check=True).stdout


def fault(words: list[str], text: str) -> str | None:
    """What is wrong with what the pass leaves of a program."""
    left = written([words[0], "/dev/stdin"], text)
    for seed in range(8):
        if Run(text, seed).prints() != Run(left, seed).prints():
            return f"other prints, by draw {seed}"
    if " is dead" in written([words[1]], left):
        return "a dead assignment is left"
    return None if written([words[0], "/dev/stdin"], left) == left else "the pass does not end"


def random_text(seed: int) -> str:
    """A random program; every second one prints all its variables at the end."""
    draw = random.Random(seed)
    keys = {
        "procedures": draw.choice([1, 2, 4]),
        "statements": draw.choice([8, 20, 40]),
        "variables": draw.choice([2, 3, 5]),
        "seed": seed,
    }
    text: str = generators.generate("small", keys).decode()
    if seed % 2 == 0:
        return text
    prints = "".join(f"print v{number}\n" for number in range(keys["variables"]))
    begin = re.search(r"(?m)^\s*proc\s+main\b", text)
    end = re.compile(r"(?m)^[ \t]*end\b").search(text, begin.end() if begin else 0)
    return text[: end.start()] + prints + text[end.start() :] if end else text


def main(words: list[str]) -> int:
    texts = {name: Path(name).read_text() for name in words[2:]}
    texts |= {f"random program {seed}": random_text(seed) for seed in range(COUNT)}
    found = {name: fault(words, text) for name, text in texts.items()}
    for name, what in found.items():
        if what:
            print(f"{name}: {what}")
    return int(any(found.values()))


if __name__ == "__main__":
    sys.exit(main(sys.argv[1:]))
