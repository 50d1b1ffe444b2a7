"""Tries in which direction tests are told as passed, on random conditions: `run` calls this.

usage: conditions.py [SEED ..]

Each condition has locals of its own that one of its ways sets, so that there is one way on which
such a local is unset, and it is known. Not verified.
"""

from __future__ import annotations

import json
import os
import random
import re
import subprocess
import sys
import tempfile
from typing import NamedTuple

CHECK = os.path.join(os.path.dirname(os.path.realpath(__file__)), "..", "check-c")
COUNT = 30
HEADER = """#include <stdbool.h>
#define NEGATIVE(x) ((x) < 0)
int printf(const char *, ...);
int g(int);
int f(int n, int m, int k, unsigned u, bool b, int *p, double d, double e)
{
"""
PLAIN = ("n", "m", "p", "*p", "u", "b", "g(k)", "(n & 4)", "NEGATIVE(m)", "d")
COMPARED = (
    *(("n", other) for other in ("m", "k", "0", "1", "3", "-1")),
    *((number, "m") for number in ("0", "1", "4")),
    *(("u", number) for number in ("1", "4u")),
    *(("d", other) for other in ("e", "3.0")),
)


class Wanted(NamedTuple):
    """What is to be told of a local: the line of its test, the line to which that leads, and
    whether it is taken; a condition that is not `single` has several tests.
    """

    line: int
    target: int
    is_taken: bool
    is_single: bool


class Program:
    """A function with conditions, and what is to be told of its locals."""

    def __init__(self, seed: int) -> None:
        self.random = random.Random(seed)
        self.lines = HEADER.splitlines()
        self.wanted: dict[str, Wanted] = {}
        names = [f"{letter}{number}" for number in range(COUNT) for letter in "ab"]
        self.lines.append(f"    int {', '.join(names)};")
        for number in range(COUNT):
            if self.random.random() < 0.7:
                self.add_branch(number)
            else:
                self.add_loop(number)
        self.lines += [f'    printf("%d", {name});' for name in self.wanted]
        self.lines += ["    return k;", "}"]

    def single(self) -> str:
        """A condition that is one test for gcc."""
        first, second = self.random.choice(COMPARED)
        text = f"{first} {self.random.choice(['<', '<=', '>', '>=', '==', '!='])} {second}"
        kind = self.random.random()
        if kind < 0.5:
            text = self.random.choice(PLAIN)
        elif kind < 0.6:
            text = f"({text}) {self.random.choice(['==', '!='])} {self.random.randint(0, 1)}"
        for _ in range(self.random.choice([0, 0, 0, 1, 1, 2])):
            text = f"!({text})"
        return text

    def condition(self, depth: int) -> str:
        """A condition that may have several tests."""
        kind = self.random.random()
        if depth == 0 or kind < 0.4:
            return self.single()
        parts = [self.condition(depth - 1) for _ in range(3)]
        if kind < 0.9:
            return f"({parts[0]} {self.random.choice(['&&', '||'])} {parts[1]})"
        return f"!({parts[0]})" if kind < 0.95 else f"({parts[0]} ? {parts[1]} : {parts[2]})"

    def add_branch(self, number: int) -> None:
        """An `if` that sets a local on each way."""
        condition = self.condition(self.random.choice([0, 0, 2]))
        is_single = not re.search(r"&&|\|\||\?", condition)
        at = len(self.lines) + 1
        self.lines += [f"    if ({condition})", f"        a{number} = 1;", "    else"]
        self.lines += [f"        b{number} = 1;"]
        self.wanted[f"a{number}"] = Wanted(at, at + 3, False, is_single)
        self.wanted[f"b{number}"] = Wanted(at, at + 1, True, is_single)

    def add_loop(self, number: int) -> None:
        """A loop that sets a local."""
        form = self.random.choice(["while ({})", "for (; {}; n++)"])
        at = len(self.lines) + 1
        self.lines += [f"    {form.format(self.single())} {{", f"        a{number} = 1;"]
        self.lines += ["        n++;", "    }", "    k = k + 1;"]
        self.wanted[f"a{number}"] = Wanted(at, at + 4, False, True)

    def wrong(self, remark: dict[str, object]) -> list[str]:
        """What is wrong with a remark."""
        name = remark["message"].split("'")[1]
        wanted, told = self.wanted[name], []
        good = [f"on the way the test leads to line {wanted.target}"]
        if wanted.is_single:
            good.append(f"on the way the test is {'taken' if wanted.is_taken else 'not taken'}")
        for note in remark["notes"]:
            is_whole = self.lines[wanted.line - 1][note["column"] - 1 :].startswith("(")
            is_looked_at = wanted.is_single or is_whole
            if note["line"] != wanted.line or is_looked_at and note["message"] not in good:
                told.append(f"{name}: {note} of {self.lines[wanted.line - 1]}")
        # the value of an inner condition is set on two ways in the line itself
        if not remark["notes"] and "?" not in self.lines[wanted.line - 1]:
            told.append(f"{name}: no way: {self.lines[wanted.line - 1]}")
        return told


def wrong_of(seed: int) -> list[str]:
    """What is wrong with the program of a seed."""
    program = Program(seed)
    with tempfile.TemporaryDirectory() as folder:
        with open(os.path.join(folder, "conditions.c"), "w", encoding="utf-8") as file:
            file.write("\n".join(program.lines) + "\n")
        words = ["--format", "json", "--kinds", "maybe-unset", "conditions.c"]
        command = [sys.executable, CHECK, *words]
        done = subprocess.run(command, cwd=folder, capture_output=True, text=True, check=False)
    remarks = [json.loads(line) for line in done.stdout.splitlines()]
    # gcc knows the outcome of some conditions, and then nothing may be told
    if len(remarks) < len(program.wanted) // 2:
        return [f"{len(remarks)} remarks: {done.stderr}"]
    return [text for remark in remarks for text in program.wrong(remark)]


def differences() -> list[list[str]]:
    """What is wrong with some programs."""
    return [wrong_of(seed) for seed in (1, 2)]


if __name__ == "__main__":
    for number in map(int, sys.argv[1:]):
        for text in wrong_of(number):
            print(f"{number}: {text}")
