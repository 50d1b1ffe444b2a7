"""Large programs of ordinary shapes: exactly so many points and, where there is room,
definitions."""

from __future__ import annotations

import random
from collections.abc import Callable
from typing import TypedDict

from .writing import BINARY, COMPARISON, UNARY, Procedure, name_of, need, text_of

SIMPLE = ""  # a statement that is still to be chosen
Opening = Callable[[int, int], list[int]]


class Mix(TypedDict):
    """How often each kind of region begins, and how long and deep it is."""

    loops: float
    branches: float
    calls: float
    back: float
    several: int
    longest: int
    depth: int


class Skeleton:
    """Procedures whose simple statements are still to be chosen: each is the place of one in a
    procedure's lines."""

    def __init__(self, points: int, bits: int, procedures: int, variables: int, seed: int) -> None:
        need(
            procedures >= 1 and points >= 2 * procedures,
            "a procedure takes two points: fewer procedures or more points",
        )
        need(
            procedures <= 262144,
            "a program has at most 262,144 procedures, and within the standard limits 256",
        )
        need(bits >= 2, "two definitions are needed")
        self.random = random.Random(seed)
        self.bits = bits
        self.variables = max(1, min(variables, bits // 2))
        statements = points - procedures
        share, more = divmod(statements, procedures)
        self.sizes = [share + (number < more) for number in range(procedures)]
        self.names = [name_of(number) for number in range(procedures)]
        self.unused = ["v%d" % number for number in range(self.variables)]
        self.random.shuffle(self.unused)
        self.recent: list[str] = []
        self.procedures: list[Outline] = []

    def variable(self) -> str:
        """One that does not occur yet, as long as there is one, every second time."""
        if self.unused and self.random.random() < 0.5:
            return self.unused.pop()
        return "v%d" % self.random.randrange(self.variables)

    def test(self, label: str) -> str:
        left, right = self.variable(), self.variable()
        return "if %s %s %s goto %s" % (left, self.random.choice(COMPARISON), right, label)

    def region(self, procedure: Outline, room: int, shape: Mix, depth: int = 0) -> None:
        """Fills so many points with statements, branches, loops and calls; the room is used up to
        the last point."""
        while room > 0:
            draw = self.random.random()
            inner = self.random.randint(1, max(1, min(room - 2, shape["longest"])))
            if draw < shape["loops"] and room > 3 and depth < shape["depth"]:
                top = procedure.fresh()
                procedure.label(top)
                self.region(procedure, inner, shape, depth + 1)
                procedure.add(self.test(top))
                room -= inner + 1
            elif draw < shape["loops"] + shape["branches"] and room > 3 and depth < shape["depth"]:
                beyond = procedure.fresh()
                procedure.add(self.test(beyond))
                self.region(procedure, inner, shape, depth + 1)
                procedure.label(beyond)
                room -= inner + 1
            elif draw < shape["loops"] + shape["branches"] + shape["calls"] and room > 2:
                room -= self.call(procedure, shape)
            else:
                procedure.add(SIMPLE)
                room -= 1

    def call(self, procedure: Outline, shape: Mix) -> int:
        """A call; one of a procedure that may call this one is gone round by a branch, so that each
        procedure comes to its end."""
        own = len(self.procedures)
        count = self.random.randint(2, 8) if shape["several"] else 1
        onward = range(own + 1, len(self.names))
        if onward and self.random.random() >= shape["back"]:
            callees = self.random.sample(onward, min(count, len(onward)))
            procedure.add("call " + " | ".join(self.names[callee] for callee in callees))
            return 1
        if shape["back"] == 0:
            procedure.add(SIMPLE)
            return 1
        callees = self.random.sample(range(len(self.names)), min(count, len(self.names)))
        beyond = procedure.fresh()
        procedure.add(
            self.test(beyond), "call " + " | ".join(self.names[callee] for callee in callees)
        )
        procedure.label(beyond)
        return 2

    def fill(self) -> None:
        """Makes definitions of so many simple statements, and prints of the others."""
        places = [
            (procedure, at)
            for procedure in self.procedures
            for at in range(len(procedure.lines))
            if procedure.lines[at] == SIMPLE
        ]
        wanted = min(len(places), max(0, self.bits - self.variables))
        defined = set(self.random.sample(range(len(places)), wanted))
        for number, (procedure, at) in enumerate(places):
            statement = self.definition() if number in defined else self.use()
            procedure.lines[at] = (
                "".join(name + ": " for name in procedure.labelled.get(at, [])) + statement
            )

    def definition(self) -> str:
        draw = self.random.random()
        target = self.variable()
        if draw < 0.1 and self.recent:
            return "%s = %s" % (target, self.random.choice(self.recent[-40:]))
        if draw < 0.85:
            right = (
                self.variable() if self.random.random() < 0.8 else str(self.random.randrange(1000))
            )
            self.recent.append("%s %s %s" % (self.variable(), self.random.choice(BINARY), right))
            return "%s = %s" % (target, self.recent[-1])
        if draw < 0.9:
            return "%s = %s%s" % (target, self.random.choice(UNARY), self.variable())
        return "%s = %s" % (target, self.variable()) if draw < 0.95 else "read " + target

    def use(self) -> str:
        return (
            "skip"
            if self.random.random() < 0.25 and not self.unused
            else "print " + self.variable()
        )


class Outline(Procedure):
    """A procedure in which simple statements are left open."""

    def __init__(self, name: str) -> None:
        super().__init__(name)
        self.labelled: dict[int, list[str]] = {}

    def add(self, *statements: str) -> None:
        for statement in statements:
            if statement != SIMPLE:
                super().add(statement)
                continue
            if self.waiting:
                self.labelled[len(self.lines)] = self.waiting
                self.waiting = []
            self.lines.append(SIMPLE)
            self.points += 1


def build(
    shape: Mix, opening: Opening, points: int, bits: int, procedures: int, variables: int, seed: int
) -> str:
    """`opening` gives the calls with which a procedure of this number begins, and those in its
    middle."""
    skeleton = Skeleton(points, bits, procedures, variables, seed)
    for number, size in enumerate(skeleton.sizes):
        procedure = Outline(skeleton.names[number])
        calls = opening(number, procedures)[: max(0, size - 1)]
        parts = len(calls) + 1
        rooms = [(size - len(calls)) // parts] * parts
        rooms[0] += size - len(calls) - sum(rooms)
        for room, call in zip(rooms, [*calls, None]):
            skeleton.region(procedure, room, shape)
            if call is not None:
                procedure.add("call " + name_of(call))
        skeleton.procedures.append(procedure)
    skeleton.fill()
    return text_of(skeleton.procedures)


def shape(
    loops: float = 0.0,
    branches: float = 0.0,
    calls: float = 0.0,
    back: float = 0.0,
    several: int = 0,
    longest: int = 24,
    depth: int = 3,
) -> Mix:
    return {
        "loops": loops,
        "branches": branches,
        "calls": calls,
        "back": back,
        "several": several,
        "longest": longest,
        "depth": depth,
    }


def none(number: int, procedures: int) -> list[int]:
    return []


def all_others(number: int, procedures: int) -> list[int]:
    return list(range(1, procedures)) if number == 0 else []


def next_twice(number: int, procedures: int) -> list[int]:
    return [number + 1] * 2 if number + 1 < procedures else []


def mixed(
    points: int = 16000,
    bits: int = 4000,
    procedures: int = 64,
    variables: int = 1024,
    several: int = 0,
    seed: int = 1,
) -> str:
    """loops, branches, and calls of later procedures, every tenth of any procedure"""
    mix = shape(loops=0.05, branches=0.12, calls=0.08, back=0.1, several=several)
    return build(mix, next_once, points, bits, procedures, variables, seed)


def next_once(number: int, procedures: int) -> list[int]:
    return [number + 1] if number + 1 < procedures else []


def straight(points: int = 16000, bits: int = 4000, variables: int = 1024, seed: int = 1) -> str:
    """one line of statements, no jump"""
    return build(shape(), none, points, bits, 1, variables, seed)


def loops(
    points: int = 16000,
    bits: int = 4000,
    procedures: int = 16,
    variables: int = 1024,
    seed: int = 1,
) -> str:
    """loops up to six deep, and one call of each procedure"""
    return build(
        shape(loops=0.08, branches=0.05, longest=200, depth=6),
        all_others,
        points,
        bits,
        procedures,
        variables,
        seed,
    )


def chain(
    points: int = 16000,
    bits: int = 4000,
    procedures: int = 256,
    variables: int = 1024,
    seed: int = 1,
) -> str:
    """each procedure calls the next one twice"""
    return build(
        shape(loops=0.06, branches=0.1), next_twice, points, bits, procedures, variables, seed
    )


def dense(
    points: int = 16000,
    bits: int = 4000,
    procedures: int = 128,
    variables: int = 1024,
    several: int = 0,
    seed: int = 1,
) -> str:
    """as many calls, of any procedure, as other statements"""
    mix = shape(loops=0.04, branches=0.08, calls=0.4, back=0.9, several=several)
    return build(mix, next_once, points, bits, procedures, variables, seed)


def flat(
    points: int = 16000,
    bits: int = 4000,
    procedures: int = 32,
    variables: int = 1024,
    seed: int = 1,
) -> str:
    """`main` calls all others, which call nothing"""
    return build(
        shape(loops=0.05, branches=0.12), all_others, points, bits, procedures, variables, seed
    )


def mixed_several(
    points: int = 16000,
    bits: int = 4000,
    procedures: int = 64,
    variables: int = 1024,
    seed: int = 1,
) -> str:
    """`mixed`, where a call lists two to eight procedures"""
    return mixed(points, bits, procedures, variables, 1, seed)


def dense_several(
    points: int = 16000,
    bits: int = 4000,
    procedures: int = 128,
    variables: int = 1024,
    seed: int = 1,
) -> str:
    """`dense`, where a call lists two to eight procedures"""
    return dense(points, bits, procedures, variables, 1, seed)


SHAPES: dict[str, Callable[..., str]] = {
    "mixed": mixed,
    "straight": straight,
    "loops": loops,
    "chain": chain,
    "dense": dense,
    "flat": flat,
    "mixed-several": mixed_several,
    "dense-several": dense_several,
}
