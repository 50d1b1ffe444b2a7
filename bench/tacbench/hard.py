"""Programs that are laid out against a solver: so many points, at most so many definitions."""

from __future__ import annotations

import random
from collections.abc import Callable

from .writing import Procedure, most_procedures, name_of, need, text_of


Block = tuple[str, list[str]]  # a label and statements


class Definitions:
    """Assignments to `count` variables, each of an expression of its own, dealt out evenly over
    `places`."""

    def __init__(self, count: int, places: int) -> None:
        self.count = max(1, min(count, places))
        self.places = max(1, places)

    def statement(self, place: int) -> str:
        number = place * self.count // self.places
        is_first = place == 0 or (place - 1) * self.count // self.places != number
        return self.definition(number) if is_first else "skip"

    def definition(self, number: int) -> str:
        return "v%d = v%d + %d" % (number, (number + 1) % self.count, number)


def filled(procedures: list[Procedure], points: int, at: int = 0) -> str:
    """With `skip` at the end of one procedure, up to the number of points."""
    used = sum(procedure.points for procedure in procedures)
    need(used <= points, "so few points are too few for this shape")
    procedures[at].add(*["skip"] * (points - used))
    return text_of(procedures)


def variables_for(bits: int) -> int:
    """Each variable has two definitions: at the beginning, and its own."""
    return max(1, bits // 2 - 1)


def put_blocks(procedure: Procedure, blocks: list[Block]) -> None:
    """Blocks of a label and statements, in this order."""
    for label, statements in blocks:
        procedure.label(label)
        procedure.add(*statements)


def one_procedure(blocks: list[Block], points: int, first: str) -> str:
    main = Procedure("main")
    main.add("goto " + first)
    put_blocks(main, blocks)
    main.label("out")
    main.add("print v0")
    return filled([main], points)


def step(number: int, count: int) -> str:
    return "goto b%d" % (number + 1) if number + 1 < count else "goto out"


def shuffled(
    points: int = 16000, bits: int = 4000, far: int = 0, callees: int = 0, seed: int = 1
) -> str:
    """blocks in a random order, each of which may go away (far=0 anywhere, 1 back by one in two
    jumps, 2 in one), and with callees=N calls"""
    size = 4 if callees else 3
    count = (points - 4 - callees) // size
    # two jumps over half of an odd number of blocks lead back by one
    count -= far % 3 == 1 and count % 2 == 0
    need(
        count >= 2 and callees <= 8,
        "so few points are too few for this shape, or so many callees too many for one call",
    )
    draw = random.Random(seed)
    definitions = Definitions(variables_for(bits), count)
    call = ["call " + " | ".join("q%d" % callee for callee in range(callees))] if callees else []
    blocks = []
    for number in range(count):
        target = {
            0: draw.randrange(count),
            1: (number + count // 2) % count,
            2: max(0, number - 1),
        }[far % 3]
        test = "if v%d goto b%d" % (number * definitions.count // count, target)
        blocks.append(
            ("b%d" % number, [definitions.statement(number), *call, test, step(number, count)])
        )
    draw.shuffle(blocks)
    main = Procedure("main")
    main.add("goto b0")
    put_blocks(main, blocks)
    main.label("out")
    return filled([main, *(Procedure("q%d" % callee) for callee in range(callees))], points)


def upward(points: int = 16000, bits: int = 4000, size: int = 1) -> str:
    """blocks of `size` statements in reverse order, each with a jump to the one above"""
    count = (points - 4) // (size + 1)
    need(count >= 1, "so few points are too few for this shape")
    definitions = Definitions(variables_for(bits), count)
    blocks = [
        (
            "b%d" % number,
            [definitions.statement(number)] + ["skip"] * (size - 1) + [step(number, count)],
        )
        for number in range(count)
    ]
    return one_procedure(blocks[::-1], points, "b0")


def zigzag(points: int = 16000, bits: int = 4000, tests: int = 1) -> str:
    """definitions, then blocks that are gone over from both ends by turns; with tests=1 each may
    leave"""
    count = (points - 4) * 2 // (3 if tests else 2) // 2
    kinds = Definitions(min(variables_for(bits), count // 3), count)
    count = (points - 4 - kinds.count) // (2 if tests else 1)
    need(count >= 2, "so few points are too few for this shape")
    order = list(range(0, count, 2)) + list(range(1, count, 2))[::-1]
    test = ["if v0 goto out"] if tests else []
    blocks = [("b%d" % number, [*test, step(number, count)]) for number in order]
    begin = ("defs", [kinds.definition(number) for number in range(kinds.count)] + ["goto b0"])
    return one_procedure([begin, *blocks], points, "defs")


def nest(points: int = 16000, bits: int = 4000, reversed: int = 0) -> str:
    """loops within one another, as deep as there is room; with reversed=1 their blocks in reverse
    order"""
    depth = (points - 4) // 5
    need(depth >= 1, "so few points are too few for this shape")
    definitions = Definitions(variables_for(bits), depth)
    heads, tails = [], []
    for level in range(depth):
        inner = "h%d" % (level + 1) if level + 1 < depth else "t%d" % level
        outer = "t%d" % (level - 1) if level else "out"
        heads.append(("h%d" % level, ["if v0 goto t%d" % level, "goto " + inner]))
        tails.append(
            (
                "t%d" % level,
                [definitions.statement(level), "if v0 goto h%d" % level, "goto " + outer],
            )
        )
    blocks = heads + tails[::-1]
    return one_procedure(blocks[::-1] if reversed else blocks, points, "h0")


def irreducible(points: int = 16000, bits: int = 4000, seed: int = 1) -> str:
    """two chains that may jump into one another anywhere, one downwards in the text, one upwards"""
    count = (points - 6) // 5
    need(count >= 2, "so few points are too few for this shape")
    draw = random.Random(seed)
    definitions = Definitions(variables_for(bits), count)
    down, up = [], []
    for number in range(count):
        last = number + 1 == count
        test = "if v0 goto u%d" % draw.randrange(count)
        down.append(
            (
                "d%d" % number,
                [
                    definitions.statement(number),
                    test,
                    "goto out" if last else "goto d%d" % (number + 1),
                ],
            )
        )
        test = "if v0 goto d%d" % draw.randrange(count)
        up.append(("u%d" % number, [test, "goto out" if last else "goto u%d" % (number + 1)]))
    begin = ("fork", ["if v0 goto d0", "goto u0"])
    return one_procedure([begin, *down, *up[::-1]], points, "fork")


def feeders(points: int = 16000, bits: int = 4000, far: int = 0, loop: int = 0) -> str:
    """each definition takes one jump back more than the one before to a long chain of tests; far=1:
    every second jump is long; loop=1: round it"""
    count = max(1, min(variables_for(bits), points // 8))
    length = points - 3 * count - 6
    need(length >= 2, "so few points are too few for this shape")
    definitions = Definitions(count, count)
    heads = []
    for number in range(count):
        onward = "h%d" % (number + 1) if number + 1 < count else "d%d" % number
        heads.append(("h%d" % number, ["if v0 goto " + onward]))
        heads.append(
            (
                "d%d" % number,
                [
                    definitions.definition(number),
                    "goto h%d" % (number - 1) if number else "goto c0",
                ],
            )
        )
    chain = [
        ("c%d" % at, ["if v0 goto " + ("c%d" % (at + 2) if at + 2 < length else "out")])
        for at in range(length)
    ]
    chain.append(("leave", ["if v0 goto h0" if loop else "goto out"]))
    pairs = [heads[at : at + 2] for at in range(0, len(heads), 2)]
    if far:
        blocks = (
            [block for pair in pairs[::2] for block in pair]
            + chain
            + [block for pair in pairs[1::2] for block in pair]
        )
    else:
        blocks = chain + heads
    return one_procedure([*blocks, ("after", ["goto out"])], points, "h0")


def ladder(points: int = 16000, bits: int = 4000) -> str:
    """ways into a ladder of assignments, each of which kills one definition less than the one
    before, and behind it a chain of tests"""
    count = max(1, min(variables_for(bits), points // 8))
    length = points - 3 * count - 8
    need(length >= 2, "so few points are too few for this shape")
    definitions = Definitions(count, count)
    chain = [
        ("c%d" % at, ["if v0 goto " + ("c%d" % (at + 2) if at + 2 < length else "out")])
        for at in range(length)
    ]
    ways = [
        (
            "w%d" % number,
            [
                "if v0 goto r%d" % number,
                "goto " + ("w%d" % (number + 1) if number + 1 < count else "c0"),
            ],
        )
        for number in range(count)
    ]
    rungs = [("r%d" % number, [definitions.definition(number)]) for number in range(count)]
    return one_procedure(
        [*chain, ("leave", ["goto out"]), *ways[::-1], *rungs, ("back", ["goto c0"])], points, "w0"
    )


def points_each(points: int, procedures: int) -> int:
    need(
        procedures <= most_procedures(points),
        "a program has at most 256 procedures, and one of more than 16,384 points 262,144",
    )
    return points // procedures


def procedures_with(
    points: int, bits: int, procedures: int, order: list[int], calls_of: Callable[[int], list[str]]
) -> str:
    """Procedures in an order, each with its part of the definitions, and the calls that `calls_of`
    tells, each behind a test."""
    size = points_each(points, procedures)
    share = max(0, min(size - 12, variables_for(bits) // procedures))
    definitions = Definitions(max(1, share * procedures), max(1, share * procedures))
    made = []
    for number in order:
        procedure = Procedure(name_of(number))
        for place, callee in enumerate(calls_of(number)):
            procedure.add("if v0 goto a%d" % place, "call " + callee)
            procedure.label("a%d" % place)
        procedure.add(*[definitions.definition(number * share + at) for at in range(share)])
        room = size - procedure.points
        need(room >= 0, "so few points are too few for this shape")
        procedure.add(*["print v0"] * room)
        made.append(procedure)
    return filled(made, points, at=order.index(0))


def order_of(procedures: int, seed: int) -> list[int]:
    order = list(range(procedures))
    random.Random(seed).shuffle(order)
    return order


def ring(points: int = 16000, bits: int = 4000, procedures: int = 256, seed: int = 1) -> str:
    """procedures in a random order; each may call the next, and the last the first"""
    return procedures_with(
        points,
        bits,
        procedures,
        order_of(procedures, seed),
        lambda number: [name_of((number + 1) % procedures)],
    )


def tower(points: int = 16000, bits: int = 4000, procedures: int = 256, seed: int = 1) -> str:
    """procedures in a random order; each but the last may call the next: no recursion"""

    def onward(number: int) -> list[str]:
        return [name_of(number + 1)] if number + 1 < procedures else []

    return procedures_with(points, bits, procedures, order_of(procedures, seed), onward)


def neighbours(points: int = 16000, bits: int = 4000, procedures: int = 256, seed: int = 1) -> str:
    """each procedure may call the next one and the one before"""

    def both(number: int) -> list[str]:
        return [name_of(min(number + 1, procedures - 1)), name_of(max(0, number - 1))]

    return procedures_with(points, bits, procedures, order_of(procedures, seed), both)


def crowd(points: int = 16000, bits: int = 4000, procedures: int = 250) -> str:
    """each procedure may call the next one and the one before, the outer two `main`, which has
    thousands of calls of the first eight; no way leads to its call of the last"""
    need(procedures >= 8, "eight procedures are needed")
    groups = (bits - 2 * procedures - 2) // procedures
    made = [Procedure("main")]
    for number in range(procedures):
        onward = name_of(number + 2) if number + 1 < procedures else "main"
        back = name_of(number) if number else "main"
        procedure = Procedure(name_of(number + 1))
        procedure.add("if v0 goto z", "v%d = 1" % number, "if v0 goto y", "call " + onward, "goto z")
        procedure.label("y")
        procedure.add("call " + back)
        procedure.label("z")
        made.append(procedure)
    main = made[0]
    evaluated = ["x = v%d + %d" % (each, group) for group in range(groups) for each in range(procedures)]
    calls = points - sum(procedure.points for procedure in made) - len(evaluated) - 3
    need(calls >= 0, "so few points are too few for this shape")
    main.add(*["call " + " | ".join(name_of(1 + first) for first in range(8))] * calls, *evaluated)
    main.add("goto out", "call " + name_of(procedures))
    main.label("stop")
    main.add("goto stop")
    main.label("out")
    return filled(made, points)


def web(points: int = 16000, bits: int = 4000, procedures: int = 256, seed: int = 1) -> str:
    """each statement of a procedure is a call of eight others, near and far, both ways"""
    draw = random.Random(seed)
    size = points_each(points, procedures)
    need(procedures >= 9 and size >= 5, "nine procedures and five points for each are needed")
    count = min(procedures, variables_for(bits))
    definitions = Definitions(count, count)
    made = []
    for number in range(procedures):
        procedure = Procedure(name_of(number))
        procedure.add("if v0 goto z", definitions.definition(number) if number < count else "skip")
        for _ in range(size - 4):
            callees = draw.sample(range(procedures), 8)
            procedure.add("call " + " | ".join(name_of(callee) for callee in callees))
        procedure.label("z")
        procedure.add("skip")
        made.append(procedure)
    return filled(made, points)


def rungs_for(points: int, bits: int, heads: int, period: int) -> tuple[int, int]:
    """How many heads there are, and how many rungs of two tests each."""
    heads = max(1, min(heads, bits // 4))
    need(
        2 * heads * period <= points,
        "so few points are too few for so many heads and such a period",
    )
    return heads, heads * period


def drip_ladder(
    procedure: Procedure, heads: int, period: int, head: Callable[[int], list[str]], forward: bool
) -> None:
    """Two rows of tests that jump into one another, so that what stands at rung n comes out n jumps
    back later, one head each `period` rungs."""
    rungs = heads * period
    row = range(rungs) if forward else range(rungs - 1, -1, -1)
    for rung in row:
        if forward and rung % period == 0:
            procedure.add(*head(rung // period))
        procedure.label("a%d" % rung)
        procedure.add("if c goto b%d" % (rung if forward else min(rung + 1, rungs - 1)))
        if not forward and rung % period == 0:
            procedure.add(*head(rung // period))


def drip(
    points: int = 16000,
    bits: int = 4000,
    heads: int = 256,
    callees: int = 8,
    period: int = 6,
    recursive: int = 0,
) -> str:
    """one bit after the other comes late to the exits of eight callees, which thousands of calls
    list; recursive=1: they may call `main`"""
    source = Procedure("q0")
    heads, rungs = rungs_for(points, bits, heads, period)
    if recursive:
        source.add("if c goto a0", "call main")
    drip_ladder(source, heads, period, lambda number: ["w%d = 1" % number], True)
    source.label("stuck")
    source.add("goto stuck")
    for rung in range(rungs):
        source.label("b%d" % rung)
        source.add("if c goto " + ("a%d" % (rung - 1) if rung else "z"))
    source.add("goto stuck")
    source.label("z")
    relays = [relay(number, True) for number in range(1, callees)]
    evaluated = [
        "x = w%d + %d" % (at % heads, at // heads)
        for at in range(max(0, bits - 2 * heads - 4) // 2)
    ]
    return calls_of_all(points, [source, *relays], evaluated)


def drip_back(
    points: int = 16000,
    bits: int = 4000,
    heads: int = 256,
    callees: int = 8,
    period: int = 6,
    recursive: int = 0,
) -> str:
    """`drip` against the flow of control, for the backward analyses"""
    source = Procedure("q0")
    heads, rungs = rungs_for(points, bits, heads, period)
    source.add("goto b0")
    if recursive:
        source.label("again")
        source.add("call main", "goto b0")
    for rung in range(rungs - 1, -1, -1):
        source.label("b%d" % rung)
        last = "if c goto again" if recursive else "skip"
        source.add("if c goto a%d" % rung if rung else last)
    source.add("goto a0")
    source.label("stuck")
    source.add("goto stuck")
    for rung in range(rungs - 1, -1, -1):
        source.label("a%d" % rung)
        source.add("if c goto b%d" % (rung + 1) if rung + 1 < rungs else "skip")
        if rung % period == 0:
            source.add("w%d = w%d - 1" % (rung // period, rung // period))
    relays = [relay(number, False) for number in range(1, callees)]
    evaluated = [
        "x = w%d + %d" % (at % heads, at // heads)
        for at in range(max(0, bits - 3 * heads - 4) // 2)
    ]
    return calls_of_all(points, [source, *relays], evaluated)


def relay(number: int, forward: bool) -> Procedure:
    """Calls the one before, and comes out behind it by a step that is one back for whoever goes
    with the text, or against it."""
    procedure = Procedure("q%d" % number)
    call = "call q%d" % (number - 1)
    if forward:
        procedure.add("goto below")
        procedure.label("above")
        procedure.add("goto z")
        procedure.label("below")
        procedure.add(call, "goto above")
        procedure.label("z")
    else:
        procedure.add("goto above")
        procedure.label("below")
        procedure.add(call, "goto z")
        procedure.label("above")
        procedure.add("goto below")
        procedure.label("z")
    return procedure


def calls_of_all(points: int, callees: list[Procedure], evaluated: list[str]) -> str:
    need(len(callees) <= 8, "a call lists at most eight procedures")
    main = Procedure("main")
    main.add("read c")
    used = main.points + len(evaluated) + sum(callee.points for callee in callees)
    need(used + 1 <= points, "so few points are too few for so many heads and such a period")
    call = "call " + " | ".join(callee.name for callee in callees)
    main.add(*[call] * (points - used))
    main.add(*evaluated)
    return filled([main, *callees], points)


def hops(points: int = 16000, bits: int = 4000, calls: int = 0) -> str:
    """a chain of jumps over its own length, each behind a test that leaves for an endless loop, and
    never reached jumps to each of its blocks"""
    count = (points - 40 - calls) // 5
    need(count >= 4, "so few points are too few for this shape")
    kinds = Definitions(min(variables_for(bits), count), count)
    order = list(range(0, count, 2)) + list(range(1, count, 2))[::-1]
    blocks = [("defs", [kinds.definition(number) for number in range(kinds.count)] + ["goto b0"])]
    blocks += [("b%d" % number, ["if v0 goto endless", step(number, count)]) for number in order]
    blocks += [
        ("endless", ["goto endless"]),
        ("never", ["if v1 goto b%d" % number for number in range(count)] + ["goto endless"]),
    ]
    main = Procedure("main")
    main.add("goto defs")
    put_blocks(main, blocks)
    main.label("out")
    main.add("print v0")
    idle = [Procedure("q%d" % number) for number in range(8)]
    unused = Procedure("unused")
    unused.add(*["call " + " | ".join(procedure.name for procedure in idle)] * calls)
    return filled([main, *idle, unused], points)


def laid_out(count: int, order: int, draw: random.Random) -> list[int]:
    """The numbers of blocks in an order of the text: as they run, reversed, from both ends by
    turns, or at random."""
    numbers = list(range(count))
    if order == 1:
        return numbers[::-1]
    if order == 2:
        return numbers[::2] + numbers[1::2][::-1]
    if order == 3:
        draw.shuffle(numbers)
    return numbers


def woven_callees(
    kind: int, number: int, procedures: int, callees: int, draw: random.Random
) -> list[int]:
    ways: dict[int, list[int]] = {
        0: [],
        1: [number + 1],
        2: [(number + 1) % procedures],
        3: draw.sample(range(procedures), min(callees, procedures)),
        4: [number + 1, number - 1],
    }
    first = [callee for callee in ways[kind] if 0 <= callee < procedures]
    more = (
        [(first[0] + step) % procedures for step in range(1, callees)]
        if first and kind in (2, 4)
        else []
    )
    later = (
        [callee for callee in range(number + 2, number + 1 + callees) if callee < procedures]
        if kind == 1
        else []
    )
    return list(dict.fromkeys(first + more + later))[:8]


def woven(
    points: int = 16000,
    bits: int = 4000,
    procedures: int = 16,
    order: int = 0,
    jump: int = 3,
    stride: int = 7,
    calls: int = 1,
    callees: int = 1,
    guard: int = 1,
    every: int = 4,
    late: int = 0,
    seed: int = 1,
) -> str:
    """a pattern for the search: `order` of the text 0 to 3, `jump` 0 to 4 by `stride`, `calls` 0 to
    4 in every `every`th block, `late` 0 to 2"""
    procedures, every, callees = (
        max(1, min(procedures, most_procedures(points))),
        max(1, every),
        max(1, min(callees, 8)),
    )
    draw = random.Random(seed)
    size = points // procedures
    count = (size - 3) // 4
    need(count >= 1, "so few points are too few for so many procedures")
    defined = {0: range(procedures), 1: [procedures - 1], 2: [0]}[late % 3]
    places = count * len(defined)
    definitions = Definitions(variables_for(bits), places)
    made = []
    for number in range(procedures):
        blocks = []
        for at in range(count):
            onward = {
                0: at + 1,
                1: at + stride,
                2: at - stride,
                3: draw.randrange(count),
                4: count - 1 - at,
            }[jump % 5]
            target = "b%d" % max(0, onward) if onward < count else "out"
            place = defined.index(number) * count + at if number in defined else None
            statements = ["skip" if place is None else definitions.statement(place)]
            called = (
                woven_callees(calls % 5, number, procedures, callees, draw)
                if at % every == 0
                else []
            )
            if called:
                call = "call " + " | ".join(name_of(callee) for callee in called)
                around = ["if v0 goto a%d" % at, call, "a%d: %s" % (at, step(at, count))]
                rest = around if guard % 2 else [call, "if v0 goto " + target, step(at, count)]
            else:
                rest = ["if v0 goto " + target, step(at, count)]
            blocks.append(("b%d" % at, statements + rest))
        procedure = Procedure(name_of(number))
        procedure.add("goto b0")
        put_blocks(procedure, [blocks[at] for at in laid_out(count, order % 4, draw)])
        procedure.label("out")
        made.append(procedure)
    return filled(made, points)


def waiting(points: int = 16000, bits: int = 4000, early: int = 0, seed: int = 1) -> str:
    """each procedure may call the one before it; no way leads to calls of eight each that wait for
    all; early=1: these stand first"""
    procedures = max(255, points // 65)
    uses = max(1, min(15, variables_for(bits) // procedures, points // (4 * procedures)))
    count = uses * procedures
    size = (points - count // 2 - 8) // procedures - uses - 6
    need(size >= 1, "so few points are too few for this shape")
    places = order_of(procedures, seed)

    def name(number: int) -> str:
        return name_of(1 + places[number % procedures])

    main = Procedure("main")
    main.add("call " + name(-1), "return")
    main.add(
        *[
            "if v%d < v%d goto stop" % (first, min(first + 1, count - 1))
            for first in range(0, count, 2)
        ]
    )
    main.label("stop")
    main.add("goto stop")
    made = [main]
    for place, number in sorted((place, number) for number, place in enumerate(places)):
        procedure = Procedure(name(number))
        onward = ["if 0 goto last", "call " + name(number - 1), "goto last"]
        waits = [
            "call " + " | ".join(name(8 * (size * place + at) + one) for one in range(8))
            for at in range(size)
        ]
        if early:
            procedure.add("goto first", *waits, "goto last")
            procedure.label("first")
            procedure.add(*onward)
        else:
            procedure.add(*onward, *waits)
        procedure.label("last")
        procedure.add(*["print v%d" % (use * procedures + place) for use in range(uses)])
        made.append(procedure)
    return filled(made, points)


SHAPES: dict[str, Callable[..., str]] = {
    "shuffled": shuffled,
    "upward": upward,
    "zigzag": zigzag,
    "nest": nest,
    "irreducible": irreducible,
    "feeders": feeders,
    "ladder": ladder,
    "ring": ring,
    "tower": tower,
    "neighbours": neighbours,
    "crowd": crowd,
    "web": web,
    "drip": drip,
    "drip-back": drip_back,
    "hops": hops,
    "waiting": waiting,
    "woven": woven,
}
