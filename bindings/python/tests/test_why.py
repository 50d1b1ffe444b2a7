"""Why bits are in sets: by hand, and the paths of random programs, each walked hop by hop over the
program's edges with gen and kill as `docs/ANALYSES.md` has them."""

from __future__ import annotations

import unittest
from collections.abc import Iterator

import tacflow
from tacflow import Analysis, EdgeKind, Effect, Expression, Hop, HopKind, Operand, Statement
from tests.tables import text_of
from tests.test_data import CALLS, ENDLESS

REACHES, GENERATES, PRESERVES = tuple(Effect)


def step(source: int, target: int) -> Hop:
    return Hop(HopKind.STEP, source, target, None, None, None)


def enter(site: int, source: int, target: int) -> Hop:
    return Hop(HopKind.ENTER, source, target, site, None, None)


def passed(site: int, source: int, target: int, effect: Effect, callee: int = 1) -> Hop:
    return Hop(HopKind.PASS, source, target, site, callee, effect)


# The program of docs/PATHS.md: points 0 to 2 are of main, 3 and 4 of f, 5 of g, 6 to 8 of h.
TWO_CALLEES = """proc main
call f | g
call h
end
proc f
x = 1
end
proc g
end
proc h
L:
if y goto L
print x
end
"""
# An analysis, a point and a bit of CALLS, whose procedure 1 is p, and the hops.
BY_HAND: list[tuple[str, int, int, list[Hop] | None]] = [
    ("reach", 7, 3, [step(0, 1), enter(1, 1, 4), step(4, 5), passed(5, 5, 6, REACHES), step(6, 7)]),
    ("reach", 7, 2, [step(0, 1), enter(1, 1, 4), step(4, 7)]),
    ("reach", 2, 1, [step(0, 1), passed(1, 1, 2, PRESERVES)]),
    ("reach", 2, 3, [step(0, 1), passed(1, 1, 2, GENERATES)]),
    ("live", 0, 1, [step(3, 2), passed(1, 2, 1, REACHES), step(1, 0)]),
    ("live", 6, 0, [step(3, 2), enter(1, 2, 7), step(7, 6)]),
    ("avail", 2, 0, [step(0, 1), passed(1, 1, 2, GENERATES)]),  # p may write b
    ("reach", 0, 0, []),
    ("reach", 0, 2, None),
    ("avail", 1, 0, None),  # it is available
]


def operands(statement: Statement) -> list[Operand | None]:
    return [statement.left, statement.right]


def is_evaluated(statement: Statement, expression: Expression) -> bool:
    parts = (statement.operator, statement.left, statement.right)
    return statement.expression is not None and parts == tuple(expression)


def effects(
    program: tacflow.Program, which: Analysis, bit: int, point: int
) -> tuple[bool, bool]:
    """Whether the statement at a point generates the bit, and whether it kills it."""
    statement = program.statements[point]
    if which is Analysis.REACH:
        variable, made = program.definitions[bit]
        return made == point, statement.target == variable and made != point
    if which is Analysis.LIVE:
        return Operand(bit, None) in operands(statement), statement.target == bit
    expression = program.expressions[bit]
    used = {it.variable for it in expression[1:] if it is not None and it.variable is not None}
    evaluates, changes = is_evaluated(statement, expression), statement.target in used
    if which is Analysis.AVAIL:
        return evaluates and not changes, changes
    return evaluates, changes and not evaluates


class Walk:
    """A program in the direction of an analysis, and one bit of it in the may form: there the bits
    of `avail` and `busy` are those that some path lacks."""

    def __init__(self, program: tacflow.Program, which: Analysis, bit: int) -> None:
        self.must = which in (Analysis.AVAIL, Analysis.BUSY)
        self.backward = which in (Analysis.LIVE, Analysis.BUSY)
        points = [program.points_of(number) for number in range(program.sizes.procedures)]
        first, last = [it[0] for it in points], [it[-1] for it in points]
        self.entry, self.exit = (last, first) if self.backward else (first, last)
        self.root = self.entry[program.procedures.index("main")]
        is_first = which is Analysis.REACH and program.definitions[bit].point is None
        self.boundary = is_first != self.must
        self.steps: set[tuple[int, int]] = set()
        self.calls: set[tuple[int, int, int]] = set()
        self.returns: set[tuple[int, int, int]] = set()
        self.does: dict[tuple[int, int], tuple[bool, bool]] = {}
        for edge in program.edges():
            self.add(program, which, bit, edge)
        self.through = self.ways_through()

    def add(self, program: tacflow.Program, which: Analysis, bit: int, edge: tacflow.Edge) -> None:
        ends = (edge.target, edge.source) if self.backward else (edge.source, edge.target)
        if edge.kind is EdgeKind.STEP:
            gen, kill = effects(program, which, bit, edge.source)
            self.steps.add(ends)
            self.does[ends] = (kill and not gen, gen) if self.must else (gen, kill)
            return
        assert edge.site is not None
        called = (edge.kind is EdgeKind.CALL) != self.backward
        (self.calls if called else self.returns).add((edge.site, *ends))

    def behind(self, ends: tuple[int, int], has: bool) -> bool:
        generates, kills = self.does[ends]
        return generates or (has and not kills)

    def ways_through(self) -> set[tuple[int, Effect]]:
        """The procedures and effects for which some path leads through with the effect: of each
        point, which effects a path from its procedure's entry to it has."""
        found = {(it, effect) for it in self.entry for effect in (REACHES, PRESERVES)}
        callees = {point: number for number, point in enumerate(self.entry)}
        exits = {point: number for number, point in enumerate(self.exit)}
        waits = [
            (source, callees[into], target)
            for site, source, into in self.calls
            for other, out, target in self.returns
            if other == site and exits[out] == callees[into]
        ]
        count = 0
        while count != len(found):
            count = len(found)
            for source, target in self.steps:
                found |= {(target, it) for it in self.over_step((source, target), found)}
            for source, callee, target in waits:
                found |= {(target, it) for it in self.over_call(source, callee, found)}
        return {(exits[point], effect) for point, effect in found if point in exits}

    def over_step(self, ends: tuple[int, int], found: set[tuple[int, Effect]]) -> Iterator[Effect]:
        generates, kills = self.does[ends]
        source = ends[0]
        if (source, REACHES) in found:
            yield REACHES
            if generates:
                yield GENERATES
        if (source, GENERATES) in found and not kills:
            yield GENERATES
        if (source, PRESERVES) in found and not kills:
            yield PRESERVES

    def over_call(
        self, source: int, callee: int, found: set[tuple[int, Effect]]
    ) -> Iterator[Effect]:
        out = self.exit[callee]
        if (source, REACHES) in found and (out, REACHES) in found:
            yield REACHES
            if (out, GENERATES) in found:
                yield GENERATES
        for effect in (GENERATES, PRESERVES):
            if (source, effect) in found and (out, PRESERVES) in found:
                yield effect

    def over(self, hop: Hop, has: bool) -> bool:
        """Whether every path of the hop has the bit behind it; each hop is one of the program."""
        ends = hop.source, hop.target
        if hop.kind is HopKind.STEP:
            assert (hop.site, hop.callee, hop.effect) == (None, None, None)
            assert ends in self.steps
            return self.behind(ends, has)
        assert hop.site is not None
        if hop.kind is HopKind.ENTER:
            assert (hop.callee, hop.effect) == (None, None)
            assert (hop.site, *ends) in self.calls
            return has
        assert hop.callee is not None and hop.effect is not None
        assert (hop.site, hop.source, self.entry[hop.callee]) in self.calls
        assert (hop.site, self.exit[hop.callee], hop.target) in self.returns
        assert (hop.callee, hop.effect) in self.through
        return hop.effect is GENERATES or (hop.effect is PRESERVES and has)

    def ends_with(self, hops: list[Hop], point: int) -> bool:
        """Whether the hops lead from the root to the point, and all their paths have the bit."""
        at, has = self.root, self.boundary
        for hop in hops:
            assert hop.source == at
            at, has = hop.target, self.over(hop, has)
        return at == point and has


class ByHand(unittest.TestCase):
    def test_paths(self) -> None:
        with tacflow.open(CALLS) as program:
            for analysis, point, bit, wanted in BY_HAND:
                self.assertEqual(program.why(analysis, point, bit), wanted, (analysis, point, bit))

    def test_paths_at_once(self) -> None:
        with tacflow.open(CALLS) as program:
            for which in Analysis:
                own = [row[1:] for row in BY_HAND if tacflow.Analysis[row[0].upper()] == which]
                paths = program.whys(which, [(point, bit) for point, bit, _ in own])
                self.assertEqual(paths, [wanted for *_, wanted in own], which)

    def test_one_path_twice(self) -> None:
        text = "proc main\n  read x\n" + "  skip\n" * 5_000 + "  print x\nend\n"
        with tacflow.open(text) as program:
            wanted = [step(point, point + 1) for point in range(5_001)]
            paths = program.whys("reach", iter([(5_001, 1), (0, 1), (5_001, 1)]))
            self.assertEqual(paths, [wanted, None, wanted])

    def test_page(self) -> None:
        with tacflow.open(TWO_CALLEES) as program:
            wanted = [passed(0, 0, 1, PRESERVES, 2), enter(1, 1, 6), step(6, 7)]
            self.assertEqual(program.why("reach", 7, 0), wanted)

    def test_no_path(self) -> None:
        with tacflow.open(ENDLESS) as program:
            self.assertIsNone(program.why("reach", 2, 0))
            self.assertIsNone(program.why("live", 3, 0))

    def test_more_hops_than_room_at_first(self) -> None:
        count = 5_000
        text = "proc main\n  read x\n" + "  skip\n" * count + "  print x\nend\n"
        with tacflow.open(text) as program:
            hops = program.why("reach", count + 1, 1)
            self.assertEqual(hops, [step(point, point + 1) for point in range(count + 1)])

    def test_wrong_words(self) -> None:
        with tacflow.open(CALLS) as program:
            for analysis in ("", "dead", 4, -1, None):
                with self.assertRaisesRegex(tacflow.BadAnalysis, "there are reach, live"):
                    program.why(analysis, 0, 0)  # type: ignore[arg-type]
            for point in (8, -1, 2**32, None):
                with self.assertRaisesRegex(tacflow.BadRange, "the program has no point"):
                    program.why("reach", point, 0)  # type: ignore[arg-type]
            for analysis, bit in (("reach", 4), ("live", 2), ("busy", 2), ("avail", -1)):
                with self.assertRaisesRegex(tacflow.BadRange, f"{analysis} has no bit {bit}"):
                    program.why(analysis, 0, bit)
            with self.assertRaisesRegex(tacflow.BadAnalysis, "there are reach, live"):
                program.whys("dead", [])
            for point, bit in ((8, 0), (0, 4), (-1, 0), (0, -1)):
                with self.assertRaises(tacflow.BadRange):
                    program.whys("reach", [(7, 0), (point, bit)])
        with self.assertRaises(tacflow.ClosedProgram):
            program.why("reach", 0, 0)
        with self.assertRaises(tacflow.ClosedProgram):
            program.whys("reach", [(0, 0)])


class Walked(unittest.TestCase):
    def walk(self, program: tacflow.Program, which: Analysis) -> int:
        """Walks the paths of the first bits at all points, and tells how many there are."""
        facts, count = program.facts(which), 0
        for bit in list(facts.bits)[:6]:
            walk = Walk(program, which, bit)
            for point in facts.points:
                hops = program.why(which, point, bit)
                self.assertEqual(hops is not None, facts.contains(point, bit) != walk.must)
                if hops is not None:
                    self.assertTrue(walk.ends_with(hops, point), (which, point, bit, hops))
                    self.assertLessEqual(len(hops), 2 * program.sizes.points)
                    count += 1
        return count

    def test_random_programs(self) -> None:
        counts = dict.fromkeys(Analysis, 0)
        for seed in (it for it in range(1, 40) if it % 10):
            with tacflow.open(text_of(seed)) as program:
                for which in Analysis:
                    counts[which] += self.walk(program, which)
        for which, count in counts.items():
            self.assertGreater(count, 1000, which)


if __name__ == "__main__":
    unittest.main()
