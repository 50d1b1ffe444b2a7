"""Programs that are built without a text: against the same of a text, and each fault."""

from __future__ import annotations

import unittest

import tacflow
from tacflow import Built, BuiltProcedure, Operand, StatementKind
from tests.tables import ROOT, text_of

A, B, ONE = Operand(0, None), Operand(1, None), Operand(None, 1)
MAIN = (
    Built(StatementKind.BINARY, 0, "+", B, ONE, line=2),
    Built(StatementKind.CALL, callees=[1], line=3),
    Built(StatementKind.PRINT, right=A, line=4),
)


def built_of(program: tacflow.Program) -> tacflow.Program:
    """The same program, built of what is told of it. Each jump has a label of its own."""
    procedures = []
    for number, name in enumerate(program.procedures):
        points = program.points_of(number)
        statements = [built_statement(program, point, points.start) for point in points[:-1]]
        places = sorted({place for _, place in statements if place is not None})
        own = [
            it if place is None else it._replace(label=places.index(place))
            for it, place in statements
        ]
        procedures.append(BuiltProcedure(name, own, places))
    return tacflow.build(procedures, program.variables, program.limits)


def built_statement(
    program: tacflow.Program, point: int, first: int
) -> tuple[Built, int | None]:
    """A statement, and to which place it jumps."""
    it = program.statements[point]
    calls = [edge.target for edge in program.edges(range(point, point + 1)) if edge.kind == 1]
    callees = [program.points[entry].procedure for entry in calls]
    target, line = it.target or 0, program.points[point].line
    made = Built(it.kind, target, it.operator or "+", it.left, it.right, 0, callees, line)
    return made, None if it.goes_to is None else it.goes_to - first


class AsAText(unittest.TestCase):
    def check(self, text: bytes) -> None:
        with tacflow.open(text, "large") as program, built_of(program) as built:
            self.assertEqual(built.sizes, program.sizes)
            self.assertEqual(built.report(), program.report())
            self.assertEqual(list(built.remarks()), list(program.remarks()))
            self.assertEqual(list(built.edges()), list(program.edges()))
            for analysis in tacflow.Analysis:
                self.assertEqual(built.names(analysis), program.names(analysis))
                one, other = program.facts(analysis), built.facts(analysis)
                sets = [(it.bits_at(p), it.has_path(p)) for it in (one, other) for p in it.points]
                self.assertEqual(sets[: len(sets) // 2], sets[len(sets) // 2 :])

    def test_examples(self) -> None:
        for path in sorted((ROOT / "examples").glob("*.tac")):
            self.check(path.read_bytes())

    def test_random_programs(self) -> None:
        for seed in (it for it in range(1, 60) if it % 10):
            self.check(text_of(seed))

    def test_by_hand(self) -> None:
        test = Built(StatementKind.IF, right=A, label=0)
        with tacflow.build(
            [BuiltProcedure("main", MAIN), BuiltProcedure("p", [test], [1])], 2
        ) as program:
            listing = "proc main\n  v0 = v1 + 1\n  call p\n  print v0\nend\n"
            self.assertEqual(program.listing(), listing + "proc p\n  if v0 goto L0\nL0:\nend\n")
            self.assertEqual([point.line for point in program.points], [2, 3, 4, 0, 0, 0])
            self.assertEqual(program.points[0].span, slice(0, 0))


class Faults(unittest.TestCase):
    def refused(self, procedures: list[BuiltProcedure], variables: object) -> tuple[int, int]:
        with self.assertRaises(tacflow.NotBuilt) as caught:
            tacflow.build(procedures, variables)  # type: ignore[arg-type]
        self.assertTrue(str(caught.exception))
        return caught.exception.fault, caught.exception.number

    def test_statements(self) -> None:
        p = BuiltProcedure("p", [])
        bad = [
            MAIN[0]._replace(target=2),
            MAIN[0]._replace(operator="!"),
            MAIN[0]._replace(operator="plus"),
            MAIN[0]._replace(left=None),
            MAIN[0]._replace(right=Operand(None, 2**63)),
            MAIN[0]._replace(kind=0),
            MAIN[0]._replace(kind=13),
            MAIN[1]._replace(callees=[]),
            MAIN[1]._replace(callees=[2]),
            MAIN[1]._replace(callees=[1, 1]),
            MAIN[1]._replace(callees=[0, 1] * 5),
            Built(StatementKind.GOTO, label=0),
        ]
        for it in bad:
            self.assertEqual(self.refused([BuiltProcedure("main", [*MAIN, it]), p], 2), (1, 3))

    def test_others(self) -> None:
        main = BuiltProcedure("main", MAIN[::2])
        self.assertEqual(self.refused([main._replace(labels=[3])], 2), (2, 0))
        self.assertEqual(self.refused([main._replace(labels=[1, 0])], 2), (2, 1))
        self.assertEqual(self.refused([main, main], 2), (3, 1))
        self.assertEqual(self.refused([main], ["x", "x"]), (4, 1))
        self.assertEqual(self.refused([main], ["x", "if"]), (4, 1))
        self.assertEqual(self.refused([main], ["x", "\u00fc"]), (4, 1))
        self.assertEqual(self.refused([BuiltProcedure("p", [])], 0), (7, 0))
        self.assertEqual(self.refused([], 0), (7, 0))
        many = [BuiltProcedure(f"p{n}", []) for n in range(256)]
        self.assertEqual(self.refused([main, *many], 2), (8, 0))
        with self.assertRaises(tacflow.TooManyPoints):
            tacflow.build([BuiltProcedure("main", [Built(StatementKind.SKIP)] * 16_384)], 0)
        with self.assertRaises(tacflow.BadLimits):
            tacflow.build([main], 2, "small")


if __name__ == "__main__":
    unittest.main()
