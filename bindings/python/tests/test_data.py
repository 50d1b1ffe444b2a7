"""Points, statements, edges and remarks as data: by hand, and the report that is made of them."""

from __future__ import annotations

import unittest
from collections.abc import Callable

import tacflow
from tacflow import EdgeKind, Operand, Remark, RemarkKind, Statement, StatementKind
from tests.tables import ROOT, shown, text_of

CALLS = """proc main
  a = b + 1
  call p
  print a
end
proc p
  if a goto L
  call p
  b = a * a
L:
end
"""
ENDLESS = """proc main
  read a
  goto M
  x = a
M:
  if a goto M
  call q
  print a
end
proc q
N:
  goto N
end
"""
A, B = Operand(0, None), Operand(1, None)
SAYS = {
    RemarkKind.NEVER_REACHED: "never reached",
    RemarkKind.UNSET: "{} may be used before it is set",
    RemarkKind.ALREADY_COMPUTED: "{} is already computed",
    RemarkKind.VERY_BUSY: "{} is very busy",
    RemarkKind.DEAD: "assignment to {} is dead",
}


def report_of(program: tacflow.Program) -> str:
    """The report, made of data."""
    sizes = program.sizes._asdict()
    del sizes["procedures"]
    first = ", ".join(f"{word} {count}" for word, count in sizes.items())
    return first + "\n" + "".join(line_of(program, it) for it in program.remarks())


def line_of(program: tacflow.Program, remark: Remark) -> str:
    of_variable = remark.kind in (RemarkKind.UNSET, RemarkKind.DEAD)
    names = program.variables if of_variable else program.names("busy")
    name = "" if remark.name is None else names[remark.name]
    return f"{program.points[remark.point].line}: {SAYS[remark.kind].format(name)}\n"


class ByHand(unittest.TestCase):
    def test_statements(self) -> None:
        with tacflow.open(CALLS) as program:
            statements = program.statements
        added = Statement(StatementKind.BINARY, 0, "+", None, None, 0, B, Operand(None, 1))
        test = Statement(StatementKind.IF, None, None, 0, 7, None, None, A)
        none = Statement(StatementKind.NONE, None, None, None, None, None, None, None)
        self.assertEqual((statements[0], statements[4], statements[7]), (added, test, none))
        kinds = [it.kind.name for it in statements]
        self.assertEqual(kinds, "BINARY CALL PRINT NONE IF CALL BINARY NONE".split())

    def test_each_kind(self) -> None:
        lines = "x = y;x = -y;x = y < 2;goto L;if 1 goto L;ifFalse x goto L;if x >= 3 goto L;"
        rest = "call main;return;read x;print x;skip"
        text = "proc main\n" + "\n".join((lines + rest).split(";")) + "\nL:\nend\n"
        with tacflow.open(text) as program:
            statements = program.statements
            self.assertEqual([it.kind for it in statements], [*range(1, 13), 0])
            self.assertEqual([it.target for it in statements if it.target is not None], [0] * 4)
            signs = [it.operator for it in statements if it.operator is not None]
            self.assertEqual(signs, ["-", "<", ">="])
            self.assertEqual([it.goes_to for it in statements if it.label == 0], [12] * 4)
            evaluated = [it.expression for it in statements if it.expression is not None]
            self.assertEqual(evaluated, [0, 1])

    def test_edges(self) -> None:
        step, call, back = EdgeKind.STEP, EdgeKind.CALL, EdgeKind.RETURN
        wanted = [
            (step, None, 0, 1),
            (call, 1, 1, 4),
            (step, None, 2, 3),
            (step, None, 4, 5),
            (step, None, 4, 7),
            (call, 5, 5, 4),
            (step, None, 6, 7),
            (back, 1, 7, 2),
            (back, 5, 7, 6),
        ]
        with tacflow.open(CALLS) as program:
            self.assertEqual(list(program.edges()), wanted)
            self.assertEqual(list(program.edges(slice(4, 5))), wanted[3:5])
            self.assertEqual(list(program.edges(range(8, 8))), [])
            with self.assertRaises(tacflow.BadRange):
                program.edges(range(0, 9))

    def test_many_edges(self) -> None:
        """More edges than room at first: each call of a procedure is a return of it."""
        text = "proc main\n" + "call p\n" * 100 + "end\nproc p\nend\n"
        with tacflow.open(text) as program:
            returns = program.edges(slice(101, 102))
            self.assertEqual([it.site for it in returns], list(range(100)))

    def test_flags(self) -> None:
        with tacflow.open(ENDLESS) as program:
            forward, backward = [1, 1, 0, 1, 1, 0, 0, 1, 0], [0, 0, 0, 0, 0, 1, 1, 0, 1]
            self.assertEqual(list(program.has_path("reach")), forward)
            self.assertEqual(list(program.has_path("busy", slice(2, 6))), backward[2:6])
            self.assertEqual(list(program.doubtful()), [1, 1, 1, 1, 1, 0, 0, 1, 0])
            self.assertEqual(list(program.doubtful(range(4, 8))), [1, 0, 0, 1])
            with self.assertRaises(tacflow.BadAnalysis):
                program.has_path("dead")
            with self.assertRaises(tacflow.BadRange):
                program.doubtful(range(0, 10))

    def test_remarks(self) -> None:
        with tacflow.open(CALLS) as program:
            wanted = [Remark(0, RemarkKind.UNSET, 1), Remark(6, RemarkKind.DEAD, 1)]
            self.assertEqual(list(program.remarks()), wanted)
        with tacflow.open(ENDLESS) as program:
            never = RemarkKind.NEVER_REACHED
            self.assertEqual(list(program.remarks()), [Remark(it, never, None) for it in (2, 5)])

    def test_closed(self) -> None:
        program = tacflow.open(CALLS)
        program.close()
        asks: list[Callable[[], object]] = [program.remarks, program.edges, program.doubtful]
        asks.append(lambda: program.statements)
        for ask in asks:
            with self.assertRaises(tacflow.ClosedProgram):
                ask()


class AsTheReport(unittest.TestCase):
    def test_examples(self) -> None:
        for path in sorted((ROOT / "examples").glob("*.tac")):
            with tacflow.open(path.read_bytes()) as program:
                self.assertEqual(report_of(program), program.report(), path.name)

    def test_random_programs(self) -> None:
        for seed in (it for it in range(1, 100) if it % 10):
            text = text_of(seed)
            with tacflow.open(text) as program:
                self.assertEqual(report_of(program), shown("report", text)[0], seed)

    def test_flags_of_facts(self) -> None:
        for seed in (it for it in range(1, 100) if it % 10):
            with tacflow.open(text_of(seed)) as program:
                for analysis in tacflow.Analysis:
                    wanted = list(program.facts(analysis).flags)
                    self.assertEqual(list(program.has_path(analysis)), wanted)


if __name__ == "__main__":
    unittest.main()
