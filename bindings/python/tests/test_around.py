"""What stands around remarks: by hand, and on random programs against facts of changed programs.

A statement that is met next, or last, is a question of one bit. The program is changed so that one
of its own analyses asks it: control stays as it is, what is met sets or reads a variable of its
own, what stops a way does the other, and nothing else does anything.
"""

from __future__ import annotations

import unittest
from collections.abc import Callable

import tacflow
from tacflow import Expression, Nearby, NearbyKind, Operand, Remark, RemarkKind, StatementKind
from tests.tables import text_of
from tests.test_data import CALLS, ENDLESS

DEAD, COMPUTED, BUSY = RemarkKind.DEAD, RemarkKind.ALREADY_COMPUTED, RemarkKind.VERY_BUSY
UNSET, NEVER = RemarkKind.UNSET, RemarkKind.NEVER_REACHED
WRITE, END, LAST, HOLDER, NEXT, REACHED = tuple(NearbyKind)
TESTS = (StatementKind.IF, StatementKind.IF_FALSE, StatementKind.IF_COMPARE)
CONTROL = (StatementKind.GOTO, StatementKind.CALL, StatementKind.RETURN)

# The variables are a, b, t, s, x and y, the expressions a + b and a * b.
REMARKED = """proc main
  read a
  read b
  t = a + b
  s = a + b
  x = 1
  if s goto L
  x = a * b
  goto M
L:
  y = a * b
  x = 2
M:
  print x
  goto N
  print t
N:
end
"""
# A loop that never ends on one side of a test: L is point 4, K point 5.
ONE_SIDE = """proc main
  read c
  if c goto L
  print c
  return
L:
  skip
K:
  goto K
end
"""
END_UNWRITTEN = Nearby(END, None, None)


def at(kind: NearbyKind, *points: int) -> list[Nearby]:
    return [Nearby(kind, point, None) for point in points]


def holder(variable: int) -> Nearby:
    return Nearby(HOLDER, None, variable)


# The remarks of REMARKED, then others, and what stands around them.
BY_HAND: list[tuple[Remark, list[Nearby]]] = [
    (Remark(2, DEAD, 2), [END_UNWRITTEN]),
    (Remark(3, COMPUTED, 0), [*at(LAST, 2), holder(2)]),
    (Remark(4, DEAD, 4), at(WRITE, 6, 9)),
    (Remark(5, BUSY, 1), at(NEXT, 6, 8)),
    (Remark(8, DEAD, 5), [END_UNWRITTEN]),
    (Remark(12, NEVER, None), at(REACHED, 11)),
    (Remark(0, NEVER, None), []),
    (Remark(10, UNSET, 4), []),
    (Remark(7, COMPUTED, 1), [*at(LAST, 6), holder(4)]),
    (Remark(10, COMPUTED, 1), at(LAST, 6, 8)),  # x or y holds it, as the way is
    (Remark(6, BUSY, 0), []),
    (Remark(0, DEAD, 4), at(WRITE, 4)),
]
REMARKS = 6


class Changed:
    """A program whose statements do what they are told and go where they went."""

    # so many points stand before those of the program
    BEFORE = 5

    def __init__(self, program: tacflow.Program) -> None:
        self.program = program
        self.lines = program.listing().splitlines()
        self.places: list[int] = []  # by point, the line of its statement, or of the end
        for number, line in enumerate(self.lines):
            if not line.startswith("proc ") and not line.endswith(":"):
                self.places.append(number)

    def but(self, does: Callable[[int], str | None]) -> tacflow.Program:
        """The program in which each statement that is neither a test nor a jump, call or return is
        what `does` says of its point, or skip; no test reads a variable."""
        lines = list(self.lines)
        for point, statement in enumerate(self.program.statements):
            place = self.places[point]
            if statement.kind in TESTS:
                lines[place] = f"  if 1 goto {lines[place].split()[-1]}"
            elif statement.kind not in (*CONTROL, StatementKind.NONE):
                lines[place] = "  " + (does(point) or "skip")
        # the variable and the expression are there, whatever the rest is
        named = ["proc named", "  one = 1", "  two = 2", "  it = one + two", "  print it", "end"]
        return tacflow.open("\n".join([*named, *lines, ""]))

    def has(
        self, analysis: str, name: str, at_point: int, does: Callable[[int], str | None]
    ) -> bool:
        """Whether the changed program has a bit of this name in a set."""
        with self.but(does) as changed:
            point = at_point + self.BEFORE
            if not changed.has_path(analysis)[point]:
                return False
            return name in changed.facts(analysis).names_at(point)


class Around:
    """What has to stand around remarks of a program."""

    def __init__(self, program: tacflow.Program) -> None:
        self.program = program
        self.changed = Changed(program)
        self.points = range(program.sizes.points)
        self.targets = [it.target for it in program.statements]

    def operands(self, expression: int) -> set[int]:
        parts: tuple[Operand | None, ...] = self.program.expressions[expression][1:]
        return {it.variable for it in parts if it is not None and it.variable is not None}

    def evaluates(self, point: int, expression: int) -> bool:
        it = self.program.statements[point]
        same = Expression(it.operator or "", it.left, it.right or Operand(None, None))
        return it.expression is not None and same == self.program.expressions[expression]

    def changes(self, point: int, expression: int) -> bool:
        return self.targets[point] in self.operands(expression)

    def met_next(self, met: int, stops: Callable[[int], bool], point: int) -> bool:
        """Whether a way from a point comes to a statement before all that stop it."""
        does = {it: "read it" for it in self.points if stops(it)} | {met: "print it"}
        return self.changed.has("live", "it", point, does.get)

    def met_last(self, met: int, stops: Callable[[int], bool], point: int) -> bool:
        """Whether a way to a point comes from a statement past none that stops it: the definition
        of that one alone is of a variable of its own line."""
        does = {it: "it = 1" for it in self.points if stops(it)}
        with self.changed.but(does.get) as changed:
            at_point, line = point + Changed.BEFORE, changed.points[met + Changed.BEFORE].line
            reached = changed.has_path("reach")[at_point]
            return bool(reached) and f"it@{line}" in changed.facts("reach").names_at(at_point)

    def dead(self, variable: int, point: int) -> list[Nearby]:
        writes = [it for it in self.points if self.targets[it] == variable]
        met = [it for it in writes if self.met_next(it, writes.__contains__, point + 1)]
        does = dict.fromkeys(writes, "it = one + two")
        with self.changed.but(does.get) as changed:
            behind = point + 1 + Changed.BEFORE
            ends = changed.has_path("busy")[behind]
            always = "one + two" in changed.facts("busy").names_at(behind)
        return at(WRITE, *met) + [END_UNWRITTEN] * (bool(ends) and not always)

    def computed(self, expression: int, point: int) -> list[Nearby]:
        def renews(it: int) -> bool:
            return self.evaluates(it, expression) or self.changes(it, expression)

        evaluations = [
            it
            for it in self.points
            if self.evaluates(it, expression)
            and not self.changes(it, expression)
            and self.met_last(it, renews, point)
        ]
        variables = range(self.program.sizes.variables)
        holders = [it for it in variables if self.holds(it, expression, point)]
        return at(LAST, *evaluations) + [holder(it) for it in holders]

    def holds(self, variable: int, expression: int, point: int) -> bool:
        does: dict[int, str] = {}
        for it in self.points:
            changes = self.changes(it, expression)
            if self.targets[it] == variable or changes:
                made = self.targets[it] == variable and self.evaluates(it, expression)
                does[it] = "it = one + two" if made and not changes else "read one"
        return self.changed.has("avail", "one + two", point, does.get)

    def busy(self, expression: int, point: int) -> list[Nearby]:
        def decides(it: int) -> bool:
            return self.evaluates(it, expression) or self.changes(it, expression)

        evaluations = [it for it in self.points if self.evaluates(it, expression)]
        return at(NEXT, *(it for it in evaluations if self.met_next(it, decides, point)))

    def never(self, point: int) -> list[Nearby]:
        reached, place = self.program.has_path("reach"), self.program.points[point].place
        before = [it for it in range(point - place, point) if reached[it]]
        return at(REACHED, *before[-1:])

    def of(self, remark: Remark) -> list[Nearby]:
        name = remark.name
        if name is None:
            return self.never(remark.point)
        if remark.kind is DEAD:
            return self.dead(name, remark.point)
        if remark.kind is COMPUTED:
            return self.computed(name, remark.point)
        return self.busy(name, remark.point) if remark.kind is BUSY else []


class ByHand(unittest.TestCase):
    def test_remarks(self) -> None:
        with tacflow.open(REMARKED) as program:
            self.assertEqual(list(program.remarks()), [it for it, _ in BY_HAND[:REMARKS]])
            for remark, wanted in BY_HAND:
                self.assertEqual(list(program.around(remark)), wanted, remark)

    def test_calls(self) -> None:
        with tacflow.open(CALLS) as program:
            around = program.around(Remark(6, DEAD, 1))
            self.assertEqual(list(around), [*at(WRITE, 6), END_UNWRITTEN])

    def test_more_than_room_at_first(self) -> None:
        count = 100
        lines = ["read c"] + ["if c goto L"] * count
        lines += ["goto E"] + ["x = 1", "goto E"] * count + ["x = 2"]
        text = "proc main\n" + "\n".join(lines) + "\nE:\nend\n"
        for number in range(count):
            text = text.replace("goto L\n", f"goto L{number}\n", 1)
            text = text.replace("\nx = 1\n", f"\nL{number}:\nx = 3\n", 1)
        with tacflow.open(text) as program:
            wanted = at(WRITE, *range(count + 2, 3 * count + 2, 2))
            around = program.around(Remark(0, DEAD, program.variables.index("x")))
            self.assertEqual(list(around), [*wanted, END_UNWRITTEN])

    def test_origins(self) -> None:
        with tacflow.open(ONE_SIDE) as program:
            origins = [program.doubt_origin(point) for point in range(program.sizes.points)]
            self.assertEqual(origins, [4, 4, None, None, 4, 5, None])

    def test_wrong_words(self) -> None:
        wrong = [
            *[Remark(point, NEVER, None) for point in (8, -1, 2**32)],
            *[Remark(7, DEAD, 0), Remark(0, DEAD, 2), Remark(0, DEAD, None)],
            *[Remark(8, COMPUTED, 0), Remark(0, COMPUTED, 2), Remark(0, UNSET, -1)],
            *[Remark(8, BUSY, 0), Remark(0, BUSY, 2)],
        ]
        with tacflow.open(CALLS) as program:
            for remark in wrong:
                with self.assertRaisesRegex(tacflow.BadRange, "the program has no"):
                    program.around(remark)
            for point in (8, -1, None):
                with self.assertRaisesRegex(tacflow.BadRange, "the program has no point"):
                    program.doubt_origin(point)  # type: ignore[arg-type]
        asks: list[Callable[[], object]] = [lambda: program.around(wrong[0])]
        asks.append(lambda: program.doubt_origin(0))
        for ask in asks:
            with self.assertRaises(tacflow.ClosedProgram):
                ask()


def questions(program: tacflow.Program) -> list[Remark]:
    """Some remarks of a program, and others at some points of it."""
    sizes = program.sizes
    asked = list(program.remarks())[::5]
    for point in range(0, sizes.points, 7):
        expression = point % max(sizes.expressions, 1)
        if sizes.expressions:
            asked += [Remark(point, kind, expression) for kind in (COMPUTED, BUSY)]
        if sizes.variables and point + 1 < sizes.points:
            asked.append(Remark(point, DEAD, point % sizes.variables))
        asked.append(Remark(point, NEVER, None))
    return asked


class AsFactsSay(unittest.TestCase):
    def test_random_programs(self) -> None:
        seen: dict[NearbyKind, int] = dict.fromkeys(NearbyKind, 0)
        for seed in (it for it in range(1, 100) if it % 10):
            with tacflow.open(text_of(seed)) as program:
                if program.sizes.points > 150:
                    continue
                around = Around(program)
                for remark in questions(program):
                    told = list(program.around(remark))
                    self.assertEqual(told, around.of(remark), (seed, remark))
                    for it in told:
                        seen[it.kind] += 1
        for kind, count in seen.items():
            self.assertGreater(count, 5, kind)

    def test_doubt(self) -> None:
        texts: list[bytes | str] = [text_of(seed) for seed in range(1, 60) if seed % 10]
        for text in [*texts, ENDLESS]:
            with tacflow.open(text) as program:
                doubtful, ends = list(program.doubtful()), list(program.has_path("live"))
                targets: dict[int, list[int]] = {}
                for edge in program.edges():
                    targets.setdefault(edge.source, []).append(edge.target)
                for point in range(0, len(doubtful), 5):
                    origin = program.doubt_origin(point)
                    self.assertEqual(origin is not None, bool(doubtful[point]))
                    if origin is not None:
                        self.assertFalse(ends[origin])
                        self.assertIn(origin, reached_from(point, targets))


def reached_from(point: int, targets: dict[int, list[int]]) -> set[int]:
    """The points to which some path from one leads."""
    found, left = {point}, [point]
    while left:
        for target in targets.get(left.pop(), ()):
            if target not in found:
                found.add(target)
                left.append(target)
    return found


if __name__ == "__main__":
    unittest.main()
