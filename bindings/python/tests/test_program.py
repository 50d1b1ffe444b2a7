"""A small program, with values by hand; with arrays of numpy, where numpy is there, and without."""

from __future__ import annotations

import gc
import unittest
from pathlib import Path
from typing import Any
from unittest import mock

import tacflow
from tacflow import Definition, Expression, Operand, Point, _arrays, _errors, _library

TEXT = "proc main\n  x = y + 1\n  print x\nend\n"
LANGUAGE = Path(__file__).resolve().parents[3] / "docs/LANGUAGE.md"


def wide_text() -> str:
    """A program of 130 variables, each set once and printed at the end."""
    sets = "".join(f"  v{n} = {n}\n" for n in range(130))
    return "proc main\n" + sets + "".join(f"  print v{n}\n" for n in range(130)) + "end\n"


class WhatAProgramIs(unittest.TestCase):
    def setUp(self) -> None:
        self.program = tacflow.open(TEXT)

    def test_sizes(self) -> None:
        self.assertEqual(self.program.sizes, (1, 3, 2, 3, 1))
        self.assertEqual(self.program.sizes.definitions, 3)
        counts = [self.program.bit_count(it) for it in tacflow.Analysis]
        self.assertEqual(counts, [3, 2, 1, 1])

    def test_parts(self) -> None:
        program = self.program
        self.assertEqual((program.procedures, program.variables), (("main",), ("x", "y")))
        self.assertEqual(program.points[0], Point(0, 0, 2, 12, 21))
        self.assertEqual([point.line for point in program.points], [2, 3, 0])
        self.assertEqual(TEXT.encode()[program.points[1].span], b"print x")
        self.assertEqual(TEXT.encode()[program.points[-1].span], b"")
        self.assertEqual(program.definitions[1], Definition(1, None))
        self.assertEqual(program.definitions[1:], [Definition(1, None), Definition(0, 0)])
        added = Expression("+", Operand(1, None), Operand(None, 1))
        self.assertEqual(list(program.expressions), [added])
        self.assertEqual(program.points_of("main"), range(3))
        self.assertEqual(program.points_of(0), range(3))

    def test_names(self) -> None:
        self.assertEqual(self.program.names("reach"), ("x@entry", "y@entry", "x@2"))
        self.assertEqual(self.program.names("live"), ("x", "y"))
        self.assertEqual(self.program.names("busy"), ("y + 1",))
        with tacflow.open("proc main\n  x = -y\nend\n") as unary:
            self.assertEqual(unary.names("avail"), ("-y",))

    def test_texts(self) -> None:
        self.assertEqual(self.program.listing(), TEXT)
        report = "points 3, variables 2, definitions 3, expressions 1\n"
        told = "2: y may be used before it is set\n"
        self.assertEqual(self.program.report(), report + told)

    def test_parts_of_the_report(self) -> None:
        digest = "9f9a495b9c2a199b447754f073a21e8ea2c4e6f0"
        counts = "points 3, variables 2, definitions 3, expressions 1\n"
        first = f"part 1 of 2 of {digest}\n{counts}end 1\n"
        told = "2: y may be used before it is set\n"
        second = f"part 2 of 2 of {digest}\n{counts}{told}end 2\n"
        self.assertEqual([tacflow.report_part(TEXT, part, 2) for part in (1, 2)], [first, second])
        self.assertEqual(tacflow.report_part(TEXT, 2, 2, "large"), second)
        for part, count in ((0, 1), (2, 1), (1, 4097)):
            with self.assertRaises(tacflow.BadRange):
                tacflow.report_part(TEXT, part, count)
        with self.assertRaises(tacflow.Refused) as refused:
            tacflow.report_part("proc main\n", 1, 1)
        self.assertEqual(refused.exception.number, 5)
        points = "proc main\n" + "skip\n" * 16384 + "end\n"
        with self.assertRaises(tacflow.TooManyPoints):
            tacflow.report_part(points, 1, 1)

    def test_a_long_part(self) -> None:
        text = "proc main\n" + "".join(f"  x = {n}\n" for n in range(4000)) + "end\n"
        with tacflow.open(text) as long:
            report = long.report()
        lines = tacflow.report_part(text, 1, 1).split("\n", 1)[1]
        self.assertEqual(lines, report + "end 1\n")

    def test_a_long_listing(self) -> None:
        text = "proc main\n" + "  print x\n" * 9000 + "end\n"
        with tacflow.open(text) as long:
            self.assertEqual(long.listing(), text)

    def test_kinds_of_text(self) -> None:
        for text in (TEXT.encode(), bytearray(TEXT.encode()), memoryview(TEXT.encode())):
            with tacflow.open(text, tacflow.Limits.LARGE) as program:
                self.assertEqual((program.sizes, program.limits), (self.program.sizes, 1))
        with tacflow.open("proc main # \u00fc \udcff\nend\n") as program:
            self.assertEqual(program.sizes.points, 1)

    def test_points_of_procedures(self) -> None:
        names = [f"p{n}" for n in range(200)]
        text = "".join(f"proc {name}\nprint {name}\nend\n" for name in [*names, "main"])
        with tacflow.open(text) as program:
            for number, name in enumerate(names):
                self.assertEqual(program.points_of(name), range(2 * number, 2 * number + 2))

    def test_shown(self) -> None:
        told = "procedures 1, points 3, variables 2, definitions 3, expressions 1"
        self.assertEqual(repr(self.program), f"<tacflow.Program {told}>")
        self.program.close()
        self.assertEqual(repr(self.program), "<tacflow.Program closed>")
        version = tuple(map(int, tacflow.__version__.split(".")))
        self.assertEqual(len(version), 3)


class WhatHolds(unittest.TestCase):
    def sets(self, facts: tacflow.Facts) -> list[list[int]]:
        return [facts.bits_at(point) for point in facts.points]

    def test_all_analyses(self) -> None:
        by_hand: dict[str, Any] = {
            "reach": [[0, 1], [1, 2], [1, 2]],
            "live": [[1], [0], []],
            "avail": [[], [0], [0]],
            "busy": [[0], [], []],
        }
        with tacflow.open(TEXT) as program:
            for word, wanted in by_hand.items():
                facts = program.facts(word)
                self.assertEqual(self.sets(facts), wanted)
                self.assertEqual(list(facts.counts()), [len(it) for it in wanted])
                self.assertEqual([facts.has_path(it) for it in facts.points], [True] * 3)
                self.assertEqual(self.sets(program.facts(facts.analysis)), wanted)
                self.assertEqual(self.sets(program.facts(int(facts.analysis))), wanted)

    def test_some_points_and_bits(self) -> None:
        with tacflow.open(wide_text()) as program:
            every = program.facts("live")
            self.assertEqual(every.bits_at(130), list(range(130)))
            asked = [
                program.facts("live", points=range(120, 140), bits=range(60, 130)),
                program.facts("live", points=slice(-9, None), bits=slice(64)),
                program.facts("live", slice(129, 131), range(64, 128)),
            ]
            for some in asked:
                for point in some.points:
                    wanted = [bit for bit in every.bits_at(point) if bit in some.bits]
                    self.assertEqual(some.bits_at(point), wanted)
                    for bit in some.bits:
                        self.assertEqual(some.contains(point, bit), every.contains(point, bit))
            self.assertEqual(program.facts("live", slice(5, 2)).points, range(5, 5))

    def test_words_that_are_asked_for(self) -> None:
        # before `x = y + 1` y is live; behind it the new x and y's first value have come
        live = tacflow.Analysis.LIVE
        queries = [("reach", 1, 0), ("live", 0, 0), ("avail", 1, 0), (live.name.lower(), 1, 0)]
        with tacflow.open(TEXT) as program:
            self.assertEqual(program.ask(queries).tolist(), [6, 2, 1, 1])
            self.assertEqual(program.ask([(live, 1, 0), (int(live), 0, 0)]).tolist(), [1, 2])
            self.assertEqual(len(program.ask([])), 0)
            for wrong in (("live", 3, 0), ("live", 0, 1), ("live", -1, 0)):
                self.assertRaises(tacflow.BadRange, program.ask, [("live", 0, 0), wrong])
            self.assertRaises(tacflow.BadAnalysis, program.ask, [("alive", 0, 0)])
        with tacflow.open(wide_text()) as program:
            # at the end of the sets all that is printed is live: of word 2 the first two bits
            answers = program.ask([("live", 130, 2), ("live", 131, 0)])
            self.assertEqual(answers.tolist(), [3, 2**64 - 2])

    def test_nothing(self) -> None:
        with tacflow.open("proc main\nend\n") as program:
            for word in ("reach", "live", "avail", "busy"):
                facts = program.facts(word)
                self.assertEqual((self.sets(facts), list(facts.counts())), ([[]], [0]))
            self.assertEqual((len(program.definitions), program.variables), (0, ()))
            self.assertEqual(len(program.definitions.array), 0)
            none = program.facts("live", range(0), range(0))
            self.assertEqual((self.sets(none), list(none.counts())), ([], []))

    def test_no_path(self) -> None:
        with tacflow.open("proc main\nreturn\nx = a + b\nend\n") as program:
            facts = program.facts("avail")
            self.assertEqual([facts.has_path(it) for it in range(3)], [True, False, True])
            self.assertEqual(facts.names_at(1), ["a + b"])

    def test_facts_outlive_their_program(self) -> None:
        with tacflow.open(TEXT) as program:
            facts = program.facts("live")
            self.assertEqual(facts.names_at(0), ["y"])
        self.assertEqual(facts.names_at(1), ["x"])
        self.assertEqual(repr(facts), "<tacflow.Facts live, points range(0, 3), bits range(0, 2)>")


class WithoutNumpy(WhatHolds):
    def setUp(self) -> None:
        without = mock.patch.object(_arrays, "numpy", None)
        without.start()
        self.addCleanup(without.stop)

    def test_arrays(self) -> None:
        with tacflow.open(wide_text()) as program:
            facts = program.facts("live", range(130, 132))
            self.assertIsInstance(facts.words, memoryview)
            self.assertEqual((facts.words.shape, facts.words.format), ((2, 3), "Q"))
            self.assertEqual(facts.words[0, 2], 3)
            self.assertEqual((facts.flags.tolist(), facts.flags.readonly), ([True, True], True))
            self.assertEqual(program.points.array[3].line, 5)


@unittest.skipIf(_arrays.numpy is None, "no numpy")
class WithNumpy(unittest.TestCase):
    def test_arrays(self) -> None:
        with tacflow.open(wide_text()) as program:
            facts = program.facts("live", range(130, 132))
            self.assertEqual((facts.words.shape, str(facts.words.dtype)), ((2, 3), "uint64"))
            self.assertEqual((facts.flags.shape, str(facts.flags.dtype)), ((2,), "bool"))
            full = 2**64 - 1
            self.assertEqual(facts.words.tolist(), [[full, full, 3], [full - 1, full, 3]])
            self.assertEqual(facts.counts().tolist(), [130, 129])
            with self.assertRaises(ValueError):
                facts.words[0, 0] = 0
            self.assertEqual(program.points.array["line"][:3].tolist(), [2, 3, 4])
            self.assertEqual(program.definitions.array["variable"].tolist()[:130], list(range(130)))
            del program
        gc.collect()
        self.assertEqual(facts.words[0, 2], 3)


class TheTableOfRefusals(unittest.TestCase):
    def test_it_is_that_of_the_language(self) -> None:
        rows = [line.split(" | ") for line in LANGUAGE.read_text().splitlines()]
        rows = [row for row in rows if len(row) == 4 and row[0].removeprefix("| ").isdigit()]
        told = {int(row[0].removeprefix("| ")): (row[1], row[2]) for row in rows}
        self.assertEqual(told, _errors.REFUSALS)


class TheLibrary(unittest.TestCase):
    def test_a_program_that_is_gone_is_closed(self) -> None:
        program = tacflow.open(TEXT)
        handle = program._handle
        self.assertTrue(handle.is_open)
        del program
        gc.collect()
        self.assertFalse(handle.is_open)

    def test_calls_let_go_of_the_interpreter(self) -> None:
        held = 4  # FUNCFLAG_PYTHONAPI of ctypes
        self.assertEqual(_library.FACTS._flags_ & held, 0)


if __name__ == "__main__":
    unittest.main()
