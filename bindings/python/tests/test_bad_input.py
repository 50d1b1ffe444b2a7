"""What bad input is answered: an error of its kind, with what is wrong, and nothing is changed."""

from __future__ import annotations

import unittest
from typing import Any

import tacflow

TEXT = "proc main\n  x = y + 1\n  print x\nend\n"
LONGEST = 1_048_576


def in_main(*lines: str) -> str:
    return "\n".join(["proc main", *lines, "end", ""])


NAME = "n" * 65
# A text, and the number, the line and the column of its refusal.
REFUSED: list[tuple[str | bytes, int, int, int]] = [
    ("", 6, 1, 1),
    (b"\0", 1, 1, 1),
    (b"proc main\n\xff\nend\n", 1, 2, 1),
    ("proc main\r\r\nend\n", 1, 1, 10),
    ("\u00fc", 1, 1, 1),
    (in_main("x = a $ b"), 1, 2, 7),
    (in_main("call f(x)"), 1, 2, 7),
    (in_main("x = y;"), 1, 2, 6),
    (in_main("x =  @"), 1, 2, 6),
    (in_main("x = 9223372036854775808"), 2, 2, 5),
    (in_main("x = " + "9" * 4000), 2, 2, 5),
    (in_main(f"x = {NAME}"), 3, 2, 5),
    (in_main(f"{NAME} = 1"), 3, 2, 1),
    (in_main("x = y + z + w"), 4, 2, 11),
    (in_main("x = y +"), 4, 2, 8),
    (in_main("x = 12ab"), 4, 2, 7),
    (in_main("x = = 1"), 4, 2, 5),
    (in_main("if x = 3 goto L"), 4, 2, 6),
    (in_main("if x < 3 then goto L"), 4, 2, 10),
    (in_main("return x"), 4, 2, 8),
    (in_main("L: end"), 4, 2, 4),
    (in_main("proc p"), 4, 2, 1),
    (in_main("x y @"), 4, 2, 3),
    (in_main("call main |"), 4, 2, 12),
    (in_main("call a|b|c|d|e|f|g|h|i"), 4, 2, 21),
    ("x = 1\n", 4, 1, 1),
    ("end\n", 4, 1, 1),
    ("proc main\nx = 1\n", 5, 3, 1),
    ("proc main\nx = 1", 5, 2, 6),
    ("proc start\nend\n", 6, 1, 1),
    ("# nothing\n", 6, 1, 1),
    ("proc main\nend\nproc main\nend\n", 7, 3, 6),
    (in_main("L: skip", "L: skip"), 8, 3, 1),
    (in_main("goto A", "call z", "A: A: skip"), 8, 4, 4),
    (in_main("goto M"), 9, 2, 6),
    (in_main("call q"), 10, 2, 6),
    ("#" * (LONGEST + 1), 11, 1, 1),
    ("".join(f"proc p{n}\nend\n" for n in range(256)) + "proc main\nend\n", 12, 513, 6),
    (in_main("call main | main"), 13, 2, 13),
]


class Refusals(unittest.TestCase):
    def test_texts(self) -> None:
        for text, *wanted in REFUSED:
            with self.subTest(text[:40]), self.assertRaises(tacflow.Refused) as caught:
                tacflow.open(text)
            told = caught.exception
            self.assertEqual([told.number, told.line, told.column], wanted)
            begins = f"{told.line}:{told.column}: refusal {told.number}: {told.name}: "
            self.assertEqual(str(told), begins + told.meaning)

    def test_within_the_large_limits(self) -> None:
        for text, number, line, column in REFUSED:
            if number not in (11, 12):
                with self.subTest(text[:40]), self.assertRaises(tacflow.Refused) as caught:
                    tacflow.open(text, "large")
                told = caught.exception
                self.assertEqual((told.number, told.line, told.column), (number, line, column))
        with self.assertRaisesRegex(tacflow.Refused, "TextTooLong: more than 536,870,912 bytes"):
            tacflow.open(b"#" * (512 * LONGEST + 1), "large")

    def test_too_large(self) -> None:
        with self.assertRaisesRegex(tacflow.TooManyPoints, "more points than the limits allow"):
            tacflow.open(in_main(*["skip"] * 16_384))
        with self.assertRaisesRegex(tacflow.TooManyBits, "more bits than the limits allow"):
            tacflow.open(in_main(*[f"read v{n}" for n in range(2_049)]))
        with tacflow.open(in_main(*["skip"] * 16_384), "large") as program:
            self.assertEqual(program.sizes.points, 16_385)

    def test_kinds_of_errors(self) -> None:
        with self.assertRaises(ValueError):
            tacflow.open("")
        self.assertTrue(issubclass(tacflow.OutOfMemory, MemoryError))
        self.assertTrue(issubclass(tacflow.BadRange, IndexError))
        for name in ("Refused", "TooManyPoints", "TooManyBits", "ClosedProgram", "BadLimits"):
            self.assertTrue(issubclass(getattr(tacflow, name), tacflow.Error))


class WrongWords(unittest.TestCase):
    def setUp(self) -> None:
        self.program = tacflow.open(TEXT)

    def tearDown(self) -> None:
        # after each fault it tells what it told before
        self.assertEqual(self.program.facts("live").bits_at(0), [1])

    def test_texts_of_other_types(self) -> None:
        for text in (None, 7, ["proc main"], object()):
            with self.assertRaisesRegex(TypeError, "a text is str or bytes, not"):
                tacflow.open(text)  # type: ignore[arg-type]

    def test_limits(self) -> None:
        for limits in ("huge", "Large", "", 2, -1, None, True, 0.0):
            with self.assertRaisesRegex(tacflow.BadLimits, "there are standard, large"):
                tacflow.open(TEXT, limits)  # type: ignore[arg-type]

    def test_analyses(self) -> None:
        for analysis in ("", "Live", "alive", 4, -1, 2**32, None, True, 1.0):
            wrong: Any = analysis
            with self.assertRaisesRegex(tacflow.BadAnalysis, "there are reach, live, avail, busy"):
                self.program.facts(wrong)
            for asked in (self.program.bit_count, self.program.names):
                self.assertRaises(tacflow.BadAnalysis, asked, wrong)

    def test_ranges(self) -> None:
        facts = self.program.facts
        for wrong in (range(4), range(-1, 2), range(2, 1), range(4, 4), range(2**32, 2**32)):
            with self.assertRaisesRegex(tacflow.BadRange, r"points .* are not within 0\.\.3"):
                facts("live", points=wrong)
        for wrong in (range(3), range(-2, 0), range(1, 2**64)):
            with self.assertRaisesRegex(tacflow.BadRange, r"bits .* are not within 0\.\.2"):
                facts("live", bits=wrong)
        slices: list[range | slice] = [slice(None, None, 2), slice(None, None, -1)]
        for steps in (range(0, 3, 2), range(2, 0, -1), *slices):
            with self.assertRaisesRegex(tacflow.BadRange, "points go up by one, not by"):
                facts("live", points=steps)
        for other in (1, "main", (0, 1), 0.5):
            with self.assertRaisesRegex(TypeError, "points are a range, a slice or None, not"):
                facts("live", points=other)  # type: ignore[arg-type]

    def test_numbers(self) -> None:
        facts = self.program.facts("live", range(1, 3), range(1))
        for point in (0, 3, -1, 2**40):
            for asked in (facts.bits_at, facts.names_at, facts.has_path):
                with self.assertRaisesRegex(tacflow.BadRange, f"no point {point}"):
                    asked(point)
        for bit in (-1, 1, 64, 2**40):
            with self.assertRaisesRegex(tacflow.BadRange, f"no bit {bit}"):
                facts.contains(1, bit)
        for procedure in ("", "Main", -1, 1, None):
            with self.assertRaisesRegex(tacflow.BadRange, "the program has no procedure"):
                self.program.points_of(procedure)  # type: ignore[arg-type]
        with self.assertRaises(IndexError):
            self.program.points[3]


class Closed(unittest.TestCase):
    def test_closed_twice(self) -> None:
        program = tacflow.open(TEXT)
        program.close()
        self.assertTrue(program.closed)
        with self.assertRaisesRegex(tacflow.ClosedProgram, "the program is closed"):
            program.close()
        with tacflow.open(TEXT) as within:
            within.close()

    def test_asked_when_closed(self) -> None:
        with tacflow.open(TEXT) as program:
            known = program.sizes
        asks = [
            program.share,
            program.listing,
            program.report,
            lambda: program.facts("live"),
            lambda: program.points,
            lambda: program.definitions,
            lambda: program.expressions,
            lambda: program.procedures,
            lambda: program.variables,
        ]
        for ask in asks:
            self.assertRaises(tacflow.ClosedProgram, ask)
        self.assertEqual(program.sizes, known)

    def test_shared_ones_stay_open(self) -> None:
        first = tacflow.open(TEXT)
        second = first.share()
        first.close()
        self.assertEqual(second.facts("live").names_at(0), ["y"])
        second.close()
        self.assertRaises(tacflow.ClosedProgram, second.close)


if __name__ == "__main__":
    unittest.main()
