"""Random programs: the module tells of each what the program `tacflow` writes."""

from __future__ import annotations

import random
import unittest
from concurrent.futures import ThreadPoolExecutor
from unittest import mock

import tacflow
from tacflow import _arrays
from tests.tables import ANALYSES, shown, text_of, told

# 300 programs, and 33 broken ones.
COUNT = 333


def difference(seed: int) -> str | None:
    """The first kind of answer that differs: of two tables, in turn, or of a report and a listing
    where the text is broken."""
    text = text_of(seed)
    kinds = ANALYSES[seed % 2 :: 2] if seed % 10 else ("report", "list")
    return next((f"{seed} {it}" for it in kinds if shown(it, text) != told(it, text)), None)


class Tables(unittest.TestCase):
    def test_random_programs(self) -> None:
        with ThreadPoolExecutor(4) as threads:
            for found in threads.map(difference, range(1, COUNT + 1)):
                self.assertIsNone(found)

    def test_without_numpy(self) -> None:
        with mock.patch.object(_arrays, "numpy", None):
            for seed in range(1, 10):
                self.assertIsNone(difference(seed))

    def check_range(self, program: tacflow.Program, analysis: str, draw: random.Random) -> None:
        whole = program.facts(analysis)
        points = range(*sorted(draw.choices(range(len(whole.points) + 1), k=2)))
        bits = range(*sorted(draw.choices(range(len(whole.bits) + 1), k=2)))
        some = program.facts(analysis, points, bits)
        wanted = [[bit for bit in whole.bits_at(point) if bit in bits] for point in points]
        self.assertEqual([some.bits_at(point) for point in points], wanted)
        self.assertEqual(list(some.counts()), [len(held) for held in wanted])
        self.assertEqual(list(some.flags), list(whole.flags)[points.start : points.stop])

    def test_ranges(self) -> None:
        for seed in (it for it in range(1, 100) if it % 10):
            with tacflow.open(text_of(seed)) as program:
                for analysis in ANALYSES:
                    self.check_range(program, analysis, random.Random(seed))


if __name__ == "__main__":
    unittest.main()
