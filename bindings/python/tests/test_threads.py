"""Threads that ask at once, each by a program of its own, or all by one."""

from __future__ import annotations

import random
import threading
import unittest
from collections.abc import Callable
from concurrent.futures import ThreadPoolExecutor

import tacflow
from tests.tables import ANALYSES, text_of

THREADS = 8
ROUNDS = 30


class Threads(unittest.TestCase):
    def setUp(self) -> None:
        self.program = tacflow.open(text_of(1))
        self.wanted = self.answers(self.program)

    def answers(self, program: tacflow.Program) -> list[object]:
        told: list[object] = [program.report(), program.listing(), program.variables]
        for analysis in ANALYSES:
            facts = program.facts(analysis)
            told.append([facts.bits_at(point) for point in facts.points])
        return told

    def at_once(self, work: Callable[[int], None]) -> None:
        start = threading.Barrier(THREADS)

        def begun(number: int) -> None:
            start.wait()
            work(number)

        with ThreadPoolExecutor(THREADS) as threads:
            list(threads.map(begun, range(THREADS)))

    def test_one_program_each(self) -> None:
        shared = [self.program.share() for _ in range(THREADS)]
        self.program.close()

        def work(number: int) -> None:
            with shared[number] as own:
                for _ in range(ROUNDS):
                    with own.share() as further:
                        self.assertEqual(self.answers(further), self.wanted)

        self.at_once(work)
        self.assertTrue(all(program.closed for program in shared))

    def test_one_program_for_all(self) -> None:
        def work(_: int) -> None:
            for _ in range(ROUNDS):
                self.assertEqual(self.answers(self.program), self.wanted)

        self.at_once(work)

    def test_closed_while_others_ask(self) -> None:
        def work(number: int) -> None:
            draw = random.Random(number)
            for _ in range(ROUNDS):
                try:
                    if draw.random() < 0.01:
                        self.program.close()
                    self.assertEqual(self.program.listing(), self.wanted[1])
                except tacflow.ClosedProgram:
                    return

        self.at_once(work)

    def test_texts_of_their_own(self) -> None:
        texts = [text_of(seed) for seed in range(101, 101 + THREADS) if seed % 10]
        wanted = [self.answers(tacflow.open(text)) for text in texts]

        def work(number: int) -> None:
            at = number % len(texts)
            for _ in range(ROUNDS):
                with tacflow.open(texts[at]) as own:
                    self.assertEqual(self.answers(own), wanted[at])

        self.at_once(work)


if __name__ == "__main__":
    unittest.main()
