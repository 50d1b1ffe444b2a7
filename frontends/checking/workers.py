"""Who makes the shares of a run."""

from __future__ import annotations

import gc
from typing import TYPE_CHECKING, Protocol

from .analysis import take_up
from .compiling import Unusable
from .shares import found_or_made, made_next

if TYPE_CHECKING:
    from collections.abc import Callable, Generator

    from .cache import Cache
    from .compiling import Input
    from .shares import Making, Share

    # Shares with the numbers of their sources, or None where there is none yet.
    Made = Generator[tuple[int, Share] | None, None, None]

# What is told where a process is gone; a run by one process tells which file it is.
GONE = "a process of this run was killed, as where memory is out: take fewer with -j"


class Workers(Protocol):
    """Those who make shares, and the report on what these are linked to: processes of this machine,
    or of a cluster.

    count: how many processes of this machine there may be. report: makes the report on a text, and
    tells what else was said; None where tacview does it here.
    """

    count: int
    report: Callable[[list[str]], tuple[str, list[str]]] | None

    def made(self, making: Making, groups: list[list[Input]], cache: Cache | None) -> Made:
        """The shares of all sources, in the order in which they are done, with the sources'
        numbers.
        """


class Processes:
    """Up to so many processes of this machine; by one, this process itself."""

    report = None

    def __init__(self, count: int) -> None:
        self.count = count

    def made(self, making: Making, groups: list[list[Input]], cache: Cache | None) -> Made:
        """The shares of all sources."""
        if len(groups) == 1:
            yield 0, found_or_made(making, groups[0], cache, self.count)
        elif self.count == 1:
            for number, group in enumerate(groups):
                yield number, made_next(making, group, cache)
        else:
            yield from by_several(min(self.count, len(groups)), making, groups, cache)


def by_several(count: int, making: Making, groups: list[list[Input]], cache: Cache | None) -> Made:
    """The shares of all sources, by so many processes; none is left where one is gone, or where
    the run is given up.
    """
    # they take a while, and many runs need none
    from concurrent.futures import ProcessPoolExecutor, as_completed
    from concurrent.futures.process import BrokenProcessPool
    from multiprocessing import active_children, get_context

    gc.freeze()  # a collection would write to all that is shared
    with ProcessPoolExecutor(count, get_context("fork"), take_up) as pool:
        try:
            numbers = {
                pool.submit(made_next, making, group, cache): number
                for number, group in enumerate(groups)
            }
            for future in as_completed(numbers):
                yield numbers[future], future.result()
        except BrokenProcessPool:
            raise Unusable([GONE]) from None
        finally:
            for child in active_children():
                child.terminate()
