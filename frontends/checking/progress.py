"""How far a run is, in one line on a terminal that is written again and again."""

from __future__ import annotations

import contextlib
import sys
import time
from typing import TYPE_CHECKING

if TYPE_CHECKING:
    from types import TracebackType

    from .shares import Share

# Seconds until a run takes long, and between two lines.
LONG = 1.0
BETWEEN = 0.1


class Progress:
    """How many shares of a run are made, and how many of them have a fault.

    On a terminal a line says so where the run takes long, and is gone at its end; else nothing is
    written.
    """

    def __init__(self, count: int) -> None:
        self.count = count
        self.done = 0
        self.failed = 0
        self.width = 0
        self.due = time.monotonic() + LONG
        self.is_told = count > 1 and sys.stderr is not None and sys.stderr.isatty()

    def __enter__(self) -> Progress:
        return self

    def __exit__(
        self,
        kind: type[BaseException] | None,
        fault: BaseException | None,
        trace: TracebackType | None,
    ) -> None:
        if self.width:
            self.write("")
            self.write_as_it_is("\r")

    def take(self, share: Share) -> None:
        """Counts a share that is made."""
        self.done += 1
        self.failed += bool(share.faults)

    def tell(self) -> None:
        """Writes the line, where it is time for one."""
        if not self.is_told or time.monotonic() < self.due:
            return
        self.due = time.monotonic() + BETWEEN
        failed = f", {self.failed} failed" if self.failed else ""
        self.write(f"check-c: {self.done} of {self.count} files{failed}")

    def write(self, text: str) -> None:
        """Writes a line over the one that is there."""
        self.write_as_it_is("\r" + text.ljust(self.width))
        self.width = len(text)

    def write_as_it_is(self, text: str) -> None:
        """Writes to the terminal; where that is gone, nothing is lost."""
        with contextlib.suppress(OSError):
            sys.stderr.write(text)
            sys.stderr.flush()
