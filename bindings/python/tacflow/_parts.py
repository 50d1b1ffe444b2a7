"""Reports in parts."""

from __future__ import annotations

import ctypes

from tacflow import _library as library
from tacflow._arrays import room
from tacflow._errors import BadRange, Refused
from tacflow._program import ROOM, bytes_of, check_graph, limits_of
from tacflow._words import Limits

MOST = 4096


def report_part(
    text: str | bytes | bytearray | memoryview,
    part: int,
    count: int,
    limits: Limits | str | int = "standard",
) -> str:
    """Part `part` of the report on a text's program cut into `count` parts, as `tacview --format
    report --part PART/COUNT` writes it. `tacview --merge` makes the report of all parts.

    Args:
        text: the program, as `open` takes it; the part names it by its SHA-1.
        part: from 1 to `count`.
        count: 4,096 at most.
        limits: `standard` or `large`.

    Raises:
        BadRange: there is no such part.
        Refused, TooManyPoints, TooManyBits, BadLimits, OutOfMemory: as `open` does.
    """
    within, taken = limits_of(limits), bytes_of(text)
    if not 1 <= part <= count <= MOST:
        raise BadRange(f"a report has no part {part!r} of {count!r}")
    size, place = ctypes.c_size_t(ROOM), library.RawPlace()
    while True:
        length = size.value
        made = room(ctypes.c_uint8, length)
        status: int = library.REPORT_PART(
            taken, len(taken), int(within), part, count, made, length, size, place
        )
        if status == library.REFUSED:
            raise Refused(place.number, place.line, place.column, within)
        if status != library.BAD_ROOM:
            check_graph(status)
            return bytes(memoryview(made)[: size.value]).decode("ascii")
