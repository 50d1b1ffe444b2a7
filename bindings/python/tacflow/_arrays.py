"""Tables over memory that the library filled: arrays of numpy where numpy is there, and else
`memoryview`."""

from __future__ import annotations

import ctypes
import importlib
from collections.abc import Callable, Sequence
from types import ModuleType
from typing import Any, Generic, TypeVar, overload

from tacflow._errors import OutOfMemory

# numpy.ndarray, or memoryview where numpy is not there.
Array = Any

T_co = TypeVar("T_co", covariant=True)


def numpy_if_there() -> ModuleType | None:
    """The module numpy, or None."""
    try:
        return importlib.import_module("numpy")
    except ImportError:
        return None


numpy = numpy_if_there()


def room(kind: Any, count: int) -> Any:
    """Room for so many elements, all of them 0, and for one where none is asked for."""
    try:
        return (kind * max(count, 1))()
    except MemoryError:
        raise OutOfMemory("out of memory") from None


def flat(raw: Any, kind: Any, letter: str, count: int) -> Array:
    """The first elements of such a room, in a row. Nothing is written to them."""
    if numpy is None:
        return memoryview(raw).cast("B").cast(letter).toreadonly()[:count]
    array = numpy.frombuffer(raw, dtype=numpy.dtype(kind), count=count)
    array.flags.writeable = False
    return array


def grid(raw: Any, rows: int, width: int) -> Array:
    """A room of 64-bit words in rows of a width. Without numpy it has no rows where it is empty."""
    words = flat(raw, ctypes.c_uint64, "Q", rows * width)
    if numpy is None:
        return words.cast("B").cast("Q", shape=[rows, width]) if rows * width else words
    return words.reshape(rows, width)


def counts(words: Array, rows: int, width: int) -> Array:
    """How many bits of each row are set: of numpy's int64, or a list where numpy is not there."""
    if numpy is None:
        return [sum(words[row, word].bit_count() for word in range(width)) for row in range(rows)]
    of_byte = numpy.array([byte.bit_count() for byte in range(256)], dtype=numpy.uint8)
    octets = numpy.ascontiguousarray(words).view(numpy.uint8)
    return of_byte[octets].sum(axis=1, dtype=numpy.int64)


class Rows(Sequence[T_co], Generic[T_co]):
    """What a program has many of, by number; each is made when it is asked for."""

    def __init__(self, raw: Any, count: int, make: Callable[[Any], T_co]) -> None:
        self._raw = raw
        self._count = count
        self._make = make

    def __len__(self) -> int:
        return self._count

    @overload
    def __getitem__(self, number: int) -> T_co:
        ...

    @overload
    def __getitem__(self, number: slice) -> list[T_co]:
        ...

    def __getitem__(self, number: int | slice) -> T_co | list[T_co]:
        at = range(self._count)[number]
        if isinstance(at, range):
            return [self._make(self._raw[it]) for it in at]
        return self._make(self._raw[at])

    @property
    def array(self) -> Array:
        """All of them at once, not copied: a structured array of numpy, whose fields are those of
        the C structure, or the array of ctypes where numpy is not there."""
        kind = type(self._raw)._type_
        if numpy is None:
            return (kind * self._count).from_buffer(self._raw)
        return flat(self._raw, kind, "", self._count)
