"""Facts: what holds at each of some points."""

from __future__ import annotations

from collections.abc import Callable, Iterator

from tacflow._arrays import Array, counts
from tacflow._errors import BadRange
from tacflow._words import Analysis


def within(wanted: object, count: int, what: str) -> range:
    """The numbers of `0..count` that a slice, a range or None, which is all, stands for."""
    if wanted is None:
        return range(count)
    if not isinstance(wanted, (slice, range)):
        raise TypeError(f"{what} are a range, a slice or None, not {type(wanted).__name__}")
    if isinstance(wanted, slice):
        start, stop, step = wanted.indices(count)
        stop = max(start, stop)
    else:
        start, stop, step = wanted.start, wanted.stop, wanted.step
    if step != 1:
        raise BadRange(f"{what} go up by one, not by {step}")
    if not 0 <= start <= stop <= count:
        raise BadRange(f"{what} {start}..{stop} are not within 0..{count}")
    return range(start, stop)


class Facts:
    """The facts of an analysis at the points `points` and on the bits `bits`.

    All points and bits are told by the program's own numbers, also where only some were asked for.
    The arrays are of numpy, or memoryviews where numpy is not there, and can't be written.

    Attributes:
        analysis: which analysis it is.
        points: the points, a range.
        bits: the bits, a range: definitions for `reach`, variables for `live`, expressions else.
        flags: shape (len(points),), bool: whether some valid path leads to the point (for `live`
            and `busy`: from it to the end of `main`).
        words: shape (len(points), width), uint64: bit b holds at point p where
            `words[p - points.start, b // 64 - bits.start // 64] >> b % 64 & 1` is 1. Places of
            other bits are 0. Without numpy it is indexed by the two numbers at once.
    """

    def __init__(
        self,
        analysis: Analysis,
        points: range,
        bits: range,
        tables: tuple[Array, Array],
        names: Callable[[Analysis], tuple[str, ...]],
    ) -> None:
        self.analysis = analysis
        self.points = points
        self.bits = bits
        self.flags, self.words = tables
        self._first_word = bits.start // 64
        self._names = names

    @property
    def width(self) -> int:
        """How many words a point has."""
        return (self.bits.stop + 63) // 64 - self._first_word

    def _row(self, point: int) -> int:
        try:
            return self.points.index(point)
        except ValueError:
            raise BadRange(f"these facts have no point {point}") from None

    def has_path(self, point: int) -> bool:
        """Whether some valid path leads to the point; for `live` and `busy`: from it to the end of
        `main`."""
        return bool(self.flags[self._row(point)])

    def contains(self, point: int, bit: int) -> bool:
        """Whether the bit holds at the point."""
        row = self._row(point)
        if bit not in self.bits:
            raise BadRange(f"these facts have no bit {bit}")
        return bool(int(self.words[row, bit // 64 - self._first_word]) >> bit % 64 & 1)

    def _each_bit(self, row: int) -> Iterator[int]:
        for number in range(self.width):
            word = int(self.words[row, number])
            while word:
                lowest = word & -word
                yield 64 * (self._first_word + number) + lowest.bit_length() - 1
                word ^= lowest

    def bits_at(self, point: int) -> list[int]:
        """The bits that hold at the point, upwards."""
        return list(self._each_bit(self._row(point)))

    def names_at(self, point: int) -> list[str]:
        """The same as `tacflow --show` writes them: `x`, `y + z`, `x@7` for what line 7 sets. The
        first call asks the program for names, which has to be open then."""
        row, names = self._row(point), self._names(self.analysis)
        return [names[bit] for bit in self._each_bit(row)]

    def counts(self) -> Array:
        """How many bits hold at each point: shape (len(points),), int64, or a list where numpy is
        not there."""
        return counts(self.words, len(self.points), self.width)

    def __repr__(self) -> str:
        word = self.analysis.name.lower()
        return f"<tacflow.Facts {word}, points {self.points}, bits {self.bits}>"
