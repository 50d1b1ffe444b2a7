"""Programs that are kept open, to be asked."""

from __future__ import annotations

import bisect
import ctypes
import threading
import weakref
from collections.abc import Callable, Iterable
from types import TracebackType
from typing import Any, NamedTuple, TypeVar

from tacflow import _library as library
from tacflow._arrays import Array, Rows, flat, grid, room
from tacflow._errors import (
    BadAnalysis,
    BadLimits,
    BadRange,
    ClosedProgram,
    OutOfMemory,
    Refused,
    TooManyBits,
    TooManyPoints,
)
from tacflow._facts import Facts, within
from tacflow._words import (
    Analysis,
    EdgeKind,
    Effect,
    HopKind,
    Limits,
    NearbyKind,
    RemarkKind,
    StatementKind,
    member_of,
    words_of,
)

SIGNS = "+ - * / % & | ^ << >> < <= > >= == != ~ !".split()
# How much room a text has at first, in bytes, a path, in hops, and what stands around a remark.
ROOM = 65536
HOPS = 4096
NEARBY = 64

Made = TypeVar("Made")


class Sizes(NamedTuple):
    """How large a program is."""

    procedures: int
    points: int
    variables: int
    """The bits of `live`."""
    definitions: int
    """The bits of `reach`: first one for each variable's value at the beginning, then one for each
    statement that sets a variable."""
    expressions: int
    """The bits of `avail` and of `busy`."""


class Point(NamedTuple):
    """A point: one stands before each statement of a procedure, and one at its end."""

    procedure: int
    place: int
    """How many of the procedure's statements stand before."""
    line: int
    """The line of the statement at the point, from 1; 0 at a procedure's end."""
    start: int
    end: int

    @property
    def span(self) -> slice:
        """Where the text, as bytes, has the statement; nowhere at a procedure's end."""
        return slice(self.start, self.end)


class Definition(NamedTuple):
    """A definition: its variable, and the point of its statement, or None for the value at the
    beginning."""

    variable: int
    point: int | None


class Operand(NamedTuple):
    """What an operator works on: a variable, or a number; the other one is None."""

    variable: int | None
    number: int | None


class Expression(NamedTuple):
    """An expression: its operator, as it is written, and what stands left and right of it. A unary
    one has nothing on its left."""

    operator: str
    left: Operand | None
    right: Operand


class Statement(NamedTuple):
    """What stands at a point, of `x = y op z` and the like. What it has not is None. One operand is
    on the right."""

    kind: StatementKind
    target: int | None
    """The variable that is set."""
    operator: str | None
    label: int | None
    """The label that it names: its number among those of the procedure, in the order of the
    text."""
    goes_to: int | None
    """The point that the label stands for."""
    expression: int | None
    """The expression that it evaluates: a bit of `avail` and of `busy`."""
    left: Operand | None
    right: Operand | None


class Edge(NamedTuple):
    """An edge, from the point `source` to the point `target`."""

    kind: EdgeKind
    site: int | None
    """The point of the call that a call or a return belongs to; None for a step."""
    source: int
    target: int


class Remark(NamedTuple):
    """A remark on the statement at a point."""

    point: int
    kind: RemarkKind
    name: int | None
    """The variable of `UNSET` and `DEAD`, the expression of `ALREADY_COMPUTED` and `VERY_BUSY`, by
    number."""


class Nearby(NamedTuple):
    """A statement or a variable that stands around a remark."""

    kind: NearbyKind
    point: int | None
    """None for a variable, and for the end of `main`."""
    variable: int | None
    """The variable of `HOLDER`, by number."""


class Hop(NamedTuple):
    """A hop of a path, from the point `source` to the point `target`, in the direction of the
    analysis: for `live` and `busy` that is against the edges."""

    kind: HopKind
    source: int
    target: int
    site: int | None
    """The point of the call; None for a step."""
    callee: int | None
    """The procedure that is passed, by number; None for a step and a call that is left open."""
    effect: Effect | None
    """What the path through the callee does with the bit; None where no callee is passed."""


def number_of(raw: int) -> int | None:
    """A number, or None where the library tells that there is none."""
    return None if raw == library.NONE else raw


def point_of(raw: Any) -> Point:
    return Point(raw.procedure, raw.place, raw.line, raw.start, raw.end)


def definition_of(raw: Any) -> Definition:
    return Definition(raw.variable, number_of(raw.point))


def operand_of(raw: Any) -> Operand:
    if raw.kind == library.VARIABLE:
        return Operand(raw.variable, None)
    return Operand(None, raw.number)


def operand_if(raw: Any) -> Operand | None:
    return None if raw.kind == library.NOTHING else operand_of(raw)


def expression_of(raw: Any) -> Expression:
    return Expression(SIGNS[raw.operator], operand_if(raw.left), operand_of(raw.right))


def statement_of(raw: Any) -> Statement:
    operator = None if raw.operator == library.NONE else SIGNS[raw.operator]
    return Statement(
        StatementKind(raw.kind),
        number_of(raw.target),
        operator,
        number_of(raw.label),
        number_of(raw.goes_to),
        number_of(raw.expression),
        operand_if(raw.left),
        operand_if(raw.right),
    )


def edge_of(raw: Any) -> Edge:
    return Edge(EdgeKind(raw.kind), number_of(raw.site), raw.source, raw.target)


def remark_of(raw: Any) -> Remark:
    return Remark(raw.point, RemarkKind(raw.kind), number_of(raw.name))


def nearby_of(raw: Any) -> Nearby:
    return Nearby(NearbyKind(raw.kind), number_of(raw.point), number_of(raw.variable))


def hop_of(raw: Any) -> Hop:
    effect = None if raw.effect == library.NONE else Effect(raw.effect)
    called = number_of(raw.site), number_of(raw.callee)
    return Hop(HopKind(raw.kind), raw.source, raw.target, *called, effect)


def close_handle(handle: library.RawHandle) -> None:
    """Closes a handle that nothing else knows of any more."""
    library.CLOSE(handle)


class Program:
    """A program that is kept open, as `tacflow.open` makes it.

    It may be asked by several threads: one call runs at a time, and the others wait. `share` makes
    another one for a thread that is not to wait. It is closed by `close`, by `with`, or when
    nothing knows of it any more.
    """

    def __init__(self, handle: library.RawHandle, limits: Limits, known: dict[str, Any]) -> None:
        self._handle = handle
        self._limits = limits
        # what was asked for and stays as it is: several programs of one text have it together
        self._known = known
        self._lock = threading.Lock()
        # At the end of Python another thread may still be in a call.
        weakref.finalize(self, close_handle, handle).atexit = False

    def __enter__(self) -> Program:
        return self

    def __exit__(
        self,
        kind: type[BaseException] | None,
        error: BaseException | None,
        trace: TracebackType | None,
    ) -> None:
        if not self.closed:
            self.close()

    def __repr__(self) -> str:
        state = "closed" if self.closed else ", ".join(f"{it} {n}" for it, n in self._told())
        return f"<tacflow.Program {state}>"

    def _told(self) -> list[tuple[str, int]]:
        return list(self.sizes._asdict().items())

    @property
    def closed(self) -> bool:
        """Whether it is closed."""
        return not self._handle.is_open

    @property
    def limits(self) -> Limits:
        """The limits within which it was opened."""
        return self._limits

    def close(self) -> None:
        """Closes it and frees what it keeps, where no other shares it. What was asked before stays.

        Raises:
            ClosedProgram: it is closed.
        """
        self._ask(library.CLOSE)

    def share(self) -> Program:
        """Another one of the same text, which is not read again: for another thread.

        Raises:
            ClosedProgram: this one is closed.
            OutOfMemory: memory was refused.
        """
        handle = library.RawHandle()
        self._ask(library.SHARE, handle)
        return Program(handle, self._limits, self._known)

    def _ask(self, call: Any, *words: Any) -> bool:
        """Makes a call over the handle, and tells whether there was room for the answer."""
        with self._lock:
            status: int = call(self._handle, *words)
        if status == library.BAD_HANDLE:
            raise ClosedProgram("the program is closed")
        if status == library.OUT_OF_MEMORY:
            raise OutOfMemory("out of memory")
        if status == library.BAD_RANGE:
            raise BadRange("the program has no such point, variable or expression")
        assert status in (library.OK, library.BAD_ROOM), f"status {status}"
        return status == library.OK

    def _once(self, name: str, ask: Callable[[], Made]) -> Made:
        """What was asked for before, or now."""
        if name not in self._known:
            self._known[name] = ask()
        found: Made = self._known[name]
        return found

    @property
    def sizes(self) -> Sizes:
        """How large it is."""
        return self._once("sizes", self._ask_sizes)

    def _ask_sizes(self) -> Sizes:
        raw = library.RawSizes()
        self._ask(library.SIZES, raw)
        return Sizes(*(getattr(raw, name) for name in Sizes._fields))

    def _ask_rows(
        self, call: Any, kind: Any, count: int, make: Callable[[Any], Made]
    ) -> Rows[Made]:
        raw = room(kind, count)
        self._ask(call, raw, count)
        return Rows(raw, count, make)

    @property
    def points(self) -> Rows[Point]:
        """The points, by number: procedures in the order of the text, and in each the places."""
        count = self.sizes.points
        return self._once(
            "points", lambda: self._ask_rows(library.POINTS, library.RawPoint, count, point_of)
        )

    @property
    def definitions(self) -> Rows[Definition]:
        """The definitions, by bit of `reach`."""
        count, raw = self.sizes.definitions, library.RawDefinition
        return self._once(
            "definitions", lambda: self._ask_rows(library.DEFINITIONS, raw, count, definition_of)
        )

    @property
    def expressions(self) -> Rows[Expression]:
        """The expressions, by bit of `avail` and of `busy`."""
        count, raw = self.sizes.expressions, library.RawExpression
        return self._once(
            "expressions", lambda: self._ask_rows(library.EXPRESSIONS, raw, count, expression_of)
        )

    @property
    def statements(self) -> Rows[Statement]:
        """What stands at each point, by number."""
        count, raw = self.sizes.points, library.RawStatement
        return self._once(
            "statements", lambda: self._ask_rows(library.STATEMENTS, raw, count, statement_of)
        )

    def _ask_list(
        self, call: Any, kind: Any, most: int, make: Callable[[Any], Made], *words: Any
    ) -> Rows[Made]:
        """What the library tells with its number, in room for so many at first."""
        count = ctypes.c_size_t(most)
        while True:
            length = count.value
            raw = room(kind, length)
            if self._ask(call, *words, raw, length, count):
                return Rows(raw, count.value, make)

    def edges(self, points: range | slice | None = None) -> Rows[Edge]:
        """The edges that leave the points, in the order of these points.

        A test whose outcomes lead to one point has one edge. A call has one to the first point of
        each callee, and from a procedure's last point there is a return for each call of it.

        Args:
            points: which points; all by itself. A slice is cut to the program's points.

        Raises:
            BadRange: the points are none of the program.
            ClosedProgram: the program is closed.
            OutOfMemory: memory was refused.
        """
        at = within(points, self.sizes.points, "points")
        most, where = 2 * len(at), (at.start, at.stop)
        return self._ask_list(library.EDGES, library.RawEdge, most, edge_of, *where)

    def remarks(self) -> Rows[Remark]:
        """The remarks, in the order of the report's lines. They are found anew each time."""
        most = self.sizes.points
        return self._ask_list(library.REMARKS, library.RawRemark, most, remark_of)

    def around(self, remark: Remark) -> Rows[Nearby]:
        """What stands around a remark, kind by kind, points and variables of a kind rising. Each
        list is whole: what is not told is not there.

        - `DEAD`: the statements that may write the variable next, and whether `main` may end with
          no such write.
        - `ALREADY_COMPUTED`: the statements that may have evaluated the expression last, and the
          variables that hold its value on every valid path.
        - `VERY_BUSY`: the statements that may evaluate the expression next.
        - `NEVER_REACHED`: the nearest point before, in its procedure, to which a valid path leads,
          if there is one.
        - `UNSET`: nothing. `why("reach", remark.point, remark.name)` has a path.

        Args:
            remark: one of `remarks()`, or another one: it is answered at any point.

        Returns:
            Statements by their points, and variables. They are searched for anew each time.

        Raises:
            BadRange: the program has no such point, variable or expression; or no point behind
                that of a `DEAD` one.
            ClosedProgram: the program is closed.
            OutOfMemory: memory was refused.
        """
        raw = self._remark_of(remark)
        return self._ask_list(library.AROUND, library.RawNearby, NEARBY, nearby_of, raw)

    def _remark_of(self, remark: Remark) -> library.RawRemark:
        kind = RemarkKind(remark.kind)
        name = library.NONE if remark.name is None else remark.name
        for number in (remark.point, name):
            if number not in range(2**32):
                raise BadRange(f"the program has no point, variable or expression {number!r}")
        return library.RawRemark(remark.point, int(kind), name)

    def doubt_origin(self, point: int) -> int | None:
        """Why a point is doubtful, so that no dead assignment and no very busy expression is told
        there.

        Args:
            point: which point.

        Returns:
            A point to which some path from it leads, and which has no valid path to the end of
            `main`; it may be the point itself. None where the point is not doubtful.

        Raises:
            BadRange: the program has no such point.
            ClosedProgram: the program is closed.
            OutOfMemory: memory was refused.
        """
        if point not in range(self.sizes.points):
            raise BadRange(f"the program has no point {point!r}")
        origin = ctypes.c_uint32()
        self._ask(library.DOUBT_ORIGIN, point, origin)
        return number_of(origin.value)

    def has_path(
        self, analysis: Analysis | str | int, points: range | slice | None = None
    ) -> Array:
        """Which points have a valid path: from the beginning of `main`, or for `live` and `busy` to
        its end.

        Args:
            analysis: the analysis, or its word.
            points: which points; all by itself. A slice is cut to the program's points.

        Returns:
            A bool for each of the points, in their order.

        Raises:
            BadAnalysis: there is no such analysis.
            BadRange: the points are none of the program.
            ClosedProgram: the program is closed.
            OutOfMemory: memory was refused.
        """
        return self._ask_flags(library.HAS_PATH, points, int(analysis_of(analysis)))

    def doubtful(self, points: range | slice | None = None) -> Array:
        """Which points are doubtful: from which some path leads to a point that has no valid path
        to the end of `main`, as where a loop may never end.

        Args:
            points: which points; all by itself. A slice is cut to the program's points.

        Returns:
            A bool for each of the points, in their order.

        Raises:
            BadRange: the points are none of the program.
            ClosedProgram: the program is closed.
            OutOfMemory: memory was refused.
        """
        return self._ask_flags(library.DOUBTFUL, points)

    def _ask_flags(self, call: Any, points: range | slice | None, *words: Any) -> Array:
        at = within(points, self.sizes.points, "points")
        flags = room(ctypes.c_uint8, len(at))
        self._ask(call, *words, at.start, at.stop, flags, len(at))
        return flat(flags, ctypes.c_bool, "?", len(at))

    def _ask_names(self, call: Any, count: int) -> tuple[str, ...]:
        ends, length = room(ctypes.c_size_t, count), count * library.LONGEST_NAME
        names = room(ctypes.c_uint8, length)
        self._ask(call, ends, count, names, length)
        text = bytes(memoryview(names)[: ends[count - 1] if count else 0]).decode("ascii")
        return tuple(text[ends[n - 1] if n else 0 : ends[n]] for n in range(count))

    @property
    def procedures(self) -> tuple[str, ...]:
        """The names of the procedures, by number."""
        count = self.sizes.procedures
        return self._once("procedures", lambda: self._ask_names(library.PROCEDURES, count))

    @property
    def variables(self) -> tuple[str, ...]:
        """The names of the variables, by bit of `live`."""
        count = self.sizes.variables
        return self._once("variables", lambda: self._ask_names(library.VARIABLES, count))

    def points_of(self, procedure: str | int) -> range:
        """The points of a procedure, by its name or number.

        Raises:
            BadRange: there is no such procedure.
        """
        number: object = procedure
        if isinstance(procedure, str):
            number = self._once("numbers", self._number_procedures).get(procedure)
        if not isinstance(number, int) or number not in range(self.sizes.procedures):
            raise BadRange(f"the program has no procedure {procedure!r}")
        rows = self.points
        start = bisect.bisect_left(rows, number, key=lambda point: point.procedure)
        return range(start, bisect.bisect_right(rows, number, start, key=lambda it: it.procedure))

    def _number_procedures(self) -> dict[str, int]:
        return {name: number for number, name in enumerate(self.procedures)}

    def bit_count(self, analysis: Analysis | str | int) -> int:
        """How many bits an analysis has.

        Raises:
            BadAnalysis: there is no such analysis.
        """
        which = analysis_of(analysis)
        if which is Analysis.REACH:
            return self.sizes.definitions
        return self.sizes.variables if which is Analysis.LIVE else self.sizes.expressions

    def names(self, analysis: Analysis | str | int) -> tuple[str, ...]:
        """What the bits of an analysis are, as `tacflow --show` writes them: `x`, `y + z`, `x@7`
        for what line 7 sets, or `x@entry` for its value at the beginning.

        Raises:
            BadAnalysis: there is no such analysis.
        """
        which = analysis_of(analysis)
        if which is Analysis.LIVE:
            return self.variables
        if which is Analysis.REACH:
            return self._once("names of definitions", self._name_definitions)
        return self._once("names of expressions", self._name_expressions)

    def _name_definitions(self) -> tuple[str, ...]:
        variables, points = self.variables, self.points
        return tuple(
            f"{variables[variable]}@{'entry' if point is None else points[point].line}"
            for variable, point in self.definitions
        )

    def _name_expressions(self) -> tuple[str, ...]:
        variables = self.variables

        def shown(operand: Operand) -> str:
            at = operand.variable
            return str(operand.number) if at is None else variables[at]

        return tuple(
            operator + shown(right) if left is None else f"{shown(left)} {operator} {shown(right)}"
            for operator, left, right in self.expressions
        )

    def facts(
        self,
        analysis: Analysis | str | int,
        points: range | slice | None = None,
        bits: range | slice | None = None,
    ) -> Facts:
        """The facts of an analysis: `reach`, `live`, `avail` or `busy`.

        Args:
            analysis: the analysis, or its word.
            points: at which points; all by itself. A slice is cut to the program's points.
            bits: on which bits; all by itself. A slice is cut to the analysis's bits.

        Returns:
            Facts of `len(points)` points, each with a flag and the words of its set.

        Raises:
            BadAnalysis: there is no such analysis.
            BadRange: the points are none of the program, or the bits none of the analysis.
            ClosedProgram: the program is closed.
            OutOfMemory: memory was refused.
        """
        which = analysis_of(analysis)
        at = within(points, self.sizes.points, "points")
        on = within(bits, self.bit_count(which), "bits")
        width = (on.stop + 63) // 64 - on.start // 64
        flags = room(ctypes.c_uint8, len(at))
        words = room(ctypes.c_uint64, len(at) * width)
        where = (int(which), at.start, at.stop, on.start, on.stop)
        self._ask(library.FACTS, *where, flags, len(at), words, len(at) * width)
        tables = flat(flags, ctypes.c_bool, "?", len(at)), grid(words, len(at), width)
        return Facts(which, at, on, tables, self.names)

    def ask(self, queries: Iterable[tuple[Analysis | str | int, int, int]]) -> Array:
        """Words of the sets, in any order and of all analyses. Words are found four or eight
        of an analysis at a time, each once.

        Args:
            queries: for each word its analysis, its point, and which word of the set there it is:
                the word w has the bits from 64 * w on.

        Returns:
            As many words as queries, as uint64. Bits that the analysis has not are 0.

        Raises:
            BadAnalysis: a query is of no analysis.
            BadRange: a query's point or word is not there.
            ClosedProgram: the program is closed.
            OutOfMemory: memory was refused.
        """
        asked = [self._query_of(*query) for query in queries]
        raw = room(library.RawQuery, len(asked))
        for number, query in enumerate(asked):
            raw[number] = query
        words = room(ctypes.c_uint64, len(asked))
        self._ask(library.ASK, raw, len(asked), words, len(asked))
        return flat(words, ctypes.c_uint64, "Q", len(asked))

    def _query_of(self, analysis: Analysis | str | int, point: int, word: int) -> library.RawQuery:
        which = analysis_of(analysis)
        if point not in range(self.sizes.points):
            raise BadRange(f"the program has no point {point!r}")
        if word not in range((self.bit_count(which) + 63) // 64):
            raise BadRange(f"the analysis {which.name.lower()} has no word {word!r}")
        return library.RawQuery(int(which), point, word)

    def why(self, analysis: Analysis | str | int, point: int, bit: int) -> list[Hop] | None:
        """Why a bit is in the set of a point: the hops of a valid path that brings it there.

        The first hop begins at the first point of `main`, for `live` and `busy` at its last, each
        one where the one before ended, and the last ends at the point. There are none where the
        point is that first one and has the bit from the beginning. For `avail` and `busy` the path
        is one on which the expression is *not* available or anticipated: it shows why the bit is
        not in the set.

        Args:
            analysis: the analysis, or its word.
            point: at which point.
            bit: which bit of the analysis.

        Returns:
            The hops, at most twice as many as points; or None where no valid path brings the bit:
            for `reach` and `live` where it is not in the set, for `avail` and `busy` where it is.
            It is searched for anew each time.

        Raises:
            BadAnalysis: there is no such analysis.
            BadRange: the program has no such point, or the analysis no such bit.
            ClosedProgram: the program is closed.
            OutOfMemory: memory was refused.
        """
        fact, has = self._fact_of(analysis, point, bit), ctypes.c_uint32()

        def call(handle: library.RawHandle, *words: Any) -> int:
            status: int = library.WHY(handle, *words, has)
            return status

        most = min(2 * self.sizes.points, HOPS)
        hops = self._ask_list(call, library.RawHop, most, hop_of, *fact)
        return list(hops) if has.value else None

    def whys(
        self, analysis: Analysis | str | int, bits: Iterable[tuple[int, int]]
    ) -> list[list[Hop] | None]:
        """Why bits are in the sets of points, as `why` tells it of one.

        What every bit needs of the program is made once. Each bit then takes one search, and equal
        ones that stand one after the other take one together.

        Args:
            analysis: the analysis, or its word.
            bits: pairs of a point and a bit of the analysis, in any order.

        Returns:
            Of each pair, in their order, the hops, or None where no valid path brings the bit.

        Raises:
            BadAnalysis: there is no such analysis.
            BadRange: the program lacks a point, or the analysis a bit.
            ClosedProgram: the program is closed.
            OutOfMemory: memory was refused.
        """
        which = analysis_of(analysis)
        facts = [self._fact_of(which, point, bit) for point, bit in bits]
        asked = room(library.RawBit, len(facts))
        for raw, (_, point, bit) in zip(asked, facts):
            raw.point, raw.bit = point, bit
        words = (int(which), asked, len(facts))
        hops = self._ask_list(library.WHYS, library.RawHop, HOPS, hop_of, *words)
        ends = [0, *(raw.end for raw, _ in zip(asked, facts))]
        return [
            [hops[at] for at in range(first, raw.end)] if raw.has else None
            for raw, first in zip(asked, ends[: len(facts)])
        ]

    def _fact_of(self, analysis: Analysis | str | int, point: int, bit: int) -> tuple[int, ...]:
        which = analysis_of(analysis)
        if point not in range(self.sizes.points):
            raise BadRange(f"the program has no point {point!r}")
        if bit not in range(self.bit_count(which)):
            raise BadRange(f"the analysis {which.name.lower()} has no bit {bit!r}")
        return int(which), point, bit

    def _ask_text(self, call: Any) -> str:
        size = ctypes.c_size_t(ROOM)
        while True:
            length = size.value
            made = room(ctypes.c_uint8, length)
            if self._ask(call, made, length, size):
                return bytes(memoryview(made)[: size.value]).decode("ascii")

    def listing(self) -> str:
        """The program in one layout, as `tacflow --show list` writes it."""
        return self._ask_text(library.LISTING)

    def report(self) -> str:
        """The report, as `tacflow` writes it. It is made anew each time."""
        return self._ask_text(library.REPORT)


def analysis_of(wanted: Analysis | str | int) -> Analysis:
    """The analysis of this word or number."""
    found = member_of(Analysis, wanted)
    if found is None:
        raise BadAnalysis(f"{wanted!r} is no analysis; there are {words_of(Analysis)}")
    return found


def limits_of(wanted: Limits | str | int) -> Limits:
    """The limits of this word or number."""
    found = member_of(Limits, wanted)
    if found is None:
        raise BadLimits(f"{wanted!r} are no limits; there are {words_of(Limits)}")
    return found


def bytes_of(text: str | bytes | bytearray | memoryview) -> bytes:
    """A text as bytes. Of what Python read with `surrogateescape` these are the bytes it read."""
    if isinstance(text, str):
        return text.encode("utf-8", "surrogateescape")
    if isinstance(text, (bytes, bytearray, memoryview)):
        return bytes(text)
    raise TypeError(f"a text is str or bytes, not {type(text).__name__}")


def open(
    text: str | bytes | bytearray | memoryview, limits: Limits | str | int = "standard"
) -> Program:
    """Reads a text within limits, and keeps its program open.

    Args:
        text: the program, in the language of `docs/LANGUAGE.md`; a str is taken as UTF-8.
        limits: `standard` or `large`.

    Raises:
        Refused: the text is no program.
        TooManyPoints: it is one with more points than the limits allow.
        TooManyBits: some analysis of it has more bits than the limits allow.
        BadLimits: there are no such limits.
        OutOfMemory: memory was refused.
    """
    size = limits_of(limits)
    taken = bytes_of(text)
    handle, place = library.RawHandle(), library.RawPlace()
    status: int = library.OPEN(taken, len(taken), int(size), handle, place)
    if status == library.REFUSED:
        raise Refused(place.number, place.line, place.column, size)
    return opened(status, handle, size)


def check_graph(status: int) -> None:
    """Raises that a program is beyond the limits, or that memory was refused, by a status."""
    if status == library.TOO_MANY_POINTS:
        raise TooManyPoints("the program has more points than the limits allow")
    if status == library.TOO_MANY_BITS:
        raise TooManyBits("an analysis of the program has more bits than the limits allow")
    if status == library.OUT_OF_MEMORY:
        raise OutOfMemory("out of memory")
    assert status == library.OK, f"status {status}"


def opened(status: int, handle: library.RawHandle, size: Limits) -> Program:
    """The program of a handle that a call with this status opened."""
    check_graph(status)
    return Program(handle, size, {})
