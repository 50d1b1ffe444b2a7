"""The shared library, and its calls as `bindings/c/tacflow.h` declares them.

`ctypes.CDLL` lets go of the interpreter's lock while a call runs, so other threads of Python go on.
"""

from __future__ import annotations

import ctypes
import os
from collections.abc import Iterator
from pathlib import Path
from typing import Any

VERSION = "0.1.0"
FILE = "libtacflow.so"
STARTED = f"{FILE}.{VERSION.split('.')[0]}"

# enum tacflow_status, as far as this module can be answered it.
OK = 0
REFUSED = 1
OUT_OF_MEMORY = 2
BAD_RANGE = 4
BAD_ROOM = 5
BAD_HANDLE = 8
NOT_BUILT = 9
TOO_MANY_POINTS = 21
TOO_MANY_BITS = 22

# TACFLOW_NONE and TACFLOW_NO_POINT.
NONE = 2**32 - 1
LONGEST_NAME = 64

# enum tacflow_kind.
NOTHING = 0
VARIABLE = 1


class RawPlace(ctypes.Structure):
    """tacflow_place."""

    _fields_ = [(name, ctypes.c_uint32) for name in ("number", "line", "column")]


class RawSizes(ctypes.Structure):
    """tacflow_sizes_of_program."""

    _fields_ = [
        (name, ctypes.c_uint32)
        for name in ("procedures", "points", "variables", "definitions", "expressions")
    ]


class RawPoint(ctypes.Structure):
    """tacflow_point."""

    _fields_ = [
        (name, ctypes.c_uint32) for name in ("procedure", "place", "line", "start", "end")
    ]


class RawDefinition(ctypes.Structure):
    """tacflow_definition."""

    _fields_ = [("variable", ctypes.c_uint32), ("point", ctypes.c_uint32)]


class RawOperand(ctypes.Structure):
    """tacflow_operand."""

    _fields_ = [
        ("kind", ctypes.c_uint32),
        ("variable", ctypes.c_uint32),
        ("number", ctypes.c_uint64),
    ]


class RawExpression(ctypes.Structure):
    """tacflow_expression."""

    _fields_ = [("operator", ctypes.c_uint32), ("left", RawOperand), ("right", RawOperand)]


class RawQuery(ctypes.Structure):
    """tacflow_query."""

    _fields_ = [
        ("analysis", ctypes.c_uint32),
        ("point", ctypes.c_uint32),
        ("word", ctypes.c_uint32),
    ]


class RawStatement(ctypes.Structure):
    """tacflow_statement."""

    _fields_ = [
        *[
            (name, ctypes.c_uint32)
            for name in ("kind", "target", "operator", "label", "goes_to", "expression")
        ],
        ("left", RawOperand),
        ("right", RawOperand),
    ]


class RawBuiltStatement(ctypes.Structure):
    """tacflow_built_statement."""

    _fields_ = [
        *[
            (name, ctypes.c_uint32)
            for name in ("kind", "target", "operator", "label", "first_callee", "callees", "line")
        ],
        ("left", RawOperand),
        ("right", RawOperand),
    ]


class RawBuiltProcedure(ctypes.Structure):
    """tacflow_built_procedure."""

    _fields_ = [("statements", ctypes.c_uint32), ("labels", ctypes.c_uint32)]


class RawBuildPlace(ctypes.Structure):
    """tacflow_build_place."""

    _fields_ = [("fault", ctypes.c_uint32), ("number", ctypes.c_uint32)]


class RawEdge(ctypes.Structure):
    """tacflow_edge."""

    _fields_ = [(name, ctypes.c_uint32) for name in ("kind", "site", "source", "target")]


class RawRemark(ctypes.Structure):
    """tacflow_remark."""

    _fields_ = [(name, ctypes.c_uint32) for name in ("point", "kind", "name")]


class RawNearby(ctypes.Structure):
    """tacflow_nearby."""

    _fields_ = [(name, ctypes.c_uint32) for name in ("kind", "point", "variable")]


class RawHop(ctypes.Structure):
    """tacflow_hop."""

    _fields_ = [
        (name, ctypes.c_uint32)
        for name in ("kind", "source", "target", "site", "callee", "effect")
    ]


class RawBit(ctypes.Structure):
    """tacflow_bit."""

    _fields_ = [
        ("point", ctypes.c_uint32),
        ("bit", ctypes.c_uint32),
        ("has", ctypes.c_uint32),
        ("end", ctypes.c_size_t),
    ]


class RawHandle(ctypes.Structure):
    """tacflow_handle, closed as it is made."""

    _fields_ = [("is_open", ctypes.c_bool), ("at", ctypes.c_void_p)]


def places() -> Iterator[str]:
    """Where the library is looked for: in the folder that TACFLOW_LIB names, if it names one, and
    there alone; beside this file; in the folder `lib` beside the module's own folder, where
    `bindings/build` and `./install` put it; where the system's loader looks."""
    folder = os.environ.get("TACFLOW_LIB")
    if folder:
        yield os.path.join(folder, FILE)
        return
    here = Path(__file__).resolve().parent
    for near in (here, here.parents[1] / "lib"):
        if (near / FILE).exists():
            yield str(near / FILE)
    yield STARTED


def loaded() -> ctypes.CDLL:
    """The library of the first place that has one."""
    faults = []
    for place in places():
        try:
            return ctypes.CDLL(place)
        except OSError as fault:
            faults.append(str(fault))
    raise ImportError(
        f"{FILE} cannot be loaded: {'; '.join(faults)}. bindings/build makes it; TACFLOW_LIB names"
        " the folder of another one"
    )


LIBRARY = loaded()


def call_of(name: str, *types: Any) -> Any:
    """A call over a handle, which stands first."""
    call = LIBRARY[f"tacflow_c_{name}"]
    call.argtypes = [ctypes.POINTER(RawHandle), *types]
    call.restype = ctypes.c_uint32
    return call


def opening() -> Any:
    """The call that opens a handle: text, length, limits, handle, place."""
    call = LIBRARY["tacflow_c_open"]
    handle, place = ctypes.POINTER(RawHandle), ctypes.POINTER(RawPlace)
    call.argtypes = [ctypes.c_char_p, ctypes.c_size_t, ctypes.c_uint32, handle, place]
    call.restype = ctypes.c_uint32
    return call


def building() -> Any:
    """The call that opens a handle with arrays: procedures, statements, labels, callees, names of
    procedures, of variables and of labels, each with its length; limits, handle, place."""
    call = LIBRARY["tacflow_c_build"]
    procedures, statements = ctypes.POINTER(RawBuiltProcedure), ctypes.POINTER(RawBuiltStatement)
    numbers = ctypes.POINTER(ctypes.c_uint32)
    names: list[Any] = [ctypes.POINTER(COUNT), COUNT, ctypes.c_char_p, COUNT]
    arrays: list[Any] = [procedures, COUNT, statements, COUNT, numbers, COUNT, numbers, COUNT, *names * 3]
    handle, place = ctypes.POINTER(RawHandle), ctypes.POINTER(RawBuildPlace)
    call.argtypes = [*arrays, ctypes.c_uint32, handle, place]
    call.restype = ctypes.c_uint32
    return call


def parting() -> Any:
    """The call for a part of a report: text, length, limits, part, of how many, room, place."""
    call = LIBRARY["tacflow_c_report_part"]
    place = ctypes.POINTER(RawPlace)
    call.argtypes = [ctypes.c_char_p, COUNT, NUMBER, NUMBER, NUMBER, *TEXT, place]
    call.restype = ctypes.c_uint32
    return call


COUNT = ctypes.c_size_t
NUMBER = ctypes.c_uint32
BYTES = ctypes.POINTER(ctypes.c_uint8)
NAMES = (ctypes.POINTER(COUNT), COUNT, BYTES, COUNT)
TEXT = (BYTES, COUNT, ctypes.POINTER(COUNT))
TABLE = (BYTES, COUNT, ctypes.POINTER(ctypes.c_uint64), COUNT)

OPEN = opening()
BUILD = building()
REPORT_PART = parting()
SHARE = call_of("share", ctypes.POINTER(RawHandle))
CLOSE = call_of("close")
SIZES = call_of("sizes_of", ctypes.POINTER(RawSizes))
POINTS = call_of("points_of", ctypes.POINTER(RawPoint), COUNT)
DEFINITIONS = call_of("definitions_of", ctypes.POINTER(RawDefinition), COUNT)
EXPRESSIONS = call_of("expressions_of", ctypes.POINTER(RawExpression), COUNT)
PROCEDURES = call_of("procedures_of", *NAMES)
VARIABLES = call_of("variables_of", *NAMES)
# analysis, first point, end of the points, lo, hi
FACTS = call_of("facts_of", NUMBER, NUMBER, NUMBER, NUMBER, NUMBER, *TABLE)
ASK = call_of("ask", ctypes.POINTER(RawQuery), COUNT, ctypes.POINTER(ctypes.c_uint64), COUNT)
# first point, end of the points
HAS_PATH = call_of("has_path", NUMBER, NUMBER, NUMBER, BYTES, COUNT)
DOUBTFUL = call_of("doubtful", NUMBER, NUMBER, BYTES, COUNT)
STATEMENTS = call_of("statements", ctypes.POINTER(RawStatement), COUNT)
EDGES = call_of("edges", NUMBER, NUMBER, ctypes.POINTER(RawEdge), COUNT, ctypes.POINTER(COUNT))
REMARKS = call_of("remarks", ctypes.POINTER(RawRemark), COUNT, ctypes.POINTER(COUNT))
NEARBY = (ctypes.POINTER(RawNearby), COUNT, ctypes.POINTER(COUNT))
AROUND = call_of("around", ctypes.POINTER(RawRemark), *NEARBY)
DOUBT_ORIGIN = call_of("doubt_origin", NUMBER, ctypes.POINTER(NUMBER))
# analysis, point, bit, hops, room, count, whether there is a path
HOPS = (ctypes.POINTER(RawHop), COUNT, ctypes.POINTER(COUNT), ctypes.POINTER(NUMBER))
WHY = call_of("why", NUMBER, NUMBER, NUMBER, *HOPS)
# analysis, bits, how many, hops, room, count
WHYS = call_of("whys", NUMBER, ctypes.POINTER(RawBit), COUNT, *HOPS[:3])
LISTING = call_of("listing_of", *TEXT)
REPORT = call_of("report_of", *TEXT)
