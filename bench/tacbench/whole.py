"""Texts of whole programs: more procedures, and longer texts against a reader, than the standard
limits allow."""

from __future__ import annotations

import itertools
from collections.abc import Callable, Iterator

from .texts import LETTERS, LIMIT, SIGNS, filled, repeated, width
from .writing import need

LARGE_LIMIT = 1 << 29
# How long a text is where nothing else is said.
LARGE_TEXT = 1 << 26
KEYWORDS = "proc end goto if ifFalse call return read print skip main".split()


def short_names() -> Iterator[str]:
    """Names from the shortest on."""
    for length in itertools.count(1):
        for signs in itertools.product(LETTERS + "_", *[SIGNS] * (length - 1)):
            name = "".join(signs)
            if name not in KEYWORDS:
                yield name


def short_labels(size: int = LARGE_TEXT) -> str:
    """labels with the shortest names, all on one line"""
    return filled("proc main\n", (name + ":" for name in short_names()), "\nend\n", size)


def short_copies(size: int = LARGE_TEXT) -> str:
    """the shortest statements that name two variables"""
    return repeated("proc main\n", lambda number: "a=b\n", "end\n", size)


def short_sums(size: int = LARGE_TEXT) -> str:
    """the shortest statements of five tokens"""
    return repeated("proc main\n", lambda number: "a=b+c\n", "end\n", size)


def short_variables(size: int = LARGE_TEXT) -> str:
    """a new variable of the shortest name in each statement"""
    return filled("proc main\n", (name + "=1\n" for name in short_names()), "end\n", size)


def short_procedures(size: int = LARGE_TEXT) -> str:
    """procedures with the shortest names, refused at the first that is too many"""
    return filled("proc main\nend\n", ("proc %s\nend\n" % name for name in short_names()), "", size)


def label_tables(size: int = LARGE_TEXT) -> str:
    """procedures with a label each, refused at the first that is too many"""
    return filled(
        "proc main\nend\n", ("proc %s\na:\nend\n" % name for name in short_names()), "", size
    )


def label_fault(size: int = LARGE_TEXT) -> str:
    """labels on one line, at the end of which a bad byte stands"""
    digits = width(size, 6)
    return repeated("proc main\n", lambda number: "n%0*d:" % (digits, number), "@\nend\n", size)


def by_fold(count: int) -> Iterator[str]:
    """Names that fall together in a small table of the kit's hash, which has no seed: eight of its
    bits, which are compared first, and the three lowest, which say where the search begins, are the
    same."""
    for signs in itertools.product(LETTERS, SIGNS, SIGNS, SIGNS, SIGNS):
        name = "".join(signs)
        word = (
            int.from_bytes(name[:4].encode(), "little")
            | int.from_bytes(name[1:].encode(), "little") << 32
        )
        product = (0x243F6A8885A308D3 ^ word) * (0x9E3779B97F4A7C15 ^ 2 * len(name))
        state = (product ^ product >> 64) & (1 << 64) - 1
        if (state ^ state >> 32) & 0xFF000007 == 0xA7000000:
            yield name
            count -= 1
            if count == 0:
                return


def falling_labels(size: int = LARGE_TEXT) -> str:
    """procedures of 64 labels that fall together in a table without a seed, and of jumps to the
    last, refused where these are too many"""
    names = list(by_fold(64))
    inner = "".join(name + ":" for name in names) + "\n" + "goto %s\n" % names[-1] * 400
    return filled(
        "proc main\nend\n", ("proc %s\n%send\n" % (name, inner) for name in short_names()), "", size
    )


# Names of sixteen signs, eight that vary and eight that do not. The kit's hash multiplies the first
# eight, joined to what the text's digest made, by the last eight, joined to a fixed number. These
# leave runs of bits that are 0 in that product's factor, so that the first eight change few of the
# bits that say where a search begins, whatever the digest is. By the count of names for which that
# was found to hold.
CROWDS = {
    60_000: (["y", "b", SIGNS, "26", "7", "_", SIGNS, SIGNS], "XzJOwy7N"),
    5_000_000: (
        ["N", "3", "hijkxyzHIJKXYZ89", SIGNS, "01234567", "v", "fgvwFGVW67", SIGNS],
        "mvJoLp7N",
    ),
}


def crowding(size: int = LARGE_TEXT, as_labels: int = 1) -> str:
    """names that fall together in a table of the kit's hash behind any digest, as labels on one
    line, or with as_labels=0 as variables"""
    line = "%s:" if as_labels else "read %s\n"
    tail = "\nend\n" if as_labels else "end\n"
    signs, end = CROWDS[60_000 if size <= LIMIT else 5_000_000]
    names = ("".join(reversed(choice)) + end for choice in itertools.product(*reversed(signs)))
    return filled("proc main\n", (line % name for name in names), tail, size)


def row(procedures: int = 16384, back: int = 0, ring: int = 0) -> str:
    """procedures of which each calls the next, or with back=1 the one before; with ring=1 the last
    may call the first"""
    need(1 <= procedures <= 262144, "a program has at most 262,144 procedures")
    order = list(range(procedures))[:: -1 if back else 1]
    texts = {}
    for number in range(procedures):
        onward = (
            "call p%d\n" % (number + 1)
            if number + 1 < procedures
            else "if x goto L\ncall main\nL:\n"
            if ring
            else ""
        )
        own = "main" if number == 0 else "p%d" % number
        texts[number] = "proc %s\nx = x + %d\n%sprint x\nend\n" % (own, number, onward)
    return "".join(texts[number] for number in order)


SHAPES: dict[str, Callable[..., str]] = {
    "short-labels": short_labels,
    "short-copies": short_copies,
    "short-sums": short_sums,
    "short-variables": short_variables,
    "short-procedures": short_procedures,
    "label-tables": label_tables,
    "label-fault": label_fault,
    "falling-labels": falling_labels,
    "crowding": crowding,
    "row": row,
}
