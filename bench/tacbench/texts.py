"""Long texts that are hard on a reader: at most so many bytes, and all but a few of them."""

from __future__ import annotations

import itertools
import random
from collections.abc import Callable, Iterable, Iterator

from .writing import need

LIMIT = 1 << 20
LETTERS = "abcdefghijklmnopqrstuvwxyzABCDEFGHIJKLMNOPQRSTUVWXYZ"
SIGNS = LETTERS + "_0123456789"


def width(size: int, least: int) -> int:
    """How many digits number the names of a text, which may be longer than the standard limits
    allow."""
    return least if size <= LIMIT else least + 1


def filled(head: str, pieces: Iterable[str], tail: str, size: int) -> str:
    """As many pieces as fit."""
    room = size - len(head) - len(tail)
    made = []
    for piece in pieces:
        room -= len(piece)
        if room < 0:
            break
        made.append(piece)
    return head + "".join(made) + tail


def repeated(head: str, line: Callable[[int], str], tail: str, size: int) -> str:
    """As many lines as fit; `line` makes each by its number, all of one length."""
    count = (size - len(head) - len(tail)) // len(line(0))
    need(count >= 1, "so few bytes are too few for this text")
    return head + "".join(map(line, range(count))) + tail


def padded(head: str, sign: str, tail: str, size: int) -> str:
    need(size > len(head) + len(tail), "so few bytes are too few for this text")
    return head + sign * (size - len(head) - len(tail)) + tail


def labels(size: int = LIMIT) -> str:
    """a label on each line"""
    return repeated("proc main\n", lambda number: "n%07d:\n" % number, "end\n", size)


def labels_in_a_row(size: int = LIMIT) -> str:
    """labels, all on one line"""
    digits = width(size, 6)
    return repeated("proc main\n", lambda number: "n%0*d:" % (digits, number), "\nend\n", size)


def variables(size: int = LIMIT) -> str:
    """a new variable on each line"""
    return repeated("proc main\n", lambda number: "read n%07d\n" % number, "end\n", size)


def long_names(size: int = LIMIT) -> str:
    """variables of 64 bytes that differ at their ends alone"""
    return repeated(
        "proc main\n", lambda number: "print %s%06d\n" % ("n" * 58, number), "end\n", size
    )


def jumps(size: int = LIMIT) -> str:
    """jumps to one label"""
    return repeated("proc main\nn:", lambda number: "goto n\n", "end\n", size)


def far_jumps(size: int = LIMIT) -> str:
    """jumps to labels, the first to the last and so on"""
    digits = width(size, 6)
    count = (size - 20) // len("n:goto n\n" + 2 * digits * "0")
    need(count >= 1, "so few bytes are too few for this text")
    lines = [
        "n%0*d:goto n%0*d\n" % (digits, number, digits, count - 1 - number)
        for number in range(count)
    ]
    return "proc main\n" + "".join(lines) + "end\n"


def comment(size: int = LIMIT) -> str:
    """one comment"""
    return padded("proc main\n#", "-", "\nend\n", size)


def comments(size: int = LIMIT) -> str:
    """comments of one byte"""
    return repeated("proc main\n", lambda number: "#-\n", "end\n", size)


def blanks(size: int = LIMIT) -> str:
    """blanks before an end"""
    return padded("proc main\n", " ", "end\n", size)


def empty_lines(size: int = LIMIT) -> str:
    """lines without tokens"""
    return padded("proc main\n", "\n", "end\n", size)


def returns(size: int = LIMIT) -> str:
    """lines that end with CR and LF"""
    return repeated("proc main\r\n", lambda number: "skip\r\n", "end\r\n", size)


def digits(size: int = LIMIT) -> str:
    """one number with zeros before it"""
    return padded("proc main\nx = ", "0", "7\nend\n", size)


def numbers(size: int = LIMIT) -> str:
    """numbers of 19 digits"""
    return repeated("proc main\n", lambda number: "print 9%018d\n" % number, "end\n", size)


def skips(size: int = LIMIT) -> str:
    """the shortest statements"""
    return repeated("proc main\n", lambda number: "skip\n", "end\n", size)


def expressions(size: int = LIMIT) -> str:
    """an expression on each line"""
    return repeated("proc main\n", lambda number: "x = y + %07d\n" % number, "end\n", size)


def calls(size: int = LIMIT) -> str:
    """calls of eight procedures with long names"""
    names = ["q%d" % number + "q" * 62 for number in range(8)]
    head = "".join("proc %s\nend\n" % name for name in names) + "proc main\n"
    return repeated(head, lambda number: "call " + "|".join(names) + "\n", "end\n", size)


def name_too_long(size: int = LIMIT) -> str:
    """one name, which is refused"""
    return padded("proc main\nx = ", "n", "\nend\n", size)


def tokens_in_a_row(size: int = LIMIT) -> str:
    """names on one line, which is refused at the second"""
    return repeated("proc main\n", lambda number: "n ", "\nend\n", size)


def unclosed(size: int = LIMIT) -> str:
    """statements without an end, refused at the last byte"""
    return repeated("proc main\n", lambda number: "skip\n", "", size)


def unknown_label(size: int = LIMIT) -> str:
    """jumps to labels that are there, and the last to one that is not"""
    return repeated("proc main\nn:", lambda number: "goto n\n", "goto m\nend\n", size)


def procedures(size: int = LIMIT) -> str:
    """more procedures than a program may have, refused at the first that is too many"""
    digits = width(size, 6)
    return repeated(
        "proc main\nend\n", lambda number: "proc n%0*d\nend\n" % (digits, number), "", size
    )


def by_factor(factor: int, size: int) -> Iterator[str]:
    """Names that are one under hash * factor + byte: pairs of signs that are so, one after the
    other."""
    second = next((sign for sign in SIGNS if chr(ord(sign) + factor) in SIGNS), "")
    need(second != "", "there is no such pair of signs for this factor")
    pairs = ("b" + second, "a" + chr(ord(second) + factor))
    return (
        "".join(choice) for choice in itertools.product(pairs, repeat=15 if size <= LIMIT else 21)
    )


def by_fnv(bits: int) -> Iterator[str]:
    """Names whose hashes by FNV-1a end with the same bits: blocks of signs that lead from one end
    to another."""
    prime, mask = 0x100000001B3 & ((1 << bits) - 1), (1 << bits) - 1
    state = 0xCBF29CE484222325 & mask
    draw, blocks = random.Random(bits), []
    for _ in range(6):
        ends: dict[int, set[str]] = {}
        while True:
            block = draw.choice(LETTERS) + "".join(draw.choice(SIGNS) for _ in range(3))
            end = state
            for sign in block.encode():
                end = (end ^ sign) * prime & mask
            found = ends.setdefault(end, set())
            found.add(block)
            if len(found) == 8:
                break
        blocks.append(sorted(found))
        state = end
    return ("".join(choice) for choice in itertools.product(*blocks))


def colliding(size: int = LIMIT, hash: int = 31, as_labels: int = 0) -> str:
    """variables that fall together under hash * 31 + byte (hash=31, as in Java; 33 as well), or
    under FNV-1a (hash=0); as_labels=1: labels"""
    names = by_fnv(12) if hash == 0 else by_factor(hash, size)
    line = "%s:\n" if as_labels else "print %s\n"
    return filled("proc main\n", (line % name for name in names), "end\n", size)


SHAPES: dict[str, Callable[..., str]] = {
    "labels": labels,
    "labels-in-a-row": labels_in_a_row,
    "variables": variables,
    "long-names": long_names,
    "jumps": jumps,
    "far-jumps": far_jumps,
    "comment": comment,
    "comments": comments,
    "blanks": blanks,
    "empty-lines": empty_lines,
    "returns": returns,
    "digits": digits,
    "numbers": numbers,
    "skips": skips,
    "expressions": expressions,
    "calls": calls,
    "colliding": colliding,
    "name-too-long": name_too_long,
    "tokens-in-a-row": tokens_in_a_row,
    "unclosed": unclosed,
    "unknown-label": unknown_label,
    "procedures": procedures,
}
