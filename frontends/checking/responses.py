"""Words from files: `@FILE` stands for the words that a file has, as gcc takes them."""

from __future__ import annotations

import os
import re
from collections.abc import Iterable, Iterator

from .compiling import BadWords

PARTS = r"\\(?P<sign>.)|'(?P<single>(?:\\.|[^'\\])*)'|\"(?P<double>(?:\\.|[^\"\\])*)\""
PART = re.compile(rf"{PARTS}|(?P<plain>[^\s'\"\\]+)", re.DOTALL)
BLANK = re.compile(r"\s*")
ESCAPED = re.compile(r"\\(.)", re.DOTALL)
# So many files of words are taken, since they may name one another.
MOST = 2000


def expanded(words: Iterable[str], folder: str = "", is_there: bool = True) -> Iterator[str]:
    """The words, with those of files in the place of the files' names, which begin at a folder.

    is_there: files have to be there; else the names of those that are not stay, as with gcc.
    """
    waiting = [*words][::-1]
    taken = 0
    while waiting:
        word = waiting.pop()
        path = os.path.join(folder, word[1:])
        if not word.startswith("@") or not is_there and not os.path.isfile(path):
            yield word
            continue
        taken += 1
        if taken > MOST:
            raise BadWords(f"{word}: more than {MOST} files of words, which may name one another")
        waiting += words_in(path)[::-1]


def words_in(path: str) -> list[str]:
    """The words of a file: what stands between blanks, but for those in quotes or behind a \\."""
    try:
        with open(path, encoding="utf-8", errors="surrogateescape") as file:
            text = file.read()
    except OSError as fault:
        raise BadWords(f"@{path}: {fault.strerror}") from None
    found: list[str] = []
    at = blank_behind(text, 0)
    is_inside = False
    while at < len(text):
        part = PART.match(text, at)
        if part is None:
            raise BadWords(f"@{path} ends within quotes or behind a \\")
        value = part["plain"] or part["sign"]
        if value is None:
            value = ESCAPED.sub(r"\1", part["single"] or part["double"] or "")
        if is_inside:
            found[-1] += value
        else:
            found.append(value)
        at = blank_behind(text, part.end())
        is_inside = at == part.end()
    return found


def blank_behind(text: str, at: int) -> int:
    """Where the blanks end that begin at a place of a text."""
    found = BLANK.match(text, at)
    return found.end() if found else at
