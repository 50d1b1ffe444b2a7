"""Finding and reading the dumps of C files."""

import glob
import re
from collections.abc import Callable
from dataclasses import dataclass

from . import dump, operands, symbols
from .faults import Refusal
from .world import File

LOWER = re.compile(r"(?P<stem>.*)\.\d+t\.lower$")


@dataclass(frozen=True)
class Code:
    """A C file's three-address code as gcc writes it, and what is known beside.

    name: what messages call the file. shown: what they call a file that the code names.
    """

    name: str
    text: str
    symbols: symbols.Symbols
    shown: Callable[[str], str] = str

    def file(self) -> File:
        """The file with its functions."""
        try:
            return File(self.name, dump.read(self.text, self.name, self.shown), self.symbols)
        except (ValueError, IndexError):
            raise Refusal("a dump that is not written as expected", self.name) from None

    def names(self) -> list[str]:
        """The files that the code names, as gcc calls them."""
        names = dict.fromkeys(found[1] for found in operands.PLACE.finditer(self.text))
        return [name for name in names if not name.startswith("<")]

    def functions(self) -> list[str]:
        """The names of its functions."""
        return [found["name"] for found in dump.HEADER.finditer(self.text)]


def read_text(path: str) -> str:
    """A file's text; bytes that are no text are kept as they are."""
    try:
        with open(path, encoding="utf-8", errors="surrogateescape", newline="\n") as file:
            return file.read()
    except OSError as fault:
        raise Refusal(f"{path}: {fault.strerror}") from None


def beside(path: str, stem: str, ending: str, option: str) -> str:
    """The other dump of the same C file."""
    found = sorted(glob.glob(glob.escape(stem) + ".*" + ending))
    if not found:
        raise Refusal(f"{path}: there is no {stem}.*{ending} beside it; run gcc with {option} too")
    return found[-1]


def read_file(path: str, name: str | None = None) -> File:
    """A C file by the dump of this path and those that stand beside it."""
    return read_code(path, name).file()


def read_code(path: str, name: str | None = None, shown: Callable[[str], str] = str) -> Code:
    """A C file's code by the dump of this path and those that stand beside it.

    name: what messages call it. shown: what they call a file that the dumps name.
    """
    match = LOWER.match(path)
    if not match:
        raise Refusal(f"{path}: a dump's name ends with .lower, as in a.c.010t.lower")
    stem = match["stem"]
    text = read_text(path)
    known = symbols.Symbols()
    first = glob.glob(glob.escape(stem) + ".reordered")
    kept = symbols.kept_in(read_text(first[0])) if first else None
    symbols.read_table(read_text(beside(path, stem, ".cgraph", "-fdump-ipa-cgraph")), known, kept)
    symbols.read_blocks(
        read_text(beside(path, stem, ".ssa", "-fdump-tree-ssa-lineno-uid-blocks")), known
    )
    for other in glob.glob(glob.escape(stem) + "*.aux"):
        symbols.read_definitions(read_text(other), known, shown)
    for other in glob.glob(glob.escape(stem) + "*.original"):
        symbols.read_casts(read_text(other), known)
    for other in glob.glob(glob.escape(stem) + "*.sources"):
        symbols.read_sources(read_text(other), known, shown)
    return Code(name or stem, text, known, shown)
