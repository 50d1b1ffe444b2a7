"""What gcc's other dumps say of a file: the symbol table, which calls never return, which variables
are volatile.
"""

import bisect
import re
from collections.abc import Callable, Iterator
from dataclasses import dataclass, field

from . import operands

SYMBOL = re.compile(r"(?P<linkage>\S+)/(?P<order>\d+) \((?P<name>[^)]*)\) @")
LOCAL_STATIC = re.compile(r"\.\d+$")
DEFINITION = re.compile(r"/\* (?P<file>.*):(?P<line>\d+):[NO]F \*/ (?P<rest>.*)$")
DEFINED_NAME = re.compile(r"([A-Za-z_$][\w$]*) \(")
ORIGINAL = re.compile(r";; Function (\S+) \(|[ (]\(void\) ([A-Za-z_$][\w$]*)[;,)]")
NO_SUCCESSOR = re.compile(r"\n;;    succ:[ ]*\n")
ENDLESS = re.compile(r"(?:\S+ = )?\S*?D\.(\d+) \(")
IN_SECTION = re.compile(r"^\S.*((?:\n .*)*?\n  Visibility:.* section:.*)", re.MULTILINE)
FUNCTION = re.compile(r"^;; Function .* decl_uid=(\d+)", re.MULTILINE)
VERSION = re.compile(r"([A-Za-z_$][\w$]*)_\d+(?:\(D\))?(?![\w$])")
TABLES = (".init_array", ".preinit_array", ".fini_array", ".ctors", ".dtors")


@dataclass
class Symbol:
    """A symbol of the table.

    is_kept: it stays though nothing names it. runs_alone: a constructor or destructor.
    """

    name: str
    linkage: str
    is_function: bool = False
    is_public: bool = False
    is_defined: bool = False
    is_weak: bool = False
    is_addressed: bool = False
    is_kept: bool = False
    section: str = ""
    runs_alone: bool = False
    alias_of: str | None = None


@dataclass
class Symbols:
    """What is known of a file beside its statements.

    by_name: the symbols of the file's own level. addressed: the names of variables of which some
    initialiser takes the address, or to which something leads that gcc doesn't see. endless: the
    functions whose calls never return, by their numbers, since gcc may have other names for them
    where it finds that out. volatile: the declared names that are accessed as volatile.
    volatile_behind: the functions, by their numbers, and, by the source's names, their pointers to
    what is. definitions: by name, file and line where a function is defined. cast_away: pairs of
    a function's name and that of a variable which it casts to void. sources: the files that it was
    made of, but for the system's headers.
    """

    by_name: dict[str, Symbol] = field(default_factory=dict)
    addressed: set[str] = field(default_factory=set)
    endless: set[int] = field(default_factory=set)
    volatile: set[str] = field(default_factory=set)
    volatile_behind: set[tuple[int, str]] = field(default_factory=set)
    definitions: dict[str, tuple[str, int]] = field(default_factory=dict)
    cast_away: set[tuple[str, str]] = field(default_factory=set)
    sources: list[str] = field(default_factory=list)
    starts_by_table: bool = False


def loses_section(text: str) -> bool:
    """Whether a table has a variable in a section that gcc takes out, so that it tells not what it
    leads to.
    """
    parts = IN_SECTION.findall(text) if " section:" in text else []
    return any("\n  Type: variable definition\n" in part for part in parts)


def read_table(text: str, symbols: Symbols, kept: frozenset[str] | None = None) -> None:
    """Reads `-fdump-ipa-cgraph`: the first symbol table of it.

    kept: the variables that gcc keeps though nothing names them, where this table has all as kept.
    """
    orders = {}
    aliases = []
    for section in sections_in(text):
        head = SYMBOL.match(section[0])
        symbol = symbol_in(head, section[1:])
        if kept is not None:
            symbol.is_kept = symbol.linkage in kept
        orders[head["order"]] = symbol
        for line in section:
            if line.startswith("  Referring:") and "(addr)" in line:
                symbol.is_addressed = True
                symbols.addressed.add(symbol.name)
            alias = re.search(r"/(\d+) \(alias\)", line)
            if line.startswith("  References:") and alias:
                aliases.append((symbol, alias[1]))
        if not symbol.is_function and (symbol.is_kept or symbol.section):
            symbols.addressed.add(symbol.name)
            symbols.starts_by_table |= symbol.section.startswith(TABLES)
        if not LOCAL_STATIC.search(symbol.linkage):
            symbols.by_name[symbol.name] = symbol
    for symbol, order in aliases:
        symbol.alias_of = orders[order].name if order in orders else None


def kept_in(text: str) -> frozenset[str]:
    """The variables of a table that gcc keeps though nothing names them."""
    found = [symbol_in(SYMBOL.match(section[0]), section[1:]) for section in sections_in(text)]
    return frozenset(
        symbol.linkage for symbol in found if symbol.is_kept and not symbol.is_function
    )


def sections_in(text: str) -> Iterator[list[str]]:
    """The lines of each symbol in the first table."""
    table = text.split("Initial Symbol table:", 1)[-1].split("\nRemoving unused symbols", 1)[0]
    section = []
    for line in table.split("\n"):
        if SYMBOL.match(line):
            if section:
                yield section
            section = [line]
        elif section:
            section.append(line)
    if section:
        yield section


def symbol_in(head: re.Match[str], lines: list[str]) -> Symbol:
    """The symbol of a section."""
    symbol = Symbol(head["name"], head["linkage"].lstrip("*"))
    for line in lines:
        words = line.split()
        if line.startswith("  Type:"):
            symbol.is_function = "function" in words
            symbol.is_defined = "definition" in words
        elif line.startswith("  Visibility:"):
            symbol.is_public = "public" in words or "external" in words
            symbol.is_weak = "weak" in words
            symbol.is_kept = "force_output" in words and not symbol.is_public
            symbol.section = next(
                (word.removeprefix("section:") for word in words if word.startswith("section:")), ""
            )
            symbol.runs_alone = "constructor" in words or "destructor" in words
        elif line.startswith("  Address is taken."):
            symbol.is_addressed = True
    return symbol


def read_blocks(text: str, symbols: Symbols) -> None:
    """Reads `-fdump-tree-ssa-lineno-uid-blocks`: calls behind which nothing follows, and volatile
    accesses.
    """
    for found in NO_SUCCESSOR.finditer(text):
        callee = ENDLESS.match(operands.without_places(line_at(text, found.start() - 1)))
        if callee:
            symbols.endless.add(int(callee[1]))
    heads = list(FUNCTION.finditer(text)) if "={v}" in text else []
    starts, functions = [head.start() for head in heads], [int(head[1]) for head in heads]
    for found in re.finditer(r"=\{v\}", text):
        line = line_at(text, found.start())
        if not line.startswith(";;") and "{CLOBBER" not in line:
            at = bisect.bisect(starts, found.start()) - 1
            take_volatile(
                operands.without_places(line), functions[at] if at >= 0 else 0, symbols
            )


def line_at(text: str, at: int) -> str:
    """The line of a text that has this place, without the blanks round it."""
    return text[text.rfind("\n", 0, at + 1) + 1 : text.find("\n", at + 1)].strip()


def take_volatile(line: str, function: int, symbols: Symbols) -> None:
    """Takes in the variables of a statement with a volatile access; no fields."""
    for found in re.finditer(operands.DECLARED, operands.STRING.sub("", line)):
        if not line[: found.start()].endswith((".", "->")):
            symbols.volatile.add(found.group())
    symbols.volatile_behind.update((function, name) for name in VERSION.findall(line))


def read_definitions(text: str, symbols: Symbols, shown: Callable[[str], str]) -> None:
    """Reads `-aux-info`: where functions are defined, in files as they are shown."""
    for line in text.split("\n"):
        found = DEFINITION.match(line)
        name = DEFINED_NAME.search(found["rest"]) if found else None
        if name:
            symbols.definitions[name[1]] = (shown(found["file"]), int(found["line"]))


def read_casts(text: str, symbols: Symbols) -> None:
    """Reads `-fdump-tree-original`: which variables are cast to void, as those are that need not be
    read.
    """
    function = ""
    for found in ORIGINAL.finditer(text):
        if found[1]:
            function = found[1]
        else:
            symbols.cast_away.add((function, found[2]))


def read_sources(text: str, symbols: Symbols, shown: Callable[[str], str]) -> None:
    """Reads `-MMD -MF`: the files of which gcc read one C file, as they are shown."""
    names = re.findall(r"(?:\\.|[^\s\\])+", text.partition(": ")[2])
    symbols.sources += [shown(re.sub(r"\\(.)", r"\1", name)) for name in names]
