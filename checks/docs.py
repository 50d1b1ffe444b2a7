"""Checks the documents against the sources: names, where they are defined, paths, links, counts,
lists of definitions, widths and sizes; where figures come from; and the manual pages against the
table of options.

    checks/docs              one line for each fault, as FILE:LINE: what is wrong; status 1 where
                             there is one
    checks/docs --self-test  plants a fault of each kind in a copy, and sees that each is told
"""

from __future__ import annotations

import functools
import os
import re
import shutil
import subprocess
import sys
import tempfile
from collections.abc import Callable, Iterator
from typing import NamedTuple

Fault = tuple[str, int, str]  # a file, a line, what is wrong
Row = tuple[int, list[str]]  # a row of a table: its line, and its cells
Table = tuple[int, list[str], list[Row]]  # the line of a table's head, its cells, and the rows
Reading = tuple[int, list[Row]]  # the line that tells a table's sum, and the table
Plant = tuple[str, Callable[[str], None], str]

WIDTH = 140
# How long a document may be; all others below docs/ may have OTHER_SIZE lines.
SIZES = {
    "docs/ARCHITECTURE.md": 210,
    "docs/TRUST.md": 230,
    "docs/DECISIONS.md": 320,
    "docs/PROVING.md": 400,
    "docs/GLOSSARY.md": 80,
    "README.md": 182,
}
OTHER_SIZE = 300
CRATE_PAGE = (10, 60)
# The page that lists the definitions a contract rests on, table by table: each is closed under
# imports with those above it.
READING = "docs/TRUST.md"
PASSED_OVER = {".git", "out", "target", "__pycache__", "lib"}
TEXT_ENDINGS = (".rt", ".antt", ".rs", ".c", ".h", ".py", ".sh", ".toml", ".tac", ".edit", "")
PATH_ENDINGS = re.compile(r"\.(rt|antt|rs|c|h|py|md|tac|edit|svg|txt|report|a)$")
# Names of the C library and of this system, files that are made, and words that stand for any: no
# source of the repository has them.
OUTSIDE = set(
    "rustc perf valgrind memset errno atexit qsort signal fopencookie libtacflow.a program.tac"
    " libtacflow.so unop binop relop".split()
)
# What is made and not kept here: what a build leaves, and what stands below the folder of an
# installation.
MADE = re.compile(r"(^|/)out(/|$)|^bindings/lib(/|$)|^(bin|lib|libexec|include|share)/")
PLACEHOLDER = re.compile(r"\b(NAME|CRATE|FILE|F|M|X|PREFIX|DATE|MACHINE)\b")
# A time or a size of memory, and the text of a span that says where it comes from: a command, or a
# run that is kept.
FIGURE = re.compile(r"\b\d[\d.,]*\s?(ms|s|min|seconds?|minutes?|hours?|MB|GB)\b")
SOURCE_OF_FIGURE = re.compile(r"\S \S|^bench/runs/")
SPAN = re.compile(r"`([^`]+)`")
IDENTIFIER = re.compile(r"^[A-Za-z_][A-Za-z0-9_+'-]*(?:(?:::|\.)[A-Za-z_][A-Za-z0-9_+'-]*)*$")
# Goals and facts, as the prover names them: they are of one function each.
GOAL = re.compile(r"^[cglwF]\.")
JOINS_NAMES = re.compile(r"^\*{0,2}(,| and|, and|, or| or)\s+\*{0,2}$")
# Between a place and the names that are said to stand there: "PLACE: NAME", "NAME of PLACE",
# "NAME, in PLACE".
BEFORE_NAMES = re.compile(r"^:\s+\*?$")
BEHIND_NAMES = re.compile(r"^,?\s+(?:(?:is|are|stands?)\s+)?(?:of|in)\s+$")
# A list's element, a row, a heading: it begins a block.
BEGINS_BLOCK = re.compile(r"^\s*([-*]|\d+\.)\s|^[|#]")
# How a name is defined: in Rattle and Rust, in definitions and lemmas, in Python.
RUST_DEFINITION = re.compile(
    r"\b(?:fn|struct|enum|trait|static|type|mod|union|const(?!\s+fn\b))\s+(?:mut\s+)?(\w+)"
    r"|macro_rules!\s+(\w+)|^\s*(?:pub\s+)?ghost\s+(\w+)\s*[:=]",
    re.M,
)
ANTT_DEFINITION = re.compile(
    r"^\s*(?:(?:abbrev|unfoldable|pub)\s+)*(?:record|data|ruleset|mod)\s+([\w'+-]+)"
    r"|^\s*(?:(?:abbrev|unfoldable|pub)\s+)*([\w'+-]+)\s+:\s",
    re.M,
)
PYTHON_DEFINITION = re.compile(r"^\s*(?:def|class)\s+(\w+)|^(\w+)\s*(?::[^=\n]*)?=", re.M)
# A type, a trait or an implementation, and the members that such a body declares.
BODY = re.compile(
    r"^(?:pub(?:\(\w+\))? )?(struct|enum|trait|impl)\b([^;{]*)\{$(.*?)^\}$", re.M | re.S
)
FIELD = re.compile(r"^    (?:pub(?:\(\w+\))? )?(?:ghost )?(\w+)\s*[:,({]", re.M)
METHOD = re.compile(
    r"^    (?:pub(?:\(\w+\))? )?(?:(?:const|unsafe) )*(?:fn|const|type|ghost) (\w+)", re.M
)
DEFINITIONS = {
    ".rt": RUST_DEFINITION,
    ".rs": RUST_DEFINITION,
    ".antt": ANTT_DEFINITION,
    ".py": PYTHON_DEFINITION,
}
# The columns of a table in which each name is an edit's, and how the head of one begins in which
# each name is a test's, an example's or a law's.
EDIT_COLUMNS = ("Edit", "Refused by")
EXAMPLE_COLUMNS = ("Examples", "Laws", "Tests")


# The words of each text that was looked at, and what each defines.
WORDS: dict[str, set[str]] = {}
DEFINED: dict[str, set[str]] = {}


def without_comments(path: str, text: str) -> str:
    if path.endswith((".rt", ".rs", ".c", ".h")):
        return re.sub(r"//.*", "", text)
    if path.endswith(".antt"):
        return re.sub(r"(^|\s)--\s.*", "", text)
    return text


def words_of(path: str, text: str) -> set[str]:
    found = set(re.findall(r"[A-Za-z_][A-Za-z0-9_+'-]*", without_comments(path, text)))
    return found | {part for word in found for part in re.findall(r"[A-Za-z_][A-Za-z0-9_]*", word)}


class Repository:
    """The files of the repository, and the words of its sources."""

    def __init__(self, root: str) -> None:
        self.root = root
        self.files = []
        for folder, folders, names in os.walk(root):
            folders[:] = sorted(name for name in folders if name not in PASSED_OVER)
            place = os.path.relpath(folder, root)
            self.files += [os.path.normpath(os.path.join(place, name)) for name in sorted(names)]
        self.folders = {os.path.dirname(path) for path in self.files}
        for folder in list(self.folders):
            while folder:
                folder = os.path.dirname(folder)
                self.folders.add(folder)
        self.known = set(self.files)
        self.crates = sorted(
            {
                path.split("/")[1]
                for path in self.files
                if path.startswith("crates/") and path.count("/") > 1
            }
        )
        self.texts: dict[str, str] = {}
        # the crates, and the libraries of the kit on which they stand
        self.libraries = set(re.findall(r"\w+", self.text("crates.txt")))
        self.defined: set[str] = set()
        self.members: dict[str, set[str]] = {}
        declared = (self.text(path) for path in self.files if path.endswith(".rt"))
        self.types = set(re.findall(r"\b(?:struct|enum|trait) ([A-Z]\w*)", "\n".join(declared)))
        self.words: set[str] = set()
        self.bench_words: set[str] = set()
        for path in self.files:
            # what a name means is never the plain program's, which has functions of the same names
            words = self.bench_words if path.startswith("bench/") else self.words
            if self.is_source(path):
                words |= self.words_in(path)
            words |= {os.path.basename(path), os.path.splitext(os.path.basename(path))[0]}
        self.words |= set(self.crates) | OUTSIDE

    @staticmethod
    def is_source(path: str) -> bool:
        return (
            os.path.splitext(path)[1] in TEXT_ENDINGS
            and not path.endswith(".md")
            and path != "checks/docs.py"
        )

    def text(self, path: str) -> str:
        if path not in self.texts:
            with open(os.path.join(self.root, path), encoding="utf-8", errors="replace") as file:
                self.texts[path] = file.read()
        return self.texts[path]

    def lines(self, path: str) -> list[str]:
        return self.text(path).splitlines()

    def words_in(self, path: str) -> set[str]:
        """The words of a file, without those of its comments."""
        text = self.text(path)
        if text not in WORDS:
            WORDS[text] = words_of(path, text)
        return WORDS[text]

    def defined_in(self, path: str) -> set[str]:
        """What a file defines; of one in another language its words."""
        definition = DEFINITIONS.get(os.path.splitext(path)[1])
        if definition is None:
            return self.words_in(path)
        text = self.text(path)
        if text not in DEFINED:
            found = definition.findall(without_comments(path, text))
            DEFINED[text] = {name for names in found for name in names if name}
        return DEFINED[text]

    def defined_by_crate(self, crate: str) -> set[str]:
        """What a crate defines, with its modules and edits."""
        names = set()
        for path in self.files:
            if path.startswith(f"crates/{crate}/"):
                names.add(os.path.splitext(os.path.basename(path))[0])
                names |= self.defined_in(path) if path.endswith((".rt", ".antt")) else set()
        return names

    def all_defined(self) -> set[str]:
        if not self.defined:
            sources = (path for path in self.files if os.path.splitext(path)[1] in DEFINITIONS)
            self.defined = set().union(*(self.defined_in(path) for path in sources))
        return self.defined

    def has_type(self, path: str, name: str) -> bool:
        """Whether a file of sources declares a type of this name."""
        text = without_comments(path, self.text(path))
        return re.search(rf"\b(struct|enum|type) {re.escape(name)}\b", text) is not None

    def edits(self, crate: str | None = None) -> list[str]:
        return [
            path
            for path in self.files
            if path.endswith(".edit") and (crate is None or path.startswith(f"crates/{crate}/"))
        ]

    def found(self, name: str, crates: list[str], near: str) -> list[str]:
        """The files and folders that a path in a document may mean. A source's bare name means one
        of the crates at hand, where there are some; tests are in crates of their own."""
        name = name.removeprefix("./")
        if PLACEHOLDER.search(name) or "*" in name:
            pattern = re.escape(PLACEHOLDER.sub("*", name).rstrip("/")).replace(r"\*", "[^/]*")
            return [
                path
                for path in self.files + sorted(self.folders)
                if re.search(rf"(^|/){pattern}$", path)
            ]
        name = name.rstrip("/")
        tries = [name, os.path.normpath(os.path.join(near, name))]
        tries += [
            f"crates/{crate}/{part}{name}"
            for crate in crates
            for part in ("", "src/", "specs/", "proofs/", "must-fail/")
        ]
        hits = [path for path in tries if path in self.known or path in self.folders]
        if hits:
            return list(dict.fromkeys(hits))
        hits = [path for path in self.files + sorted(self.folders) if path.endswith("/" + name)]
        if crates and re.fullmatch(r"\w+(?<!_tests)\.(rt|antt)", name):
            at_hand = tuple(f"crates/{crate}/" for crate in crates)
            hits = [path for path in hits if path.startswith(at_hand)]
        return hits

    def has_member(self, owner: str, member: str) -> bool:
        """Whether some source declares this name in a type or a trait, or in a module or crate."""
        if not self.members:
            for path in (path for path in self.files if path.endswith((".rt", ".rs"))):
                places = {os.path.splitext(os.path.basename(path))[0], *path.split("/")[:-1]}
                for name in places:
                    self.members.setdefault(name, set()).update(self.defined_in(path))
                for name, members in members_in(self.text(path)):
                    self.members.setdefault(name, set()).update(members)
        return member in self.members.get(owner, ())


def members_in(text: str) -> Iterator[tuple[str, set[str]]]:
    """The types and traits of a source with what their bodies declare; of an implementation all
    that its head names."""
    for found in BODY.finditer(text):
        kind, head, body = found.groups()
        names = re.findall(r"\b[A-Z]\w*", head)
        members = (FIELD if kind in ("struct", "enum") else METHOD).findall(body)
        for name in names if kind == "impl" else names[:1]:
            yield name, set(members)


class Block(NamedTuple):
    """Lines that are read as one."""

    text: str
    starts: list[tuple[int, int]]  # where each line begins in the text, and its number
    crates: list[str]  # at hand
    spans: list[re.Match[str]]  # what stands between backticks

    @staticmethod
    def of(lines: list[tuple[int, str]], crates: list[str]) -> Block:
        starts, end = [], 0
        for number, line in lines:
            starts.append((end, number))
            end += len(line) + 1
        text = " ".join(line for _, line in lines)
        return Block(text, starts, crates, list(SPAN.finditer(text)))

    def line(self, span: re.Match[str]) -> int:
        return max(number for start, number in self.starts if start <= span.start())

    def between(self, at: int) -> str:
        """What stands between a span and the next one."""
        return self.text[self.spans[at].end() : self.spans[at + 1].start()]


class Page:
    """A document: its lines, which of them are code, and the crates that its headings name."""

    def __init__(self, repository: Repository, path: str) -> None:
        self.repository = repository
        self.path = path
        self.near = os.path.dirname(path)
        self.lines = repository.lines(path)
        own = re.match(r"crates/([^/]+)/", path)
        self.own = [own.group(1)] if own else []

    def prose(self) -> Iterator[tuple[int, str, list[str]]]:
        """The lines that are no code, each with its number and the crates at hand."""
        crates, fenced, blank = list(self.own), False, True
        for number, line in enumerate(self.lines, 1):
            if line.startswith("```"):
                fenced = not fenced
                continue
            is_code = fenced or (line.startswith("    ") and blank)
            blank = not line.strip() or is_code
            if line.startswith("#"):
                named = [name for name in SPAN.findall(line) if name in self.repository.crates]
                crates = list(self.own) + named
            if not is_code:
                yield number, line, crates

    def blocks(self) -> Iterator[Block]:
        """What is read as one: a paragraph, an element of a list, a row of a table, a heading."""
        block: list[tuple[int, str]] = []
        at_hand: list[str] = []
        for number, line, crates in self.prose():
            last = (number - 1, self.lines[number - 2])
            goes_on = line.strip() and not BEGINS_BLOCK.match(line)
            if block and (not goes_on or block[-1] != last or last[1].startswith(("|", "#"))):
                yield Block.of(block, at_hand)
                block = []
            if line.strip():
                block.append((number, line))
                at_hand = crates
        if block:
            yield Block.of(block, at_hand)

    def tables(self) -> Iterator[Table]:
        at = 0
        while at < len(self.lines):
            head, rows, row = self.lines[at], [], at + 2
            if head.startswith("|"):
                while row < len(self.lines) and self.lines[row].startswith("|"):
                    rows.append((row + 1, cells(self.lines[row])))
                    row += 1
                yield at + 1, cells(head), rows
                at = row
            at += 1


def cells(line: str) -> list[str]:
    return [cell.strip() for cell in line.strip().strip("|").split("|")]


def place_named(page: Page, name: str, crates: list[str]) -> Callable[[str], bool] | None:
    """Whether a name is defined in the file or the crate of this name, or is a member of the type;
    None where it is no place."""
    defined = defined_there(page, name, crates)
    if defined is not None:
        return functools.partial(is_defined, defined)
    if name in page.repository.types:
        return functools.partial(page.repository.has_member, name)
    return None


def defined_there(page: Page, name: str, crates: list[str]) -> set[str] | None:
    """What the file or the crate of this name defines; None where it is neither."""
    repository = page.repository
    if PATH_ENDINGS.search(name) and " " not in name:
        hits = [
            path
            for path in repository.found(name, crates, page.near)
            if path in repository.known and repository.is_source(path)
        ]
        return set().union(*(repository.defined_in(path) for path in hits)) if hits else None
    crate = name.removeprefix("crates/").rstrip("/")
    return repository.defined_by_crate(crate) if crate in repository.crates else None


def is_name(page: Page, text: str) -> bool:
    """Whether what stands between two backticks is the name of something in a file."""
    is_path = PATH_ENDINGS.search(text) or text in page.repository.libraries
    return IDENTIFIER.match(text) is not None and not is_path


def names_at(page: Page, block: Block, at: int) -> list[re.Match[str]]:
    """The names that are said to stand in the place that is the block's span of a number: behind
    "PLACE: ", before " of PLACE" or " in PLACE", or before " (PLACE)"."""
    spans = block.spans
    named: list[re.Match[str]] = []
    for behind in range(at + 1, len(spans)):
        joins = JOINS_NAMES if named else BEFORE_NAMES
        if not joins.match(block.between(behind - 1)) or not is_name(page, name_in(spans[behind])):
            break
        named.append(spans[behind])
    between = block.between(at - 1) if at else ""
    in_brackets = between == " (" and block.text[spans[at].end() :].startswith(")")
    if BEHIND_NAMES.match(between) or in_brackets:
        for before in range(at - 1, -1, -1):
            if not is_name(page, name_in(spans[before])):
                break
            named.append(spans[before])
            if not JOINS_NAMES.match(block.between(before - 1) if before else ""):
                break
    return named


def name_in(span: re.Match[str]) -> str:
    return span.group(1).removesuffix("()").removesuffix("!")


def is_defined(defined: set[str], name: str) -> bool:
    """A name of several parts is defined by its last one."""
    last = name.split("::")[-1]
    return last in defined or last.split(".")[-1] in defined


def names_told(page: Page, block: Block, faults: list[Fault]) -> None:
    """Looks at each name between backticks: that it is there, and where it is said to stand that it
    is defined there."""
    for at, span in enumerate(block.spans):
        fault = fault_of_span(page, span.group(1), block.crates)
        if fault:
            faults.append((page.path, block.line(span), fault))
            continue
        named = names_at(page, block, at)
        is_there = place_named(page, span.group(1), block.crates) if named else None
        for name in named if is_there else []:
            if is_there and not is_there(name_in(name)):
                what = f"`{name.group(1)}` is not defined in `{span.group(1)}`"
                faults.append((page.path, block.line(name), what))


def names_below(page: Page, heads: tuple[str, ...]) -> Iterator[tuple[int, str]]:
    """The names in the columns of tables whose head begins so, each with its line. A cell of edits
    may tell tests in their place."""
    for _, head, rows in page.tables():
        for column in (number for number, cell in enumerate(head) if cell.startswith(heads)):
            for number, row in rows:
                cell = row[column] if column < len(row) else ""
                names = [] if cell.startswith("tests:") else SPAN.findall(cell)
                yield from ((number, name) for name in names if is_name(page, name))


def columns_told(page: Page, faults: list[Fault]) -> None:
    """In a column of edits each name is that of an edit, in one of tests it is defined."""
    edits = {os.path.splitext(os.path.basename(path))[0] for path in page.repository.edits()}
    for number, name in names_below(page, EDIT_COLUMNS):
        if name not in edits:
            faults.append((page.path, number, f"`{name}` is no edit"))
    for number, name in names_below(page, EXAMPLE_COLUMNS):
        if not is_defined(page.repository.all_defined(), name):
            faults.append((page.path, number, f"`{name}`: no source defines it"))


def types_told(page: Page, faults: list[Fault]) -> None:
    """In a row of files and types each file declares one of the types, and each type stands in
    one; in a row of a file and its lines what is named is defined there."""
    repository = page.repository
    for _, head, rows in page.tables():
        for number, row in rows if head[0] == "File" and len(head) > 1 else []:
            files = [file for file in SPAN.findall(row[0]) if file in repository.known]
            names = [name for name in SPAN.findall(row[-1]) if is_name(page, name)]
            for name in names:
                if head[1] == "Types":
                    is_there = any(repository.has_type(file, name) for file in files)
                else:
                    is_there = any(is_defined(repository.defined_in(file), name) for file in files)
                if not is_there:
                    faults.append((page.path, number, f"`{name}` is not defined in {row[0]}"))
            for file in files if head[1] == "Types" else []:
                if not any(repository.has_type(file, name) for name in names):
                    faults.append((page.path, number, f"{file} has none of these types"))


def figures_told(page: Page, block: Block, faults: list[Fault]) -> None:
    """Beside what was measured stands the command that does so, or the run that has it."""
    figure = FIGURE.search(block.text)
    if figure and not any(SOURCE_OF_FIGURE.search(span.group(1)) for span in block.spans):
        what = f"{figure.group(0)}: no command and no run of bench/runs stands beside it"
        faults.append((page.path, block.line(figure), what))


def fault_of_span(page: Page, span: str, crates: list[str]) -> str | None:
    """What is wrong with the text between two backticks, or None."""
    repository = page.repository
    name = span.strip().removesuffix("()")
    if " " in name:
        return fault_of_command(page, span, crates)
    if name.startswith(("/", "-", "~", "<")) or "://" in name or MADE.search(name):
        return None
    if re.match(r"^[A-Za-z0-9_.*+/-]+$", name) and ("/" in name or PATH_ENDINGS.search(name)):
        is_known = name in OUTSIDE or re.fullmatch(r"[0-9/+*-]+", name)
        if is_known or repository.found(name, crates, page.near):
            return None
        return f"`{span}`: there is no such file"
    is_any = PLACEHOLDER.fullmatch(name) or GOAL.match(name)
    if not IDENTIFIER.match(name) or len(name) < 3 or is_any:
        return None
    parts = name.split("::")
    if len(parts) > 1:
        is_of_kit = parts[0] in ("std", "core", "u32", "u64", "usize")
        if is_of_kit or repository.has_member(parts[-2], parts[-1]):
            return None
        return f"`{span}`: there is no such item"
    words = repository.words
    if page.path.startswith("bench/"):
        words = words | repository.bench_words
    if name in words or all(part in words for part in name.split(".") if part):
        return None
    return f"`{span}`: no source has this name"


def fault_of_command(page: Page, span: str, crates: list[str]) -> str | None:
    """What is wrong with several words between two backticks: the files among them are there."""
    for word in span.strip().split():
        is_file = re.match(
            r"^(\./[a-z]|(crates|docs|checks|bench|bindings|frontends|examples|\.ci)/)", word
        )
        if is_file and not MADE.search(word):
            if not page.repository.found(word.rstrip(",;:."), crates, page.near):
                return f"`{span}`: there is no {word}"
    return None


def benchmarks_of(root: str) -> set[str]:
    """The words of `bench/run --list`: benchmarks, kinds and shapes; none where it cannot be
    run."""
    command = os.path.join(root, "bench/run")
    if not os.access(command, os.X_OK):
        return set()
    try:
        listed = subprocess.run(
            [command, "--list"], capture_output=True, text=True, timeout=60, check=False
        )
    except (OSError, subprocess.TimeoutExpired):
        return set()
    return set(re.findall(r"[a-z][a-z-]*[a-z]", listed.stdout))


def benchmarks_told(
    page: Page, number: int, line: str, benchmarks: set[str], faults: list[Fault]
) -> None:
    """A benchmark is KIND-SHAPE or KIND-SHAPE-WORKERS, and a colon and keys may follow."""
    for words in re.findall(r"`bench/run ([^`]+)`", line):
        for name in re.sub(r"--\S+ \S+", "", words).split():
            parts = re.fullmatch(r"([a-z]+)-([a-z-]*[a-z])(-[0-9]+)?", name.split(":")[0])
            if (
                benchmarks
                and re.match(r"[a-z]", name)
                and not (parts and {parts.group(1), parts.group(2)} <= benchmarks)
            ):
                faults.append(
                    (page.path, number, f"`bench/run {name}`: there is no such benchmark")
                )


def links_told(page: Page, number: int, line: str, faults: list[Fault]) -> None:
    for target in re.findall(r"\]\(([^)\s]+)\)", line):
        if re.match(r"^(https?:|mailto:|#)", target):
            continue
        path = os.path.normpath(os.path.join(page.near, target.split("#")[0]))
        if path not in page.repository.known and path not in page.repository.folders:
            faults.append((page.path, number, f"the link to {target} leads nowhere"))


def number_of(text: str) -> int:
    return int(text.replace(",", ""))


def counts_told(
    page: Page, number: int, line: str, crates: list[str], headline: int, faults: list[Fault]
) -> None:
    """Looks at each count that has a form of its own."""
    repository = page.repository
    for text in re.findall(r"\b([\d,]*\d) edits\b", line):
        wanted = len(repository.edits(page.own[0] if page.own else None))
        if number_of(text) != wanted:
            faults.append((page.path, number, f"{text} edits: there are {wanted}"))
    for text in re.findall(r"\b([\d,]*\d) crates\b", line):
        if number_of(text) != len(repository.crates):
            faults.append((page.path, number, f"{text} crates: there are {len(repository.crates)}"))
    for text in re.findall(r"\b([\d,]*\d) lines of definitions\b", line):
        if number_of(text) != headline:
            faults.append(
                (
                    page.path,
                    number,
                    f"{text} lines of definitions: the first list of {READING} has {headline}",
                )
            )


def reading_lists(page: Page) -> tuple[list[Reading], set[tuple[str, str]]]:
    """The tables of a page whose head begins with File and Lines, each with the line before it that
    tells their sum; and the types."""
    lists, types = [], set()
    for at, head, rows in page.tables():
        if head[:2] == ["File", "Lines"]:
            told = next((n for n in range(at - 1, 0, -1) if page.lines[n - 1].strip()), 1)
            lists.append((told, rows))
        elif head[:2] == ["File", "Types"]:
            types |= {
                (file, name)
                for _, row in rows
                for file in SPAN.findall(row[0])
                for name in SPAN.findall(row[1])
            }
    return lists, types


def imports_of(repository: Repository, path: str) -> tuple[set[str], set[tuple[str, str]]]:
    """The definitions and the types of this repository that a file imports."""
    definitions, types = set(), set()
    for text in re.findall(r"^(?:pub )?use Rattle\.([A-Za-z0-9_.]+)", repository.text(path), re.M):
        parts = [part for part in text.split(".") if part]
        if len(parts) < 3 or parts[0] not in repository.crates or parts[1] != "specs":
            continue
        if parts[2] == "declared":
            for end in range(len(parts) - 1, 3, -1):
                source = f"crates/{parts[0]}/src/{'/'.join(parts[3:end])}.rt"
                if source in repository.known:
                    # of a type's constants the type
                    named = [part for part in parts[end:] if part != "TheConstants"]
                    types |= {(source, name) for name in named[:1]}
                    break
            continue
        for end in range(len(parts), 2, -1):
            file = f"crates/{parts[0]}/specs/{'/'.join(parts[2:end])}.antt"
            if file in repository.known:
                definitions.add(file)
                break
    return definitions, types


def reading_told(page: Page, faults: list[Fault]) -> int:
    """Looks at the lists of definitions: the lines of each file, the sums, and that each list is
    closed. The sum of the first one."""
    lists, types = reading_lists(page)
    listed: set[str] = set()
    used: set[str] = set()
    headline = 0
    for told, rows in lists:
        sum_of_lines = lines_told(page, rows, listed, faults)
        headline = headline or sum_of_lines
        sums = re.findall(r"\b([\d,]*\d) lines\b", page.lines[told - 1])
        if [number_of(text) for text in sums] != [sum_of_lines]:
            faults.append((page.path, told, f"the list below has {sum_of_lines} lines"))
        used |= imports_told(page, rows, listed, types, faults)
    for number, name in names_below(page, ("Types",)):
        if name not in used:
            what = f"`{name}` is used by no definition that is listed"
            faults.append((page.path, number, what))
    if not lists:
        faults.append((page.path, 1, "it has no list of definitions"))
    return headline


def lines_told(page: Page, rows: list[Row], listed: set[str], faults: list[Fault]) -> int:
    """How many lines a list's files have, which then are listed."""
    repository = page.repository
    sum_of_lines = 0
    for number, row in rows:
        file = row[0].strip("`")
        if file not in repository.known:
            faults.append((page.path, number, f"{file}: there is no such file"))
            continue
        lines = len(repository.lines(file))
        if number_of(row[1]) != lines:
            faults.append((page.path, number, f"{file} has {lines} lines"))
        sum_of_lines += lines
        listed.add(file)
    return sum_of_lines


def imports_told(
    page: Page,
    rows: list[Row],
    listed: set[str],
    types: set[tuple[str, str]],
    faults: list[Fault],
) -> set[str]:
    """What a list's files import is listed. The types among that."""
    names = set()
    for number, row in rows:
        file = row[0].strip("`")
        if file in page.repository.known and file.endswith(".antt"):
            definitions, used = imports_of(page.repository, file)
            for other in sorted(definitions - listed):
                faults.append((page.path, number, f"{file} imports {other}, which is not listed"))
            for source, name in sorted(used - types):
                what = f"{file} uses `{name}` of {source}, which is not among the types"
                faults.append((page.path, number, what))
            names |= {name for _, name in used}
    return names


def pages_named(repository: Repository, faults: list[Fault]) -> None:
    """The documents that sources name are there."""
    for path in repository.files:
        if repository.is_source(path):
            for number, line in enumerate(repository.lines(path), 1):
                for name in re.findall(r"\bdocs/[A-Z]+\.md\b", line):
                    if name not in repository.known:
                        faults.append((path, number, f"there is no {name}"))


def manuals_told(repository: Repository, faults: list[Fault]) -> None:
    """The options of each manual page are those that packaging/manual makes of their table."""
    command = os.path.join(repository.root, "packaging/manual")
    for path in repository.files:
        program = re.fullmatch(r"packaging/man/(.*)\.1", path)
        if not program:
            continue
        made = subprocess.run(
            ["sh", command, program.group(1)], capture_output=True, text=True, check=True
        ).stdout
        page = repository.text(path)
        begins = page.find(".SH OPTIONS\n")
        ends = page.find("\n.SH ", begins)
        if begins < 0 or page[begins : ends + 1] != made:
            at = page.count("\n", 0, max(begins, 0)) + 1
            faults.append((path, at, "its options are not those of packaging/manual --write"))


def size_told(page: Page, faults: list[Fault]) -> None:
    least, most = (
        CRATE_PAGE
        if page.own and page.path.endswith("README.md")
        else (1, SIZES.get(page.path, OTHER_SIZE))
    )
    if page.path.startswith("docs/") or page.path == "README.md" or page.own:
        if not least <= len(page.lines) <= most:
            faults.append(
                (
                    page.path,
                    len(page.lines),
                    f"{len(page.lines)} lines: it may have {least} to {most}",
                )
            )


def faults_of(root: str) -> list[Fault]:
    repository = Repository(root)
    benchmarks = benchmarks_of(root)
    faults: list[Fault] = []
    headline = reading_told(Page(repository, READING), faults) if READING in repository.known else 0
    for path in repository.files:
        if not path.endswith(".md"):
            continue
        page = Page(repository, path)
        for number, line in enumerate(page.lines, 1):
            if len(line) > WIDTH:
                faults.append((path, number, f"{len(line)} columns: a line has at most {WIDTH}"))
        for block in page.blocks():
            names_told(page, block, faults)
            figures_told(page, block, faults)
        columns_told(page, faults)
        types_told(page, faults)
        for number, line, crates in page.prose():
            if line.count("`") % 2:
                faults.append((path, number, "a name between backticks goes on in the next line"))
            links_told(page, number, line, faults)
            benchmarks_told(page, number, line, benchmarks, faults)
            counts_told(page, number, line, crates, headline, faults)
        size_told(page, faults)
    pages_named(repository, faults)
    manuals_told(repository, faults)
    for crate in repository.crates:
        if f"crates/{crate}/README.md" not in repository.known:
            faults.append((f"crates/{crate}", 1, "it has no README.md"))
    return sorted(set(faults))


def replaced(root: str, path: str, old: str, new: str) -> None:
    file = os.path.join(root, path)
    with open(file, encoding="utf-8") as source:
        text = source.read()
    if old not in text:
        sys.exit(f"checks/docs: {path} has no {old!r} to plant a fault in")
    with open(file, "w", encoding="utf-8") as target:
        target.write(text.replace(old, new, 1))


def appended(root: str, path: str, text: str) -> None:
    with open(os.path.join(root, path), "a", encoding="utf-8") as target:
        target.write(text)


def without_first_row(root: str) -> None:
    """Takes the first file of the first list away, and its lines from the sum."""
    page = Page(Repository(root), READING)
    told, rows = reading_lists(page)[0][0]
    number, row = rows[0]
    old = re.findall(r"\b[\d,]*\d lines\b", page.lines[told - 1])[0]
    new = f"{number_of(old.split()[0]) - number_of(row[1]):,} lines"
    lines = [
        line.replace(old, new, 1) if n == told else line
        for n, line in enumerate(page.lines, 1)
        if n != number
    ]
    with open(os.path.join(root, READING), "w", encoding="utf-8") as target:
        target.write("\n".join(lines) + "\n")


GLOSSARY = "docs/GLOSSARY.md"
MANUAL = "packaging/man/tacflow.1"
TABLES = "crates/flow_team/specs/Tables.antt"
PUTTING = "crates/slice_board/proofs/rows/Putting.antt"
# Faults that stand in a text: what each is called, the page, the text that is put behind it, and
# what has to be told of a line of that text.
TEXTS = [
    ("a name that is gone", GLOSSARY, "`no_such_function_here`", "no source has this name"),
    ("a member that is gone", GLOSSARY, "`Graph::no_such_call`", "no such item"),
    ("a member that a type calls", GLOSSARY, "`ReportAnswers::next`", "no such item"),
    ("a name of another file", GLOSSARY, "`graph.rt`: `take_up`", "is not defined in"),
    ("a type that a file uses", GLOSSARY, "`graph.rt`: `Analysis`", "is not defined in"),
    ("a name that a file imports", GLOSSARY, f"`{TABLES}`: `point_count`", "is not defined in"),
    ("one of several names", GLOSSARY, f"`{TABLES}`: `IsTableOf`, `bits_at`", "`bits_at` is"),
    ("a name of a file", GLOSSARY, f"`point_count` of `{TABLES}`", "is not defined in"),
    ("a name behind a comma", GLOSSARY, f"`point_count`, in `{TABLES}`", "is not defined in"),
    ("a name in brackets", GLOSSARY, f"`point_count` (`{TABLES}`)", "is not defined in"),
    ("a name in the next line", GLOSSARY, f"`{TABLES}`:\n`point_count`", "is not defined in"),
    ("a name that a crate uses", GLOSSARY, "`flow_team`: `point_count`", "is not defined in"),
    ("a name in a crate", GLOSSARY, "`point_count` in `flow_team`", "is not defined in"),
    ("a member of another type", GLOSSARY, "`Graph`: `solve_from`", "is not defined in"),
    ("a lemma that a file uses", GLOSSARY, f"`{PUTTING}`: `omega`", "is not defined in"),
    ("a member that a file calls", GLOSSARY, "`team.rt`: `Job::open`", "is not defined in"),
    ("an edit that is gone", READING, "`bit_rows`: `row_that_never_was`", "no source has"),
    (
        "an edit that is none",
        READING,
        "| A body | Refused by |\n|---|---|\n| any | `analyse` |",
        "is no edit",
    ),
    (
        "a test that is none",
        GLOSSARY,
        "| Rule | Tests |\n|---|---|\n| any | `trailing_zeros` |",
        "no source defines it",
    ),
    (
        "a type of another file",
        READING,
        "| File | Types |\n|---|---|\n| `crates/flow_graph/src/edge.rt` | `Edge`, `Expr` |",
        "`Expr` is not defined in",
    ),
    (
        "a file without its type",
        READING,
        "| File | Types |\n|---|---|\n"
        "| `crates/flow_graph/src/edge.rt`, `crates/flow_graph/src/graph.rt` | `Edge` |",
        "has none of these types",
    ),
    (
        "a type that nothing uses",
        READING,
        "| File | Types |\n|---|---|\n| `crates/flow_graph/src/graph.rt` | `Graph` |",
        "is used by no definition",
    ),
    ("a file that is gone", GLOSSARY, "`docs/GONE.md`", "no such file"),
    ("a file of another crate", "crates/bit_rows/README.md", "`succ.rt`", "no such file"),
    ("a run that is not kept", GLOSSARY, "`bench/runs/1970-01-01-vm.csv`", "no such file"),
    ("a time from nowhere", GLOSSARY, "It takes 17 ms, as `analyse` does.", "17 ms: no command"),
    ("a size from nowhere", GLOSSARY, "It takes 17 MB, as `analyse` does.", "17 MB: no command"),
    ("a link that leads nowhere", "README.md", "[gone](docs/GONE.md)", "leads nowhere"),
    ("a wrong count of edits", "crates/bit_rows/README.md", "It has 9,999 edits.", "9,999 edits"),
    ("a wrong count of crates", "README.md", "There are 9,999 crates.", "9,999 crates"),
    ("a wrong sum of definitions", "README.md", "On 3 lines of definitions.", "3 lines of"),
    ("a line that is too long", GLOSSARY, "long " * 40, "a line has at most"),
    ("a page that is too long", "docs/ARCHITECTURE.md", "\n" * 200, "it may have"),
]


def plants() -> list[Plant]:
    """The other faults: what each is called, how it is planted, and what has to be told."""
    return [
        (
            "a definition that grew",
            lambda root: appended(root, "crates/flow_graph/specs/Paths.antt", "\n-- more\n"),
            "Paths.antt has",
        ),
        ("a list that is not closed", without_first_row, "which is not listed"),
        (
            "a type that is not listed",
            lambda root: replaced(root, READING, "`StmtKind`", "-"),
            "not among the types",
        ),
        (
            "a page of the manual that was changed",
            lambda root: replaced(root, MANUAL, "\\fIKIND", "\\fIWORD"),
            "its options are not those",
        ),
        (
            "an option that the manual has not",
            lambda root: appended(root, "packaging/options", "tacflow|--more|||Says more\n"),
            "its options are not those",
        ),
        (
            "a crate without a page",
            lambda root: os.remove(os.path.join(root, "crates/bit_rows/README.md")),
            "has no README.md",
        ),
    ]


def copied(root: str, target: str) -> None:
    """Puts what the check reads into a folder."""
    for path in Repository(root).files:
        if not os.path.islink(os.path.join(root, path)):
            os.makedirs(os.path.join(target, os.path.dirname(path)), exist_ok=True)
            shutil.copyfile(os.path.join(root, path), os.path.join(target, path))


def restored(root: str, target: str) -> None:
    """Takes a planted fault back: faults stand in documents, definitions and the manual."""
    for path in Repository(root).files:
        if path.endswith((".md", "Paths.antt", "packaging/options", MANUAL)):
            shutil.copyfile(os.path.join(root, path), os.path.join(target, path))


def new_faults(root: str, before: list[Fault]) -> list[Fault]:
    return [fault for fault in faults_of(root) if fault not in before]


def texts_missed(root: str, before: list[Fault]) -> list[str]:
    """Plants all texts, and answers those of which nothing is told."""
    planted = []
    for name, page, text, wanted in TEXTS:
        with open(os.path.join(root, page), encoding="utf-8") as file:
            first = len(file.read().splitlines()) + 2
        appended(root, page, f"\n{text}\n")
        planted.append((name, page, range(first, first + text.count("\n") + 1), wanted))
    told = new_faults(root, before)
    return [
        name
        for name, page, lines, wanted in planted
        if not any(path == page and at in lines and wanted in what for path, at, what in told)
    ]


def self_test(root: str) -> int:
    before = faults_of(root)
    with tempfile.TemporaryDirectory() as target:
        copied(root, target)
        missed = texts_missed(target, before)
        restored(root, target)
        for name, plant, wanted in plants():
            plant(target)
            if not any(wanted in what for _, _, what in new_faults(target, before)):
                missed.append(name)
            restored(root, target)
    for name in missed:
        print(f"not told: {name}")
    count = len(TEXTS) + len(plants())
    print(f"{count - len(missed)} of {count} planted faults told")
    return 1 if missed else 0


def main() -> int:
    root = os.path.dirname(os.path.dirname(os.path.realpath(__file__)))
    if sys.argv[1:] == ["--self-test"]:
        return self_test(root)
    if sys.argv[1:]:
        print("usage: checks/docs [--self-test]", file=sys.stderr)
        return 2
    faults = faults_of(root)
    for path, number, what in faults:
        print(f"{path}:{number}: {what}")
    return 1 if faults else 0


if __name__ == "__main__":
    sys.exit(main())
