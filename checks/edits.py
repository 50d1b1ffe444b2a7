"""Tells the public functions of libraries that nothing in a product calls and that no edit breaks:
that such a function's contract refuses a wrong body, only an edit of its own shows.

    checks/edits              one line for each, as FILE:LINE: NAME; status 1 where there is one
    checks/edits --self-test  plants a fault of each kind, and sees that each is told

A call is known by its name, in the crate or in one above it: `Type::name`, `.name(` or `name`.
Where several types have a method of that name, it is one only in a file that names the type.
"""
import argparse
import re
from collections import Counter
from collections.abc import Iterator
from pathlib import Path
from typing import NamedTuple

ROOT = Path(__file__).resolve().parent.parent
SUPPORT = {"test_support", "team_probes", "checked_examples"}
EXCEPTIONS: dict[str, str] = {  # what needs neither a caller nor an edit, each with the reason
    "bit_rows: Row::and": "its proof names each step; row_and_is_minus turns what it calls",
    "bit_rows: Row::minus": "its proof names each step; row_minus_is_and turns what it calls",
    "bit_rows: Row::hi": "a field, which its clause names",
    "bit_rows: Row::lo": "a field, which its clause names",
    "bit_rows: Rows::lo": "a field, which its clause names",
    "flow_kept: Kept::limits": "a field, which its clause names",
    "flow_kept: Kept::program": "tacflow_c calls it, of what a handle keeps",
    "flow_lints: linted_here": "hands on linted, over whose clauses lint_texts is proved",
    "flow_queries: answer_here": "hands on GraphSolvers, over whose clauses report_answers is proved",
    "flow_rows: Board::claim": "hands on WordBoard::claim; claim_takes_taken turns it",
    "flow_rows: Board::cut": "hands on WordBoard::cut, a field, which its clause names",
    "flow_rows: Board::finish": "hands on WordBoard::finish; finish_other_slice turns it",
    "flow_rows: Board::join": "hands on WordBoard::join; join_drops_what_the_second_holds turns it",
    "flow_rows: Board::look": "hands on WordBoard::look; look_hides turns it",
    "flow_rows: Board::post": "hands on WordBoard::post; post_nothing turns it",
    "flow_rows: Board::split": "hands on WordBoard::split; split_holds_the_same_slice turns it",
    "flow_texts: table_text": "hands on TableText, over whose clauses flow_commands is proved",
    "gk_solve: SliceWords::visits": "a counter, of which no contract speaks",
    "lint_json: lint_json_here": "hands on lint_json, over whose clauses lint_commands is proved",
    "lint_texts: lint_text_here": "hands on LintText, over whose clauses lint_commands is proved",
    "tac_lines: Line::labels": "tac_reader calls it, of what Lines::line gives",
}
NOTHING_RUNS = re.compile(r"[/_](laws|examples)\.rt$")
NOT_CALLS = re.compile(r"//.*|\buse [^;]*;")  # comments, and what is brought in
FUNCTION = re.compile(r"^(\s*)pub (?:const )?fn (\w+)")
OWNER = re.compile(r"^impl\b(?:<.*?>)?\s+(?:.*\sfor\s+)?&?(\w+)")


class Product(NamedTuple):
    """What each crate stands on, itself too; each one's sources; each edit's file and old line."""

    below: dict[str, set[str]]
    sources: dict[str, dict[str, list[str]]]
    libraries: list[str]
    edits: list[tuple[str, str]]


class Function(NamedTuple):
    """A public function: its file, where its lines begin and end there, and how calls look."""

    path: str
    first: int
    last: int
    name: str
    call: re.Pattern[str]

    def type(self) -> str:
        """The type that has it, or nothing."""
        return self.name.rpartition("::")[0]

    def word(self) -> str:
        return self.name.rpartition("::")[2]


def text_of(path: str) -> str:
    return (ROOT / path).read_text(encoding="utf-8")


def paths_of(crate: str, part: str, ending: str) -> list[str]:
    paths = (ROOT / "crates" / crate / part).glob(f"**/*{ending}")
    return sorted(str(one.relative_to(ROOT)) for one in paths if not NOTHING_RUNS.search(str(one)))


def code_of(path: str) -> list[str]:
    return NOT_CALLS.sub(lambda gone: "\n" * gone[0].count("\n"), text_of(path)).split("\n")


def edits_of(crate: str) -> Iterator[tuple[str, str]]:
    for text in map(text_of, paths_of(crate, "must-fail", ".edit")):
        file, *olds = re.findall(r"^(?:file|old):(.*)$", text, re.MULTILINE)
        yield from ((f"crates/{crate}/{file.strip()}", old.strip()) for old in olds)


def product() -> Product:
    below, libraries = {}, []
    for head, names in re.findall(r"^(\w[^:]*):(.*)$", text_of("crates.txt"), re.MULTILINE):
        crate, *kinds = head.split()
        if not crate.endswith("_tests") and crate not in SUPPORT:
            below[crate] = {crate, *names.split()}
            # The library for C has its callers in bindings/.
            libraries += [] if "staticlib" in kinds else [crate]
    for _ in libraries:
        for crate, names in below.items():
            below[crate] = names.union(*(below.get(name, ()) for name in names))
    sources = {one: {path: code_of(path) for path in paths_of(one, "src", ".rt")} for one in below}
    return Product(below, sources, libraries, [edit for one in below for edit in edits_of(one)])


def functions(sources: dict[str, list[str]]) -> Iterator[Function]:
    for path, lines in sources.items():
        owner = None
        for first, line in enumerate(lines):
            if line.startswith("impl"):
                owner = OWNER.match(" ".join(lines[first : first + 4]).split("{")[0])
            if not (found := FUNCTION.match(line)):
                continue
            (margin, name), last = found.groups(), lines.index(found[1] + "}", first)
            call = rf"(?<![.\w])(?<!fn ){name}\b(?!:)"
            if margin and owner:
                call = rf"\b({owner[1]}|Self)(::<[^(]*>)?::{name}\b"
                if re.search(r"\bself\b", " ".join(lines[first:last]).split("{")[0]):
                    call += rf"|\.{name}(::<[^(]*>)?\("
                name = f"{owner[1]}::{name}"
            yield Function(path, first, last, name, re.compile(call))


def is_called(function: Function, code: str, shared: set[str]) -> bool:
    """Whether it may be called there; `shared` has the words that are methods of several types."""
    named = function.word() not in shared or re.search(rf"\b{function.type()}\b", code)
    return bool(named and function.call.search(code))


def is_bare(made: Product, crate: str, function: Function, shared: set[str]) -> bool:
    """Whether it has neither a caller nor an edit."""
    own = made.sources[crate][function.path]
    body = "\n".join(own[function.first : function.last])
    others = own[: function.first] + own[function.last :]
    for user in (user for user, below in made.below.items() if crate in below):
        for path, lines in made.sources[user].items():
            code = "\n".join(others if path == function.path else lines)
            if is_called(function, code, shared):
                return False
    return not any(path == function.path and old in body for path, old in made.edits)


def faults_of(made: Product, exceptions: dict[str, str]) -> list[str]:
    listed = [(name, one) for name in made.libraries for one in functions(made.sources[name])]
    words = Counter(one.word() for _, one in listed if one.type())
    shared = {word for word, types in words.items() if types > 1}
    bare = {
        f"{crate}: {one.name}": f"{one.path}:{one.first + 1}"
        for crate, one in listed
        if is_bare(made, crate, one, shared)
    }
    faults = [f"{bare[one]}: {one} has no caller and no edit" for one in bare.keys() - exceptions]
    old = [f"checks/edits.py: {one} is no exception any more" for one in exceptions.keys() - bare]
    return sorted(faults + old)


def self_test(made: Product) -> int:
    lone = {**made.sources, "bit_rows": {"lone.rt": ["pub fn lone() -> u32 {", "    7", "}"]}}
    method = ["impl Lone {", "    pub fn split(&self) -> u32 {", "        7", "    }", "}"]
    other = {**made.sources, "bit_rows": {"lone.rt": method}}
    told = {
        "Lone::split has no caller": faults_of(made._replace(sources=other), EXCEPTIONS),
        "lone has no caller": faults_of(made._replace(sources=lone), EXCEPTIONS),
        "Rows::or_row has no caller": faults_of(made._replace(edits=[]), EXCEPTIONS),
        "gone is no exception": faults_of(made, {**EXCEPTIONS, "bit_rows: gone": "planted"}),
    }
    missed = [want for want, faults in told.items() if not any(want in one for one in faults)]
    print(*(f"not told: {want}" for want in missed), f"{len(told) - len(missed)} told", sep="\n")
    return 1 if missed else 0


def main() -> int:
    parser = argparse.ArgumentParser("checks/edits", usage="checks/edits [--self-test]")
    parser.add_argument("--self-test", action="store_true")
    if parser.parse_args().self_test:
        return self_test(product())
    for fault in (faults := faults_of(product(), EXCEPTIONS)):
        print(fault)
    return 1 if faults else 0


if __name__ == "__main__":
    raise SystemExit(main())
