"""Refuses memory to the programs and to the tests of refused memory, as they were built: the first
request of a run, the second, and so on until a run meets no refusal; and in the same way each
request with all behind it (refuse.c, which is preloaded, does that).

A program has to answer as with ample memory, or to say in one line that it is out of memory, with
status 1, taclint with 3, and nothing written. A test has to pass, or to fail by want of memory, or
to fail by the name of the call that was refused, once all that it asserts of that call holds. Each
call of CALLS has to be named so in some run.

    checks/refused           a line for each fault, and then `N passed, M failed`
    checks/refused --table   the same, and a table of the requests that were met

TACFLOW=/path/to/program, TACVIEW and TACLINT take other programs than those in crates/NAME/out.
"""

from __future__ import annotations

import collections
import concurrent.futures
import itertools
import os
import re
import struct
import subprocess
import sys
import tempfile
from collections.abc import Iterator
from typing import NamedTuple

HERE = os.path.dirname(os.path.realpath(__file__))
CRATES = os.path.join(os.path.dirname(HERE), "crates")
# a run that takes longer than so many seconds is a fault
SECONDS = 60
LAST = 2**64 - 1

# A recursive procedure, an expression on both sides of a call, one on both sides of a test, and a
# text that is refused.
TEXTS = [
    b"proc main\nx = 1\ncall f\nprint x\nend\nproc f\nif x goto L\ncall f\nx = 2\nL:\nend\n",
    b"proc main\na = b + c\ncall p\nd = b + c\nend\nproc p\nif c goto L\nb = 1\nL:\nend\n",
    b"proc main\nread b\nread c\nif c goto L\nx = b + c\nprint x\nreturn\n"
    b"L: y = b + c\nprint y\nend\n",
    b"proc main\nx =\nend\n",
]
WORDS = {
    "tacflow": [f"--show {kind}" for kind in ("report", "list", "reach", "live", "avail", "busy")],
    "tacview": [
        "--format dot --facts all",
        "--because 4:c",
        "--format json",
        "--format json --paths",
        "--format json --steps --procedure main --facts all",
        "--format html --source --paths --title main",
        "--format report",
        "--calls",
        "--blocks --procedure main",
    ],
    "taclint": ["-", "--kinds all -", "--why --workers 3 -", "--limits large /dev/stdin"],
}
# by how many workers, and in slices of one bit; taclint has no word for slices
WORKERS = (1, 3)
BY_WORKERS = ("tacflow", "tacview")
# How a program ends that is out of memory, and what it may name then: itself, or what is read.
REFUSED_STATUS = {"tacflow": 1, "tacview": 1, "taclint": 3}
REFUSED_NAMES = {
    "tacflow": ["tacflow"],
    "tacview": ["tacview"],
    "taclint": ["taclint", "<stdin>", "/dev/stdin"],
}

# The calls that each crate's tests of refused memory make, as patterns: some run has to name each
# of them.
CALLS = {
    "bit_rows_tests": {
        "Row::empty",
        "Row::full",
        "Row::cut",
        "Row::copy",
        "Rows::blank, or its flags",
        "Cut::even",
        "Cut::at",
    },
    "flow_commands_tests": {"run of tacflow", "fault_line", "Options::from_words"},
    "flow_graph_tests": {
        "Graph::build",
        "Graph::succ",
        "Graph::leads_to",
        "Problem::of",
        "Problem::of_chosen",
        "Problem::copied",
        "Problem::edges",
    },
    "flow_parts_tests": {"digest", "PartText::of", "part_here", "merge"},
    "flow_team_answers_tests": {"answer", "answer_here", "answers_of_tables"},
    "flow_team_tests": {"Job::open", "analyse", "table_at"},
    "flow_texts_tests": {
        "table_of",
        "TableText::of",
        "table_text",
        "Tables::of",
        "ReportAnswers::of",
        "ReportAnswers::answered_here",
        "report_answers_of_tables",
        "ReportText::of",
        "report",
        "report_here",
    },
    "gk_solve_tests": {
        "Links::of",
        "Routes::of",
        "Solver::of",
        "Solver::flags",
        "Solver::slice",
        "solve",
        "solve_slice",
        "solve_counted",
        "Order::of, or its list",
        "Worklist::none",
        "group",
    },
    "slice_board_tests": {"Board::open, its rows or its cut"},
    "tac_faults_tests": {"refusals", "hint"},
    "tac_reader_tests": {"read", "listing", "write_unary_expression", "write_binary_expression"},
    "text_pieces_tests": {"deliver", "pull_all", "pull_all, a longer block"},
    "view_commands_tests": {"run of tacview"},
}
# The same of single tests of a job of three slices, or of four: by one worker each slice is left in
# some run, by two some slice is.
CALLS_OF_TESTS = {
    "a_refused_call_goes_on": {f"Job::work of slice {slice}" for slice in range(3)},
    "one_worker_is_refused": {f"analyse, which leaves slice {slice}" for slice in range(3)},
    "two_workers_are_refused": {"analyse, which leaves (slice [012]|a slice before the last)"},
    "one_leaves_a_slice": {f"answer, which leaves slice {slice}" for slice in range(4)},
    "two_leave_a_slice": {"answer, which leaves (slice [0-3]|a slice before the last)"},
}
# How a test ends that answers a fault; a wrong assertion ends by a signal.
FAILED = 101
REFUSED = re.compile(rb"refused: (.*)\nthe test failed: its result gives status 1\n")
WANT_OF_MEMORY = re.compile(
    rb"error: (OutOfMemory|AllocError|AllocFailed { .. })\n"
    rb"the test failed: its result gives status 1\n"
)


class Outcome(NamedTuple):
    """How a run ended, and what it wrote to standard output and standard error."""

    status: int | str
    wrote: bytes
    said: bytes


class Case(NamedTuple):
    """What is tried: its name and the words it is told under, the command, what that reads, whether
    it is a test, and whether all requests behind the first that is refused are refused too."""

    name: str
    words: str
    command: list[str]
    given: bytes
    is_test: bool
    is_all: bool


class Found(NamedTuple):
    """What came of a case: its requests, those refused, the calls that runs named, and faults."""

    case: Case
    requests: int
    refused: int
    calls: collections.Counter[str]
    faults: list[str]


def run(library: str, notes: str, case: Case, first: int, last: int) -> tuple[Outcome, int, int]:
    """What comes of a run with these requests refused, how many requests it made, and how many of
    them were refused."""
    with open(notes, "wb") as file:
        file.write(struct.pack("4Q", first, last, 0, 0))
    environment = {"LD_PRELOAD": library, "REFUSE_NOTES": notes}
    try:
        done = subprocess.run(
            case.command,
            input=case.given,
            capture_output=True,
            env=environment,
            timeout=SECONDS,
            check=False,
        )
        outcome = Outcome(done.returncode, done.stdout, done.stderr)
    except subprocess.TimeoutExpired:
        outcome = Outcome(f"none after {SECONDS} seconds", b"", b"")
    with open(notes, "rb") as file:
        _, _, requests, refused = struct.unpack("4Q", file.read())
    return outcome, requests, refused


def call_named(case: Case, outcome: Outcome, ample: Outcome) -> str | None:
    """The call that a run names as refused, an empty name where there is none, and None where the
    run may not end so."""
    if outcome == ample:
        return ""
    if not case.is_test:
        lines = [f"{name}: out of memory\n".encode() for name in REFUSED_NAMES[case.name]]
        is_told = outcome[:2] == (REFUSED_STATUS[case.name], b"") and outcome.said in lines
        return "" if is_told else None
    if outcome.status != FAILED:
        return None
    named = REFUSED.fullmatch(outcome.said)
    if named:
        return named.group(1).decode()
    return "" if WANT_OF_MEMORY.fullmatch(outcome.said) else None


def tried(library: str, case: Case) -> Found:
    """A case with each of its requests refused."""
    calls: collections.Counter[str] = collections.Counter()
    faults: list[str] = []
    with tempfile.NamedTemporaryFile(prefix="refused-") as notes:
        ample, requests, _ = run(library, notes.name, case, 0, 0)
        if case.is_test and ample.status != 0:
            faults.append(f"with ample memory it ended with {ample}")
        if not requests:
            faults.append(
                "none of its requests could be refused: is it linked to the C library's malloc?"
            )
        for first in itertools.count(1):
            outcome, _, refused = run(
                library, notes.name, case, first, LAST if case.is_all else first
            )
            call = call_named(case, outcome, ample)
            if call is None:
                faults.append(
                    f"request {first}{' and all behind it' if case.is_all else ''}:"
                    f" it ended with {outcome}"
                )
            if not refused:
                break
            calls[call or ""] += 1
    return Found(case, requests, first - 1, calls, faults)


def built(name: str) -> str:
    """The program of this name, or the one of a crate's tests."""
    if name in CALLS:
        return os.path.join(CRATES, name, "out", f"{name}_tests")
    return os.environ.get(name.upper(), os.path.join(CRATES, name, "out", name))


def programs() -> Iterator[Case]:
    """The runs of the programs: each text and words, by each number of workers, in slices of one
    bit."""
    for name, words in WORDS.items():
        teams = [f" --workers {workers}" for workers in WORKERS] if name in BY_WORKERS else [""]
        for word, team, given in itertools.product(words, teams, TEXTS):
            cut = ["--cut", "1"] if team else []
            command = [built(name), *word.split(), *team.split(), *cut]
            yield from (
                Case(name, word + team, command, given, False, is_all) for is_all in (False, True)
            )


def tests() -> Iterator[Case]:
    """The tests of refused memory of each crate."""
    for name in CALLS:
        program = built(name)
        named = subprocess.run([program, "--list"], capture_output=True, check=True).stdout.decode()
        for test in re.findall(r"^(.*refusal_tests::.*): test$", named, re.MULTILINE):
            yield from (
                Case(name, test, [program, test], b"", True, is_all) for is_all in (False, True)
            )


def library_in(folder: str) -> str:
    library = os.path.join(folder, "refuse.so")
    command = [
        "cc",
        "-std=c11",
        "-O2",
        "-Wall",
        "-Wextra",
        "-Werror",
        "-shared",
        "-fPIC",
        "-o",
        library,
        os.path.join(HERE, "refuse.c"),
    ]
    subprocess.run(command, check=True)
    return library


def missing_calls(found: list[Found]) -> tuple[list[tuple[str, str]], int]:
    """The calls that no run named, each with the crate or the test whose it is; and how many calls
    are wanted."""
    named: dict[str, set[str]] = collections.defaultdict(set)
    for one in found:
        named[one.case.name] |= set(one.calls)
        named[one.case.words.split("::")[-1]] |= set(one.calls)
    wanted = [
        (name, call)
        for name, calls in [*CALLS.items(), *CALLS_OF_TESTS.items()]
        for call in sorted(calls)
    ]
    return [
        (name, call)
        for name, call in wanted
        if not any(re.fullmatch(call, one) for one in named[name])
    ], len(wanted)


def listed(found: list[Found]) -> Iterator[str]:
    """The lines of the table: a line for the words of a program, with the requests of each text,
    and one for a crate's tests."""
    requests_of: dict[tuple[str, str], list[int]] = collections.defaultdict(list)
    refused_of: dict[tuple[str, str], int] = collections.defaultdict(int)
    for one in found:
        row = (
            one.case.name,
            "its tests of refused memory, together" if one.case.is_test else f"`{one.case.words}`",
        )
        requests_of[row] += [] if one.case.is_all else [one.requests]
        refused_of[row] += one.refused
    yield "| Program | Words | Requests | Refused runs |"
    yield "|---|---|---|---|"
    for (name, words), requests in requests_of.items():
        each = f"{sum(requests):,}" if name in CALLS else ", ".join(map(str, requests))
        yield f"| `{name}` | {words} | {each} | {refused_of[name, words]:,} |"


def main() -> int:
    if sys.argv[1:] not in ([], ["--table"]):
        print("usage: checks/refused [--table]", file=sys.stderr)
        return 2
    absent = [name for name in [*WORDS, *CALLS] if not os.access(built(name), os.X_OK)]
    if absent:
        print(
            f"failed: not built: {', '.join(absent)};"
            " `rt ci` builds them, and `rt test` the tests of a crate"
        )
        return 1
    with tempfile.TemporaryDirectory(prefix="refused-") as folder:
        library = library_in(folder)
        with concurrent.futures.ProcessPoolExecutor() as pool:
            found = list(pool.map(tried, itertools.repeat(library), [*programs(), *tests()]))
    missing, wanted = missing_calls(found)
    for one in found:
        for fault in one.faults[:3]:
            print(f"failed: {one.case.name} {one.case.words}: {fault}")
    for name, call in missing:
        print(f"failed: {name}: no run named {call}")
    if sys.argv[1:]:
        print(*listed(found), sep="\n")
    failed = sum(1 for one in found if one.faults) + len(missing)
    print(f"{len(found) + wanted - failed} passed, {failed} failed")
    return 1 if failed else 0


if __name__ == "__main__":
    sys.exit(main())
