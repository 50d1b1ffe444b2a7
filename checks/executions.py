"""Holds what taclint tells of random programs, of all kinds, against a plain program (meaning.py):
that it tells what is worked out there from the definitions, and that no execution that is drawn
does what a remark rules out, as to read a value whose assignment is called dead.

    checks/executions [COUNT [SEED]]    so many programs, 300, from this seed on, 1; a line for each
                                        fault, and then `N passed, M failed`

A fault names its seed, and `checks/executions 1 SEED` shows the program too.
TACLINT=/path/to/program takes another program.
"""

from __future__ import annotations

import concurrent.futures
import os
import random
import re
import subprocess
import sys
import tempfile
from collections import Counter
from collections.abc import Iterator
from typing import NamedTuple

from meaning import NAME, Lint, Meaning, Program, execution

ROOT = os.path.dirname(os.path.dirname(os.path.realpath(__file__)))
sys.path.insert(0, os.path.join(ROOT, "bench"))

from tacbench import small  # noqa: E402  (it is found on the path above)

TACLINT = os.environ.get("TACLINT", os.path.join(ROOT, "crates/taclint/out/taclint"))
COUNT = 300
# so many programs are told of by one run of taclint
AT_ONCE = 25
# how many executions of each program are drawn, and how many statements each passes at most
EXECUTIONS = 30
STEPS = 150
KINDS = "never-called never-reached unset computed busy dead".split()
LINE = re.compile(r"(\d+):(\d+): ([a-z-]+): (.*)")
LATER = re.compile(r"(\d+):(\d+): note: (\w+ may be used before it is set) here too")
NOTE = re.compile(
    r"note: (\d+) dead assignments? (?:is|are) not told, since the program may never end"
    r" \(from line (\d+) on\)"
)
REMARKS = re.compile(r"(?:(no) remarks|(1) remark|(\d+) remarks)")


class Told(NamedTuple):
    """What is told of a program: its lints, how many assignments are left out, and from which line
    on it may never end where there are some; 0 is no line."""

    lints: list[Lint]
    left_out: int
    endless: int


class Outcome(NamedTuple):
    seed: int
    counts: Counter[str]
    faults: list[str]


class Drawn(small.Small):
    """A random program that reads most of its variables first, and in which half of the values are
    some that it has already: else all is unset, and nothing computed twice."""

    def __init__(self, seed: int) -> None:
        draw = random.Random(seed)
        sizes = [draw.choice(most) for most in ([1, 2, 3, 5], [4, 8, 16, 24], [1, 2, 3, 5])]
        super().__init__(seed, *sizes)
        self.jumps = draw.choice([0.05, 0.15, 0.3])
        self.calls = draw.choice([0.05, 0.1, 0.2, 0.3])
        self.made: list[str] = []

    def value(self) -> str:
        is_again = self.made and self.draw.random() < 0.5
        value = self.draw.choice(self.made) if is_again else super().value()
        self.made.append(value)
        return value

    def lines(self) -> list[str]:
        lines = super().lines()
        first = lines.index("proc main") + 1
        read = [f"read {name}" for name in self.variables if self.draw.random() < 0.7]
        return [*lines[:first], *read, *lines[first:]]


def text_of(seed: int) -> str:
    program = Drawn(seed)
    return small.Layout(program.draw).text(program.lines()).decode()


def told_of(lines: list[str]) -> Told:
    """What lines tell, without the file's name; it is refused where a line is of no known form."""
    lints: list[Lint] = []
    left_out = endless = later = 0
    for text in lines[:-1]:
        if use := LATER.fullmatch(text):
            lints.append(Lint(int(use[1]), int(use[2]), "unset", use[3]))
            later += 1
            continue
        if note := NOTE.fullmatch(text):
            left_out, endless = int(note[1]), int(note[2])
            continue
        found = LINE.fullmatch(text)
        if not found:
            raise ValueError(f"no line of a known form: {text}")
        place = (0, 0) if found[3] == "never-called" else (int(found[1]), int(found[2]))
        lints.append(Lint(*place, found[3], found[4]))
    last = REMARKS.fullmatch(lines[-1] if lines else "")
    if not last or int((last[1] or last[2] or last[3]).replace("no", "0")) != len(lints) - later:
        raise ValueError(f"not the count of {len(lints) - later} remarks: {lines[-1:]}")
    return Told(lints, left_out, endless)


def grouped(lints: list[Lint]) -> Iterator[Lint]:
    """The lints with the later uses of a variable, which are its notes, behind the first."""
    told: set[str] = set()
    for lint in lints:
        if lint.kind != "unset":
            yield lint
        elif lint.words not in told:
            told.add(lint.words)
            yield from (one for one in lints if one.kind == "unset" and one.words == lint.words)


def wanted_of(meaning: Meaning) -> Told:
    left_out = meaning.left_out()
    lints = list(grouped(list(meaning.lints())))
    return Told(lints, left_out, meaning.first_endless() if left_out else 0)


def not_as_wanted(told: Told, wanted: Told) -> Iterator[str]:
    for lint in wanted.lints:
        if lint not in told.lints:
            yield f"it does not tell {lint}"
    for lint in told.lints:
        if lint not in wanted.lints:
            yield f"it tells {lint}"
    if sorted(told.lints) == sorted(wanted.lints) and told.lints != wanted.lints:
        yield "its remarks stand in another order"
    if told.left_out != wanted.left_out:
        yield f"it leaves out {told.left_out} dead assignments, and not {wanted.left_out}"
    # a procedure's end has no line of its own
    if wanted.endless and told.endless != wanted.endless:
        yield f"the program may never end from line {wanted.endless} on, and not {told.endless}"


class Witness:
    """Looks at an execution, statement by statement, for what a remark rules out."""

    def __init__(self, program: Program, told: Told) -> None:
        self.program = program
        self.remarks: dict[int, set[tuple[str, str]]] = {}
        self.unreached: set[int] = set()
        self.uncalled = {lint.words for lint in told.lints if lint.kind == "never-called"}
        for lint in told.lints:
            self.remarks.setdefault(lint.line, set()).add((lint.kind, lint.words))
            if lint.kind == "never-reached":
                last = re.search(r"to line (\d+)", lint.words)
                self.unreached |= set(range(lint.line, int(last[1]) + 1 if last else lint.line + 1))

    def faults(self, passed: list[int], is_ended: bool) -> Iterator[str]:
        statements = [self.program.statement(point) for point in passed]
        written: dict[str, int] = {}  # of each variable the line that wrote it last
        valid: set[str] = set()  # expressions that were evaluated and still have their values
        due: dict[str, int] = {}  # expressions that are to be evaluated, and which line said so
        for point, statement in zip(passed, statements):
            line, text = statement.line, statement.expression
            remarks = self.remarks.get(line, set())
            name = self.program.points[point].procedure
            if line in self.unreached or f"procedure {name} is never called" in self.uncalled:
                yield f"an execution comes to line {line}"
            for variable in (word for word in statement.operands if NAME.fullmatch(word)):
                is_told = ("unset", f"{variable} may be used before it is set") in remarks
                if variable not in written and not is_told:
                    yield f"an execution reads {variable} in line {line}, and nothing has set it"
                dead = ("dead", f"the value assigned to {variable} is never used")
                if dead in self.remarks.get(written.get(variable, 0), set()):
                    yield f"an execution reads in line {line} what line {written[variable]} assigns"
            if text is not None:
                due.pop(text, None)
                if ("computed", f"{text} is already computed") in remarks and text not in valid:
                    yield f"an execution comes to line {line} without {text}"
                valid.add(text)
            due |= {words[:-13]: line for kind, words in remarks if kind == "busy"}
            if statement.target is not None:
                written[statement.target] = line
                valid -= {held for held in valid if statement.target in NAME.findall(held)}
                for held in [held for held in due if statement.target in NAME.findall(held)]:
                    yield f"an execution does not evaluate {held} behind line {due.pop(held)}"
        for held in due if is_ended else ():
            yield f"an execution does not evaluate {held} behind line {due[held]}"


def faults_of(seed: int, text: str, lines: list[str]) -> Outcome:
    program = Program(text)
    try:
        told = told_of(lines)
    except ValueError as error:
        return Outcome(seed, Counter(), [str(error)])
    faults = list(not_as_wanted(told, wanted_of(Meaning(program))))
    witness, draw = Witness(program, told), random.Random(seed)
    for _ in range(EXECUTIONS):
        faults += witness.faults(*execution(program, draw, STEPS))
    counts = Counter(lint.kind for lint in told.lints)
    counts["left out"] += told.left_out
    return Outcome(seed, counts, faults)


def tried(seeds: range) -> list[Outcome]:
    """What comes of some programs, of which one run tells."""
    texts = {seed: text_of(seed) for seed in seeds}
    with tempfile.TemporaryDirectory(prefix="executions-") as folder:
        for seed, text in texts.items():
            with open(os.path.join(folder, str(seed)), "w", encoding="utf-8", newline="") as file:
                file.write(text)
        command = [TACLINT, "--kinds", "all", *map(str, seeds)]
        done = subprocess.run(command, cwd=folder, capture_output=True, text=True, check=False)
    lines: dict[int, list[str]] = {seed: [] for seed in seeds}
    for line in done.stdout.splitlines():
        name, _, words = line.partition(":")
        lines[int(name)].append(words.removeprefix(" "))
    found = [faults_of(seed, text, lines[seed]) for seed, text in texts.items()]
    if done.returncode or done.stderr:
        found[0].faults.append(f"status {done.returncode}, said {done.stderr!r}")
    return found


def main() -> int:
    words = [int(word) for word in sys.argv[1:] if word.isdigit()]
    if len(words) != len(sys.argv[1:]) or len(words) > 2 or 0 in words[:1]:
        print("usage: checks/executions [COUNT [SEED]]", file=sys.stderr)
        return 2
    if not os.access(TACLINT, os.X_OK):
        print(f"skipped: {TACLINT} is not built")
        return 0
    count, first = [*words, *[COUNT, 1][len(words) :]]
    end = first + count
    parts = [range(at, min(at + AT_ONCE, end)) for at in range(first, end, AT_ONCE)]
    with concurrent.futures.ProcessPoolExecutor() as pool:
        found = [outcome for part in pool.map(tried, parts) for outcome in part]
    for outcome in found:
        for fault in outcome.faults[:3]:
            print(f"failed: seed {outcome.seed}: {fault}")
        if count == 1:
            print(text_of(outcome.seed), end="")
    failed = sum(1 for outcome in found if outcome.faults)
    counts = sum((outcome.counts for outcome in found), Counter[str]())
    missing = [kind for kind in [*KINDS, "left out"] if not counts[kind]]
    if missing and count >= COUNT:
        print(f"failed: of no program is told: {', '.join(missing)}")
        failed += 1
    print(f"{max(len(found) - failed, 0)} passed, {failed} failed")
    return 1 if failed else 0


if __name__ == "__main__":
    sys.exit(main())
