"""One program from its C files to its remarks: gcc, the translation, tacview or taclint, and parts
where it is beyond their limits.
"""

from __future__ import annotations

import contextlib
import gc
import os
import signal
from collections import Counter
from collections.abc import Callable, Iterator
from dataclasses import dataclass, field, replace
from typing import TYPE_CHECKING, Any

from gimple import emit, program
from gimple.dump import Place
from gimple.faults import Refusal
from gimple.world import World

from . import lints, reports
from .compiling import SYSTEM_HEADERS, BadWords
from .findings import Claim, Findings
from .remark import KINDS
from .sources import Lines, Sources

if TYPE_CHECKING:
    from multiprocessing.pool import Pool

    from gimple.code import Variable
    from gimple.dump import Function
    from gimple.emit import TooLarge, Written
    from gimple.inputs import Code
    from gimple.world import File

    from .findings import Facts, Line
    from .remark import Note, Remark

# More statements of gcc's than the first are no program within tacview's limits. What weighs no
# more than the second mostly is one, where a function weighs as much as its statements and some
# more. What weighs more than the third is not even tried.
MANY_STATEMENTS = 12_800_000
PART = 6_400_000
FUNCTION = 20
HOPELESS = 25_600_000


@dataclass(frozen=True)
class Task:
    """How a program is to be analysed.

    own: the files of which this program is the judge, should others take them in; None where there
    are no other programs. kinds: what is told. by_executions: by taclint in place of tacview.
    report: where it is not made by tacview here, what makes the report on a text and tells what
    else was said.
    """

    own: frozenset[str] | None = None
    is_whole: bool = False
    shows_all: bool = False
    keep: str | None = None
    processes: int = 1
    kinds: frozenset[str] = frozenset(KINDS)
    by_executions: bool = False
    report: Callable[[list[str]], tuple[str, list[str]]] | None = None


@dataclass
class Outcome:
    """What came of a program.

    remarks: by key. lines: those that they stand on. seen: what could have one at places that other
    programs may have too, as in headers. own: the files of which this program is the judge. copies:
    how many of its files took in each file. notes, faults: what is to be said, and what was
    refused.
    """

    remarks: dict[Claim, Remark] = field(default_factory=dict)
    lines: Lines = field(default_factory=Lines)
    seen: set[Claim] = field(default_factory=set)
    own: set[str] = field(default_factory=set)
    copies: Counter[str] = field(default_factory=Counter)
    notes: list[str] = field(default_factory=list)
    faults: list[str] = field(default_factory=list)

    def join(self, parts: list[Outcome]) -> None:
        """Takes in what came of the parts of a program."""
        self.remarks.update(agreed(parts))
        for part in parts:
            self.lines.known.update(part.lines.known)
            self.seen |= part.seen
            self.notes += part.notes
            self.faults += part.faults


def agreed(outcomes: list[Outcome]) -> dict[Claim, Remark]:
    """The remarks of several programs by key: each once, and only what holds in all copies of its
    place.
    """
    remarks: dict[Claim, Remark] = {}
    by_claim: dict[Claim, list[Claim]] = {}
    by_file: dict[str, list[Claim]] = {}
    for outcome in outcomes:
        for key, remark in outcome.remarks.items():
            if key not in remarks:
                remarks[key] = remark
                by_claim.setdefault(claim_of(key), []).append(key)
                by_file.setdefault(remark.file, []).append(key)
    denied: set[Claim] = set()
    for outcome in outcomes:
        there = [by_claim[claim] for claim in by_claim.keys() & outcome.seen] + [
            by_file[file] for file in by_file.keys() & outcome.own
        ]
        denied.update(key for keys in there for key in keys if key not in outcome.remarks)
    # that something may be unset is true where one copy has it
    return {
        key: remark for key, remark in remarks.items() if key not in denied or key[1] == "unset"
    }


def claim_of(key: Claim) -> Claim:
    """What a program has seen where it could have a remark of this key: of tests not for each
    expression.
    """
    place, kind, name = key
    return (place, kind, "" if kind == "busy" else name)


# What the processes of one analysis share: the analysis, its parts, their weights.
shared: list[Any] = []


def processes(count: int, begin: Callable[..., None], *parts: object) -> Pool:
    """A pool of so many processes, each of which has this one's memory as it is now and begins with
    a call of this function.
    """
    from multiprocessing import get_context  # it takes a while, and one program needs none

    # a collection would write to all that is shared, so that each process had it by itself
    gc.freeze()
    return get_context("fork").Pool(count, begin, parts)


def take_up(*parts: object) -> None:
    """Begins a process that does parts; an interrupt is the first process's matter."""
    signal.signal(signal.SIGINT, signal.SIG_IGN)
    shared[:] = parts


def do_part(number: int) -> list[Outcome]:
    """Does a part in a process of its own."""
    analysis, parts, weights = shared
    analysis.parts = []
    analysis.workers = 1
    try:
        analysis.try_part(parts[number], weights)
    except Refusal as refusal:
        analysis.parts.append(Outcome(faults=[str(refusal)]))
    return analysis.parts


def analyse(task: Task, codes: list[Code], sources: Sources) -> Outcome:
    """Analyses a program by the code of its files, which is taken out of the list. What fails of it
    is told in the outcome.
    """
    outcome = Outcome()
    with told_in(outcome.faults, codes[0].name):
        codes.reverse()
        files = [codes.pop().file() for _ in range(len(codes))]
        Analysis(task, files, sources, outcome).run()
    return outcome


@contextlib.contextmanager
def told_in(faults: list[str], name: str) -> Iterator[None]:
    """Has what fails of a file, or of the program that begins with it, told among faults."""
    try:
        yield
    except Refusal as refusal:
        faults.append(str(refusal))
    except OSError as fault:
        faults.append(f"{fault.filename or name}: {fault.strerror}")
    except BadWords:
        raise
    except Exception as fault:
        # one file on which this front end itself fails does not lose the others
        faults.append(f"{name}: a fault of check-c itself: {type(fault).__name__}: {fault}")


class Analysis:
    """The analysis of one program."""

    def __init__(
        self, task: Task, files: list[File], sources: Sources, outcome: Outcome
    ) -> None:
        self.task = task
        self.files = files
        self.sources = sources
        self.outcome = outcome
        self.parts: list[Outcome] = []
        self.shared: frozenset[Place] = frozenset()
        self.workers = min(task.processes, 64)

    def run(self) -> None:
        """Analyses the program, and joins what came of its parts."""
        self.analyse()
        self.outcome.join(self.parts)
        self.outcome.own |= self.task.own or set()
        for file in self.files:
            self.outcome.copies.update(file.symbols.sources)

    def analyse(self) -> None:
        """Analyses the program, in parts where it is too large."""
        if self.task.is_whole and not any(function.name == "main" for function in self.functions()):
            raise BadWords("--whole needs the file that has main")
        sizes = {function: function.size() for function in self.functions()}
        total = sum(sizes.values())
        if total <= MANY_STATEMENTS and (
            self.task.is_whole or len(sizes) <= emit.LIMITS["procedures"]
        ):
            try:
                self.analyse_part(frozenset())
                return
            except emit.TooLarge as fault:
                if len(sizes) == 1:
                    self.leave_out(self.functions()[0], fault)
                    return
                self.outcome.notes.append(
                    f"{self.files[0].name}: {fault}; analysed in parts, between which less is known"
                )
        else:
            self.outcome.notes.append(
                f"{self.files[0].name}: {len(sizes)} functions with {total} statements "
                "are more than tacflow takes; "
                "analysed in parts, between which less is known"
            )
        weights = {function: size + FUNCTION for function, size in sizes.items()}
        self.analyse_in_parts(weights, max(2, -(-sum(weights.values()) // PART)))

    def analyse_in_parts(self, weights: dict[Function, int], count: int) -> None:
        """Analyses functions by functions, the others taken as code that is not known."""
        parts = cut(self.functions(), weights, count)
        self.shared = self.shared_places()
        if self.task.processes == 1:
            for part in parts:
                self.try_part(part, weights)
            return
        for file in self.files:
            file.functions_naming()  # which all parts need
        with processes(self.task.processes, take_up, self, parts, weights) as pool:
            for done in pool.imap(do_part, range(len(parts)), chunksize=1):
                self.parts += done

    def shared_places(self) -> frozenset[Place]:
        """The places that several functions have, as those of headers and macros, which may come
        into several parts.
        """
        counts: Counter[Place] = Counter()
        for file in self.files:
            defined = [file.symbols.definitions.get(function.name) for function in file.functions]
            counts.update(Place(*definition, 0) for definition in defined if definition)
            told = Counter(text for function in file.functions for text in function.places())
            for text, count in told.items():
                counts[file.functions[0].known.new(*text.rsplit(":", 2))] += count
        return frozenset(place for place, count in counts.items() if count > 1)

    def functions(self) -> list[Function]:
        """All functions of all files."""
        return [function for file in self.files for function in file.functions]

    def try_part(self, part: list[Function], weights: dict[Function, int]) -> None:
        """Analyses some functions, or half of them and then the others where they are too many."""
        weight = sum(weights[function] for function in part)
        try:
            if weight > HOPELESS:
                raise emit.TooLarge(f"{weight} statements are more than tacflow takes")
            self.analyse_part(frozenset(self.functions()) - frozenset(part))
            gc.collect()  # the next part makes its own
        except emit.TooLarge as fault:
            if len(part) == 1:
                self.leave_out(part[0], fault)
                return
            for half in cut(part, weights, 2):
                self.try_part(half, weights)

    def leave_out(self, function: Function, fault: TooLarge) -> None:
        """Tells that a function by itself is too large."""
        self.parts.append(
            Outcome(notes=[f"{function.file}: '{function.name}' is left out: {fault}"])
        )

    def analyse_part(self, outside: frozenset[Function]) -> None:
        """Analyses all functions but those outside."""
        world = World(self.files, self.task.is_whole, outside)
        built = program.build(world, self.task.shows_all)
        written = emit.Writer().write(built.procedures)
        facts, said = self.facts(written)
        found = Findings.of(
            built,
            written,
            facts,
            self.sources,
            self.files,
            self.task.shows_all,
        )
        if "maybe-unset" in self.task.kinds:
            self.show_ways(found)
        said += [
            f"{procedure.refusal}; '{procedure.source}' is taken as unknown code"
            for procedure in built.refused
        ]
        if self.task.is_whole and not outside:
            said += self.missing(world.without_body())
        part = Outcome(found.remarks, seen=self.seen_in(found), notes=said)
        part.lines.take(self.sources, part.remarks.values())
        self.parts.append(part)

    def facts(self, written: Written) -> tuple[Facts, list[str]]:
        """What is told of a program, whose text is in use no more, and what was said on standard
        error.
        """
        task = self.task
        if task.by_executions:
            told, said = lints.run_taclint(written.pieces, self.workers, task.kinds)
        elif task.report is not None:
            told, said = task.report(written.pieces)
        else:
            told, said = reports.run_tacview(written.pieces, self.workers)
        if task.keep:
            keep(task.keep, written, "lints" if task.by_executions else "report", told)
        written.pieces.clear()
        unset = frozenset(line for line, step, _ in written.notes() if step.unset)
        if task.by_executions:
            return lints.read_facts(told, written, unset), said
        return reports.read_facts(told, task.kinds, unset), said

    def missing(self, called: set[str]) -> list[str]:
        """What is to be said of functions without a body which these files declare themselves, and
        not the headers of a library: a file may be missing of what is taken to be whole.
        """
        files = dict.fromkeys(name for file in self.files for name in file.symbols.sources)
        names: set[str] = set()
        for file in files:
            names |= called & self.sources.get(file).declared()
        if not names:
            return []
        first, *others = sorted(names)
        more = f" and {len(others)} more" if others else ""
        return [
            f"no file has a body of '{first}'{more}, which these files declare: where a file is "
            "missing, what --whole tells is wrong"
        ]

    def show_ways(self, found: Findings) -> None:
        """Has remarks on what may be unset show the way on which it is."""
        unsure = {
            key: use
            for key, use in found.unsure.items()
            if not key[0].file.startswith(SYSTEM_HEADERS)
        }
        if not unsure:
            return
        for key, notes in self.ways_of(unsure, found.never).items():
            remark = found.remarks[key]
            found.remarks[key] = replace(remark, notes=(*notes, *remark.notes))

    def ways_of(
        self, unsure: dict[Claim, tuple[Line, Variable]], never: set[int]
    ) -> dict[Claim, tuple[Note, ...]]:
        """Notes of the ways to these uses; the remarks are told without where no way is found."""
        if self.task.by_executions:
            from .turns import notes_of_turns  # few runs need them

            return notes_of_turns(unsure, never, self.sources, self.workers)
        from .ways import Ways, paths_in

        ways = Ways(unsure.values(), never, self.sources)
        try:
            pieces = emit.Writer().write(ways.program()).pieces
        except emit.TooLarge:
            return {}
        words = ("--format", "json", "--facts", "none", "--paths")
        paths = paths_in(reports.run_tacview(pieces, self.workers, *words)[0])
        return {key: ways.notes(*use, paths) for key, use in unsure.items()}

    def seen_in(self, found: Findings) -> set[Claim]:
        """What could be told at places that other programs, or other parts of this one, may have
        too.
        """
        own, shared = self.task.own, self.shared
        if not shared and (own is None or self.files_placed() <= own):
            return set()
        return found.seen_at(
            lambda place: own is not None and place.file not in own or place in shared
        )

    def files_placed(self) -> set[str]:
        """The files in which something of the program stands."""
        found: set[str] = set()
        for file in self.files:
            for function in file.functions:
                found.update(file.symbols.definitions.get(function.name, ())[:1])
            for function in file.functions[:1]:
                found |= function.known.files  # those of the whole dump
        return found


def cut(functions: list[Any], weights: dict[Any, int], count: int) -> list[list[Any]]:
    """Functions in so many stretches of about the same weight: at least two, where there are two
    functions.
    """
    total = sum(weights.get(function, 1) for function in functions)
    parts: list[list[Any]] = [[]]
    at = 0
    for function in functions:
        weight = weights.get(function, 1)
        if (2 * at + weight) * count >= 2 * total * len(parts) and parts[-1]:
            parts.append([])
        parts[-1].append(function)
        at += weight
    return parts


def keep(folder: str, written: Written, name: str, told: str) -> None:
    """Leaves what was made in a folder, and what was told of it under a name."""
    os.makedirs(folder, exist_ok=True)
    made = {"tac": written.pieces, "map": emit.map_lines(written), name: [told]}
    for ending, lines in made.items():
        with open(
            os.path.join(folder, "program." + ending),
            "w",
            encoding="utf-8",
            errors="surrogateescape",
        ) as file:
            file.writelines(lines)
