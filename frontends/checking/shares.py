"""What each C source adds to a run: its share, made of that source alone."""

from __future__ import annotations

import gc
import os
import tempfile
from collections import Counter
from contextlib import closing
from dataclasses import dataclass, field
from typing import TYPE_CHECKING

from gimple import inputs

from .analysis import Outcome, Task, analyse, told_in
from .compiling import files_read, left_out, run_gcc
from .progress import Progress
from .remark import KINDS, ON_REQUEST
from .sources import Sources, text_of

if TYPE_CHECKING:
    from gimple.inputs import Code

    from .cache import Cache
    from .compiling import Input
    from .workers import Workers


@dataclass(frozen=True)
class Making:
    """How shares are made, which is the same for all shares of a run.

    is_linked: the sources are one program, of which a share has the code. kinds: what is told.
    by_executions: by taclint in place of tacview.
    """

    is_linked: bool
    shows_all: bool
    kinds: frozenset[str]
    keep: str | None = None
    by_executions: bool = False

    @property
    def finder(self) -> str:
        """The program that finds the facts."""
        return "taclint" if self.by_executions else "tacview"

    def held(self) -> list[str]:
        """The kinds that shares have: all but those that are looked for where they are told."""
        return [kind for kind in KINDS if kind in self.kinds or kind not in ON_REQUEST]


@dataclass
class Share:
    """The share of a source.

    outcomes: what came of each program that it is compiled to. codes: where it is linked, the code
    instead. texts: where they are not to be read from the files, those that its code names. read:
    the files that were read for it. notes, faults: what is to be said, and what failed. left_out:
    the words that gcc does not know.
    """

    source: str
    outcomes: list[Outcome] = field(default_factory=list)
    codes: list[Code] = field(default_factory=list)
    texts: dict[str, str | None] | None = None
    read: list[str] = field(default_factory=list)
    notes: list[str] = field(default_factory=list)
    faults: list[str] = field(default_factory=list)
    left_out: list[str] = field(default_factory=list)


def made(making: Making, given: list[Input], workers: int) -> Share:
    """The share of a source that is compiled once or, by a database, several times."""
    share = Share(given[0].name)
    sources = Sources()
    own = frozenset([share.source] if len(given) == 1 else [])
    task = Task(
        own,
        False,
        making.shows_all,
        making.keep,
        workers,
        making.kinds,
        making.by_executions,
    )
    with tempfile.TemporaryDirectory() as folder:
        for number, one in enumerate(given):
            with told_in(share.faults, share.source):
                codes = compiled(one, os.path.join(folder, str(number)), share)
                if making.is_linked:
                    share.codes += codes
                elif codes:
                    share.outcomes.append(analyse(task, codes, sources))
    share.faults += [fault for outcome in share.outcomes for fault in outcome.faults]
    share.read = list(dict.fromkeys([*share.read, *sources.known]))
    return share


def compiled(given: Input, folder: str, share: Share) -> list[Code]:
    """The code of a file, none where it has no function; its share gets what else gcc tells."""
    try:
        path = run_gcc(given, folder)
    finally:
        share.left_out += left_out(given)
    share.read += files_read(given, folder)
    return [inputs.read_code(path, given.name, given.shown)] if path else []


def complete(share: Share) -> None:
    """Has a share tell what others need who have not its files: the texts that its code names, and
    all files that were read.
    """
    from .makers import read_always  # most runs need none

    if share.codes and share.texts is None:
        names = dict.fromkeys(name for code in share.codes for name in named_in(code))
        share.texts = {name: text_of(name) for name in names}
        share.read += names
    share.read = list(dict.fromkeys([*share.read, *read_always()]))


def named_in(code: Code) -> list[str]:
    """The files that may be asked for where code is analysed, as messages call them."""
    defined = map(code.symbols.definitions.get, code.functions())
    places = [definition[0] for definition in defined if definition]
    return [*code.symbols.sources, *map(code.shown, code.names()), *places]


def all_made(
    making: Making, given: list[Input], workers: Workers, cache: Cache | None = None
) -> list[Share]:
    """The shares of all sources in the order of their names."""
    by_source: dict[str, list[Input]] = {}
    for one in dict.fromkeys(given):
        by_source.setdefault(one.name, []).append(one)
    groups = [by_source[name] for name in sorted(by_source)]
    shares: dict[int, Share] = {}
    with Progress(len(groups)) as progress, closing(workers.made(making, groups, cache)) as made:
        for done in made:
            if done:
                number, share = done
                shares[number] = share
                progress.take(share)
            progress.tell()
    return [shares[number] for number in range(len(groups))]


def made_next(making: Making, given: list[Input], cache: Cache | None) -> Share:
    """The share of a source behind that of another one, of which nothing is in use."""
    gc.collect()
    return found_or_made(making, given, cache, 1)


def found_or_made(
    making: Making, given: list[Input], cache: Cache | None, workers: int
) -> Share:
    """The share of a source, out of the cache where it is known there."""
    share = cache.find(given) if cache else None
    if share is None:
        share = made(making, given, workers)
        if cache and not share.faults:
            cache.keep(given, making, share)
    return share


def linked(shares: list[Share], is_whole: bool, making: Making, workers: Workers) -> Outcome:
    """What comes of the sources as one program, whole where none of them failed."""
    codes = [code for share in shares for code in share.codes]
    if not codes:
        return Outcome()
    for share in shares:
        share.codes = []
    is_missing = is_whole and any(share.faults for share in shares)
    task = Task(
        None,
        is_whole and not is_missing,
        making.shows_all,
        making.keep,
        workers.count,
        making.kinds,
        making.by_executions,
        workers.report,
    )
    outcome = analyse(task, codes, sources_of(shares))
    if is_missing:
        outcome.notes.insert(
            0, "files are missing, so the rest is not taken as the whole program"
        )
    return outcome


def sources_of(shares: list[Share]) -> Sources:
    """The sources that the code of shares names."""
    texts: dict[str, str | None] = {}
    for share in shares:
        if share.texts is None:
            return Sources()
        texts.update(share.texts)
    return Sources(texts)


def copies_of(outcomes: list[Outcome]) -> Counter[str]:
    """How many sources took in each file."""
    copies: Counter[str] = Counter()
    for outcome in outcomes:
        copies.update(outcome.copies)
    return copies
