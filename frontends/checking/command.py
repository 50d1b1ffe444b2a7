"""The command check-c, from its words to its status."""

from __future__ import annotations

import gc
import io
import os
import sys
from collections import Counter
from collections.abc import Iterator
from dataclasses import replace
from typing import TYPE_CHECKING

from . import baseline, changes, formats
from .analysis import agreed
from .compiling import SYSTEM_HEADERS, BadWords, Input, Unusable
from .database import inputs_of
from .programs import prepare
from .remark import in_source_order
from .shares import Making, all_made, complete, copies_of, linked
from .sources import Lines
from .words import Words, help_text
from .workers import Processes

if TYPE_CHECKING:
    from .analysis import Outcome
    from .cache import Cache
    from .remark import Remark
    from .shares import Share
    from .workers import Workers


def say(text: str) -> None:
    """Tells something on standard error."""
    print(f"check-c: {text}", file=sys.stderr)


def inputs_given(words: Words) -> list[Input]:
    """The C files that are to be analysed."""
    given = (
        inputs_of(words.values["-p"], words.files)
        if words.values["-p"]
        else [Input(file) for file in words.files]
    )
    if not given:
        raise BadWords("the compilation database has no C file")
    return [replace(one, words=tuple(words.options)) for one in given]


def write(words: Words, remarks: list[Remark], known: Lines, files: list[str]) -> None:
    """Writes the remarks on files to standard output, with the lines that they stand on."""
    if isinstance(sys.stdout, io.TextIOWrapper):
        sys.stdout.reconfigure(encoding="utf-8", errors="surrogateescape")
    if words.values["--format"] == "json":
        lines = formats.json_lines(remarks)
    elif words.values["--format"] == "sarif":
        from .makers import version

        lines = formats.sarif_lines(remarks, known, version())
    elif words.values["--format"] == "html":
        from .page import page

        prepare("tacview")
        sys.stdout.writelines(page(remarks, known, files))
        lines = iter(())
    else:
        lines = formats.TextForm(known, formats.has_colours(sys.stdout)).lines(remarks)
    for line in lines:
        print(line)
    sys.stdout.flush()


def tell_end(
    words: Words, shares: list[Share], outcomes: list[Outcome], remarks: list[Remark]
) -> None:
    """Tells what was not analysed, and how many remarks there are."""
    left_out = dict.fromkeys(word for share in shares for word in share.left_out)
    if words.flags["--verbose"] and left_out:
        say(f"note: left out, as gcc does not know them: {' '.join(left_out)}")
    notes = [note for outcome in outcomes for note in outcome.notes]
    for text in dict.fromkeys([*notes, *(note for share in shares for note in share.notes)]):
        say(f"note: {text}")
    if not words.flags["--whole"]:
        for text in single_copies(shares, outcomes, remarks):
            say(f"note: {text}")
    for text in dict.fromkeys(faults_of(shares, outcomes)):
        say(text)
    kinds = Counter(remark.kind for remark in remarks)
    parts = ", ".join(f"{kinds[kind]} {kind}" for kind in sorted(kinds))
    remarks_told = f"{len(remarks)} remark{'' if len(remarks) == 1 else 's'}"
    files_told = f"{len(shares)} file{'' if len(shares) == 1 else 's'}"
    say(f"{remarks_told} on {files_told}" + (f": {parts}" if parts else ""))


def single_copies(
    shares: list[Share], outcomes: list[Outcome], remarks: list[Remark]
) -> Iterator[str]:
    """What is to be said of headers of which one source has the only copy of a run, where something
    is told of them.
    """
    copies = copies_of(outcomes)
    named = {share.source for share in shares}
    for file in dict.fromkeys(remark.file for remark in remarks):
        if copies[file] == 1 and file not in named:
            yield f"{file}: told of one copy; files that are not given may have others"


def faults_of(shares: list[Share], outcomes: list[Outcome]) -> list[str]:
    """What could not be analysed."""
    found = [fault for share in shares for fault in share.faults]
    return found + [fault for outcome in outcomes for fault in outcome.faults]


def check(words: Words) -> int:
    """Does what the words ask for; answers the status."""
    making = Making(
        words.is_linked,
        words.flags["--all"],
        words.kinds,
        words.values["--keep"],
        words.flags["--executions"],
    )
    target = words.values["--emit"]
    gc.disable()  # what is made is in use until its program is done, and then collected
    if words.flags["--merge"]:
        if words.is_linked:
            prepare(making.finder)
        return told(words, making, merged(words, making), Processes(words.processes))
    given = inputs_given(words)
    workers = workers_of(words)
    if target is not None and len({one.name for one in given}) != 1:
        raise BadWords("--emit takes one C file")
    if target is None or not words.is_linked:
        prepare(making.finder)
    shares = all_made(making, given, workers, cache_of(words, making))
    if target is not None:
        return emit(target, words.values["-MD"], making, shares[0])
    return told(words, making, shares, workers)


def workers_of(words: Words) -> Workers:
    """Who does the work: a cluster where the words name one, else processes of this machine."""
    address = words.values["--cluster"]
    if address is None:
        return Processes(words.processes)
    from .cluster import Cluster

    return Cluster(address)


def cache_of(words: Words, making: Making) -> Cache | None:
    """The cache that the words name, None where they name none."""
    folder = words.values["--cache"]
    if folder is None:
        return None
    from .cache import Cache  # it takes a while, as do the other parts that few runs need

    return Cache.of(folder, making)


def merged(words: Words, making: Making) -> list[Share]:
    """The shares of all files of facts; where there is a database, of all of its C files."""
    from .merging import read_all

    shares = read_all(words.files, making)
    database = words.values["-p"]
    if database is not None:
        known = {share.source for share in shares}
        wanted = {one.name for one in inputs_of(database, [])}
        missing = [f"no facts of {name} are given" for name in sorted(wanted - known)]
        others = [f"{name} is not in {database}" for name in sorted(known - wanted)]
        if missing or others:
            raise Unusable(missing + others)
    return shares


def emit(target: str, rule: str | None, making: Making, share: Share) -> int:
    """Writes a share to its file, and the rule of which files were read for it where there is to be
    one; answers the status.
    """
    from .facts import encoded
    from .writing import depfile, write_whole

    for text in share.notes:
        say(f"note: {text}")
    for text in dict.fromkeys(share.faults):
        say(text)
    if share.faults:
        return 3
    complete(share)
    if rule is not None:
        write_whole(rule, depfile(target, filter(os.path.exists, share.read)))
    write_whole(target, encoded(share, making))
    return 0


def told(words: Words, making: Making, shares: list[Share], workers: Workers) -> int:
    """Tells what comes of all shares; answers the status."""
    outcomes = [outcome for share in shares for outcome in share.outcomes]
    if making.is_linked:
        outcomes = [linked(shares, words.flags["--whole"], making, workers)]
    lines = Lines()
    for outcome in outcomes:
        lines.known.update(outcome.lines.known)
    files = [share.source for share in shares]
    remarks = in_source_order(
        [
            remark
            for remark in agreed(outcomes).values()
            if remark.kind in words.kinds and not remark.file.startswith(SYSTEM_HEADERS)
        ],
        files,
    )
    if words.values["--since"] is not None:
        remarks = changes.changed_since(words.values["--since"], remarks)
    if words.values["--baseline"] is not None:
        remarks = baseline.without_known(words.values["--baseline"], remarks)
    if words.values["--write-baseline"] is not None:
        baseline.write(words.values["--write-baseline"], remarks)
    write(words, remarks, lines, files)
    tell_end(words, shares, outcomes, remarks)
    if faults_of(shares, outcomes):
        return 3
    return 1 if remarks and words.flags["--error"] else 0


def main(words: list[str]) -> int:
    """Runs the command; answers its status."""
    try:
        if {"--help", "-h"} & set(words):
            sys.stdout.write(help_text())
            sys.stdout.flush()
            return 0
        if words == ["--version"]:
            from .makers import version

            print(f"check-c of tacflow {version()}, not verified", flush=True)
            return 0
        return check(Words(words))
    except BadWords as fault:
        say(f"{fault}; see check-c --help")
        return 2
    except Unusable as unusable:
        for text in unusable.faults:
            say(text)
        return 3
    except OSError as fault:
        say(f"{fault.filename or 'standard output'}: {fault.strerror}")
        # what is still to be written can't be: nothing more is said of it
        os.dup2(os.open(os.devnull, os.O_WRONLY), 1)
        return 3
    except KeyboardInterrupt:
        say("interrupted")
        return 130
