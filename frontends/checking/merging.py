"""Reading shares from files of facts, and whether they are those of one run."""

from __future__ import annotations

from typing import TYPE_CHECKING

from gimple.faults import Refusal

from .compiling import BadWords, Unusable
from .facts import decoded

if TYPE_CHECKING:
    from .facts import Facts
    from .shares import Making, Share


# So many faults are told.
MOST = 20


def read_all(paths: list[str], making: Making) -> list[Share]:
    """The shares of files of facts in the order of their sources' names."""
    found: list[Facts] = []
    faults: list[str] = []
    for path in paths:
        try:
            with open(path, "rb") as file:
                data = file.read()
            found.append(decoded(data, path))
        except OSError as fault:
            faults.append(f"{path}: {fault.strerror}")
        except Refusal as refusal:
            faults.append(str(refusal))
    for facts in found:
        refuse_other_making(facts, making)
    faults += differences(found)
    if len(faults) > MOST:
        faults[MOST:] = [f"and {len(faults) - MOST} more of the kind"]
    if faults:
        raise Unusable(faults)
    shares = [facts.share for facts in found]
    return sorted(shares, key=lambda share: share.source)


def refuse_other_making(facts: Facts, making: Making) -> None:
    """Refuses a share that was not made as the words of the command say."""
    pairs = [(facts.is_linked, making.is_linked, "--whole or --together")]
    if not facts.is_linked:
        pairs.append((facts.shows_all, making.shows_all, "--all"))
        pairs.append((facts.by_executions, making.by_executions, "--executions"))
    for was_given, is_given, word in pairs:
        if was_given != is_given:
            told = f"{facts.path} was made {'with' if was_given else 'without'} {word}"
            raise BadWords(f"{told}: give --emit and --merge the same words")
    if making.is_linked:
        return
    for kind in making.held():
        if kind not in facts.kinds:
            raise BadWords(
                f"{facts.path} has no remarks of the kind {kind}: give --emit and --merge "
                "the same --kinds"
            )


def differences(found: list[Facts]) -> list[str]:
    """What keeps shares from being those of one run: a source that two of them have, another gcc,
    or files of which they read several versions.
    """
    told: list[str] = []
    by_source: dict[str, Facts] = {}
    sums: dict[str, tuple[str, Facts]] = {}
    for facts in found:
        source = facts.share.source
        other = by_source.setdefault(source, facts)
        if other is not facts:
            is_same = facts.sums.get(source) == other.sums.get(source)
            what = f"are both of {source}" if is_same else f"are of two versions of {source}"
            told.append(f"{other.path} and {facts.path} {what}")
            continue
        if facts.gcc != found[0].gcc:
            told.append(
                f"{found[0].path} and {facts.path} were made with two compilers: "
                f"{found[0].gcc}, and {facts.gcc}"
            )
        for name, known in facts.sums.items():
            before, first = sums.setdefault(name, (known, facts))
            if before != known:
                told.append(f"{first.path} and {facts.path} were made of two versions of {name}")
    return told
