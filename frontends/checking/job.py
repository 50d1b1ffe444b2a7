"""A job for a cluster's worker: the share of one source, by a process of its own, which is started
as `python3 -m checking.job`. cluster.py says what goes in, and reads what comes out.
"""

from __future__ import annotations

import gc
import json
import os
import sys
from typing import Any

from gimple.faults import Refusal

from .compiling import BadWords, Input
from .facts import encoded
from .makers import makers
from .shares import Making, complete, found_or_made


def main() -> int:
    """Reads a job, and writes the share; answers the status."""
    gc.disable()  # it ends with its one share
    try:
        given = json.load(sys.stdin.buffer)
        making = Making(**given["making"] | {"kinds": frozenset(given["making"]["kinds"])})
        refuse_others(given["makers"], makers(making))
        os.chdir(given["folder"])
        inputs = [input_of(one) for one in given["given"]]
        sys.stdout.buffer.write(answer(making, inputs, given["cache"]))
        sys.stdout.flush()
    except (BadWords, Refusal) as fault:
        print(fault, file=sys.stderr)
        return 3
    except OSError as fault:
        print(f"{fault.filename or 'standard output'}: {fault.strerror}", file=sys.stderr)
        return 3
    return 0


def input_of(told: dict[str, Any]) -> Input:
    """A C file with its words; JSON has lists for them."""
    parts = {name: tuple(part) if isinstance(part, list) else part for name, part in told.items()}
    return Input(**parts)


def refuse_others(wanted: dict[str, str], found: dict[str, str]) -> None:
    """Refuses to work by another check-c, gcc, tacview or taclint than the run's."""
    for name, known in wanted.items():
        if found.get(name) != known:
            raise Refusal(f"its {name} is {found.get(name)}, and where the run began {known}")


def answer(making: Making, given: list[Input], folder: str | None) -> bytes:
    """The share of a source as facts, behind a line with what else is to be said of it."""
    cache = None
    if folder is not None:
        from .cache import Cache

        cache = Cache.of(folder, making)
    share = found_or_made(making, given, cache, 1)
    complete(share)
    said = {"faults": share.faults, "notes": share.notes}
    return json.dumps(said).encode("ascii") + b"\n" + encoded(share, making)


if __name__ == "__main__":
    sys.exit(main())
