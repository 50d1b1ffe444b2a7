"""A job for a cluster's worker: a part of the report on a program, by a process of its own, which is
started as `python3 -m checking.part NUMBER COUNT`. cluster.py says what goes in.
"""

from __future__ import annotations

import json
import sys

from gimple.faults import Refusal

from .job import refuse_others
from .makers import sum_told
from .reports import part_of_report


# The status where tacview failed, which it may do elsewhere too, or not.
FAILED = 4


def main(number: str, count: str) -> int:
    """Reads a line with what the report is to be made by, and a text; writes the part; answers the
    status.
    """
    try:
        refuse_others(json.loads(sys.stdin.buffer.readline()), sum_told("tacview"))
    except Refusal as fault:
        print(fault, file=sys.stderr)
        return 3
    try:
        part = part_of_report(sys.stdin.buffer.read(), int(number), int(count))
        sys.stdout.write(part)
        sys.stdout.flush()
    except Refusal as fault:
        print(fault, file=sys.stderr)
        return FAILED
    except OSError as fault:
        print(f"standard output: {fault.strerror}", file=sys.stderr)
        return FAILED
    return 0


if __name__ == "__main__":
    sys.exit(main(*sys.argv[1:]))
