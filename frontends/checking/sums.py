"""The sums of files, by which it is known whether they are as they were."""

from __future__ import annotations

import functools
import hashlib
import os
import time

# What changed since then may have been read before or after its sum was made. A file's time may be
# that of the last tick of a clock.
BEGINNING = time.time_ns() - 20_000_000


@functools.cache
def sum_of(path: str) -> str:
    """The sum of what a file has, '' where it can't be read."""
    try:
        with open(path, "rb") as file:
            return hashlib.sha256(file.read()).hexdigest()
    except OSError:
        return ""


def is_new(path: str) -> bool:
    """Whether a file changed since this process began."""
    try:
        found = os.stat(path)
    except OSError:
        return False
    return max(found.st_mtime_ns, found.st_ctime_ns) >= BEGINNING
