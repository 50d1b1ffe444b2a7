"""Writing files that others may read at any time: as a whole or not at all."""

from __future__ import annotations

import errno
import os
import re
from collections.abc import Iterable

# What make and ninja take for something else in a name.
SPECIAL = re.compile(r"([ #\\])")


def write_whole(path: str, data: bytes) -> None:
    """Writes a file under another name, and then gives it its own."""
    if os.path.exists(path) and not os.path.isfile(path):
        raise OSError(errno.EINVAL, "is there and no plain file", path)
    made = f"{path}.{os.urandom(8).hex()}.new"
    try:
        try:
            with open(made, "xb") as file:
                file.write(data)
            os.replace(made, path)
        except BaseException:
            if os.path.exists(made):
                os.remove(made)
            raise
    except OSError as fault:
        raise OSError(fault.errno, fault.strerror, path) from None


def depfile(target: str, files: Iterable[str]) -> bytes:
    """What make and ninja read: that a target is made of files, and that those which are gone need
    not be made.
    """
    names = [in_rule(file) for file in files]
    text = f"{in_rule(target)}: " + " \\\n  ".join(names) + "\n"
    text += "".join(f"{name}:\n" for name in names[1:])
    return text.encode("utf-8", "surrogateescape")


def in_rule(name: str) -> str:
    """A file's name as it stands in a rule of make's."""
    return SPECIAL.sub(r"\\\1", name).replace("$", "$$")
