"""gcc's operands as C writes them."""

from __future__ import annotations

import re
from typing import TYPE_CHECKING

if TYPE_CHECKING:
    from gimple.code import Step

PART = re.compile(r"[A-Za-z_$][\w$]*(?:(?:\.|->)[A-Za-z_$][\w$]*|\[(?!_\d)\w+\])+$")


def part_named(step: Step) -> str:
    """The part of a variable that a step's statement writes, as `point.x`, '' where it writes a
    whole one or none with a name.
    """
    statement = step.origin
    if statement.kind not in ("assign", "call") or len(statement.words) < 2 or not step.weak:
        return ""
    plain = re.sub(r"\.D\.\d+", "", statement.words[1])
    plain = re.sub(r"D\.\d+", "", plain)
    return plain if PART.match(plain) and plain.startswith(step.variable.source) else ""
