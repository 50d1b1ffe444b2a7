"""Comments that silence remarks: tacflow's own, clang-tidy's and cppcheck's."""

import re

IGNORE = re.compile(r"tacflow:\s*ignore\b(?:\s+(?P<kinds>[a-z-]+(?:\s*,\s*[a-z-]+)*))?")
NOLINT = re.compile(r"\bNOLINT(?P<next>NEXTLINE)?\b(?:\((?P<names>[^)]*)\))?")
SUPPRESS = re.compile(r"\bcppcheck-suppress\b\s+(?:\[(?P<names>[^]]*)\]|(?P<name>\w+))")
ONLY_COMMENT = re.compile(r"\s*(?://|/\*)")
# What others call a kind of ours: the kinds that their names silence.
OTHERS = {
    "dead": (
        "unreadVariable",
        "redundantAssignment",
        "redundantInitialization",
        "selfAssignment",
        "unusedVariable",
        "unusedStructMember",
        "clang-analyzer-deadcode.DeadStores",
        "clang-diagnostic-unused-but-set-variable",
        "clang-diagnostic-self-assign",
    ),
    "unset": (
        "uninitvar",
        "uninitdata",
        "uninitStructMember",
        "legacyUninitvar",
        "clang-analyzer-core.uninitialized.*",
        "clang-analyzer-core.*",
        "clang-diagnostic-uninitialized",
        "clang-diagnostic-sometimes-uninitialized",
    ),
    "never": (
        "unusedFunction",
        "unreachableCode",
        "duplicateBreak",
        "clang-diagnostic-unreachable-code",
        "clang-diagnostic-unused-function",
        "clang-analyzer-alpha.deadcode.UnreachableCode",
    ),
}


def is_silenced(kind: str, line: str, above: str) -> bool:
    """Whether a comment on a line, or on the one above it, silences remarks of a kind there."""
    if any(
        ours_silences(text, kind) for text in (line, above if ONLY_COMMENT.match(above) else "")
    ):
        return True
    for text, is_above in ((line, False), (above, True)):
        found = NOLINT.search(text)
        if found and bool(found["next"]) == is_above and is_named(kind, found["names"] or "*"):
            return True
        found = SUPPRESS.search(text)
        if found and (not is_above or ONLY_COMMENT.match(above)):
            if is_named(kind, found["names"] or found["name"]):
                return True
    return False


def ours_silences(text: str, kind: str) -> bool:
    """Whether a line's comment of tacflow's own silences a kind."""
    found = IGNORE.search(text)
    if not found:
        return False
    kinds = re.split(r"\s*,\s*", found["kinds"]) if found["kinds"] else []
    return not kinds or any(is_of(kind, name) for name in kinds)


def is_of(kind: str, name: str) -> bool:
    """Whether a kind is this one or a form of it."""
    return kind == name or kind.endswith("-" + name) or kind.startswith(name + "-")


def is_named(kind: str, names: str) -> bool:
    """Whether one of these names, with commas between, is one for a kind."""
    ours = [ours for ours in OTHERS if is_of(kind, ours)]
    known = {"*", "tacflow-*", f"tacflow-{kind}", *(name for one in ours for name in OTHERS[one])}
    if ours == ["dead"] or kind == "never":
        known.add("clang-analyzer-deadcode.*")
    given = [re.split(r"[:\s]", name.strip())[0] for name in names.split(",")]
    return any(
        name in known or name.startswith("clang-analyzer-core.uninitialized") and "unset" in ours
        for name in given
    )
