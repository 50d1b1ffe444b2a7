"""All generators by name."""

from __future__ import annotations

import inspect
from collections.abc import Callable, Mapping, Sequence

from . import hard, large, small, texts, whole
from .writing import Fault

Maker = Callable[..., "str | bytes"]
GROUPS: list[tuple[str, Mapping[str, Maker]]] = [
    ("large programs of ordinary shapes", large.SHAPES),
    ("programs that are laid out against a solver", hard.SHAPES),
    ("long texts that are hard on a reader", texts.SHAPES),
    ("small programs", small.SHAPES),
    ("texts for the large limits of tacview", whole.SHAPES),
]
POSITIVE = {"points", "bits", "procedures", "variables", "statements", "heads", "period", "size"}
ALL = {name: maker for _, shapes in GROUPS for name, maker in shapes.items()}


def keys_of(words: Sequence[str]) -> dict[str, int]:
    keys = {}
    for word in words:
        key, sign, value = word.partition("=")
        try:
            keys[key] = int(value)
        except ValueError:
            raise Fault("%r is not KEY=NUMBER" % word) from None
    return keys


def defaults_of(name: str) -> dict[str, int]:
    parameters = inspect.signature(ALL[name]).parameters.values()
    return {parameter.name: parameter.default for parameter in parameters}


def generate(name: str, keys: dict[str, int]) -> bytes:
    """The text of a shape, in bytes."""
    if name not in ALL:
        raise Fault("there is no %r; generate --list tells all" % name)
    known = defaults_of(name)
    for key, value in keys.items():
        if key not in known:
            raise Fault("%s has no key %r; it has %s" % (name, key, ", ".join(known)))
        if value < (1 if key in POSITIVE else 0):
            raise Fault("%s=%d is too small" % (key, value))
    text = ALL[name](**keys)
    return text if isinstance(text, bytes) else text.encode()


def told_of(maker: Maker) -> str:
    """What its first words say, in one line."""
    return " ".join((inspect.getdoc(maker) or "").split())


def catalogue() -> str:
    lines = []
    for title, shapes in GROUPS:
        lines.append(title + ":")
        for name, maker in shapes.items():
            lines.append("  %-18s %s" % (name, told_of(maker)))
            lines.append(
                "  %-18s %s" % ("", " ".join("%s=%s" % pair for pair in defaults_of(name).items()))
            )
    return "\n".join(lines) + "\n"
