"""Compilation databases: compile_commands.json as CMake, Meson, bear and others write it."""

from __future__ import annotations

import json
import os
import shlex
from typing import Any

from .compiling import OTHERS_WITH_WORD, BadWords, Input, following, take_option
from .responses import expanded


def inputs_of(path: str, wanted: list[str]) -> list[Input]:
    """The C files of a database with their options; those that are wanted where some are."""
    if os.path.isdir(path):
        path = os.path.join(path, "compile_commands.json")
    names = {os.path.realpath(name): name for name in wanted}
    found = {}
    try:
        with open(path, encoding="utf-8", errors="surrogateescape") as file:
            entries = json.load(file)
        for entry in entries:
            place = os.path.realpath(os.path.join(entry["directory"], entry["file"]))
            given = input_of(entry) if place in names or not names else None
            if given:
                found[given] = place
    except OSError as fault:
        raise BadWords(f"{path}: {fault.strerror}") from None
    except (ValueError, KeyError, TypeError, AttributeError):
        raise BadWords(f"{path} is no compilation database") from None
    missing = set(names) - set(found.values())
    if missing:
        raise BadWords(f"{names[min(missing)]} is not in {path}")
    return list(found)


def input_of(entry: dict[str, Any]) -> Input | None:
    """The C file of an entry.

    None where it is of another language or its words have gcc write no code.
    """
    file, directory = entry["file"], os.path.realpath(entry["directory"])
    words = entry["arguments"] if "arguments" in entry else shlex.split(entry["command"])
    words = list(expanded(words, directory, is_there=False))
    if not file.endswith(".c"):
        return None
    whole = os.path.join(directory, file)
    options: list[str] = []
    left_out: list[str] = []
    rest = iter(words[1:])
    try:
        for word in rest:
            # what is no option and not the file is the compiler behind `ccache`, or an object
            if os.path.join(directory, word) == whole or not word.startswith("-"):
                continue
            if word in OTHERS_WITH_WORD:
                left_out.append(f"{word} {following(word, rest)}")
            elif not take_option(word, rest, options):
                options.append(word)
    except BadWords:
        return None
    return Input(file, tuple(options), directory, left_out=tuple(left_out))
