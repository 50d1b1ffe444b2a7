"""Compares what `taclint --format json` writes with what it writes as text, line by line, of all
examples, of texts with the usual slips (slips.py), and of files with names that are no plain words.
Each line of JSON is ASCII and as docs/taclint.schema.json says, and the text is made of it anew.

    checks/told    a line for each fault, and then `N passed, M failed`

TACLINT=/path/to/program takes another program than the one in crates/taclint/out.
"""

from __future__ import annotations

import glob
import json
import os
import re
import subprocess
import sys
import tempfile
from collections.abc import Iterator
from typing import Any

from schema import Schema
from slips import ROOT, SLIPS, TACLINT, text_of

EXAMPLES = os.path.join(ROOT, "examples")
PROC = re.compile(rb"[ \t]*proc[ \t]+(\w+)")
# the field of each kind's name
NAMES = {
    "dead": "variable",
    "unset": "variable",
    "computed": "expression",
    "busy": "expression",
    "never-reached": "last_line",
}
# Texts of which more than one thing is told, beside the examples.
TEXTS = {
    "empty.tac": b"proc p\nend\n\n  proc q # p\nend\nproc main\nx = 1\nL: goto L\nend\n",
    "early.tac": b"proc p\n end\nproc main\ncall p\nx = 1\nL: goto L\nend\n",
    "many.tac": b"proc main\n" + b"x = ;\n" * 30 + b"end\n",
    "twenty.tac": b"proc main\n" + 20 * b"x = ;\n" + b"end\n",
    "twenty_one.tac": b"proc main\n" + 21 * b"x = ;\n" + b"end\n",
    "uses.tac": b"proc main\nread y\n" + 22 * b"if y goto E\n" + b"print x\nE: print x\ncall p\nend\nproc p\nprint x\nend\n",
    "dead.tac": b"proc main\nx = 1\nreturn\ny = 2\n\nz = 3\nend\n",
    'a "b" \\ c\x1b\n\xc3\xa9.tac': b"proc main\nx = 1\nend\n",
    "bytes \x7f.tac": b'proc main\nx = y \x1b" \\\nend\n',
}


def run(words: list[str], folder: str) -> bytes:
    done = subprocess.run([TACLINT, *words], cwd=folder, capture_output=True, check=False)
    if done.returncode not in (0, 3) or done.stderr:
        sys.exit(f"failed: {words}: status {done.returncode}, said {done.stderr!r}")
    return done.stdout


def counted(count: int, word: str) -> str:
    return f"1 {word}" if count == 1 else f"{count} {word}s"


def last_text(line: dict[str, Any]) -> str:
    """The last line of a file as text."""
    if "errors" in line:
        is_first = line["first"]
        return "the first 20 errors" if is_first else counted(line["errors"], "error")
    return counted(line["remarks"], "remark") if line["remarks"] else "no remarks"


def texts_of(line: dict[str, Any]) -> list[str]:
    """The lines of text that say what a line of JSON says."""
    file, kind = line["file"], line["type"]
    if kind == "file":
        return []
    if kind == "untold":
        count, begin = line["count"], line["from_line"]
        be = "is" if count == 1 else "are"
        where = "" if begin is None else f" (from line {begin} on)"
        untold = f"{counted(count, 'dead assignment')} {be} not told"
        return [f"{file}: note: {untold}, since the program may never end{where}"]
    if kind == "end":
        return [f"{file}: {last_text(line)}"]
    if kind == "more_turns":
        more, be = (("turn", "is") if line["count"] == 1 else ("turns", "are"))
        return [f"{file}: note: {line['count']} more {more} of the way {be} left out"]
    place = f"{file}:{line['line']}:{line['column']}"
    if kind in ("turn", "later"):
        return [f"{place}: note: {line['words']}"]
    if kind == "remark":
        return [f"{place}: {line['kind']}: {line['words']}"]
    notes = [f"{place}: note: {line['note']}"] if "note" in line else []
    return [f"{place}: error: {line['words']} (refusal {line['refusal']})", *notes]


def procedure_at(text: bytes, number: int) -> str | None:
    """The procedure in which a line lies."""
    found = [PROC.match(line) for line in text.split(b"\n")[:number]]
    names = [match[1].decode() for match in found if match]
    return names[-1] if names else None


def name_faults(line: dict[str, Any], text: bytes) -> Iterator[str]:
    """What is wrong with the names that a remark has as fields."""
    names = {"variable", "expression", "last_line"} & set(line)
    wanted = {NAMES[line["kind"]]} if line["kind"] in NAMES else set()
    if names != wanted:
        yield f"{line['kind']} has {sorted(names)}"
    for name in names - {"last_line"}:
        if line[name] not in line["words"]:
            yield f"{name} {line[name]} is not in {line['words']!r}"
    last = line.get("last_line", line["line"])
    if last != line["line"] and f" to line {last} " not in line["words"]:
        yield f"last_line {last} is not in {line['words']!r}"
    if line["procedure"] != procedure_at(text, line["line"]):
        yield f"line {line['line']} is not in {line['procedure']}"


def order_faults(lines: list[dict[str, Any]]) -> Iterator[str]:
    """What is wrong with the first and the last line of a file, and with the count there."""
    kinds = [line["type"] for line in lines]
    if kinds[:1] != ["file"] or kinds[-1:] != ["end"] or len({line["file"] for line in lines}) > 1:
        yield f"a file is cut: {kinds}"
        return
    word = "errors" if "errors" in lines[-1] else "remarks"
    if lines[-1][word] != kinds.count(word[:-1]):
        yield f"{lines[-1]} behind {kinds.count(word[:-1])} {word}"
    if {"errors", "remarks", "first"} & set(lines[-1]) not in ({"remarks"}, {"errors", "first"}):
        yield f"what is counted: {lines[-1]}"


def faults_of(schema: Schema, name: str, words: list[str], folder: str) -> Iterator[str]:
    """What is wrong with the lines of a file."""
    told = run(["--format", "json", *words, name], folder)
    if not told.isascii():
        yield "a byte is beyond ASCII"
        return
    lines: list[dict[str, Any]] = [json.loads(line) for line in told.splitlines()]
    wrong = [fault for line in lines if (fault := schema.fault(line))]
    if wrong:
        yield from wrong
        return
    yield from order_faults(lines)
    with open(os.path.join(folder, name), "rb") as file:
        text = file.read()
    for line in lines:
        if line["type"] == "remark":
            yield from name_faults(line, text)
    again = "".join(f"{each}\n" for line in lines for each in texts_of(line))
    if again.encode() != run([*words, name], folder):
        yield f"the text says something else than {again[:200]!r}"


def main() -> int:
    if sys.argv[1:]:
        print("usage: checks/told", file=sys.stderr)
        return 2
    if not os.access(TACLINT, os.X_OK):
        print(f"skipped: {TACLINT} is not built")
        return 0
    schema = Schema("taclint")
    passed = failed = 0
    with tempfile.TemporaryDirectory(prefix="told-") as folder:
        texts = {f"slip{number}.tac": text_of(slip) for number, slip in enumerate(SLIPS)}
        for name, text in {**texts, **TEXTS}.items():
            with open(os.path.join(folder, name), "wb") as file:
                file.write(text)
        files = [(name, folder) for name in [*texts, *TEXTS]]
        examples = sorted(glob.glob("*.tac", root_dir=EXAMPLES))
        for name, place in files + [(name, EXAMPLES) for name in examples]:
            for words in (["--kinds", "all"], ["--limits", "large"], ["--why", "--workers", "3"]):
                faults = list(faults_of(schema, name, words, place))
                for fault in faults:
                    print(f"failed: {name!r} {' '.join(words)}: {fault}")
                passed, failed = passed + (not faults), failed + bool(faults)
    print(f"{passed} passed, {failed} failed")
    return 1 if failed else 0


if __name__ == "__main__":
    sys.exit(main())
