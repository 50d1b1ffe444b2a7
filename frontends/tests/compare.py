"""Runs the tests of the C front end on C files: `run` calls this.

Not verified.

    /* expect: assignment to 'x' is dead */  the remark, without its column, of this line
    /* note: overwritten here */             a note on this line, of some remark
    /* notes: all */                         there are no other notes than those
    /* options: --whole */                   options of check-c; all kinds without --kinds
    /* files: other_a.c */                   further files
    /* noted: unknown code */                standard error must say this of this line
"""


import json
import os
import re
import subprocess
import sys

import conditions
import executions
import words

HERE = os.path.dirname(os.path.realpath(__file__))
CHECK = os.path.join(HERE, "..", "check-c")
COMMENT = re.compile(r"/\* (expect|note|notes|noted|options|files): (.*?) \*/")


class Wanted:
    """What a test's comments say."""

    def __init__(self, name: str) -> None:
        self.files = [name]
        self.options = []
        self.has_all_notes = False
        self.told = {"expect": [], "note": [], "noted": []}
        self.read(name)
        for other in self.files[1:]:
            self.read(other)
        for header in sorted(
            header for header in os.listdir(HERE) if header.endswith(".h") and header[:-2] in name
        ):
            self.read(header)
        if "--kinds" not in self.options:
            self.options += ["--kinds", "all"]

    def read(self, name: str) -> None:
        """Reads a file's comments."""
        with open(os.path.join(HERE, name), encoding="utf-8") as file:
            for number, line in enumerate(file, 1):
                for kind, text in COMMENT.findall(line):
                    self.take(kind, text, name, number)

    def take(self, kind: str, text: str, name: str, number: int) -> None:
        """Takes in one comment."""
        if kind == "options":
            self.options += text.split()
        elif kind == "files":
            self.files += text.split()
        elif kind == "notes":
            self.has_all_notes = True
        else:
            self.told[kind].append((name, number, text))


def difference(name: str) -> list[str]:
    """What is wrong with a test, as lines."""
    wanted = Wanted(name)
    command = [sys.executable, CHECK, "--format", "json", *wanted.options, *wanted.files]
    done = subprocess.run(command, cwd=HERE, capture_output=True, text=True, check=False)
    if done.returncode:
        return [f"status {done.returncode}: {done.stderr.strip()}"]
    remarks = [json.loads(line) for line in done.stdout.splitlines()]
    found = sorted({place_of(remark) for remark in remarks})
    notes = {place_of(note) for remark in remarks for note in remark["notes"]}
    expected = wanted.told["expect"]
    return (
        [f"missing: {place}" for place in expected if place not in found]
        + [f"not expected: {place}" for place in found if place not in expected]
        + [f"no note: {place}" for place in wanted.told["note"] if place not in notes]
        + [
            f"not expected: {place}"
            for place in sorted(notes)
            if wanted.has_all_notes and place not in wanted.told["note"]
        ]
        + [
            f"not noted: {place}"
            for place in wanted.told["noted"]
            if not is_noted(place, done.stderr)
        ]
    )


def place_of(told: dict[str, int | list[dict[str, int | str]] | str]) -> tuple[str, int, str]:
    """The file, line and text of a remark or a note."""
    return told["file"], told["line"], told["message"]


def is_noted(place: tuple[str, int, str], stderr: str) -> bool:
    """Whether something is said of a place on standard error."""
    name, number, text = place
    return any(f"{name}:{number}:" in line and text in line for line in stderr.splitlines())


def main() -> int:
    """Runs all tests, or those that are named; answers the status."""
    names = sys.argv[1:] or sorted(
        name for name in os.listdir(HERE) if name.endswith(".c") and not name.startswith("other_")
    )
    wrong = {name: difference(name) for name in names}
    if not sys.argv[1:]:
        wrong |= {f"words {number}": lines for number, lines in enumerate(words.differences(), 1)}
        tried = enumerate(conditions.differences(), 1)
        wrong |= {f"conditions {number}": lines for number, lines in tried}
        tried = enumerate(executions.differences(), 1)
        wrong |= {f"executions {number}": lines for number, lines in tried}
    for name, lines in wrong.items():
        for line in lines:
            print(f"{name}: {line}")
    failed = sum(map(bool, wrong.values()))
    passed = len(wrong) - failed
    print(f"{passed} passed, {failed} failed")
    return 1 if failed else 0


if __name__ == "__main__":
    sys.exit(main())
