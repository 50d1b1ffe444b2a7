"""Gives taclint texts with the usual slips of who is new to the language: each is told at its
place, with its refusal (docs/LANGUAGE.md) and with words on that slip, which no other slip has.

    checks/slips    a line for each fault, and then `N passed, M failed`

TACLINT=/path/to/program takes another program than the one in crates/taclint/out.
"""

from __future__ import annotations

import os
import re
import subprocess
import sys
import tempfile
from collections.abc import Iterator
from typing import NamedTuple

ROOT = os.path.dirname(os.path.dirname(os.path.realpath(__file__)))
TACLINT = os.environ.get("TACLINT", os.path.join(ROOT, "crates/taclint/out/taclint"))
LINE = re.compile(r"(?P<place>\d+:\d+): (?P<kind>error|note): (?P<words>.*)")
REFUSAL = re.compile(r" \(refusal (\d+)\)$")
# What each of several slips is told.
QUOTES = "no texts in quotation marks"
PARAMETERS = "`f` has no parameters"
ARRAYS = "there are no arrays"
OUTSIDE = "stands outside of procedures"
UNFINISHED = "cannot be the end of the line"


class Slip(NamedTuple):
    """A text, and what is to be told first: where, which refusal, and words of the note."""

    text: str  # inside of main, where it does not begin with a procedure
    place: str
    refusal: int
    words: str
    is_whole: bool = False  # whether it is the whole text, though it begins with none


SLIPS = [
    # bytes that begin no word
    Slip("x = 1;", "2:6", 1, "leave the semicolon out"),
    Slip("proc main {\nx = 1\nend", "1:11", 1, "leave the brace out"),
    Slip("x = 1.5", "2:6", 1, "`1.5` is no whole number"),
    Slip("x = .5", "2:5", 1, "`.5` is no whole number"),
    Slip('print "hello"', "2:7", 1, QUOTES),
    Slip("x = 'a'", "2:5", 1, QUOTES),
    Slip("if (x) goto L", "2:4", 1, "there are no parentheses"),
    Slip("call f(x)", "2:7", 1, PARAMETERS),
    Slip("x = f(y)", "2:6", 1, PARAMETERS),
    Slip("x = a[i]", "2:6", 1, ARRAYS),
    Slip("a[i] = x", "2:2", 1, ARRAYS),
    Slip("$t1 = 1", "2:1", 1, "`$t1` is no name"),
    Slip("x = y @ z", "2:7", 1, "`@` means nothing here"),
    Slip("größe = 1", "2:3", 1, "is not ASCII"),
    Slip("\ufeffproc main\nend", "1:1", 1, "byte order mark", True),
    Slip("x = 1\ry = 2", "2:6", 1, "a carriage return stands inside the line"),
    Slip("proc main\rend\r", "1:10", 1, "a carriage return stands inside the line"),
    # comments
    Slip("x = 1 // one", "2:8", 4, "`//` begins no comment"),
    Slip("/* one */", "2:1", 4, "`/*` begins no comment"),
    # keywords
    Slip("IF x GOTO L", "2:4", 4, "with other letters: `if`"),
    Slip("iffalse x goto L", "2:9", 4, "with other letters: `ifFalse`"),
    Slip("Proc main\nend", "1:1", 4, "with other letters: `proc`", True),
    Slip("pritn x", "2:7", 4, "the nearest one: `print`"),
    Slip("retrun", "2:7", 4, "the nearest one: `return`"),
    Slip("if x gotoL", "2:6", 4, "the nearest one: `goto`"),
    Slip("end = 1", "2:5", 4, "`end` is a word of the language"),
    Slip("x = print", "2:5", 4, "`print` is a word of the language"),
    Slip("goto skip", "2:6", 4, "`skip` is a word of the language"),
    # statements
    Slip("return x", "2:8", 4, "`x` cannot stand behind `return`"),
    Slip("x = a + -5", "2:9", 4, "`-5` cannot be an operand"),
    Slip("print -1", "2:7", 4, "`-1` cannot be an operand"),
    Slip("x = a + b + c", "2:11", 4, "`+` is a second operator"),
    Slip("if x = 3 goto L", "2:6", 4, "a test compares with `==`"),
    Slip("if x < 3 then goto L", "2:10", 4, "`then` is left out"),
    Slip("x := 1", "2:4", 4, "leave the colon out"),
    Slip("L: end", "2:4", 4, "`end` cannot stand behind a label"),
    Slip("x =", "2:4", 4, f"`=` {UNFINISHED}"),
    Slip("goto", "2:5", 4, f"`goto` {UNFINISHED}"),
    # as other languages have it
    Slip("x += 1", "2:3", 4, "`+=` sets no variable"),
    Slip("x++", "2:2", 4, "`++` sets no variable"),
    Slip("x <- 1", "2:3", 4, "`<-` sets no variable"),
    Slip("x == 1", "2:3", 4, "`==` sets no variable"),
    Slip("int x", "2:5", 4, "`int` declares nothing here"),
    Slip("let x = 1", "2:5", 4, "`let` declares nothing here"),
    Slip("def main\nend", "1:1", 4, "`def` opens no procedure", True),
    Slip("int main() {\nx = 1\nend", "1:1", 4, "`int` opens no procedure", True),
    Slip("proc main()\nx = 1\nend", "1:10", 1, "`main` has no parameters, since"),
    Slip("while x < 3", "2:7", 4, "`while` is no word of the language: loops"),
    Slip("if x goto L else goto M", "2:13", 4, "`else` is no word of the language: loops"),
    Slip("break", "2:6", 4, "`break` is no word of the language: loops"),
    Slip("*p = 1", "2:1", 4, "`*p` goes through no pointer"),
    Slip("x = &y", "2:5", 4, "`&y` goes through no pointer"),
    Slip("if a && b goto L", "2:6", 4, "`&&` joins no tests"),
    Slip("x = a || b", "2:8", 4, "`||` joins no tests"),
    Slip("x = 0x1F", "2:6", 4, "`0x1F` is neither a number nor a name"),
    Slip("1x = 2", "2:1", 4, "`1x` is neither a number nor a name"),
    Slip("goto 10", "2:6", 4, "`10` is a number where a name has to stand"),
    Slip("end main", "2:5", 4, "`main` cannot stand here: `proc NAME` and `end`"),
    Slip("if x => y goto L", "2:6", 4, "`=>` compares nothing"),
    Slip("if x <> y goto L", "2:7", 4, "`<>` compares nothing"),
    Slip("if !x goto L", "2:4", 4, "begins with `ifFalse`"),
    Slip("print x, y", "2:8", 1, "`,` separates nothing"),
    Slip("goto L:", "2:7", 4, "`:` stands behind a label where it is set"),
    Slip("x = 1 y = 2", "2:7", 4, "`y` begins a second statement"),
    # procedures
    Slip("proc main\nx = 1", "3:1", 5, "`proc main` is not closed by `end`; it stands in line 1"),
    Slip("proc a\nproc main\nend", "2:1", 4, "`proc a` is not closed by `end`; it stands in line"),
    Slip("x = 1", "1:1", 4, f"`x` {OUTSIDE}", True),
    Slip("proc main\nend\nend", "3:1", 4, f"`end` {OUTSIDE}"),
    # names
    Slip("goto lop\nloop:", "2:6", 9, "`loop` is the nearest name"),
    Slip("call mian", "2:6", 10, "`main` is the nearest name"),
    Slip("proc Main\nend", "1:1", 6, "`Main` is the nearest name"),
    Slip("L: skip\nL: skip", "3:1", 8, "`L` stands first in line 2"),
    Slip("proc main\nend\nproc main\nend", "3:6", 7, "`main` stands first in line 1"),
    Slip("call main | main", "2:13", 13, "`main` stands first in line 2"),
    # too many, and too large
    Slip("x = 9223372036854775808", "2:5", 2, "9223372036854775807, the largest number"),
    Slip("n" * 66 + " = 1", "2:1", 3, "has more than 64 bytes, too many by 2"),
    Slip("call a|b|c|d|e|f|g|h|i", "2:21", 4, "8 procedures at most, too many by 1"),
    Slip(
        "\n".join(f"proc p{number}\nend" for number in range(257)) + "\nproc main\nend",
        "513:6",
        12,
        "more procedures than the limits allow, too many by 2",
    ),
    Slip("#" * 1048577, "1:1", 11, "more bytes than the limits allow", True),
]


def text_of(slip: Slip) -> bytes:
    is_whole = slip.is_whole or slip.text.startswith("proc ")
    return (f"{slip.text}\n" if is_whole else f"proc main\n{slip.text}\nend\n").encode()


def told(names: list[str], folder: str) -> dict[str, list[str]]:
    """The lines that are told of each file, without its name."""
    command = [TACLINT, *names]
    done = subprocess.run(command, cwd=folder, capture_output=True, text=True, check=False)
    if done.returncode != 3 or done.stderr:
        sys.exit(f"failed: status {done.returncode}, said {done.stderr!r}")
    lines: dict[str, list[str]] = {name: [] for name in names}
    for line in done.stdout.splitlines():
        name, _, words = line.partition(":")
        lines[name].append(words)
    return lines


def faults_of(slip: Slip, lines: list[str], notes: dict[str, str]) -> Iterator[str]:
    """What is wrong with what is told first of a slip; notes has the words wanted of each note."""
    found = [LINE.fullmatch(line) for line in lines[:2]]
    if len(found) < 2 or not found[0] or not found[1] or found[1]["kind"] != "note":
        yield f"no note: {lines[:2]}"
        return
    error, note = found[0], found[1]
    refusal = REFUSAL.search(error["words"])
    if error["place"] != slip.place or note["place"] != slip.place:
        yield f"it is told at {error['place']} and {note['place']}, and not at {slip.place}"
    if not refusal or int(refusal[1]) != slip.refusal:
        yield f"it is no refusal {slip.refusal}: {error['words']}"
    if slip.words not in note["words"]:
        yield f"not {slip.words!r}: {note['words']}"
    if notes.setdefault(note["words"], slip.words) != slip.words:
        yield f"another slip has this note: {note['words']}"


def main() -> int:
    if sys.argv[1:]:
        print("usage: checks/slips", file=sys.stderr)
        return 2
    if not os.access(TACLINT, os.X_OK):
        print(f"skipped: {TACLINT} is not built")
        return 0
    slips = {f"slip{number}": slip for number, slip in enumerate(SLIPS)}
    with tempfile.TemporaryDirectory(prefix="slips-") as folder:
        for name, slip in slips.items():
            with open(os.path.join(folder, name), "wb") as file:
                file.write(text_of(slip))
        lines = told(list(slips), folder)
    notes: dict[str, str] = {}
    failed = 0
    for name, slip in slips.items():
        faults = list(faults_of(slip, lines[name], notes))
        for fault in faults:
            print(f"failed: {slip.text[:40]!r}: {fault}")
        failed += bool(faults)
    print(f"{len(SLIPS) - failed} passed, {failed} failed")
    return 1 if failed else 0


if __name__ == "__main__":
    sys.exit(main())
