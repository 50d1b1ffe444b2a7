"""Tries the programs on a pseudo-terminal, as one who types at it: what is shown there, what a pipe
gets, the status, and what an interrupt and a reader that goes away do.

    checks/terminal    a line for each fault, and then `N passed, M failed`

TACLINT=/path/to/program, TACFLOW and TACVIEW take other programs than those in crates/NAME/out.
"""

from __future__ import annotations

import os
import pty
import re
import select
import signal
import sys
import tempfile
import termios
import time
from collections.abc import Iterator
from typing import NamedTuple

CRATES = os.path.join(os.path.dirname(os.path.dirname(os.path.realpath(__file__))), "crates")
PROGRAMS = {
    name: os.environ.get(name.upper(), os.path.join(CRATES, name, "out", name))
    for name in ("taclint", "tacflow", "tacview")
}
# a run that takes longer than so many seconds is a fault
SECONDS = 30
END_OF_INPUT, INTERRUPT = "\x04", "\x03"
# What sets colours, or anything else of a terminal.
CONTROL = re.compile(r"\x1b\[[0-9;]*[A-Za-z]")
# What is told of it is more than a pipe holds, 65,536 bytes.
MANY = "proc main\n" + "print a\n" * 2400 + "end\n"
FILES = {
    "quiet.tac": "proc main\nend\n",
    "dead.tac": "proc main\nx = 1\nend\n",
    "wrong.tac": "proc main\nx = y;\nend\n",
    "many.tac": MANY,
}
FIRST_OF_MANY = "many.tac:2:1: unset: a may be used before it is set\n"
QUIET = "quiet.tac: no remarks\n"
DEAD = "dead.tac:2:1: dead: the value assigned to x is never used\ndead.tac: 1 remark\n"
WRONG = (
    "wrong.tac:2:6: error: no word, number or sign begins with this byte (refusal 1)\n"
    "wrong.tac:2:6: note: a statement ends with its line: leave the semicolon out\n"
    "wrong.tac: 1 error\n"
)
# the same with the lines of the source, as a terminal gets it
DEAD_LINES = (
    "dead.tac:2:1: dead: the value assigned to x is never used\n"
    "    2 | x = 1\n"
    "      | ^\n"
    "dead.tac: 1 remark\n"
)
WRONG_LINES = (
    "wrong.tac:2:6: error: no word, number or sign begins with this byte (refusal 1)\n"
    "    2 | x = y;\n"
    "      |      ^\n"
    "wrong.tac:2:6: note: a statement ends with its line: leave the semicolon out\n"
    "wrong.tac: 1 error\n"
)
DEAD_PAINTED = DEAD.replace(" dead:", " \x1b[1;35mdead\x1b[0m:")
NO_FILE = "none.tac: cannot be opened: No such file or directory (os error 2)\n"
TYPED = FILES["dead.tac"]
TYPED_DEAD = DEAD.replace("dead.tac", "<stdin>")
TYPED_LINES = DEAD_LINES.replace("dead.tac", "<stdin>")
READING = "taclint: reading standard input\n"
QUIET_JSON = (
    '{"type":"file","file":"quiet.tac","version":1}\n'
    '{"type":"end","file":"quiet.tac","remarks":0}\n'
)
NO_MAIN = "<stdin>:1:1: error: no procedure is called `main` (refusal 6)\n<stdin>: 1 error\n"
MANY_POINTS = (
    "tacview: 2401 points are many for a picture: --procedure NAME draws one procedure, "
    "--format html makes a page\n"
)
SMALL = "points 1, variables 0, definitions 0, expressions 0\n"
HELP = re.compile(r"Tells what is worth a look .*\nUsage: taclint .*--kinds.*", re.S)
Text = str | re.Pattern[str]  # all of it, or what it has to match


class Row(NamedTuple):
    """What is typed after a command's start, and what has to come of it. Standard error is the
    terminal always, standard output is where nothing is wanted of a pipe."""

    command: str  # for sh
    status: int  # of sh, in which a signal is 128 and its number
    shown: Text  # at the terminal
    piped: Text | None = None  # in a pipe, where standard output is one
    typed: str = ""
    colour: bool | None = False  # at the terminal; None where either may be
    environment: dict[str, str] = {}


class Outcome(NamedTuple):
    status: int | str
    shown: str
    piped: str


def gone(command: str, reader: str = ":") -> str:
    """A command whose output is read by another that ends at once, or after some lines. What it
    ends with is its status."""
    return f"(sleep 0.2; {command}; echo $? >status) | {reader}; exit $(cat status)"


ROWS = [
    # no file: a terminal gets the help, and what is no terminal is read
    Row("taclint", 0, HELP, colour=None),
    Row("taclint", 0, "", HELP),
    Row("taclint <dead.tac", 0, TYPED_LINES, colour=True),
    Row("taclint <dead.tac", 0, "", TYPED_DEAD),
    Row("taclint </dev/null", 3, "", NO_MAIN),
    Row("taclint <&-", 3, "<stdin>: read fault\n"),
    # what is typed
    Row("taclint -", 0, TYPED_LINES, None, TYPED + END_OF_INPUT, colour=True),
    Row("taclint --error -", 1, "", TYPED_DEAD, TYPED + END_OF_INPUT),
    Row("taclint quiet.tac - dead.tac", 0, "", QUIET + TYPED_DEAD + DEAD, TYPED + END_OF_INPUT),
    Row("taclint -", 3, "", NO_MAIN, END_OF_INPUT),
    # no file, but another word: who types is told that it is read, and a file is not
    Row("taclint --kinds all", 0, READING + TYPED_LINES, None, TYPED + END_OF_INPUT, colour=True),
    Row("taclint --error", 1, READING, TYPED_DEAD, TYPED + END_OF_INPUT),
    Row("taclint --error <dead.tac", 1, "", TYPED_DEAD),
    # several files, and statuses
    Row("taclint quiet.tac", 0, QUIET),
    Row("taclint dead.tac quiet.tac", 0, DEAD_LINES + QUIET, colour=True),
    Row("taclint --error quiet.tac quiet.tac", 0, QUIET + QUIET),
    Row("taclint --error dead.tac quiet.tac", 1, DEAD_LINES + QUIET, colour=True),
    Row(
        "taclint --error dead.tac wrong.tac quiet.tac",
        3,
        DEAD_LINES + WRONG_LINES + QUIET,
        colour=True,
    ),
    Row("taclint quiet.tac none.tac dead.tac", 3, NO_FILE, QUIET + DEAD),
    Row("taclint --kinds some dead.tac", 2, re.compile(r"error: .*--kinds.*--help.*", re.S), ""),
    Row("taclint --no-such-word", 2, re.compile(r"error: .*--no-such-word.*", re.S), ""),
    # colours: none in a pipe or a file, whatever the terminal has, and none where they are refused
    Row("taclint dead.tac wrong.tac", 3, "", DEAD + WRONG, environment={"COLORTERM": "truecolor"}),
    Row("taclint dead.tac >file; cat file", 0, DEAD),
    Row("taclint dead.tac wrong.tac", 3, DEAD_LINES + WRONG_LINES, environment={"NO_COLOR": "1"}),
    Row("taclint dead.tac", 0, DEAD_LINES, colour=True, environment={"NO_COLOR": ""}),
    Row("taclint --color never dead.tac", 0, DEAD_LINES),
    Row("taclint --color always dead.tac", 0, "", DEAD_PAINTED),
    Row("taclint --source dead.tac wrong.tac", 3, "", DEAD_LINES + WRONG_LINES),
    Row("taclint --format json quiet.tac", 0, QUIET_JSON),
    Row("taclint --format json --color always --source quiet.tac", 0, "", QUIET_JSON),
    Row("taclint --help", 0, HELP, environment={"NO_COLOR": "1"}),
    # a picture that is too large to read, and what is none
    Row("tacview <many.tac", 0, MANY_POINTS, re.compile(r"digraph .*}\n", re.S)),
    Row("tacview <dead.tac", 0, "", re.compile(r"digraph .*}\n", re.S)),
    Row("tacview --format report <many.tac", 0, "", re.compile(r"points 2401, .*", re.S)),
    # a reader that goes away: nothing is said by taclint, one line by the others
    Row(gone("taclint many.tac", "head -n 1"), 3, FIRST_OF_MANY),
    Row(gone("taclint many.tac"), 3, ""),
    Row(gone("taclint many.tac many.tac dead.tac"), 3, ""),
    Row(gone("taclint many.tac none.tac"), 3, ""),
    Row(gone("taclint --help"), 3, ""),
    Row(gone("tacflow <many.tac"), 1, "tacflow: write fault\n"),
    Row(gone("tacview <many.tac"), 1, MANY_POINTS + "tacview: write fault\n"),
    # the other programs read what is typed
    Row("tacflow", 0, SMALL, None, FILES["quiet.tac"] + END_OF_INPUT),
    Row("tacview --format report", 0, "", SMALL, FILES["quiet.tac"] + END_OF_INPUT),
    Row("tacflow", 1, "tacflow: 1:1: refusal 6: NoMain\n", "", END_OF_INPUT),
    # an interrupt
    Row("taclint -", 130, "", None, TYPED + INTERRUPT),
    Row("taclint quiet.tac -", 130, "", QUIET, INTERRUPT),
    Row("tacflow", 130, "", None, TYPED + INTERRUPT),
    Row("tacview", 130, "", "", INTERRUPT),
]


def started(row: Row, folder: str) -> tuple[int, int, int]:
    """Starts a row's command in a session of its own: the process, its terminal, and the end of a
    pipe that is read, or -1."""
    reader, writer = os.pipe() if row.piped is not None else (-1, -1)
    process, terminal = pty.fork()
    if process:
        if writer >= 0:
            os.close(writer)
        return process, terminal, reader
    if writer >= 0:
        os.dup2(writer, 1)
    # nothing is shown of what is typed, and lines end as they are written
    modes = termios.tcgetattr(0)
    modes[1] &= ~termios.ONLCR
    modes[3] &= ~termios.ECHO
    termios.tcsetattr(0, termios.TCSANOW, modes)
    signal.signal(signal.SIGPIPE, signal.SIG_DFL)
    os.chdir(folder)
    named = [f'{name}() {{ "{path}" "$@"; }}' for name, path in PROGRAMS.items()]
    script = "\n".join([*named, row.command])
    environment = {"PATH": os.environ["PATH"], "TERM": "xterm-256color", **row.environment}
    os.execve("/bin/sh", ["sh", "-c", script], environment)


def waits(process: int) -> bool:
    """Whether a program that this shell has started sleeps, as one does that waits for input."""
    names = {os.path.basename(path) for path in PROGRAMS.values()}
    try:
        with open(f"/proc/{process}/task/{process}/children", encoding="ascii") as file:
            children = file.read().split()
        for child in children:
            with open(f"/proc/{child}/stat", encoding="utf-8") as file:
                name, state = re.findall(r"\((.*)\) (\w)", file.read())[0]
            if name in names and state == "S":
                return True
    except OSError:  # it has ended
        pass
    return False


def outcome(row: Row, folder: str) -> Outcome:
    """What comes of a row. What is typed is typed where a program waits for it, looked at twice."""
    process, terminal, reader = started(row, folder)
    got = {terminal: b"", reader: b""}
    is_open = [end for end in got if end >= 0]
    begun, waited = time.monotonic(), 0
    while is_open and time.monotonic() < begun + SECONDS:
        waited += waits(process) if waited < 2 else 1
        if waited == 2:
            os.write(terminal, row.typed.encode())
        for end in select.select(is_open, [], [], 0.05)[0]:
            try:
                part = os.read(end, 65536)
            except OSError:  # nobody has the terminal any more
                part = b""
            got[end] += part
            if not part:
                is_open.remove(end)
    if is_open:
        os.kill(process, signal.SIGKILL)
    status = os.waitstatus_to_exitcode(os.waitpid(process, 0)[1])
    for end in got:
        if end >= 0:
            os.close(end)
    text = {end: part.decode("utf-8", "backslashreplace") for end, part in got.items()}
    ended = f"none after {SECONDS} seconds" if is_open else status if status >= 0 else 128 - status
    return Outcome(ended, text[terminal], text[reader])


def is_as_wanted(text: str, wanted: Text) -> bool:
    return text == wanted if isinstance(wanted, str) else wanted.fullmatch(text) is not None


def faults_of(row: Row, got: Outcome) -> Iterator[str]:
    if got.status != row.status:
        yield f"status {got.status}, and not {row.status}"
    if not is_as_wanted(CONTROL.sub("", got.shown), row.shown):
        yield f"shown {got.shown[-300:]!r}"
    if not is_as_wanted(got.piped, row.piped or ""):
        yield f"in the pipe {got.piped[-300:]!r}"
    if row.colour is not None and bool(CONTROL.search(got.shown)) != row.colour:
        yield f"{'no colours' if row.colour else 'colours'} in {got.shown[-300:]!r}"


def main() -> int:
    if sys.argv[1:]:
        print("usage: checks/terminal", file=sys.stderr)
        return 2
    absent = [path for path in PROGRAMS.values() if not os.access(path, os.X_OK)]
    if absent:
        print(f"skipped: not built: {', '.join(absent)}")
        return 0
    failed = 0
    for row in ROWS:
        with tempfile.TemporaryDirectory(prefix="terminal-") as folder:
            for name, text in FILES.items():
                with open(os.path.join(folder, name), "w", encoding="utf-8") as file:
                    file.write(text)
            faults = list(faults_of(row, outcome(row, folder)))
        for fault in faults:
            print(f"failed: {row.command} {row.typed!r}: {fault}")
        failed += bool(faults)
    print(f"{len(ROWS) - failed} passed, {failed} failed")
    return 1 if failed else 0


if __name__ == "__main__":
    sys.exit(main())
