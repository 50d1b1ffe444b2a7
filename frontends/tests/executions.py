"""Tries check-c by taclint: what it tells beside what it tells by tacview, shares, and lines of
taclint's that can't be used. `run` calls this. Not verified.
"""

from __future__ import annotations

import json
import os
import tempfile
from collections.abc import Iterator

from words import HERE, NOTED, ONE_REMARK, UNSURE, run

from checking import programs  # words has set the path

# A procedure that nothing leads to never ends, and leads back behind an assignment.
DOUBTED = """static int counted(int n)
{
    int gone = n * 2;
    return n + 1;
}
static void spin(int n)
{
    for (;;)
        n = counted(n);
}
int main(int argc, char **argv)
{
    return counted(argc);
    spin(argc);
}
"""
NEVER = [(9, "never reached"), (14, "never reached")]
TOLD = [(3, "assignment to 'gone' is dead"), *NEVER]
# Tests that do not matter stand between the one that does and the use: more than taclint tells of.
TESTS = 50
LONG = f"""int f(int n)
{{
    int late, sum = 0;
    if (n > 3)
        late = 3;
{"".join(f"    if (n == {number + 9}) sum += n;" + chr(10) for number in range(TESTS))}\
    return late + sum;
}}
"""
BEGINS = '{"type":"file","file":"standard input","version":1}\n'
REMARK = (
    '{"type":"remark","file":"standard input","line":1,"column":1,"kind":"never-called",'
    '"words":"procedure f is never called","procedure":"f"}\n'
)
ENDS = '{"type":"end","file":"standard input","remarks":1}\n'
ERROR = (
    '{"type":"error","file":"standard input","line":3,"column":7,"refusal":2,'
    '"words":"the statement is not complete"}\n'
)
# What stands for taclint writes and says, and its status; what check-c says of it.
ANSWERS = [
    (BEGINS + REMARK + ENDS, "", 0, ""),
    (BEGINS.replace('n":1', 'n":2') + REMARK + ENDS, "", 0, "lines of the version 2, and this"),
    (BEGINS.replace(',"version":1', "") + ENDS, "", 0, "lines of the version None, and this"),
    (BEGINS + REMARK, "", 0, "taclint's lines are cut short"),
    ("", "", 0, "taclint's lines are cut short"),
    (BEGINS + ENDS, "", 0, "taclint tells 0 remarks of 1"),
    (REMARK + ENDS, "", 0, "do not begin with the one of their file"),
    ("1: x is dead\n", "", 0, "what are no lines of its own: 1: x is dead"),
    (BEGINS + ERROR, "", 3, "taclint failed with the status 3: 3:7: the statement is not complete "),
    ("", "no memory", 3, "taclint failed with the status 3: no memory"),
]


def told(words: str, folder: str, **environment: str) -> list[tuple[int, str]]:
    """The lines and texts of a run's remarks."""
    done = run(f"{words} --format json", folder, env=os.environ | environment)
    return [(row["line"], row["message"]) for row in map(json.loads, done.stdout.splitlines())]


def wrong_doubts(folder: str) -> Iterator[str]:
    """What is wrong with what code takes away that nothing leads to."""
    for words, wanted in (
        ("doubted.c", NEVER),
        ("--executions doubted.c", TOLD),
        ("--executions --whole doubted.c", TOLD),
        ("--executions --kinds dead doubted.c", TOLD[:1]),
    ):
        if told(words, folder) != wanted:
            yield f"{words}: {told(words, folder)}"
    run("--executions --keep kept doubted.c", folder)
    if sorted(os.listdir(os.path.join(folder, "kept"))) != [
        "program.lints",
        "program.map",
        "program.tac",
    ]:
        yield f"--keep: {os.listdir(os.path.join(folder, 'kept'))}"


def wrong_agreement(folder: str) -> Iterator[str]:
    """What is wrong where nothing is in doubt: both tell the same, also the ways."""
    for name in ("ways.c", "endless.c"):
        words = f"--whole --kinds all {os.path.join(HERE, name)}"
        plain, found = run(words, folder), run(f"--executions {words}", folder)
        if found.stdout != plain.stdout or "may be used before" not in plain.stdout:
            yield f"{words}: {found.stdout}{found.stderr}"


def wrong_ways(folder: str) -> Iterator[str]:
    """What is wrong with the way to what is unset: also a long one, which taclint tells piece by
    piece; and it is asked for where it is told, and not else.
    """
    counting, count = os.path.join(folder, "counting"), os.path.join(folder, "count")
    write(counting, f"echo >>'{count}'\nexec '{programs.path_of('taclint')}' \"$@\"\n")
    long_use = (f"{TESTS + 6}", "'late' may be used before it is set")
    # a way of 50 tests, the one that matters and the call has 52 turns; 20 are told at a time, the
    # first of which is the call
    for words, wanted, starts in (
        ("dead unsure.c", None, 1),
        ("maybe-unset unsure.c", NOTED, 2),
        ("maybe-unset long.c", [(4, 8, "on the way the test is not taken")], 4),
    ):
        open(count, "w").close()
        env = dict(os.environ, TACLINT=counting)
        done = run(f"--executions --format json --kinds {words}", folder, env=env)
        rows = [json.loads(line) for line in done.stdout.splitlines()]
        noted = [[(at["line"], at["column"], at["message"]) for at in row["notes"]] for row in rows]
        if noted != ([] if wanted is None else [wanted]) or os.path.getsize(count) != starts:
            yield f"{words}: {os.path.getsize(count)} starts of taclint: {noted} {done.stderr}"
        if "long" in words and [(str(row["line"]), row["message"]) for row in rows] != [long_use]:
            yield f"{words}: {rows}"


def wrong_answers(folder: str) -> Iterator[str]:
    """What is wrong where taclint's answer can't be used, or where taclint is not there."""
    path = os.path.join(folder, "standing")
    for written, said, status, says in ANSWERS:
        write(path, f"cat >/dev/null\ncat <<'E'\n{written}E\necho '{said}' >&2\nexit {status}\n")
        done = run("--executions one.c", folder, env=dict(os.environ, TACLINT=path))
        if done.returncode != (3 if says else 0) or says not in done.stderr or done.stdout:
            yield f"{written}: status {done.returncode}: {done.stderr}"
    nowhere = os.path.join(folder, "nowhere")
    done = run("--executions one.c", folder, env=dict(os.environ, TACLINT=nowhere))
    if done.returncode != 3 or f"check-c: {nowhere}: No such file" not in done.stderr:
        yield f"no taclint: status {done.returncode}: {done.stderr}"
    # each asks for its own program alone
    for words, name in (("", "TACLINT"), ("--executions ", "TACVIEW")):
        done = run(f"{words}one.c", folder, env=dict(os.environ, **{name: nowhere}))
        if done.returncode or "1 remark on 1 file" not in done.stderr:
            yield f"{words}without {name}: status {done.returncode}: {done.stderr}"


def wrong_shares(folder: str) -> Iterator[str]:
    """What is wrong with shares: facts say how they were made, and a merge takes one kind alone;
    a cache has both, and a linked program is analysed where it is merged.
    """
    for words, name in (("--executions ", "by"), ("", "plain")):
        run(f"{words}--emit {name}.facts doubted.c", folder)
        run(f"{words}--together --emit {name}.code doubted.c", folder)
    for words, status, says in (
        ("--merge by.facts", 2, "by.facts was made with --executions: give --emit and --merge"),
        ("--executions --merge plain.facts", 2, "plain.facts was made without --executions: give"),
        ("--executions --whole --merge by.facts", 2, "by.facts was made without --whole"),
    ):
        done = run(words, folder)
        if done.returncode != status or says not in done.stderr or done.stdout:
            yield f"{words}: status {done.returncode}: {done.stderr}"
    for words, wanted in (
        ("--executions --merge by.facts", TOLD),
        ("--merge plain.facts", NEVER),
        ("--executions --together --merge plain.code", TOLD),
        ("--together --merge by.code", NEVER),
        ("--executions --cache cache doubted.c", TOLD),
        ("--cache cache doubted.c", NEVER),
        ("--executions --cache cache doubted.c", TOLD),
    ):
        if told(words, folder) != wanted:
            yield f"{words}: {told(words, folder)}"


def write(path: str, text: str) -> None:
    """Writes a script of the shell."""
    with open(path, "w", encoding="utf-8") as file:
        file.write(f"#!/bin/sh\n{text}")
    os.chmod(path, 0o755)


def differences() -> list[list[str]]:
    """What is wrong, for each group of trials the lines that say so."""
    wrong = []
    files = {"doubted.c": DOUBTED, "unsure.c": UNSURE, "long.c": LONG, "one.c": ONE_REMARK}
    for group in (wrong_doubts, wrong_agreement, wrong_ways, wrong_answers, wrong_shares):
        with tempfile.TemporaryDirectory() as folder:
            for name, text in files.items():
                with open(os.path.join(folder, name), "w", encoding="utf-8") as file:
                    file.write(text)
            wrong.append(list(group(os.path.realpath(folder))))
    return wrong
