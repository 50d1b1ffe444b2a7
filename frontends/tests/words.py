"""Tries the words of check-c, its formats, and what it does where something fails: `run` calls
this. Not verified.
"""

from __future__ import annotations

import json
import os
import re
import signal
import subprocess
import sys
import tempfile
import time
from collections import Counter
from collections.abc import Iterator
from typing import TYPE_CHECKING, Any

HERE = os.path.dirname(os.path.realpath(__file__))
sys.path.insert(0, os.path.join(HERE, ".."))

from checking import analysis, programs, shares
from checking.compiling import Input
from checking.remark import KINDS
from checking.workers import Processes

if TYPE_CHECKING:
    from checking.analysis import Outcome

CHECK = os.path.join(HERE, "..", "check-c")
ONE_REMARK = (
    "int printf(const char *, ...);\nint main(int c, char **v)\n{\n\tint gone = c * 2;\n"
    "    return 0;\n}\n"
)
BROKEN = "int main(void) { return x; }\n"
LIBRARY = "int f(int n)\n{\n    int gone = n * 2;\n    return n;\n}\n"
# A local that may be unset, and what is noted of it: the tests on the way, then other uses.
UNSURE = """int f(int n)
{
    int late;
    if (n > 3)
        late = 3;
    if (n)
        n = late;
    return n + late;
}
"""
NOTED = [
    (4, 8, "on the way the test is not taken"),
    (6, 8, "on the way the test is taken"),
    (8, 14, "used here too"),
]
# A program of which a file is missing, though not the C library's.
CALLER = """#include <stdlib.h>
int printf(const char *, ...);
int helper(int n);
int *
other(int n);
extern int absent(void) __attribute__((weak));
/* what sorts is
   the usual qsort(v, c) */
int main(int c, char **v)
{
    qsort(v, c, 1, 0);
    printf("%d", absent());
    return helper(c) + *other(c);
}
"""
FILES = {
    "caller.c": CALLER,
    "one.c": ONE_REMARK,
    "broken.c": BROKEN,
    "library.c": LIBRARY,
    "unsure.c": UNSURE,
    "empty.c": "",
    "other.txt": "x",
}

# The words, the status, and what standard error has.
CASES = [
    ("", 2, r"check-c: no C file is named; see check-c --help$"),
    ("--nonsense one.c", 2, r"check-c: --nonsense is no option;"),
    ("--kinds dead,nothing one.c", 2, r"check-c: nothing is no kind: dead, dead-initial, "),
    ("--kinds= one.c", 2, r"check-c: nothing is no kind"),
    ("--kinds dead --kinds dead one.c", 2, r"--kinds is given twice"),
    ("--format xml one.c", 2, r"--format is one of text, json, sarif, html"),
    ("--whole --together one.c", 2, r"give one of them"),
    ("--whole library.c", 2, r"--whole needs the file that has main"),
    ("-x c++ one.c", 2, r"-x c\+\+: only C is taken"),
    ("-xc++ one.c", 2, r"only C is taken"),
    ("-E one.c", 2, r"-E has gcc write no code"),
    ("-fblocks one.c", 3, r"one.c: gcc failed: .*-fblocks"),
    ("--target=arm one.c", 2, r"--target=arm is no option"),
    ("-fsyntax-only one.c", 2, r"-fsyntax-only has gcc write no code"),
    ("-j 0 one.c", 2, r"-j takes a number"),
    ("-j", 2, r"-j takes a word behind it"),
    ("--cluster x one.c", 2, r"--cluster (needs Dask's distributed|x: missing port number)"),
    ("other.txt", 2, r"other.txt is no C file"),
    ("folder.c", 2, r"folder.c is a folder"),
    ("-p nowhere", 2, r"nowhere: No such file or directory"),
    ("-p one.c", 2, r"one.c is no compilation database"),
    ("--baseline one.c one.c", 2, r"one.c is no baseline"),
    ("missing.c", 3, r"check-c: missing.c: gcc failed: "),
    ("broken.c", 3, r"check-c: broken.c: gcc failed: broken.c:1:25: error: "),
    ("empty.c", 0, r"check-c: 0 remarks on 1 file$"),
    ("one.c", 0, r"check-c: 1 remark on 1 file: 1 dead$"),
    ("--error one.c", 1, r"1 remark on"),
    ("--error --kinds never one.c", 0, r"0 remarks on"),
    ("-x c -j2 -o x.o -MF y.d -I . -DX=1 -std=gnu11 one.c z.o -lm", 0, r"1 remark on 1 file"),
    ("--whole one.c library.c", 0, r"2 remarks on 2 files: 1 dead, 1 never"),
    ("--whole caller.c", 0, r"note: no file has a body of 'helper' and 1 more, which these files"),
    ("--together caller.c", 0, r"^check-c: (note: tac.*\ncheck-c: )?0 remarks on 1 file$"),
    ("--whole one.c", 0, r"^check-c: (note: tac.*\ncheck-c: )?1 remark on 1 file: 1 dead$"),
    ("--together one.c library.c", 0, r"2 remarks on 2 files: 2 dead"),
    ("one.c library.c one.c", 0, r"2 remarks on 2 files: 2 dead"),
    ("one.c broken.c library.c", 3, r"(?s)broken.c: gcc failed.*2 remarks on 3 files: 2 dead"),
    (
        "--together one.c broken.c library.c",
        3,
        r"(?s)broken.c: gcc failed.*2 remarks on 3 files: 2 dead",
    ),
    (
        "--whole one.c broken.c library.c",
        3,
        r"(?s)the rest is not taken as the whole program.*2 remarks on 3 files: 2 dead",
    ),
    ("--version", 0, r"$"),
]
# The numbers of the kinds in CWE.
WEAKNESSES = {
    **dict.fromkeys(("dead", "dead-initial", "dead-last"), "563"),
    **dict.fromkeys(("unset", "maybe-unset"), "457"),
    "never": "561",
    **dict.fromkeys(("computed", "busy"), ""),
}
# What clang's words in a database are, and which of them gcc does not know.
OTHERS_COMMAND = (
    "clang -Weverything -fblocks --target=arm-none-eabi -target arm -mthumb -march=armv7-a "
    "-Xclang -x -specs=not.specs -include there.h -specs=mine.specs -fauto-profile -Wp,-MD,x.d "
    "-c library.c"
)
LEFT_OUT = (
    "-target arm -Xclang -x -specs=not.specs -Weverything -fblocks --target=arm-none-eabi "
    "-mthumb -march=armv7-a"
)
# Words of the command that ask for files or take them.
FILE_WORDS = (
    "-Wp,-MD,x.d,-DK",
    "-Xpreprocessor -MD -Xpreprocessor x.d",
    "-include there.h",
    "--specs=mine.specs",
)
SHOWN = """one.c:4:6: warning: assignment to 'gone' is dead [tacflow-dead]
    4 | \tint gone = c * 2;
      | \t    ^
"""


def run(words: str, folder: str, **parts: Any) -> subprocess.CompletedProcess[str]:
    """Runs check-c in a folder."""
    parts = {"stdout": subprocess.PIPE, "stderr": subprocess.PIPE} | parts
    return subprocess.run(
        [sys.executable, CHECK, *words.split()], cwd=folder, text=True, check=False, **parts
    )


def wrong_cases(folder: str) -> Iterator[str]:
    """The cases of which the outcome is another one."""
    for words, status, pattern in CASES:
        done = run(words, folder)
        if (
            done.returncode != status
            or not re.search(pattern, done.stderr.strip())
            or status == 2
            and done.stderr.count("\n") != 1
        ):
            yield f"check-c {words}: status {done.returncode}: {done.stderr.strip()}"


def wrong_forms(folder: str) -> Iterator[str]:
    """What is wrong with the forms of remarks."""
    if run("one.c", folder).stdout != SHOWN:
        yield f"text: {run('one.c', folder).stdout}"
    rows = [
        json.loads(line)
        for line in run("--format json one.c library.c", folder).stdout.splitlines()
    ]
    if [
        (row["file"], row["line"], row["column"], row["kind"], row["function"]) for row in rows
    ] != [("library.c", 3, 9, "dead", "f"), ("one.c", 4, 6, "dead", "main")]:
        yield f"json: {rows}"


def wrong_ways(folder: str) -> Iterator[str]:
    """What is wrong with the way to what is unset: its notes stand in its order in each format, and
    tacview is asked for it only where it is told.
    """
    words = "--kinds maybe-unset unsure.c --format"
    rows = [json.loads(line) for line in run(f"{words} json", folder).stdout.splitlines()]
    noted = [[(at["line"], at["column"], at["message"]) for at in row["notes"]] for row in rows]
    results = json.loads(run(f"{words} sarif", folder).stdout)["runs"][0]["results"]
    related = [at["message"]["text"] for at in results[0]["relatedLocations"]]
    text = run(f"{words} text", folder).stdout
    if noted != [NOTED] or related != [said for _, _, said in NOTED] or ": note: on" not in text:
        yield f"ways: {noted} {related} {text}"
    counting, count = os.path.join(folder, "counting"), os.path.join(folder, "count")
    with open(counting, "w", encoding="utf-8") as file:
        file.write(f"#!/bin/sh\necho >>'{count}'\nexec '{programs.path_of('tacview')}' \"$@\"\n")
    os.chmod(counting, 0o755)
    for kinds, wanted in (("dead,unset", 1), ("dead,maybe-unset", 2)):
        env = dict(os.environ, TACVIEW=counting)
        run(f"--kinds {kinds} unsure.c", folder, env=env)
        with open(count, encoding="utf-8") as file:
            starts = len(file.readlines())
        os.remove(count)
        if starts != wanted:
            yield f"{kinds}: {starts} starts of tacview"


def wrong_sarif(folder: str) -> Iterator[str]:
    """What is wrong with SARIF: the place of a result, the rules with their numbers and help."""
    sarif = json.loads(run("--format sarif one.c", folder).stdout)["runs"][0]
    result, rules = sarif["results"][0], sarif["tool"]["driver"]["rules"]
    place = result["locations"][0]["physicalLocation"]
    rule = rules[result["ruleIndex"]]
    base = sarif["originalUriBaseIds"]["%SRCROOT%"]["uri"]
    if (
        rule["id"] != "tacflow-dead"
        or place["artifactLocation"] != {"uri": "one.c", "uriBaseId": "%SRCROOT%"}
        or place["region"] != {"startLine": 4, "startColumn": 6}
        or base != f"file://{folder}/"
    ):
        yield f"sarif: {result} {base}"
    none = [{"target": {"id": ""}}]
    numbers = [rule.get("relationships", none)[0]["target"]["id"] for rule in rules]
    found = dict(zip((rule["id"].removeprefix("tacflow-") for rule in rules), numbers))
    if found != WEAKNESSES or not rule["help"]["markdown"].startswith("**dead**"):
        yield f"sarif's rules: {found} {rule}"


def wrong_page(folder: str) -> Iterator[str]:
    """What is wrong with a page: each line of the source, and the remarks at theirs."""
    page = run("--format html one.c", folder).stdout
    rows = page.partition('id="lines">\n')[2].partition("</script>")[0].splitlines()
    told = [json.loads(row) for row in rows]
    points = [row["statement"] for row in told if row["type"] == "point"]
    with open(os.path.join(folder, "one.c"), encoding="utf-8") as file:
        source = file.read().splitlines()
    remarks = [row for row in told if row["type"] == "remark"]
    known = [json.loads(row) for row in run("--format json one.c", folder).stdout.splitlines()]
    if points != source or any("<" in row for row in rows):
        yield f"a page's lines: {points}"
    if [(row["point"] + 1, row["line"]) for row in remarks] != [
        (row["line"], row["line"]) for row in known
    ]:
        yield f"a page's remarks: {remarks}"


def wrong_prints(folder: str) -> Iterator[str]:
    """What is wrong with SARIF's fingerprints: they stay where lines move, and no two are alike."""

    def prints() -> list[str]:
        results = json.loads(run("--format sarif one.c", folder).stdout)["runs"][0]["results"]
        return [result["partialFingerprints"]["tacflow/v1"] for result in results]

    first = prints()
    with open(os.path.join(folder, "one.c"), "w", encoding="utf-8") as file:
        file.write("\n" + ONE_REMARK.replace("return 0;", "gone = 3; return 0;"))
    later = prints()
    if len(first) != 1 or len(set(later)) != 2 or first[0] not in later:
        yield f"fingerprints: {first} {later}"


def wrong_since(folder: str) -> Iterator[str]:
    """What is wrong with --since: only lines that changed are told of."""

    def git(*words: str) -> None:
        subprocess.run(
            ["git", "-c", "user.name=x", "-c", "user.email=x@y.example", *words],
            cwd=folder,
            check=True,
            capture_output=True,
        )

    if run("--since HEAD one.c", folder).returncode != 2:
        yield "--since without a repository"
    git("init", "-q")
    git("add", "one.c", "library.c")
    git("commit", "-q", "-m", "first")
    with open(os.path.join(folder, "library.c"), "w", encoding="utf-8") as file:
        file.write(
            LIBRARY.replace("return n;", "n = 3;\n    return 2;")
            + "int g(int n)\n{\n    n = 4;\n    return 1;\n}\n"
        )
    told = run("--since HEAD --format json one.c library.c", folder)
    places = [(row["file"], row["line"]) for row in map(json.loads, told.stdout.splitlines())]
    if places != [("library.c", 4), ("library.c", 9)]:
        yield f"--since: {places} {told.stderr}"
    for words, pattern in (
        ("--since nothing one.c", "--since: git: "),
        ("--since=-p one.c", "-p is no revision"),
    ):
        done = run(words, folder)
        if done.returncode != 2 or pattern not in done.stderr:
            yield f"{words}: {done.returncode} {done.stderr}"


def wrong_baselines(folder: str) -> Iterator[str]:
    """What is wrong with baselines: known remarks are not told again, also on other lines; new ones
    are.
    """
    run("--write-baseline known one.c", folder)
    with open(os.path.join(folder, "one.c"), "w", encoding="utf-8") as file:
        file.write("\n\n" + ONE_REMARK.replace("return 0;", "c = 3; return 0;"))
    told = run("--baseline known one.c", folder)
    if [line for line in told.stdout.splitlines() if "warning" in line] != [
        "one.c:7:7: warning: assignment to 'c' is dead [tacflow-dead]"
    ]:
        yield f"baseline: {told.stdout}{told.stderr}"


def wrong_databases(folder: str) -> Iterator[str]:
    """What is wrong with a compilation database."""
    entries = [
        {
            "directory": os.path.join(folder, "build"),
            "file": "../library.c",
            "command": "gcc -O2 -g -DX='a b' -c -o l.o ../library.c",
        },
        {
            "directory": folder,
            "file": "one.c",
            "arguments": ["ccache", "gcc", "-MD", "-MF", "one.d", "-c", "one.c", "-o", "one.o"],
        },
        {"directory": folder, "file": "x.cc", "command": "g++ -c x.cc"},
    ]
    with open(os.path.join(folder, "compile_commands.json"), "w", encoding="utf-8") as file:
        json.dump(entries, file)
    for words, names in (
        ("-p .", {"library.c", "one.c"}),
        ("-p compile_commands.json -j 2 library.c", {"library.c"}),
        ("-p . --together", {"library.c", "one.c"}),
    ):
        told = run(words + " --format json", folder)
        if (
            told.returncode
            or {json.loads(line)["file"] for line in told.stdout.splitlines()} != names
        ):
            yield f"check-c {words}: {told.stdout}{told.stderr}"


def wrong_others_words(folder: str) -> Iterator[str]:
    """What is wrong with another compiler's words, or those that ask for files."""
    entry = {"directory": folder, "file": "library.c", "command": OTHERS_COMMAND}
    for name, text in (
        ("compile_commands.json", json.dumps([entry])),
        ("there.h", "#define n m\n"),
        ("mine.specs", "*cpp:\n+ -DK\n\n"),
    ):
        with open(os.path.join(folder, name), "w", encoding="utf-8") as file:
            file.write(text)
    for words, wanted in (("-p .", set()), ("-p . --verbose", set(LEFT_OUT.split()))):
        done = run(words, folder)
        named = re.search("left out, as gcc does not know them: (.*)", done.stderr)
        found = set(named[1].split()) if named else set()
        if "1 remark on 1 file" not in done.stderr or found != wanted:
            yield f"{words}: {done.stderr}"
    for words in FILE_WORDS:
        done = run(words + " library.c", folder)
        if "1 remark on 1 file" not in done.stderr or os.path.exists(os.path.join(folder, "x.d")):
            yield f"{words}: {done.stderr}"


def make_parts(folder: str) -> None:
    """Makes two files of many functions, with a header of both."""
    header = (
        "static int state;\nstatic inline void set(int x)\n{\n    int twice = x * 2;\n"
        "    state = x;\n}\n"
    )
    for name, own in (("first", "set(n); return state;"), ("second", "set(n); return n;")):
        functions = "".join(
            f"int {name}{number}(int n)\n{{\n    int gone = n * 2;\n    return n;\n}}\n"
            for number in range(150)
        )
        with open(os.path.join(folder, name + ".c"), "w", encoding="utf-8") as file:
            file.write(f'#include "parts.h"\nint {name}(int n) {{ {own} }}\n{functions}')
    with open(os.path.join(folder, "parts.h"), "w", encoding="utf-8") as file:
        file.write(header)


def wrong_parts(folder: str) -> Iterator[str]:
    """What is wrong where a program is analysed in parts: a header's remark holds in the copies of
    all parts, or is not told.
    """
    make_parts(folder)
    for weights in ((1, 1, 10), (10, 1, 1), (1, 10), (5, 1, 1, 9)):
        halves = analysis.cut(list(range(len(weights))), dict(enumerate(weights)), 2)
        if len(halves) != 2 or sum(halves, []) != list(range(len(weights))):
            yield f"halves of {weights}: {halves}"
    files = [os.path.join(folder, name) for name in ("first.c", "second.c")]
    for processes in (1, 2):
        outcome = in_parts(files, processes, MANY_STATEMENTS=100, PART=300)
        places = Counter(
            (os.path.basename(remark.file), remark.text)
            for remark in outcome.remarks.values()
            if remark.kind == "dead"
        )
        gone = "assignment to 'gone' is dead"
        is_noted = any("analysed in parts" in note for note in outcome.notes)
        if (
            places
            != {
                ("first.c", gone): 150,
                ("second.c", gone): 150,
                ("parts.h", "assignment to 'twice' is dead"): 1,
            }
            or not is_noted
        ):
            yield f"parts by {processes}: {places} {outcome.notes} {outcome.faults}"


def in_parts(files: list[str], processes: int = 1, **sizes: int) -> Outcome:
    """What comes of files as one program where less is taken to be a large one."""
    usual = {name: getattr(analysis, name) for name in sizes}
    making = shares.Making(True, False, frozenset(KINDS))
    given = shares.all_made(making, [Input(file) for file in files], Processes(1))
    vars(analysis).update(sizes)
    outcome = shares.linked(given, False, making, Processes(processes))
    vars(analysis).update(usual)
    return outcome


def wrong_large(folder: str) -> Iterator[str]:
    """What is wrong where a function by itself is too large: the others are analysed all the same,
    and it reads what it may.
    """
    path = os.path.join(folder, "large.c")
    with open(path, "w", encoding="utf-8") as file:
        file.write(
            "static int kept, lost;\n"
            + LIBRARY
            + "void g(int n)\n{\n    kept = n;\n    lost = n;\n}\n"
            + "int h(void)\n{\n"
            + "    kept += 1;\n" * 100
            + "    return kept;\n}\n"
        )
    outcome = in_parts([path], MANY_STATEMENTS=100, HOPELESS=200)
    told = sorted(
        (remark.line, remark.text) for remark in outcome.remarks.values() if remark.kind == "dead"
    )
    is_noted = any("'h' is left out" in note for note in outcome.notes)
    if (
        told != [(4, "assignment to 'gone' is dead"), (10, "assignment to 'lost' is dead")]
        or not is_noted
    ):
        yield f"a large function: {told} {outcome.notes} {outcome.faults}"


def wrong_ends(folder: str) -> Iterator[str]:
    """What is wrong where the answer can't be written, or where the run is interrupted."""
    with open("/dev/full", "w", encoding="utf-8") as full:
        done = run("one.c", folder, stdout=full)
    if done.returncode != 3 or done.stderr != "check-c: standard output: No space left on device\n":
        yield f"a full device: status {done.returncode}: {done.stderr}"
    reader, writer = os.pipe()
    os.close(reader)
    done = run("one.c", folder, stdout=writer)
    os.close(writer)
    if done.returncode != 3 or done.stderr != "check-c: standard output: Broken pipe\n":
        yield f"a closed pipe: status {done.returncode}: {done.stderr}"
    slow, begun = os.path.join(folder, "slow"), os.path.join(folder, "begun")
    with open(slow, "w", encoding="utf-8") as file:
        file.write(f"#!/bin/sh\n: >'{begun}'\nexec sleep 20\n")
    os.chmod(slow, 0o755)
    for words in ("one.c", "-j2 one.c library.c"):
        started = subprocess.Popen(
            [sys.executable, CHECK, *words.split()],
            cwd=folder,
            stderr=subprocess.PIPE,
            text=True,
            env=dict(os.environ, TACVIEW=slow),
            start_new_session=True,
            preexec_fn=lambda: signal.signal(signal.SIGINT, signal.SIG_DFL),
        )  # a shell may have it ignored
        while started.poll() is None and not os.path.exists(begun):
            time.sleep(0.1)
        os.killpg(started.pid, signal.SIGINT)
        told = started.communicate()[1]
        os.remove(begun)
        if started.returncode != 130 or told != "check-c: interrupted\n":
            yield f"an interrupt of {words}: status {started.returncode}: {told}"


def wrong_losses(folder: str) -> Iterator[str]:
    """What is wrong where one of a run's processes is killed: it ends, and says so."""
    slow, begun = os.path.join(folder, "slow"), os.path.join(folder, "begun")
    with open(slow, "w", encoding="utf-8") as file:
        file.write(f"#!/bin/sh\n: >'{begun}'\nexec sleep 2\n")
    os.chmod(slow, 0o755)
    with subprocess.Popen(
        [sys.executable, CHECK, "-j2", "one.c", "library.c"],
        cwd=folder,
        stderr=subprocess.PIPE,
        text=True,
        env=dict(os.environ, TACVIEW=slow),
    ) as started:
        while started.poll() is None and not os.path.exists(begun):
            time.sleep(0.1)
        with open(f"/proc/{started.pid}/task/{started.pid}/children", encoding="ascii") as file:
            os.kill(int(file.read().split()[0]), signal.SIGKILL)
        told = started.communicate(timeout=60)[1]
    if started.returncode != 3 or "a process of this run was killed" not in told:
        yield f"a process is killed: status {started.returncode}: {told}"


def differences() -> list[list[str]]:
    """What is wrong, for each group of trials the lines that say so."""
    wrong = []
    groups = (
        wrong_cases,
        wrong_forms,
        wrong_ways,
        wrong_sarif,
        wrong_page,
        wrong_prints,
        wrong_since,
        wrong_baselines,
        wrong_databases,
        wrong_others_words,
        wrong_parts,
        wrong_large,
        wrong_ends,
        wrong_losses,
    )
    for group in groups:
        with tempfile.TemporaryDirectory() as folder:
            os.mkdir(os.path.join(folder, "folder.c"))
            os.mkdir(os.path.join(folder, "build"))
            for name, text in FILES.items():
                with open(os.path.join(folder, name), "w", encoding="utf-8") as file:
                    file.write(text)
            wrong.append(list(group(os.path.realpath(folder))))
    return wrong
