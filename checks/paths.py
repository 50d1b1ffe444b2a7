"""Tries `tacview --format json --paths` on random programs. Each remark that a variable may be
used before it is set has a path, which is walked over the edges that the points' own lines tell:
it begins at the entry of main, each hop begins where the one before ended, it ends at the remark's
point, and no step on it sets the variable. A call that is passed leads into its callee and back
behind the call, and a search of this script's own finds a way through the callee that does not set
the variable. What stands around each other remark is compared with what sets.py finds over the
same edges, and so are the lines of doubts. But for these fields and lines all is as without
--paths. One path of each program is looked for in the picture that marks it. The word N tries N
programs (200). TACVIEW=PROGRAM takes another program than ./tacview. Prints `N passed, M failed`.
"""

from __future__ import annotations

import json
import os
import random
import re
import subprocess
import sys
from collections import Counter

from sets import Graph, Row

HERE = os.path.dirname(os.path.realpath(__file__))
ROOT = os.path.join(HERE, "..")
TACVIEW = os.environ.get("TACVIEW", os.path.join(ROOT, "tacview"))

sys.path.insert(0, os.path.join(ROOT, "bench"))
from tacbench import generators  # noqa: E402


def statement(draw: random.Random, place: int, last: int, callees: list[str]) -> str:
    """A statement of few variables and two expressions, so that much of it is said of the same."""
    kind = draw.random()
    if kind < 0.45:
        expression = draw.choice(["v0 + v1", "v0 + v1", "v1 * v2"])
        return f"v{draw.randrange(6)} = {expression}"
    if kind < 0.65:
        behind = draw.random() < 0.85 and place < last
        return f"if v3 goto L{draw.randint(place + 1 if behind else 0, last)}"
    if kind < 0.75 and callees:
        return "call " + " | ".join(draw.sample(callees, draw.randint(1, len(callees))))
    word = draw.choice(["print", "read"])
    return f"{word} v{draw.randrange(6)}" if kind < 0.9 else f"v{draw.randrange(6)} = 1"


def expressions_of(draw: random.Random) -> bytes:
    """A program of one to three procedures that evaluate two expressions again and again."""
    names = ["main", "f", "g"][: draw.randint(1, 3)]
    lines = []
    for number, name in enumerate(names):
        last = draw.randint(4, 14)
        callees = names if draw.random() < 0.2 else names[number + 1 :]
        lines.append(f"proc {name}")
        for place in range(last):
            lines.append(f"L{place}: {statement(draw, place, last, callees)}")
        lines += [f"L{last}:", "end"]
    return "\n".join([*lines, ""]).encode()


def text_of(seed: int) -> bytes:
    """A program of a few procedures that call each other, up to some hundred points."""
    draw = random.Random(seed)
    if seed % 2:
        return expressions_of(draw)
    keys = {
        "procedures": draw.choice([1, 2, 4, 8]),
        "statements": draw.choice([4, 12, 30]),
        "variables": draw.choice([2, 5, 20]),
        "seed": seed,
    }
    return generators.generate("small", keys)


def written(source: bytes, *words: str) -> str:
    """What tacview writes; it has to end well and say nothing else."""
    done = subprocess.run([TACVIEW, *words], input=source, capture_output=True)
    assert not done.returncode and not done.stderr, (done.returncode, done.stderr.decode())
    return done.stdout.decode()


def rows_of(source: bytes, *words: str) -> list[Row]:
    """The objects of the lines that tacview writes."""
    told = written(source, "--format", "json", "--facts", "none", *words)
    return [json.loads(line) for line in told.splitlines()]


def variable_set(statement: str | None) -> str | None:
    """The variable that a statement of a listing sets."""
    found = re.match(r"(?:read (\S+)$|(\S+) = )", statement or "")
    return (found[1] or found[2]) if found else None


class Program:
    """The flow graph that the lines of the points tell."""

    def __init__(self, rows: list[Row]) -> None:
        self.names: list[str] = rows[0]["procedures"]
        points = [row for row in rows if row["type"] == "point"]
        self.sets = [variable_set(row["statement"]) for row in points]
        self.steps = [[e["to"] for e in row["edges"] if e["kind"] == "step"] for row in points]
        self.calls = [[e["to"] for e in row["edges"] if e["kind"] == "call"] for row in points]
        self.returns = [
            {(e["site"], e["to"]) for e in row["edges"] if e["kind"] == "return"} for row in points
        ]
        self.entry = {row["procedure"]: row["point"] for row in points if row["place"] == 0}
        self.exit = {row["procedure"]: row["point"] for row in points if row["statement"] is None}
        self.known: dict[str, set[str]] = {}

    def passed(self, site: int, callees: set[str]) -> set[int]:
        """The points behind a call, by those of its callees that are among some."""
        entered = {name for name in callees if self.entry[name] in self.calls[site]}
        return {
            to for name in entered for call, to in self.returns[self.exit[name]] if call == site
        }

    def is_kept(self, name: str, variable: str, keeping: set[str]) -> bool:
        """Whether some way through a procedure does not set a variable, calls taking any callee."""
        seen = {self.entry[name]}
        left = [self.entry[name]]
        while left:
            point = left.pop()
            onward = set(self.steps[point]) if self.sets[point] != variable else set()
            for behind in (onward | self.passed(point, keeping)) - seen:
                seen.add(behind)
                left.append(behind)
        return self.exit[name] in seen

    def keeping(self, variable: str) -> set[str]:
        """The procedures with a way through them that does not set the variable."""
        if variable not in self.known:
            keeping: set[str] = set()
            while True:
                more = {n for n in self.names if self.is_kept(n, variable, keeping)}
                if more == keeping:
                    break
                keeping = more
            self.known[variable] = keeping
        return self.known[variable]

    def check_hop(self, hop: Row, variable: str) -> None:
        """A hop goes along edges, and does not set the variable."""
        start = hop["from"]
        if hop["kind"] == "step":
            assert hop["to"] in self.steps[start] and self.sets[start] != variable, hop
        elif hop["kind"] == "enter":
            assert hop["site"] == start and hop["to"] in self.calls[start], hop
        else:
            assert hop["kind"] == "pass" and hop["site"] == start, hop
            callee = self.names[hop["callee"]]
            assert callee in self.keeping(variable), hop
            assert hop["to"] in self.passed(start, {callee}), hop

    def check_path(self, remark: Row) -> None:
        """The hops of a remark lead from the beginning of main to its point."""
        here = self.entry["main"]
        for hop in remark["path"]:
            assert hop["from"] == here, (remark, hop)
            self.check_hop(hop, remark["variable"])
            here = hop["to"]
        assert here == remark["point"], remark


# The fields that a remark of a kind has with --paths alone.
FIELDS = {
    "unset": ["path"],
    "computed": ["last_evaluations", "holders"],
    "busy": ["next_evaluations"],
    "dead": ["next_writes", "may_end_unwritten"],
    "never_reached": ["last_reached", "edges"],
}


def sets_of(graph: Graph, remark: Row) -> Row:
    """What is to stand around a remark, but for its path."""
    point, kind = remark["point"], remark["kind"]
    if kind == "computed":
        e = remark["expression"]
        last = graph.last_evaluations(e, point)
        return {"last_evaluations": last, "holders": graph.holders(e, point)}
    if kind == "busy":
        return {"next_evaluations": graph.next_evaluations(remark["expression"], point)}
    if kind == "dead":
        v = remark["variable"]
        ends = graph.may_end_unwritten(v, point)
        return {"next_writes": graph.next_writes(v, point), "may_end_unwritten": ends}
    if kind == "never_reached":
        found = graph.last_reached(point)
        edges = graph.points[found]["edges"] if found is not None else []
        return {"last_reached": found, "edges": edges}
    return {}


def check_remark(program: Program, graph: Graph, remark: Row, counts: Counter[str]) -> None:
    """Checks what stands around a remark, and takes it away."""
    kind = remark["kind"]
    if kind == "unset":
        program.check_path(remark)
        counts.update(hop["kind"] for hop in remark["path"])
    told = {field: remark.pop(field) for field in FIELDS[kind]}
    expected = sets_of(graph, remark)
    told.pop("path", None)
    assert told == expected, (remark, told, expected)
    counts[kind] += 1
    counts.update(field for field, what in told.items() if what)


def check_doubts(graph: Graph, doubts: list[Row], counts: Counter[str]) -> None:
    """Checks that the doubts are of all assignments that doubt holds back, each with an origin."""
    assert [(row["point"], row["variable"]) for row in doubts] == graph.doubted(), doubts
    for row in doubts:
        assert row["line"] == graph.points[row["point"]]["line"], row
        assert row["doubt"] in graph.endless(row["point"] + 1), row
        counts["doubt"] += 1


def check(seed: int, counts: Counter[str]) -> None:
    """Checks each path of a program, and what stands around its remarks."""
    source = text_of(seed)
    rows = rows_of(source, "--paths")
    unset = [dict(row) for row in rows if row.get("kind") == "unset"]
    program, graph = Program(rows), Graph(rows)
    doubts = [row for row in rows if row["type"] == "doubt"]
    end = rows.pop()
    assert end["type"] == "end", end
    rows = rows[: len(rows) - len(doubts)]
    assert all(row["type"] != "doubt" for row in rows), "doubts stand behind all else but the end"
    for row in rows:
        if row["type"] == "remark":
            check_remark(program, graph, row, counts)
    if unset:
        check_picture(source, unset[seed % len(unset)])
    check_doubts(graph, doubts, counts)
    assert [*rows, end] == rows_of(source), "the lines but for what --paths adds"


def marks_of(remark: Row) -> str:
    """The lines by which a picture marks the path of a remark."""
    marks = ""
    for hop in remark["path"]:
        dashed = ", style=dashed, arrowhead=normal" if hop["kind"] == "pass" else ""
        marks += f"  {hop['from']} [color=blue, penwidth=3];\n"
        marks += f"  {hop['from']} -> {hop['to']} [color=blue, penwidth=3{dashed}];\n"
    return marks + f"  {remark['point']} [color=blue, penwidth=3];\n"


def check_picture(source: bytes, remark: Row) -> None:
    """The picture with the path of a remark is the plain one, with marks before its end."""
    plain = written(source).removesuffix("}\n")
    place = f"{remark['line']}:{remark['variable']}"
    got = written(source, "--because", place)
    assert got == "strict " + plain + marks_of(remark) + "}\n", (place, got)


# What the programs have to have tried.
TRIED = ["step", "enter", "pass", *FIELDS, "doubt", "next_writes", "may_end_unwritten", "holders"]


def main(words: list[str]) -> int:
    count = int(words[0]) if words else 200
    counts: Counter[str] = Counter()
    failed = 0
    for seed in range(1, count + 1):
        try:
            check(seed, counts)
        except AssertionError as error:
            failed += 1
            print(f"the program of seed {seed}: {error}")
    if min(counts[what] for what in TRIED) == 0:
        failed += 1
        print(f"too few programs to try all of it: {dict(counts)}")
    tried = ", ".join(f"{counts[what]} {what}" for what in [*FIELDS, "doubt"])
    print(f"{count - failed} passed, {failed} failed ({tried})")
    return 1 if failed else 0


if __name__ == "__main__":
    sys.exit(main(sys.argv[1:]))
