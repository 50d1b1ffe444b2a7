"""Tries tacview --steps on each procedure of each program of examples/. Gen and kill of each
statement are found anew in the lines of --changes, and each round is worked out from the one before:
the points that it changes, and what came to their sets and went. The first round that changes nothing
has to be the last, and leave the sets of the lines of --changes. A page has the lines of both. A
procedure of more than 200 points is refused. TACVIEW=/path/to/program takes another program than
./tacview. Prints `N passed, M failed`."""

from __future__ import annotations

import json
import os
import subprocess
import sys

from views import ANALYSES, EXAMPLES, TACVIEW, Row, check_schema, objects, run

MOST = 200
FORWARD = ("reach", "avail")
MUST = ("avail", "busy")


class Procedure:
    """A procedure by the lines of --changes: its points, their sets, and what their statements do."""

    def __init__(self, source: bytes, name: str) -> None:
        words = ["--changes", "--procedure", name, "--facts", "all"]
        self.program, points, _ = objects(source, *words)
        self.points = {point["point"]: point for point in points}
        self.first, self.end = min(self.points), max(self.points)
        self.tables = {analysis: self.table(analysis) for analysis in ANALYSES}
        self.returns = {
            number + 1 for number, point in self.points.items() if self.is_call(point)
        }
        self.owned: dict[tuple[str, int], tuple[set[int], set[int]]] = {}

    @staticmethod
    def is_call(point: Row) -> bool:
        """Whether the statement at a point is a call."""
        return bool(point["parts"]) and point["parts"]["kind"] == "call"

    def table(self, analysis: str) -> dict[int, set[int]]:
        """The sets of an analysis by point."""
        held: set[int] = set()
        sets = {}
        for number in sorted(self.points):
            facts = self.points[number][analysis]
            held = (held - set(facts["went"])) | set(facts["came"])
            sets[number] = held
        return sets

    def has_path(self, analysis: str, number: int) -> bool:
        """Whether a valid path leads to a point, in the direction of the analysis."""
        return bool(self.points[number][analysis]["path"])

    def bits(self, analysis: str) -> set[int]:
        """All bits of an analysis."""
        if analysis == "reach":
            return set(range(self.program["definitions"]))
        return set(
            range(
                len(self.program["variables"])
                if analysis == "live"
                else self.program["expressions"]
            )
        )

    def using(self, variable: int | None) -> set[int]:
        """The expressions with a variable among their operands."""
        return {
            number
            for number, parts in enumerate(self.program["expression_parts"])
            if {"variable": variable} in parts["operands"]
        }

    def own(self, analysis: str, number: int) -> tuple[set[int], set[int]]:
        """The same as `own_anew`, which is asked once."""
        if (analysis, number) not in self.owned:
            self.owned[analysis, number] = self.own_anew(analysis, number)
        return self.owned[analysis, number]

    def own_anew(self, analysis: str, number: int) -> tuple[set[int], set[int]]:
        """What the statement at a point generates and kills."""
        parts = self.points[number]["parts"] or {}
        target: int | None = parts.get("target")
        if analysis == "reach":
            made = self.program["definition_parts"]
            same = {bit for bit, one in enumerate(made) if one["variable"] == target}
            here = {bit for bit in same if made[bit]["point"] == number}
            return here, same - here
        if analysis == "live":
            read = {one["variable"] for one in parts.get("operands", []) if "variable" in one}
            return read, {target} if target is not None else set()
        evaluated = {
            bit
            for bit, one in enumerate(self.program["expression_parts"])
            if parts.get("kind") in ("unary", "binary")
            and (one["operator"], one["operands"]) == (parts["operator"], parts["operands"])
        }
        changed = self.using(target) if target is not None else set()
        return (evaluated - changed if analysis == "avail" else evaluated), changed

    def brought(
        self, analysis: str, number: int, sets: dict[int, set[int]]
    ) -> list[set[int]]:
        """What each step to a point brings."""
        found = []
        for at, point in self.points.items():
            steps = [edge["to"] for edge in point["edges"] if edge["kind"] == "step"]
            for to in steps:
                target, origin = (to, at) if analysis in FORWARD else (at, to)
                if target == number and self.has_path(analysis, origin):
                    gen, kill = self.own(analysis, at)
                    found.append(gen | (sets[origin] - kill))
        return found

    def is_computed(self, analysis: str, number: int) -> bool:
        """Whether rounds compute the set of a point."""
        begin = self.first if analysis in FORWARD else self.end
        returned = number in self.returns if analysis in FORWARD else number + 1 in self.returns
        return self.has_path(analysis, number) and number != begin and not returned

    def check_start(self, analysis: str, line: Row) -> dict[int, set[int]]:
        """The line before the first round; the sets that it tells."""
        computed = {point for point in self.points if self.is_computed(analysis, point)}
        assert sorted(line["order"]) == sorted(computed), line
        assert line["begin"] == ("everything" if analysis in MUST else "nothing"), line
        known = [
            {"point": point, "bits": sorted(self.tables[analysis][point])}
            for point in sorted(set(self.points) - computed)
        ]
        assert line["known"] == known, line
        begin = self.bits(analysis) if analysis in MUST else set()
        return {
            point: set(begin) if point in computed else set(self.tables[analysis][point])
            for point in self.points
        }

    def next_round(
        self, analysis: str, order: list[int], sets: dict[int, set[int]]
    ) -> list[Row]:
        """What a round changes, in its order; the sets are those behind it then."""
        changed = []
        for point in order:
            found, old = self.brought(analysis, point, sets), sets[point]
            new = set.intersection(*found) if analysis in MUST else set().union(*found)
            sets[point] = new
            if new != old:
                changed.append(
                    {"point": point, "came": sorted(new - old), "went": sorted(old - new)}
                )
        return changed

    def check_analysis(self, analysis: str, lines: list[Row]) -> None:
        """The lines of an analysis: the start and each round."""
        start, *rounds = lines
        assert start["type"] == "start" and rounds, start
        sets = self.check_start(analysis, start)
        for number, line in enumerate(rounds, 1):
            changed = self.next_round(analysis, start["order"], sets)
            wanted = {"type": "round", "analysis": analysis, "round": number, "changed": changed}
            assert line == wanted, (line, wanted)
            assert bool(changed) == (number < len(rounds)), line
        assert sets == self.tables[analysis], analysis


def check_large(source: bytes, name: str) -> None:
    """A procedure that is too large is refused."""
    words = [TACVIEW, "--format", "json", "--steps", "--procedure", name]
    done = subprocess.run(words, input=source, capture_output=True)
    line = f"tacview: the procedure {name} has more than {MOST} points: --steps shows at most {MOST}\n"
    assert (done.returncode, done.stdout, done.stderr.decode()) == (1, b"", line), done


def check_page(source: bytes, name: str, steps: bytes) -> None:
    """A page has the lines of what changes, and the rounds behind them."""
    changes = run(TACVIEW, ["--format", "json", "--changes", "--procedure", name], source)
    page = run(TACVIEW, ["--format", "html", "--steps", "--procedure", name], source)
    assert (changes + steps).replace(b"<", b"\\u003c") in page, "other lines in the page"


def check_procedure(source: bytes, name: str) -> None:
    """All lines of the rounds in a procedure, of all analyses and of one."""
    procedure = Procedure(source, name)
    if len(procedure.points) > MOST:
        check_large(source, name)
        return
    text = run(TACVIEW, ["--format", "json", "--steps", "--procedure", name], source)
    lines = [json.loads(line) for line in text.decode().splitlines()]
    check_schema(lines)
    program, head, *told, end = lines
    assert program == procedure.program, program
    assert end == {"type": "end", "points": len(procedure.points)}, end
    assert head == {
        "type": "steps",
        "procedure": name,
        "first": procedure.first,
        "points": len(procedure.points),
        "analyses": ANALYSES,
    }, head
    by_analysis = {
        analysis: [line for line in told if line["analysis"] == analysis] for analysis in ANALYSES
    }
    assert [line for lines in by_analysis.values() for line in lines] == told, "another order"
    for analysis, rows in by_analysis.items():
        procedure.check_analysis(analysis, rows)
        words = ["--format", "json", "--steps", "--procedure", name, "--facts", analysis]
        alone = run(TACVIEW, [*words, "--workers", "3"], source).decode().splitlines()
        assert [json.loads(line) for line in alone[2:-1]] == rows, analysis
    check_page(source, name, text)


def main() -> int:
    """Tries all procedures of all examples."""
    passed = failed = 0
    for example in sorted(name for name in os.listdir(EXAMPLES) if name.endswith(".tac")):
        with open(os.path.join(EXAMPLES, example), "rb") as file:
            source = file.read()
        for name in objects(source, "--facts", "none")[0]["procedures"]:
            try:
                check_procedure(source, name)
                passed += 1
            except (AssertionError, ValueError, KeyError, OSError) as fault:
                failed += 1
                print(f"{example}, {name}: {str(fault)[:500]}")
    print(f"{passed} passed, {failed} failed")
    return 1 if failed else 0


if __name__ == "__main__":
    sys.exit(main())
