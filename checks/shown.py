"""What a page is to show of a program, from its lines of JSON: the texts of remarks, links, facts
before and behind statements, marks. Nothing here is the page's: it makes its own sense of the lines
(docs/PROGRAM.md, docs/PATHS.md)."""

from __future__ import annotations

from collections.abc import Callable
from typing import Any

from sets import Statement

Row = dict[str, Any]  # an object of a line of JSON

# In order of weight, as the page has them, with what is said.
KINDS = {
    "never_reached": "never reached",
    "unset": "{variable} may be used before it is set",
    "dead": "assignment to {variable} is dead",
    "computed": "{expression} is already computed",
    "busy": "{expression} is very busy",
    "doubt": "{variable} is not read behind this, but what follows may never end",
}
FORWARD = {"reach": True, "live": False, "avail": True, "busy": False}
SOME_PATH = ("reach", "live")
NO_HOLDER = "no variable on every way"


class Lines:
    """What lines of JSON say, as this script understands them."""

    def __init__(self, rows: list[Row]) -> None:
        self.head = rows[0]
        self.sources: list[Row] = [row for row in rows if row["type"] == "source"]
        self.points: dict[int, Row] = {r["point"]: r for r in rows if r["type"] == "point"}
        told = [row for row in rows if row["type"] == "remark"]
        told += [{**row, "kind": "doubt"} for row in rows if row["type"] == "doubt"]
        self.remarks = {number: self.sorted(told, number) for number in self.points}
        self.does = {number: Statement(row["statement"]) for number, row in self.points.items()}
        self.into: dict[int, set[int]] = {number: set() for number in self.points}
        for number in self.points:
            for to in self.next(number):
                self.into[to].add(number)

    @staticmethod
    def sorted(told: list[Row], number: int) -> list[Row]:
        here = [row for row in told if row["point"] == number]
        return sorted(here, key=lambda row: list(KINDS).index(row["kind"]))

    def targets(self, number: int, kind: str) -> list[int]:
        edges = self.points[number]["edges"]
        return [e["to"] for e in edges if e["kind"] == kind and e["to"] in self.points]

    def next(self, number: int) -> list[int]:
        """Where control is next in the procedure."""
        behind = [number + 1] if self.is_call(number) else []
        return list(dict.fromkeys(self.targets(number, "step") + behind))

    def is_call(self, number: int) -> bool:
        return any(edge["kind"] == "call" for edge in self.points[number]["edges"])

    def place(self, number: int) -> str:
        row = self.points[number]
        return f"end of {row['procedure']}" if row["line"] is None else f"line {row['line']}"

    def link(self, number: int, seen_from: int) -> str:
        """What a link from one point to another says."""
        row, here = self.points.get(number), self.points[seen_from]
        if row is None:
            return f"point {number}"
        same = row["procedure"] == here["procedure"]
        return self.place(number) if same else f"{row['procedure']}, {self.place(number)}"

    def searched(self, number: int) -> str:
        """What is searched of a point: its statement and its labels."""
        row = self.points[number]
        return " ".join([row["statement"] or "end", *row["labels"]])

    def outcome(self, number: int, to: int) -> bool | None:
        """How the test at a point came out where control goes to another."""
        text, steps = self.points[number]["statement"] or "", self.targets(number, "step")
        if not text.startswith("if") or len(steps) < 2:
            return None
        return (to == steps[1]) != text.startswith("ifFalse ")

    def control(self, number: int) -> Row:
        """Where control comes from and goes."""
        calls, returns = self.targets(number, "call"), self.targets(number, "return")
        words = {True: "true: ", False: "false: ", None: ""}
        found = {
            "from": [self.link(each, number) for each in sorted(self.into[number])],
            "calls": [self.link(each, number) for each in calls],
            "behind the call" if self.is_call(number) else "next": [
                words[self.outcome(number, each)] + self.link(each, number)
                for each in self.next(number)
            ],
            "returns to": [self.link(each, number) for each in returns],
        }
        shown = {word: links for word, links in found.items() if links}
        origin = self.points[number]["leads_to"]
        if origin is not None:
            shown["doubtful"] = [] if origin == number else [self.link(origin, number)]
        return shown

    def around(self, remark: Row) -> Row:
        """What stands around a remark, as its links say it."""
        here = remark["point"]

        def links(points: list[int], none: str) -> list[str]:
            return [self.link(each, here) for each in points] or [none]

        if remark["kind"] == "dead" and "next_writes" in remark:
            some = "some way" if remark["may_end_unwritten"] else "no way"
            ends = f"{some} comes to the end of main without a write of it"
            writes = links(remark["next_writes"], "no statement")
            return {"next_writes": writes, "may_end_unwritten": [ends]}
        if remark["kind"] == "computed" and "holders" in remark:
            last = links(remark["last_evaluations"], "no statement")
            return {"last_evaluations": last, "holders": remark["holders"] or [NO_HOLDER]}
        if remark["kind"] == "busy" and "next_evaluations" in remark:
            return {"next_evaluations": links(remark["next_evaluations"], "no statement")}
        if remark["kind"] == "never_reached" and "last_reached" in remark:
            return self.around_unreached(remark, links)
        return {"doubt": links([remark["doubt"]], "")} if remark["kind"] == "doubt" else {}

    @staticmethod
    def around_unreached(remark: Row, links: Callable[[list[int], str], list[str]]) -> Row:
        if remark["last_reached"] is None:
            return {"last_reached": ["none in its procedure"]}
        words = {"step": "", "call": "into ", "return": "back to "}
        edges = [words[e["kind"]] + links([e["to"]], "")[0] for e in remark["edges"]]
        return {"last_reached": links([remark["last_reached"]], ""), "edges": edges or ["nowhere"]}

    def shown(self, remark: Row) -> Row:
        sentence = KINDS[remark["kind"]].format(**remark)
        steps = len(remark["path"]) if "path" in remark else -1
        return {
            "kind": remark["kind"],
            "sentence": sentence,
            "steps": steps,
            "sets": self.around(remark),
        }

    def behind(self, number: int, analysis: str) -> set[str] | None:
        """What holds behind a statement; None where nothing of it is told."""
        next_points = [self.points[each][analysis] for each in self.next(number)]
        if not any(facts["path"] for facts in next_points):
            return None
        does, before = self.does[number], set(self.points[number][analysis]["names"])
        if FORWARD[analysis] and not self.is_call(number):
            if does.sets is None:
                return before
            if analysis == "reach":
                kept = {name for name in before if name.split("@")[0] != does.sets}
                return kept | {f"{does.sets}@{self.points[number]['line']}"}
            kept = {name for name in before if not self.speaks(name, does.sets)}
            made = does.evaluates
            return kept | {made} if made and not self.speaks(made, does.sets) else kept
        sets = [set(facts["names"]) for facts in next_points]
        return set().union(*sets) if analysis in SOME_PATH else set.intersection(*sets)

    @staticmethod
    def speaks(expression: str, variable: str) -> bool:
        return variable in expression.replace("-", " ").replace("~", " ").replace("!", " ").split()

    def facts(self, number: int, analysis: str) -> Row:
        """What came, went and stays."""
        own = self.points[number][analysis]
        if not own["path"]:
            return {"path": False, "lines": {}}
        before, behind = set(own["names"]), self.behind(number, analysis)
        if behind is None:
            return {"path": True, "lines": {"stays": sorted(before)}}
        old, now = (before, behind) if FORWARD[analysis] else (behind, before)
        lines = {"came": sorted(now - old), "went": sorted(old - now), "stays": sorted(now & old)}
        kept = {kind: names for kind, names in lines.items() if names}
        return {"path": True, "lines": kept or {"stays": []}}

    def marks(self, number: int) -> list[str]:
        """The signs before all lines: what stands around remarks, definitions that reach here."""
        lines = {row["line"]: each for each, row in self.points.items()}
        signs = dict.fromkeys(self.points, "")
        reach = self.points[number].get("reach", {"path": False, "names": []})
        for name in reach["names"] if reach["path"] else []:
            variable, line = name.split("@")
            if line != "entry" and int(line) in lines:
                used = variable in self.does[number].reads
                signs[lines[int(line)]] = "●" if used else "○"
        for remark in self.remarks[number]:
            for field in ("next_writes", "last_evaluations", "next_evaluations"):
                signs.update(dict.fromkeys(remark.get(field, []), "◆"))
            for field in ("last_reached", "doubt"):
                signs.update({remark[field]: "◆"} if remark.get(field) is not None else {})
            if remark["kind"] == "never_reached":
                signs.update({edge["to"]: "◆" for edge in remark.get("edges", [])})
        return [signs[each] for each in self.points]

    def graph(self, number: int) -> list[str]:
        """The edges in the graph of a point's procedure."""
        name = self.points[number]["procedure"]
        inside = [each for each, row in self.points.items() if row["procedure"] == name]
        return sorted(f"{each}>{to}" for each in inside for to in self.next(each))

    def expected(self, number: int) -> Row:
        """All that is to be seen of a point."""
        row = self.points[number]
        analyses = [name for name in FORWARD if name in row]
        return {
            "chosen": number,
            "active": True,
            "place": f"{row['procedure']}, {self.place(number)}",
            "statement": row["statement"] or "end",
            "node": number,
            "edges": self.graph(number),
            "remarks": [self.shown(remark) for remark in self.remarks[number]],
            "control": self.control(number),
            "marks": self.marks(number),
            "facts": {name: self.facts(number, name) for name in analyses},
        }
