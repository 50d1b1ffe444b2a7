"""Tries tacview on each program of examples/. Each line of JSON is parsed, held against
docs/tacview.schema.json, and compared with what tacflow writes of the same program: tables, report,
listing and source; differences give the sets of the other form, and parts the lines of the whole. A
page has these lines. Each picture is compared with one that is made of the lines, and goes through
Graphviz, where `dot` is there; the call graph, as Graphviz reads it, is compared with one that is
made of the program's text. Then the facts of one procedure of a larger program have to do with the
memory of its points, and the report of a program with many tests and expressions with that of the
words that have a bit. TACVIEW=/path/to/program and TACFLOW=/path/to/program take other programs
than ./tacview and ./tacflow. Prints `N passed, M failed`."""

from __future__ import annotations

import json
import os
import re
import shutil
import subprocess
import sys
import tempfile
from typing import Any

from schema import Schema
from sets import Graph

Row = dict[str, Any]  # an object of a line of JSON

HERE = os.path.dirname(os.path.realpath(__file__))
ROOT = os.path.join(HERE, "..")
EXAMPLES = os.path.join(ROOT, "examples")
TACVIEW = os.environ.get("TACVIEW", os.path.join(ROOT, "tacview"))
TACFLOW = os.environ.get("TACFLOW", os.path.join(ROOT, "tacflow"))
ANALYSES = ["reach", "live", "avail", "busy"]
REMARKS = {
    "never_reached": "never reached",
    "unset": "{variable} may be used before it is set",
    "computed": "{expression} is already computed",
    "busy": "{expression} is very busy",
    "dead": "assignment to {variable} is dead",
}


def run(program: str, words: list[str], source: bytes) -> bytes:
    """What the program writes on a source; it has to end well and say nothing else."""
    done = subprocess.run([program, *words], input=source, capture_output=True)
    if done.returncode or done.stderr:
        raise AssertionError(f"{' '.join(words)}: status {done.returncode}, {done.stderr.decode()}")
    return done.stdout


def check_schema(rows: list[Row]) -> None:
    """Each line is as its schema says."""
    schema = Schema()
    for row in rows:
        fault = schema.fault(row)
        assert fault is None, (fault, row)


def objects(source: bytes, *words: str) -> tuple[Row, list[Row], list[Row]]:
    """The objects of tacview's JSON: the program, its points, its remarks."""
    rows = [
        json.loads(row)
        for row in run(TACVIEW, ["--format", "json", *words], source).decode().splitlines()
    ]
    check_schema(rows)
    kinds = [row["type"] for row in rows]
    points, remarks = kinds.count("point"), kinds.count("remark")
    assert kinds == ["program"] + ["point"] * points + ["remark"] * remarks + ["end"], kinds
    assert rows[-1] == {"type": "end", "points": points}, rows[-1]
    return rows[0], rows[1 : 1 + points], rows[1 + points : -1]


def report_of(program: Row, remarks: list[Row]) -> str:
    """The report that these objects tell."""
    counts = (
        f"points {program['points']}, variables {len(program['variables'])},"
        f" definitions {program['definitions']}, expressions {program['expressions']}"
    )
    return (
        "\n".join(
            [
                counts,
                *(
                    f"{remark['line']}: {REMARKS[remark['kind']].format(**remark)}"
                    for remark in remarks
                ),
            ]
        )
        + "\n"
    )


def table_of(points: list[Row], analysis: str) -> str:
    """The table that these objects tell."""
    lines = []
    for point in points:
        facts = point[analysis]
        assert len(facts["bits"]) == len(facts["names"]) and facts["bits"] == sorted(
            set(facts["bits"])
        ), facts
        path = "" if facts["path"] else " (no path)"
        lines.append(
            f"{point['procedure']} {point['place']}{path}: {', '.join(facts['names']) or '-'}\n"
        )
    return "".join(lines)


def statements_of(listing: str) -> list[str | None]:
    """The statements of a listing, in order, with None for each procedure's end."""
    rows = [
        row for row in listing.splitlines() if not row.endswith(":") and not row.startswith("proc ")
    ]
    return [None if row == "end" else row.strip() for row in rows]


def check_labels(listing: str, points: list[Row]) -> None:
    """Labels stand at the points where a listing has them."""
    labels: list[list[str]] = [[]]
    for row in listing.splitlines():
        if row.endswith(":"):
            labels[-1].append(row[:-1])
        elif not row.startswith("proc "):
            labels.append([])
    assert [point["labels"] for point in points] == labels[:-1], labels


def check_spans(source: bytes, rows: list[Row]) -> None:
    """Each statement's first and last byte spell it, but for blanks."""
    for row in rows:
        if row["line"] is None:
            assert row["first"] is None and row["last"] is None and row["statement"] is None, row
        else:
            text = source[row["first"] - 1 : row["last"]].decode()
            assert re.sub(r"\s", "", text) == re.sub(r"\s", "", row["statement"]), (text, row)
            assert source[: row["first"] - 1].count(b"\n") + 1 == row["line"], row


def outcome_of(point: Row, edge: Row) -> bool | None:
    """How a test comes out where a step is taken: its jump's is the last of two."""
    statement, steps = point["statement"] or "", point["edges"]
    if not statement.startswith("if") or len(steps) < 2:
        return None
    return (edge == steps[1]) != statement.startswith("ifFalse ")


def check_edges(points: list[Row]) -> None:
    """Steps stay in their procedure; calls begin at their site, and each has a return to the point
    behind the site."""
    calls, returns = set(), set()
    for point in points:
        for edge in point["edges"]:
            target = points[edge["to"]]
            if edge["kind"] == "step":
                assert target["procedure"] == point["procedure"], (point, edge)
                assert edge.get("when") == outcome_of(point, edge), (point, edge)
            elif edge["kind"] == "call":
                assert edge["site"] == point["point"] and target["place"] == 0, (point, edge)
                calls.add((edge["site"], target["procedure"]))
            else:
                assert (
                    edge["kind"] == "return"
                    and edge["to"] == edge["site"] + 1
                    and point["statement"] is None
                ), (point, edge)
                returns.add((edge["site"], point["procedure"]))
    assert calls == returns, (calls, returns)


def check_json(source: bytes) -> None:
    """The objects tell what tacflow tells."""
    program, points, remarks = objects(source)
    assert [point["point"] for point in points] == list(range(program["points"]))
    assert report_of(program, remarks) == run(TACFLOW, [], source).decode()
    whole: list[list[str]] = [[], ["--limits", "large"]]
    for words in [*whole, ["--procedure", "main", "--facts", "all"]]:
        assert run(TACVIEW, ["--format", "report", *words], source) == run(
            TACFLOW, [], source
        ), words
    for analysis in ANALYSES:
        assert (
            table_of(points, analysis) == run(TACFLOW, ["--show", analysis], source).decode()
        ), analysis
    listing = run(TACFLOW, ["--show", "list"], source).decode()
    assert [point["statement"] for point in points] == statements_of(listing)
    check_labels(listing, points)
    check_spans(source, points)
    check_edges(points)
    for name in program["procedures"]:
        kept = [point for point in points if point["procedure"] == name]
        _, own, told = objects(source, "--procedure", name, "--workers", "3", "--cut", "1")
        assert own == kept, name
        assert told == [
            remark for remark in remarks if points[remark["point"]]["procedure"] == name
        ], name
        live = [
            {key: value for key, value in point.items() if key not in ("reach", "avail", "busy")}
            for point in kept
        ]
        assert objects(source, "--procedure", name, "--facts", "live")[1] == live, name


def written_by(point: Row) -> str | None:
    """The variable that the statement at a point writes."""
    found = re.match(r"(?:read )?(\w+)(?: = |$)", point["statement"] or "")
    return found[1] if found and found[1] not in ("skip", "return") else None


def passed(point: Row, analysis: str) -> dict[str, int]:
    """What a statement makes of the set before it, in a forward analysis: names and numbers."""
    names = dict(zip(point[analysis]["names"], point[analysis]["bits"]))
    written, statement = written_by(point), point["statement"]
    if not point[analysis]["path"]:
        return names
    if analysis == "reach":
        kept = {name: bit for name, bit in names.items() if name.split("@")[0] != written}
        made = {f"{written}@{point['line']}": 1 << 30} if written else {}
        return {**kept, **made}
    right = statement.split(" = ")[1] if " = " in statement else ""
    if not re.fullmatch(r"\w*", right):
        names[right] = dict(zip(point["busy"]["names"], point["busy"]["bits"]))[right]
    return {name: bit for name, bit in names.items() if written not in re.findall(r"\w+", name)}


def behind(point: Row, points: list[Row], analysis: str) -> list[str]:
    """The set behind a statement, by name."""
    if analysis in ("reach", "avail"):
        names = passed(point, analysis)
    else:
        following = [points[edge["to"]][analysis] for edge in point["edges"]]
        sets = [set(zip(facts["names"], facts["bits"])) for facts in following]
        names = dict(set.union(*sets) if analysis == "live" else set.intersection(*sets))
    if analysis != "reach":
        return sorted(names, key=lambda name: names[name])
    line = {name: name.split("@")[1] for name in names}
    entries = [name for name in names if line[name] == "entry"]
    return entries + sorted(set(names) - set(entries), key=lambda name: int(line[name]))


def both_sides(points: list[Row]) -> list[Row]:
    """The points with their sets on both sides, without the values at the beginning."""
    shown = []
    for point in points:
        sets: dict[str, Row] = {}
        for name in ANALYSES:
            facts = point[name]
            kept = [one for one in facts["names"] if not one.endswith("@entry")]
            sets[name] = {**facts, "names": kept}
            if point["line"] is not None and not point["statement"].startswith("call "):
                names = behind(point, points, name)
                sets[name]["behind"] = [one for one in names if not one.endswith("@entry")]
        shown.append({**point, **sets})
    return shown


def set_lines(head: str, names: list[str]) -> list[str]:
    """A set as a picture has it: at most 60 signs on a line that has more than one name."""
    lines = [head + (names or ["-"])[0]]
    for name in names[1:]:
        longer = f"{lines[-1]}, {name}"
        if len(longer) < 60:
            lines[-1] = longer
        else:
            lines[-1] += ","
            lines.append(f"  {name}")
    return lines


def change_lines(head: str, side: str, old: list[str], new: list[str]) -> list[str]:
    """What came and what went, as a picture has it: no line of what is nothing."""
    changes = {
        "came": [name for name in new if name not in old],
        "went": [name for name in old if name not in new],
    }
    lines: list[str] = []
    for word, names in changes.items():
        lines += set_lines(f"{head} {word}{side}: ", names) if names else []
    return lines


def differing(points: list[Row]) -> list[Row]:
    """The points with the lines of what changes against the point before in the same procedure, and
    through statements whose sets behind them are there."""
    shown = []
    held: dict[str, list[str]] = {}
    for point in points:
        lines: list[str] = []
        for name in ANALYSES:
            old, new = held[name] if point["place"] else [], point[name]["names"]
            lines += change_lines(name, "", old, new)
            if "behind" in point[name]:
                lines += change_lines(name, " behind", new, point[name]["behind"])
            held[name] = new
        shown.append({**point, "lines": lines})
    return shown


def fact_lines(point: Row) -> list[str]:
    """The lines of a point's facts."""
    if "lines" in point:
        return list(point["lines"])
    lines: list[str] = []
    for name in ANALYSES:
        if name in point:
            lines += set_lines(f"{name}: ", point[name]["names"])
            if "behind" in point[name]:
                lines += set_lines(f"{name} behind: ", point[name]["behind"])
    return lines


def node_of(point: Row, remarks: list[Row], hovers: bool) -> str:
    """The line of a point in a picture."""
    lines = [f"{label}:" for label in point["labels"]]
    end = point["line"] is None
    lines.append(f"end of {point['procedure']}" if end else f"{point['line']}: {point['statement']}")
    lines += [REMARKS[remark["kind"]].format(**remark) for remark in remarks]
    facts = fact_lines(point)
    kinds = {remark["kind"] for remark in remarks}
    reached = point["reach"]["path"] if "reach" in point else "never_reached" not in kinds
    marks = [] if reached else ["unreached"]
    marks += [kind for kind in ("unset", "dead") if kind in kinds and reached]
    marks += ["doubtful"] if point["doubtful"] else []
    label = "".join(line + "\\l" for line in lines + ([] if hovers else facts))
    tooltip = ', tooltip="' + "".join(line + "\\l" for line in facts) + '"' if hovers else ""
    looks = "".join(LOOKS[mark] for mark in marks)
    names = f'id="point{point["point"]}", class="{" ".join(["point", *marks])}"'
    return f'    {point["point"]} [{names}, label="{label}"{tooltip}{looks}];\n'


LOOKS = {
    "unreached": ", style=filled, fillcolor=grey80",
    "unset": ", color=red, fontcolor=red",
    "dead": ", style=filled, fillcolor=khaki",
    "doubtful": ", peripheries=2",
}


ACROSS = "style=dashed, color=grey60, fontcolor=grey40, constraint=false"


def edges_of(point: Row, lines: dict[int, int | None]) -> str:
    """The lines of the edges that leave a point, of those between points that are shown."""
    source, text = point["point"], ""
    for edge in point["edges"]:
        if edge["to"] not in lines:
            continue
        outcome = {True: ' [label="T"]', False: ' [label="F"]', None: ""}[edge.get("when")]
        if edge["kind"] != "step":
            kind = edge["kind"]
            outcome = f' [class="{kind}", {ACROSS}, xlabel="{kind} {lines[edge["site"]]}"]'
        text += f"  {source} -> {edge['to']}{outcome};\n"
    if any(edge["kind"] == "call" for edge in point["edges"]):
        text += f'  {source} -> {source + 1} [class="passed", style=dotted, arrowhead=none];\n'
    return text


def picture_of(program: Row, points: list[Row], remarks: list[Row], hovers: bool = False) -> str:
    """The picture of these objects."""
    names = program["procedures"]
    text = 'digraph "tacflow" {\n  graph [fontname="monospace", labeljust=l];\n'
    text += '  node [shape=box, fontname="monospace", fontsize=11];\n'
    text += '  edge [class="step", fontname="monospace", fontsize=10];\n'
    for name in sorted(names, key=lambda name: name != "main"):
        number = names.index(name)
        text += f'  subgraph "cluster_{number}" {{\n    id="procedure{number}";\n'
        text += f'    class="procedure";\n    label="{name}";\n'
        for point in points:
            own = [row for row in remarks if row["point"] == point["point"]]
            text += node_of(point, own, hovers) if point["procedure"] == name else ""
        text += "  }\n"
    lines = {point["point"]: point["line"] for point in points}
    return text + "".join(edges_of(point, lines) for point in points) + "}\n"


def check_picture(source: bytes) -> None:
    """Pictures are what the lines of JSON make, with facts or without, on one side or on both, or
    with what changes."""
    for facts in (["--facts", "all"], ["--facts", "reach"]):
        wanted = picture_of(*objects(source, *facts))
        assert run(TACVIEW, facts, source).decode() == wanted, facts
    program, points, remarks = objects(source)
    words = ["--facts", "all", "--hide-entry", "--facts-behind"]
    wanted = picture_of(program, both_sides(points), remarks)
    assert run(TACVIEW, words, source).decode() == wanted, words
    for own, changes in (([], differing(points)), (words[2:], differing(both_sides(points)))):
        told = run(TACVIEW, ["--facts", "all", *own, "--changes"], source).decode()
        assert told == picture_of(program, changes, remarks), own
    hovering = picture_of(program, both_sides(points), remarks, hovers=True)
    assert run(TACVIEW, [*words, "--facts-on-hover"], source).decode() == hovering
    told = run(TACVIEW, [*words, "--legend"], source).decode()
    assert told.startswith(wanted.removesuffix("}\n") + '  subgraph "cluster_legend" {\n'), told


def names_by_number(program: Row) -> dict[str, list[str]]:
    """What the bits of each analysis are called, as the first line of differences has them."""
    definitions, expressions = program["definition_names"], program["expression_names"]
    assert len(definitions) == program["definitions"], program
    assert len(expressions) == program["expressions"], program
    sets = [definitions, program["variables"], expressions, expressions]
    return dict(zip(ANALYSES, sets))


def changed(old: set[int], change: Row) -> set[int]:
    """The set to which a change leads: what comes was not there, and what goes was."""
    came, went = change["came"], change["went"]
    assert came == sorted(set(came)) and went == sorted(set(went)), change
    assert not old & set(came) and old >= set(went), (old, change)
    return old - set(went) | set(came)


def check_change(point: Row, wanted: Row, points: list[Row], names: dict[str, list[str]]) -> None:
    """What changes through a statement gives the sets behind it."""
    calls = (point["statement"] or "call ").startswith("call ")
    for analysis in ANALYSES:
        change, facts = point[analysis]["behind"], wanted[analysis]
        assert (change is None) == calls, (point, analysis)
        assert facts["names"] == [names[analysis][bit] for bit in facts["bits"]], facts
        if change is not None:
            after = changed(set(facts["bits"]), change)
            told = {names[analysis][bit] for bit in after}
            assert told == set(behind(wanted, points, analysis)), (point, analysis)


def operand_of(word: str, variables: list[str]) -> Row:
    """An operand, by number or as one."""
    return {"number": int(word)} if word.isdigit() else {"variable": variables.index(word)}


def value_of(words: list[str], variables: list[str]) -> Row:
    """The operator of a right side, where there is one, and the operands."""
    if len(words) == 3:
        operands = [operand_of(word, variables) for word in words[::2]]
        return {"operator": words[1], "operands": operands}
    if words[0][0] in "-~!":
        return {"operator": words[0][0], "operands": [operand_of(words[0][1:], variables)]}
    return {"operands": [operand_of(words[0], variables)]}


def parts_of(statement: str | None, program: Row) -> Row | None:
    """What a statement is made of, read from its text."""
    if statement is None:
        return None
    variables, words = program["variables"], statement.split()
    kind = words[0].replace("ifFalse", "if_false")
    if kind in ("goto", "return", "skip"):
        return {"kind": kind}
    if kind == "read":
        return {"kind": kind, "target": variables.index(words[1])}
    if kind == "call":
        callees = [program["procedures"].index(name) for name in words[1::2]]
        return {"kind": kind, "callees": callees}
    if kind in ("if", "if_false", "print"):
        value = value_of(words[1:-2] if kind != "print" else words[1:], variables)
        return {"kind": "if_compare" if "operator" in value else kind} | value
    value = value_of(words[2:], variables)
    kinds = {True: "unary" if len(words) == 3 else "binary", False: "copy"}
    return {"kind": kinds["operator" in value], "target": variables.index(words[0])} | value


def check_made_of(program: Row, points: list[Row]) -> None:
    """Statements, definitions and expressions are made of what their texts say."""
    variables, lines = program["variables"], {row["point"]: row["line"] for row in points}
    for row in points:
        assert row["parts"] == parts_of(row["statement"], program), row
        first, last = row["first"], row["last"]
        assert (row["start"], row["end"]) == (first if first is None else first - 1, last), row
    for name, parts in zip(program["definition_names"], program["definition_parts"], strict=True):
        line = "entry" if parts["point"] is None else lines[parts["point"]]
        assert name == f"{variables[parts['variable']]}@{line}", (name, parts)
    for name, parts in zip(program["expression_names"], program["expression_parts"], strict=True):
        assert parts == value_of(name.split(), variables), (name, parts)


def check_origins(program: Row, points: list[Row]) -> None:
    """Each doubtful point leads to one from which no valid path leads to the end of main, as a search
    along the edges finds it, and no other point tells one."""
    graph = Graph([program, *points])
    for row in points:
        endless = graph.endless(row["point"])
        assert row["doubtful"] == bool(endless), row
        assert row["leads_to"] in (endless or {None}), (row, endless)


def check_changes(source: bytes) -> None:
    """Differences give the sets of the other form, and the line of very busy expressions what the
    other form has one by one."""
    program, points, remarks = objects(source)
    named, differing, told = objects(source, "--changes")
    names = names_by_number(named)
    check_made_of(named, differing)
    check_origins(named, differing)
    assert {name: named[name] for name in program} == program, named
    held: dict[str, set[int]] = {}
    for point, wanted in zip(differing, points, strict=True):
        for analysis in ANALYSES:
            old = held[analysis] if point["place"] else set()
            held[analysis] = changed(old, point[analysis])
            assert sorted(held[analysis]) == wanted[analysis]["bits"], (point, analysis)
            assert point[analysis]["path"] == wanted[analysis]["path"], (point, analysis)
        check_change(point, wanted, points, names)
        others = {name: value for name, value in wanted.items() if name not in ANALYSES}
        assert {name: point[name] for name in others} == others, point
    assert one_by_one(told, names["busy"]) == remarks, told
    assert len({row["point"] for row in told if row["kind"] == "busy"}) == sum(
        row["kind"] == "busy" for row in told
    ), "one line for a point"
    assert objects(source, "--changes", "--facts", "none")[2] == remarks
    for name in program["procedures"]:
        own = [point for point in differing if point["procedure"] == name]
        assert objects(source, "--changes", "--procedure", name)[1] == own, name


def one_by_one(remarks: list[Row], names: list[str]) -> list[Row]:
    """Remarks, with one for each very busy expression."""
    rows = []
    for remark in remarks:
        bits = remark.get("expressions", [None])
        assert bits, remark
        one = {name: value for name, value in remark.items() if name != "expressions"}
        rows += [one if bit is None else {**one, "expression": names[bit]} for bit in bits]
    return rows


def source_rows(source: bytes) -> list[Row]:
    """The lines of a text, as they are to be told."""
    rows, start = [], 0
    for number, line in enumerate(re.findall(rb"[^\n]*\n|[^\n]+", source), 1):
        text = re.sub(rb"\r?\n\Z", b"", line).decode("latin-1")
        rows.append({"type": "source", "line": number, "start": start, "text": text})
        start += len(line)
    return rows


def check_source(source: bytes) -> None:
    """The lines of the source stand behind the first one, in each form and in a page; columns tell
    where statements stand in them."""
    wanted = source_rows(source)
    behind = 1 + len(wanted)
    for words in ([], ["--changes"], ["--paths"], ["--procedure", "main"]):
        lines = run(TACVIEW, ["--format", "json", "--source", *words], source).splitlines()
        told = [json.loads(line) for line in lines[1:behind]]
        check_schema(told)
        assert told == wanted, (words, told)
        plain = run(TACVIEW, ["--format", "json", *words], source).splitlines()
        assert lines[:1] + lines[behind:] == plain, words
    lines = run(TACVIEW, ["--format", "json", "--source", "--changes"], source).splitlines()
    assert lines_in(run(TACVIEW, ["--format", "html", "--source"], source)) == lines
    for row in (json.loads(line) for line in lines[behind:]):
        if row["type"] == "point" and row["line"] is not None:
            line = wanted[row["line"] - 1]
            column, end = row["start"] - line["start"], row["end"] - line["start"]
            text = line["text"][column:end]
            assert re.sub(r"\s", "", text) == re.sub(r"\s", "", row["statement"]), (text, row)


def check_dot(source: bytes) -> None:
    """Graphviz takes each picture."""
    if not shutil.which("dot"):
        return
    names = objects(source)[0]["procedures"]
    pictures: list[list[str]] = [[], ["--facts", "all", "--legend"]]
    pictures += [["--facts", "all", "--facts-behind", "--facts-on-hover"]]
    pictures += [["--facts", "all", "--changes", "--legend"]]
    pictures += (["--procedure", name, "--facts", "reach,busy"] for name in names)
    unset = [row for row in objects(source)[2] if row["kind"] == "unset"]
    pictures += (["--because", f"{row['line']}:{row['variable']}"] for row in unset[:1])
    for words in pictures:
        done = subprocess.run(
            ["dot", "-Tsvg"], input=run(TACVIEW, words, source), capture_output=True
        )
        assert done.returncode == 0 and not done.stderr, done.stderr.decode()


COUNTED = {
    "never_reached": "never reached",
    "unset": "may be used before it is set",
    "computed": "is already computed",
    "busy": "is very busy",
    "dead": "assignment is dead",
}


def read_calls(source: bytes) -> tuple[list[str], dict[str, int], list[tuple[str, str, int]]]:
    """The procedures of a text in order, the line of each one's first statement, and its calls:
    caller, callee and line."""
    names: list[str] = []
    firsts: dict[str, int] = {}
    calls = []
    for number, row in enumerate(source.decode().splitlines(), 1):
        words = re.sub(r"^(\s*\w+\s*:)+", "", row.split("#")[0]).split()
        if words[:1] == ["proc"]:
            names.append(words[1])
        elif words and words != ["end"]:
            firsts.setdefault(names[-1], number)
            if words[0] == "call":
                callees = "".join(words[1:]).split("|")
                calls += [(names[-1], callee, number) for callee in callees]
    return names, firsts, calls


def leading(calls: list[tuple[str, str, int]]) -> dict[str, set[str]]:
    """Where calls lead from each procedure, through one or more."""
    leads: dict[str, set[str]] = {}
    for caller, callee, _ in calls:
        leads.setdefault(caller, set()).add(callee)
    grown = True
    while grown:
        grown = False
        for reached in leads.values():
            more = set[str]().union(*(leads.get(name, set()) for name in reached)) - reached
            reached |= more
            grown = grown or bool(more)
    return leads


def wanted_nodes(source: bytes) -> dict[str, tuple[str, str]]:
    """Of each procedure the class and the label that its node has to have."""
    names, firsts, calls = read_calls(source)
    _, points, remarks = objects(source)
    leads = leading(calls)
    wanted = {}
    for name in names:
        own = [point for point in points if point["procedure"] == name]
        told = [row["kind"] for row in remarks if points[row["point"]]["procedure"] == name]
        words = ["procedure"] + ["recursive"] * (name in leads.get(name, set()))
        words += ["unreached"] * (not own[0]["reach"]["path"])
        first = f"line {firsts[name]}, " if name in firsts else ""
        rows = [name, f"{first}{len(own)} point{'s' * (len(own) != 1)}"]
        rows += [f"{COUNTED[kind]}: {told.count(kind)}" for kind in COUNTED if kind in told]
        wanted[name] = (" ".join(words), "".join(f"{row}\\l" for row in rows))
    return wanted


def wanted_edges(source: bytes) -> dict[tuple[str, str], tuple[str, str]]:
    """Of each caller and callee the class and the label that their edge has to have."""
    _, _, calls = read_calls(source)
    leads = leading(calls)
    lines: dict[tuple[str, str], list[int]] = {}
    for caller, callee, line in calls:
        lines.setdefault((caller, callee), []).append(line)
    return {
        (caller, callee): (
            "call recursive" if caller in leads.get(callee, set()) | {callee} else "call",
            f"line {rows[0]}" if len(rows) == 1 else f"{len(rows)} calls",
        )
        for (caller, callee), rows in lines.items()
    }


def check_calls(source: bytes) -> None:
    """The call graph, as Graphviz reads it, is that of the text."""
    if not shutil.which("dot"):
        return
    for words in (["--calls"], ["--calls", "--legend"]):
        written = run(TACVIEW, words, source)
        done = subprocess.run(["dot", "-Tdot_json"], input=written, capture_output=True)
        assert done.returncode == 0 and not done.stderr, done.stderr.decode()
        graph = json.loads(done.stdout)
        names = objects(source)[0]["procedures"]
        own = [row for row in graph["objects"] if row.get("id", "").startswith("procedure")]
        assert [row["name"] for row in own][0] == str(names.index("main")), own[0]
        assert all(row["id"] == f"procedure{row['name']}" for row in own), own
        got = {names[int(row["name"])]: (row["class"], row["label"]) for row in own}
        assert len(own) == len(got) and got == wanted_nodes(source), got
        numbers = {row["_gvid"]: names[int(row["name"])] for row in own}
        edges = [row for row in graph.get("edges", []) if row["tail"] in numbers]
        shown = {
            (numbers[row["tail"]], numbers[row["head"]]): (row["class"], row["label"])
            for row in edges
        }
        assert len(shown) == len(edges) and shown == wanted_edges(source), shown


def check_paths(source: bytes) -> None:
    """With paths each line is as its schema says, and a copy that lacks a field is not."""
    words = ["--format", "json", "--paths"]
    rows = [json.loads(row) for row in run(TACVIEW, words, source).decode().splitlines()]
    check_schema(rows)
    for row in rows:
        for field in ("type", "points", "point", "version", "labels"):
            less = {name: value for name, value in row.items() if name != field}
            assert field not in row or Schema().fault(less) is not None, (field, row)
            assert Schema().fault({**row, field: -1}) is not None, (field, row)


def check_parts(source: bytes) -> None:
    """Each line of a part is as its schema says, and two parts have each line of the whole once."""
    words = ["--format", "json", "--facts", "none"]
    whole = run(TACVIEW, words, source).splitlines()
    rows = [whole[0]]
    for part in ("1/2", "2/2"):
        lines = run(TACVIEW, [*words, "--part", part], source).splitlines()
        check_schema([json.loads(line) for line in lines])
        assert lines[1] == whole[0], lines[1]
        rows += lines[2:-1]
    assert sorted(rows) == sorted(whole), (rows, whole)


def run_within(kilobytes: int, words: list[str], source: bytes) -> bytes:
    """What tacview writes within the large limits, and in so much memory."""
    with tempfile.TemporaryFile() as file:
        file.write(source)
        file.seek(0)
        started = subprocess.Popen(
            [TACVIEW, "--limits", "large", *words], stdin=file, stdout=subprocess.PIPE
        )
        assert started.stdout is not None
        written = started.stdout.read()
        _, status, used = os.wait4(started.pid, 0)
        started.returncode = os.waitstatus_to_exitcode(status)
    assert started.returncode == 0, started.returncode
    assert used.ru_maxrss < kilobytes, used.ru_maxrss
    return written


def check_memory(source: bytes) -> None:
    """The facts of one procedure take at most 100 MB, where a table of all points would take 150 by
    itself."""
    written = run_within(100000, ["--format", "json", "--procedure", "p7"], source)
    points = written.count(b'"type":"point"')
    assert points == 101, points


def check_rounds(source: bytes) -> None:
    """Of 20,003 expressions three are very busy at each of 30,000 tests. One worker asks for them
    in fourteen rounds, three in eight. A block of all words of all tests would take 75 MB by
    itself, and 350 with what is asked for each."""
    wanted = [
        f"{line}: {name} is very busy"
        for line in range(4, 30004)
        for name in ("s + t", "s - t", "s * t")
    ]
    for workers in ("1", "3"):
        rows = (
            run_within(180000, ["--format", "report", "--workers", workers], source)
            .decode()
            .splitlines()
        )
        busy = [row for row in rows if row.endswith("is very busy")]
        assert rows[0] == "points 50007, variables 4, definitions 20010, expressions 20003", rows[0]
        assert busy == wanted, (len(busy), busy[:3])


def many_procedures() -> bytes:
    """200 procedures of 100 assignments, each of a variable of its own."""
    rows = ["proc main", *(f"call p{k}" for k in range(200)), "end"]
    for k in range(200):
        rows += [f"proc p{k}", *(f"v{100 * k + j} = {j}" for j in range(100)), "end"]
    return ("\n".join(rows) + "\n").encode()


def many_tests() -> bytes:
    """30,000 tests that lead on either way, and behind them 20,003 expressions, of which the first,
    one in the middle and the last have their operands before the tests."""
    rows = ["proc main", "read s", "read t"]
    rows += [f"T{k}: if s goto T{k + 1}" for k in range(30000)]
    rows += ["T30000: x = s + t", "read v", *(f"x = v + {k}" for k in range(10000)), "x = s - t"]
    rows += [*(f"x = v - {k}" for k in range(10000)), "x = s * t", "end"]
    return ("\n".join(rows) + "\n").encode()


def lines_in(page: bytes) -> list[bytes]:
    """The lines in a page's element, of which none has a sign that begins or ends one."""
    before, opening, rest = page.partition(b'id="lines">\n')
    lines, closing, _ = rest.partition(b"</script>\n")
    assert before.startswith(b"<!doctype html>\n") and opening and closing, page[:100]
    assert b"<" not in lines, lines
    return lines.replace(b"\\u003c", b"<").splitlines()


def check_page(source: bytes) -> None:
    """A page has the lines with differences, and with paths the remarks and doubts with paths."""

    def written(*words: str) -> bytes:
        return run(TACVIEW, ["--format", *words], source)

    changes = written("json", "--changes").splitlines()
    assert lines_in(written("html")) == changes
    title = b'{"type":"page","title":"a < b"}'
    own = ("--facts", "live", "--procedure", "main")
    wanted = written("json", "--changes", *own).splitlines()
    assert lines_in(written("html", "--title", "a < b", *own)) == [title, *wanted]
    told = (b'{"type":"remark"', b'{"type":"doubt"', b'{"type":"end"')
    paths = [row for row in written("json", "--paths").splitlines() if row.startswith(told)]
    shown = [row for row in changes if not row.startswith(told)]
    assert lines_in(written("html", "--paths")) == shown + paths


# Comments with any bytes, lines that end with a carriage return too, tabs, blank lines, and no line
# feed at the end.
ODD_SOURCE = b"# \"a\\b\" </script>\r\n\r\nproc main\t# \xc3\xa4 \x00\x7f\xff\n\n"
ODD_SOURCE += b"\tL :  x=1 # y\r\n  goto\tL\n \t \r\nend#\r\n# no more\r"

CHECKS = (
    check_json,
    check_parts,
    check_changes,
    check_paths,
    check_page,
    check_source,
    check_picture,
    check_dot,
    check_calls,
)


def main() -> int:
    """Tries all examples, and two larger programs."""
    tries = [
        ("odd source", check_source, ODD_SOURCE),
        ("many procedures", check_memory, many_procedures()),
        ("many tests", check_rounds, many_tests()),
    ]
    for name in sorted(name for name in os.listdir(EXAMPLES) if name.endswith(".tac")):
        with open(os.path.join(EXAMPLES, name), "rb") as file:
            source = file.read()
        tries += [(name, check, source) for check in CHECKS]
    passed = failed = 0
    for name, check, source in tries:
        try:
            check(source)
            passed += 1
        except (AssertionError, ValueError, KeyError, OSError) as fault:
            failed += 1
            print(f"{name}, {check.__name__}: {str(fault)[:500]}")
    print(f"{passed} passed, {failed} failed")
    return 1 if failed else 0


if __name__ == "__main__":
    sys.exit(main())
