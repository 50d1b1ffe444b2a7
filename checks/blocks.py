"""Tries tacview --blocks on each program of examples/. Each picture is compared with one that is
made of the lines of JSON: blocks are cut, gen and kill composed, and each block's sets held against
the equations of the textbook. TACVIEW=/path/to/program takes another program than ./tacview. Prints
`N passed, M failed`."""

from __future__ import annotations

import os
import re
import sys

from views import ANALYSES, EXAMPLES, LOOKS, TACVIEW, Row, both_sides, edges_of, names_by_number
from views import node_of, objects, picture_of, run, set_lines, written_by

ENDS = ("if ", "ifFalse ", "goto ", "call ", "return")


def has_operand(text: str, variable: str | None) -> bool:
    """Whether a variable is an operand in a text."""
    return variable in re.findall(r"\w+", text)


def own_sets(point: Row, analysis: str, names: dict[str, list[str]]) -> tuple[set[str], set[str]]:
    """What the statement at a point generates and kills, by name."""
    statement, written = point["statement"] or "", written_by(point)
    if analysis == "reach":
        same = {name for name in names["reach"] if name.split("@")[0] == written}
        made = {f"{written}@{point['line']}"} & same
        return made, same - made
    if analysis == "live":
        text = "" if statement.startswith("read ") else statement.split(" = ")[-1]
        return {name for name in names["live"] if has_operand(text, name)}, {written} - {None}
    evaluated = {statement.split(" = ")[-1]} & set(names[analysis])
    changed = {name for name in names[analysis] if has_operand(name, written)}
    return (
        (evaluated - changed, changed) if analysis == "avail" else (evaluated, changed - evaluated)
    )


def blocks_in(points: list[Row]) -> list[list[Row]]:
    """The points of each block."""
    blocks: list[list[Row]] = []
    for point in points:
        statement = point["statement"]
        before = blocks[-1][-1]["statement"] if point["place"] else None
        alone = statement is None or statement.startswith("call ")
        if before is None or before.startswith(ENDS) or alone or point["labels"]:
            blocks.append([])
        blocks[-1].append(point)
    return blocks


def composed(block: list[Row], analysis: str, names: dict[str, list[str]]) -> list[set[str]]:
    """Gen and kill of a block, statement by statement in the direction of the analysis."""
    gen: set[str] = set()
    kill: set[str] = set()
    for point in block if analysis in ("reach", "avail") else block[::-1]:
        made, spoiled = own_sets(point, analysis, names)
        gen, kill = made | (gen - spoiled), kill | spoiled
    return [gen, kill]


def is_shown(name: str) -> bool:
    """Whether it is no value at the beginning."""
    return not name.endswith("@entry")


def facts_of(block: list[Row], names: dict[str, list[str]]) -> list[str]:
    """The lines of a block's sets, which have to meet the book's equations."""
    lines: list[str] = []
    for name in ANALYSES:
        first, last = block[0][name], block[-1][name]
        if "behind" not in last:
            lines += set_lines(f"{name} IN: ", first["names"])
            continue
        gen, kill = composed(block, name, names)
        near, far = set(first["names"]), set(last["behind"])
        if name in ("live", "busy"):
            near, far = far, near
        assert not first["path"] or far == set(filter(is_shown, gen)) | (near - kill), block[0]
        for word, bits in (("gen", gen), ("kill", kill)):
            own = [bit for bit in names[name] if bit in bits and is_shown(bit)]
            lines += set_lines(f"{name} {word}: ", own)
        lines += set_lines(f"{name} IN: ", first["names"])
        lines += set_lines(f"{name} OUT: ", last["behind"])
    return lines


def node_of_block(block: list[Row], remarks: list[Row], facts: list[str]) -> str:
    """The line of a block in a picture, made of those of its points."""
    number = block[0]["point"]
    nodes = [
        node_of(point, [row for row in remarks if row["point"] == point["point"]], True)
        for point in block
    ]
    label = "".join(node.split('label="')[1].split('"')[0] for node in nodes)
    label += "".join(line + "\\l" for line in facts)
    words = {word for node in nodes for word in node.split('class="')[1].split('"')[0].split()}
    marks = [mark for mark in LOOKS if mark in words]
    names = f'id="block{number}", class="{" ".join(["block", *marks])}"'
    return f'    {number} [{names}, label="{label}"{"".join(LOOKS[mark] for mark in marks)}];\n'


def blocks_of(source: bytes) -> str:
    """The picture of blocks, with all facts but the values at the beginning."""
    program, points, remarks = objects(source)
    names = names_by_number(objects(source, "--changes")[0])
    blocks = blocks_in(both_sides(points))
    lines = {point["point"]: point["line"] for point in points}
    text = picture_of(program, [], []).removesuffix("}\n")
    for block in blocks:
        title = f'    label="{block[0]["procedure"]}";\n'
        before, after = text.split(title)
        inside, end = after.split("  }\n", 1)
        node = node_of_block(block, remarks, facts_of(block, names))
        text = before + title + inside + node + "  }\n" + end
    for block in blocks:
        edges = edges_of(block[-1], lines)
        text += edges.replace(f"  {block[-1]['point']} ->", f"  {block[0]['point']} ->")
    return text + "}\n"


def main() -> int:
    """Tries all examples."""
    passed = failed = 0
    for name in sorted(name for name in os.listdir(EXAMPLES) if name.endswith(".tac")):
        with open(os.path.join(EXAMPLES, name), "rb") as file:
            source = file.read()
        try:
            words = ["--blocks", "--facts", "all", "--hide-entry"]
            assert run(TACVIEW, words, source).decode() == blocks_of(source), "another picture"
            passed += 1
        except (AssertionError, ValueError, KeyError, OSError) as fault:
            failed += 1
            print(f"{name}: {str(fault)[:500]}")
    print(f"{passed} passed, {failed} failed")
    return 1 if failed else 0


if __name__ == "__main__":
    sys.exit(main())
