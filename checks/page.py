"""Tries the pages of tacview --format html: that of each program of examples/, and some whose lines
are made here and put into the same frame, are opened in a headless Chromium (browser.py) and gone
through by keyboard, line by line. What is shown is compared with what tacview --format json says
(shown.py), with sets in place of what changes: rows, remarks and what stands around them, ways step
by step, facts before and behind each line, marks, the graph. Then filters, searching, links, sizes
of windows, contrast, names that try to be markup, and check-c's page of a source in C. A page may
log nothing and ask nothing of a network. TACVIEW=/path/to/program takes another program than ./tacview, and words are the names of
pages that are tried alone. Prints `N passed, M failed`.
`checks/page --time FILE..` tells instead how long pages take to open, and then a key."""

from __future__ import annotations

import functools
import json
import os
import shutil
import subprocess
import sys
import tempfile
import time
from collections.abc import Callable

import browser
from browser import Browser, Row
from page_rounds import check_rounds
from shown import FORWARD, KINDS, Lines

HERE = os.path.dirname(os.path.realpath(__file__))
ROOT = os.path.join(HERE, "..")
EXAMPLES = os.path.join(ROOT, "examples")
TACVIEW = os.environ.get("TACVIEW", os.path.join(ROOT, "tacview"))

WIDE = (1400, 3000, 0.1)  # so high that each row of an example is in view

# What the page shows of the chosen line, all of it unfolded.
SEEN = """(() => {
  document.querySelectorAll(".more:not([aria-expanded])").forEach(more => more.click());
  const all = (from, selector) => [...from.querySelectorAll(selector)];
  const texts = (from, selector) => all(from, selector).map(each => each.textContent);
  const chips = box => texts(box, ".chips > :not(.more)");
  const chosen = document.querySelector("[role=option][aria-selected=true]");
  const list = document.getElementById("listing");
  return {
    chosen: Number(chosen.dataset.point),
    active: list.getAttribute("aria-activedescendant") === chosen.id,
    label: chosen.getAttribute("aria-label"),
    place: document.getElementById("place").textContent,
    statement: document.getElementById("statement").textContent,
    node: Number(document.querySelector("#graph .chosen").dataset.point),
    edges: all(document, "#graph [data-edge]").map(edge => edge.dataset.edge).sort(),
    remarks: all(document, ".remark").map(box => ({
      kind: box.dataset.kind,
      sentence: box.querySelector(".sentence").textContent,
      steps: Number(box.querySelector("[data-way]")?.dataset.way ?? -1),
      sets: Object.fromEntries(all(box, "[data-set]").map(set =>
        [set.dataset.set, set.matches("p") ? [set.textContent] : chips(set)])),
    })),
    control: Object.fromEntries(all(document, "[data-control]").map(line =>
      [line.dataset.control, chips(line)])),
    marks: all(document, "[role=option]").map(row => row.querySelector(".mark").textContent),
    facts: Object.fromEntries(all(document, ".analysis").map(box => [box.dataset.analysis, {
      path: !box.querySelector(".no-path"),
      lines: Object.fromEntries(all(box, ".change").map(line =>
        [line.classList[1], chips(line).filter(name => name !== "nothing")])) }])),
  };
})()"""

ROWS = """[...document.querySelectorAll("[role=option]")].map(row => ({
  point: Number(row.dataset.point), line: row.querySelector(".number").textContent,
  text: row.querySelector("code").textContent.trim(), kinds: [...row.classList],
  said: row.querySelector(".said").textContent }))"""

WAY = """(() => {
  const all = selector => [...document.querySelectorAll(selector)];
  const numbers = selector => all(selector).map(each => Number(each.dataset.point));
  return {
    shown: !document.getElementById("way").hidden,
    title: document.getElementById("way-title").textContent,
    now: document.getElementById("way-now").textContent,
    chosen: numbers("[role=option][aria-selected=true]")[0],
    margin: Object.fromEntries(all("[role=option].way").map(row =>
      [row.dataset.point, row.querySelector(".stations").textContent])),
    current: numbers("[role=option].current"),
    listed: document.querySelector("#way-steps [aria-current]")?.dataset.station,
    nodes: numbers("#graph .node.way"),
    edges: all("#graph path.way").map(edge => edge.dataset.edge).sort(),
  };
})()"""

# Texts whose contrast with what is behind them is below what WCAG 2 asks at AA.
FAINT = """(() => {
  const canvas = document.createElement("canvas").getContext("2d", { willReadFrequently: true });
  const rgb = colour => { canvas.clearRect(0, 0, 1, 1); canvas.fillStyle = colour;
    canvas.fillRect(0, 0, 1, 1); return [...canvas.getImageData(0, 0, 1, 1).data]; };
  const light = ([r, g, b]) => [r, g, b].map(each => each / 255)
    .map(each => each <= 0.04045 ? each / 12.92 : ((each + 0.055) / 1.055) ** 2.4)
    .reduce((sum, each, at) => sum + each * [0.2126, 0.7152, 0.0722][at], 0);
  const behind = node => {
    if (node.matches("svg text"))
      for (let at = node; at; at = at.previousElementSibling)
        if (at.matches("rect")) return rgb(getComputedStyle(at).fill);
    for (let at = node; at; at = at.parentElement) {
      const colour = rgb(getComputedStyle(at).backgroundColor);
      if (colour[3] === 255) return colour;
    }
    return [255, 255, 255, 255];
  };
  const faint = [];
  for (const node of document.querySelectorAll("body *")) {
    const own = [...node.childNodes].some(each => each.nodeType === 3 && each.data.trim());
    if (!own || !node.checkVisibility()) continue;
    if (node.matches("script, style, title, :disabled")) continue;
    const style = getComputedStyle(node), svg = node.matches("svg text");
    const [one, other] = [rgb(svg ? style.fill : style.color), behind(node)].map(light);
    const ratio = (Math.max(one, other) + 0.05) / (Math.min(one, other) + 0.05);
    const name = `${node.tagName}.${node.getAttribute("class")} ${node.textContent}`;
    if (ratio < 4.5) faint.push(`${name} ${ratio}`);
  }
  return faint;
})()"""


def same(what: str, got: object, wanted: object) -> None:
    if got != wanted:
        raise AssertionError(f"{what}: {str(got)[:300]}, and not {str(wanted)[:300]}")


def seen(page: Browser) -> Row:
    """What is seen of the chosen line, with names in an order of their own."""
    row: Row = page.evaluate(SEEN)
    for facts in row["facts"].values():
        facts["lines"] = {kind: sorted(names) for kind, names in facts["lines"].items()}
    return row


def check_rows(page: Browser, lines: Lines) -> None:
    """Each point has a row with its line, text, colour, and some words on its remarks."""
    rows = page.evaluate(ROWS)
    same("points", [row["point"] for row in rows], list(lines.points))
    for row in rows:
        point, remarks = lines.points[row["point"]], lines.remarks[row["point"]]
        wanted = [str(point["line"] or ""), point["statement"] or "end"]
        if not lines.sources:
            same("a row", [row["line"], row["text"]], wanted)
        elif point["line"]:
            same("the line of a row", row["line"], wanted[0])
        weightiest = remarks[0]["kind"] if remarks else "plain"
        assert weightiest in row["kinds"], (row, weightiest)
        for remark in remarks[:3]:
            about = remark.get("variable") or remark.get("expression") or "never reached"
            assert about in row["said"], (row, remark)
        assert remarks or not row["said"], row


FILE_ROWS = """[...document.querySelectorAll("#listing .row")].map(row => [row.querySelector(".number").textContent,
  row.querySelector("code, .name").textContent])"""


def check_source_rows(page: Browser, lines: Lines) -> None:
    """With the source the rows are the file's lines, those of statements and of ends can be chosen."""
    if not lines.sources:
        return
    texts = [(str(row["line"]), row["text"].encode("latin-1")) for row in lines.sources]
    wanted = [[number, text.decode("utf-8", "replace")] for number, text in texts]
    same("the file's lines", page.evaluate(FILE_ROWS), wanted)
    ends = [row for row in lines.sources if row["text"].split("#")[0].strip() == "end"]
    count = "document.querySelectorAll('[role=option]').length"
    statements = [row for row in lines.points.values() if row["line"]]
    same("rows to choose", page.evaluate(count), len(statements) + len(ends))


def check_points(page: Browser, lines: Lines) -> None:
    """All of each point, gone to by keyboard, and the ways from it."""
    page.press("e")
    page.press("Home")
    for number in lines.points:
        got, wanted = seen(page), lines.expected(number)
        assert lines.place(number) in got.pop("label"), number
        for what, value in wanted.items():
            same(f"{what} of point {number}", got[what], value)
        same("the focus", page.evaluate("document.activeElement.id"), "listing")
        ways = [each for each in lines.remarks[number] if "path" in each]
        for remark in ways:
            check_way(page, lines, remark)
        if ways:
            page.press("w")
            way = page.evaluate(WAY)
            left = [way["shown"], way["chosen"], way["margin"]]
            same("a way that is left", left, [False, number, {}])
        page.press("j")
    same("the last line", seen(page)["chosen"], max(lines.points))


def words_of_hop(lines: Lines, hop: Row | None, remark: Row) -> str:
    """What is told of a hop, or of where the way ends."""
    name = remark["variable"]
    if hop is None:
        return f"{name} is used here"
    to = lines.points.get(hop["to"])
    if hop["kind"] == "pass":
        callee = lines.head["procedures"][hop["callee"]]
        return f"passes {callee} as a whole, which may leave {name} unset"
    if hop["kind"] == "enter":
        return f"enters {to['procedure'] if to else 'a procedure that is not shown'}"
    on = hop["to"] == hop["from"] + 1 and to is not None and to["line"] is not None
    place = lines.place(hop["to"]) if to else f"point {hop['to']}"
    outcome = lines.outcome(hop["from"], hop["to"]) if hop["from"] in lines.points else None
    test = {None: "", True: "the test holds: ", False: "the test fails: "}[outcome]
    return test + ("goes on" if on else f"goes to {place}")


def check_way(page: Browser, lines: Lines, remark: Row) -> None:
    """The way of a variable that may be unset, step by step."""
    hops: list[Row] = remark["path"]
    stations = [hop["from"] for hop in hops] + [remark["point"]]
    numbers: dict[str, list[int]] = {}
    for at, point in enumerate(stations, 1):
        numbers.setdefault(str(point), []).append(at)
    margin = {
        point: " ".join(map(str, each)) if len(each) < 3 else f"{each[0]} …"
        for point, each in numbers.items()
        if int(point) in lines.points
    }
    drawn = {f"{hop['from']}>{hop['to']}" for hop in hops if hop["kind"] != "enter"}
    page.press("w")
    title = f"Way: {KINDS['unset'].format(**remark)}, line {remark['line']}"
    for at, point in enumerate(stations):
        way = page.evaluate(WAY)
        words = words_of_hop(lines, hops[at] if at < len(hops) else None, remark)
        same("the way", way["title"], title)
        same("a step", way["now"], f"Step {at + 1} of {len(stations)}: {words}")
        same("the margin", way["margin"], margin)
        same("the list of steps", way["listed"], str(at + 1))
        if point in lines.points:
            same("the step's point", [way["chosen"], way["current"]], [point, [point]])
            name = lines.points[point]["procedure"]
            inside = {each for each, row in lines.points.items() if row["procedure"] == name}
            same("nodes on the way", set(way["nodes"]), inside & set(stations))
            edges = sorted(each for each in drawn if int(each.split(">")[0]) in inside)
            same("edges on the way", way["edges"], edges)
        page.press("ArrowRight" if at % 2 else "l")
    page.press("h")
    if len(stations) > 1:
        same("a step back", page.evaluate(WAY)["listed"], str(len(stations) - 1))


LINKS = """[...document.querySelectorAll("#remarks button[data-to]")].map(
  each => Number(each.dataset.to))"""
COUNTS = """[...document.querySelectorAll("#kinds [data-kind]")].map(
  each => [each.dataset.kind, Number(/\\d+$/.exec(each.textContent)[0])])"""
FOUND = "document.getElementById('found').textContent"
NAMELESS = """[...document.querySelectorAll("button, input, select, [role=option], section")]
  .filter(each => !(each.getAttribute("aria-label") ?? each.textContent).trim()).length"""


def chosen(page: Browser) -> int:
    number: int = page.evaluate(
        'Number(document.querySelector("[role=option][aria-selected=true]").dataset.point)'
    )
    return number


def check_moves(page: Browser, lines: Lines) -> None:
    """From remark to remark, to what stands around one and back."""
    told = [number for number, remarks in lines.remarks.items() if remarks]
    last = max(lines.points)
    page.press("End")
    same("the end", chosen(page), last)
    wanted = [each for each in told if each != last] + [each for each in told if each == last]
    for number in wanted:
        page.press("n")
        same("the next remark", chosen(page), number)
    page.press("Home")
    for number in reversed(told):
        if number != min(lines.points):
            page.press("p")
            same("the remark before", chosen(page), number)
    for number in told:
        sets = [lines.around(remark) for remark in lines.remarks[number]]
        page.evaluate(f"location.hash = '#{lines.points[number]['line']}'")
        page.evaluate("new Promise(done => setTimeout(() => done(1)))")
        links = page.evaluate(LINKS)
        if any(sets) and links and not any("path" in each for each in lines.remarks[number]):
            page.press("a")
            page.press("Enter")
            same("a link around a remark", chosen(page), links[0])
            page.press("b")
            same("and back", chosen(page), number)


def check_kinds(page: Browser, lines: Lines) -> None:
    """The counts of each kind; each is hidden and shown by keyboard."""
    counts = {
        kind: sum(each["kind"] == kind for told in lines.remarks.values() for each in told)
        for kind in KINDS
    }
    counts = {kind: count for kind, count in counts.items() if count}
    same("counts", dict(page.evaluate(COUNTS)), counts)
    said = "[...document.querySelectorAll('.said')].filter(each => each.textContent).length"
    before = page.evaluate(said)
    for hidden in (True, False):
        page.press("r")
        for kind in counts:
            same("the focus", page.evaluate("document.activeElement.dataset.kind"), kind)
            page.press(" ")
            rows = page.evaluate(f"document.querySelectorAll('.row.point.{kind}').length")
            assert not (hidden and rows), kind
            page.press("Tab")
        same("rows of which something is said", page.evaluate(said), 0 if hidden else before)
    page.evaluate("document.getElementById('listing').focus()")


def check_search(page: Browser, lines: Lines) -> None:
    """A text is found in all statements that have it."""
    word = next(row["statement"] for row in lines.points.values() if row["statement"]).split()[0]
    found = [each for each in lines.points if word in lines.searched(each)]
    page.press("Home")
    page.press("/")
    page.write(word)
    same("found", page.evaluate(FOUND), f"{len(found)} found")
    marked = "[...document.querySelectorAll('.row.match')].map(row => +row.dataset.point)"
    same("rows found", page.evaluate(marked), found)
    page.press("Enter")
    here = min(lines.points)
    onward = [each for each in found if each > here] or found
    same("Enter", chosen(page), onward[0])
    page.press("Escape")
    state = page.evaluate(f"[document.activeElement.id, {marked}.length]")
    same("Escape", state, ["listing", 0])


def check_analyses(page: Browser, lines: Lines) -> None:
    """A digit shows one analysis, 0 all."""
    names = [name for name in FORWARD if name in next(iter(lines.points.values()))]
    shown = "[...document.querySelectorAll('.analysis')].map(each => each.dataset.analysis)"
    for at, name in enumerate(names, 1):
        page.press(str(at))
        same("an analysis", page.evaluate(shown), [name])
    page.press("0")
    same("all analyses", page.evaluate(shown), names)


def check_looks(page: Browser, lines: Lines) -> None:
    """Nothing is wider than the window, faint, or without a name; in a narrow one the graph has its
    turn; on paper each row is there."""
    unset = [row for told in lines.remarks.values() for row in told if "path" in row]
    if unset:
        page.evaluate(f"location.hash = '#{unset[0]['line']}'")
        page.evaluate("new Promise(done => setTimeout(() => done(1)))")
        page.press("w")
    for dark in (False, True):
        page.dark(dark)
        same("faint texts", page.evaluate(FAINT), [])
    page.press("t")
    same("the other theme", page.evaluate("document.documentElement.dataset.theme"), "light")
    same("faint texts", page.evaluate(FAINT), [])
    same("what has no name", page.evaluate(NAMELESS), 0)
    page.size(420, 800)
    for pane in ("line", "graph"):
        wide = page.evaluate("[document.documentElement.scrollWidth, document.body.scrollWidth]")
        same("the width", wide, [420, 420])
        both = "['line', 'graph'].filter(id => document.getElementById(id).checkVisibility())"
        same("the pane", page.evaluate(both), [pane])
        page.press("g")
    page.evaluate("dispatchEvent(new Event('beforeprint'))")
    printed = page.evaluate("document.querySelectorAll('[role=option]').length")
    same("rows on paper", printed, len(lines.points))
    page.size(*WIDE)


CHECKS: list[Callable[[Browser, Lines], None]] = [
    check_rows,
    check_source_rows,
    check_points,
    check_moves,
    check_kinds,
    check_search,
    check_analyses,
    check_looks,
]


def written(source: bytes, *words: str) -> bytes:
    """What tacview writes of a program; where it is not proved, it says so on standard error."""
    done = subprocess.run([TACVIEW, *words], input=source, capture_output=True)
    assert done.returncode == 0, done.stderr.decode()
    return done.stdout


def page_of(source: bytes, *words: str) -> bytes:
    return written(source, "--format", "html", *words)


def lines_of(source: bytes, *words: str) -> bytes:
    """Lines with sets, whose points have where doubt comes from, too, which lines with changes tell."""
    rows = [json.loads(line) for line in written(source, "--format", "json", *words).splitlines()]
    others = ["--format", "json", "--changes", *(word for word in words if word != "--paths")]
    differing = [json.loads(line) for line in written(source, *others).splitlines()]
    origins = {row["point"]: row["leads_to"] for row in differing if row["type"] == "point"}
    for row in rows:
        row |= {"leads_to": origins[row["point"]]} if row["type"] == "point" else {}
    return "".join(json.dumps(row) + "\n" for row in rows).encode()


@functools.cache
def frame() -> tuple[bytes, bytes]:
    """What stands before the lines in a page, and what behind them."""
    page = page_of(ONE)
    before, opening, rest = page.partition(b'id="lines">\n')
    lines, closing, behind = rest.partition(b"</script>")
    assert opening and closing and lines.endswith(b"}\n"), page[:100]
    return before + opening, closing + behind


def framed(rows: list[Row]) -> bytes:
    """A page around lines that are made here."""
    before, behind = frame()
    lines = "".join(json.dumps(row, separators=(",", ":")) + "\n" for row in rows)
    return before + lines.replace("<", "\\u003c").encode() + behind


def open_anew(page: Browser, path: str) -> None:
    """Opens a page in a wide window, in light colours."""
    page.faults.clear()
    page.size(*WIDE)
    page.dark(False)
    page.open(path)


def check_page(page: Browser, path: str, text: bytes) -> None:
    """All that is to be seen of a program."""
    lines = Lines([json.loads(line) for line in text.splitlines()])
    open_anew(page, path)
    for check in CHECKS:
        check(page, lines)
    same("what the page logged or asked for", page.faults, [])


PASSES = b"""proc main
call f | g
call h
call f
end
proc f
x = 1
end
proc g
end
proc h
L:
if y goto L
print x
ifFalse y goto M
goto L
M:
print y
end
"""
# What stands around remarks, also several lines and names.
SETS = b"""proc main
read a
read b
w = 1
if a goto L
x = a + b
w = 2
goto M
L:
y = a + b
x = a + b
w = 3
M:
z = a + b
print z
print x
print w
w = 4
if w == b goto N
return
print a
N:
w = 5
end
"""
# Comments, blank lines, labels of their own, a tab, and lines that end with a carriage return too.
COMMENTED = b"""# a comment <b> \xc3\xa4

proc main # here
\tread a  # a tab before
L:
  if a goto L
\r
M: print b
  call f
end
# between
proc f
  x = 1
end # no more
"""
# One line without a remark; doubt before a call that does not come back, and what is never reached
# behind it, behind a jump, and in a procedure of its own.
ONE = b"proc main\nskip\nend\n"
ODD = b"""proc main
x = 1
call spin
x = 2
end
proc spin
L: if x goto L
goto L
print x
end
proc lonely
x = y + 1
x = y + 1
end
"""


class Page:
    """One try: its name, its page, and how it is checked."""

    def __init__(self, name: str, make: Callable[[], bytes], check: Callable[..., None]) -> None:
        self.name = name
        self.make = make
        self.check = check


def example(name: str) -> bytes:
    with open(os.path.join(EXAMPLES, name + ".tac"), "rb") as file:
        return file.read()


def programs() -> list[Page]:
    """Pages of whole programs."""
    names = [name[:-4] for name in sorted(os.listdir(EXAMPLES)) if name.endswith(".tac")]
    sources = {name: example(name) for name in names}
    sources |= {"passes": PASSES, "sets": SETS, "one": ONE, "odd": ODD}
    tried: list[tuple[str, bytes, list[str]]] = [
        *((name, source, ["--paths"]) for name, source in sources.items()),
        ("one procedure", PASSES, ["--procedure", "h", "--paths"]),
        ("some facts", example("remarks"), ["--facts", "live,avail"]),
        ("no facts", example("recursion"), ["--facts", "none"]),
        ("with its source", COMMENTED, ["--source", "--paths"]),
    ]
    return [whole(*each) for each in tried]


def whole(name: str, source: bytes, words: list[str]) -> Page:
    """The page of a program, and what is to be seen in it."""

    def check(page: Browser, path: str) -> None:
        check_page(page, path, lines_of(source, *words))

    return Page(name, functools.partial(page_of, source, "--title", name, *words), check)


def rounds(name: str, source: bytes, procedure: str, *words: str) -> Page:
    """The page of the rounds in a procedure; behind these what any page has, in the end's sets."""
    one = ["--procedure", procedure, *words]

    def check(page: Browser, path: str) -> None:
        open_anew(page, path)
        steps = written(source, "--format", "json", "--steps", *one).splitlines()
        check_rounds(page, [json.loads(line) for line in steps], FAINT)
        for key in "se0":
            page.press(key)
        lines = Lines([json.loads(line) for line in lines_of(source, *one).splitlines()])
        for each in CHECKS:
            each(page, lines)
        same("what the page logged or asked for", page.faults, [])

    return Page(name, functools.partial(page_of, source, "--steps", *one), check)


HOSTILE = [
    "</script><script>bad()</script>",
    "<img src=x onerror=bad()>",
    "<!--<script>",
    "a&amp;\"'`<b>",
    "__proto__",
    "</SCRIPT >",
]


def hostile_page() -> bytes:
    """A page whose names try to be markup."""
    names = HOSTILE
    definitions = [text for name in names for text in (f"{name}@entry", f"{name}@1")]
    head: Row = {"type": "program", "points": len(names) + 1, "procedures": [names[0]]}
    head |= {"variables": names, "definitions": len(definitions), "expressions": len(names)}
    rows: list[Row] = [{"type": "page", "title": "</title>"}]
    rows.append(head | {"definition_names": definitions, "expression_names": names})
    for at, name in enumerate([*names, ""]):
        end = at == len(names)
        row: Row = {"type": "point", "point": at, "procedure": names[0], "place": at}
        row |= {"line": None if end else at + 1, "statement": None if end else f"{name} = {name}"}
        row |= {"labels": [name], "edges": [] if end else [{"kind": "step", "to": at + 1}]}
        none: Row = {"came": [], "went": []}
        facts = {"path": True, "came": [] if end else [at], "went": [at - 1] if at else []}
        facts |= {"behind": None if end else none}
        rows.append(row | dict.fromkeys(FORWARD, facts))
    for at, name in enumerate(names):
        base = {"type": "remark", "point": at, "line": at + 1}
        hops = [{"kind": "step", "from": each, "to": each + 1} for each in range(at)]
        rows.append(base | {"kind": "unset", "variable": name, "path": hops})
        dead: Row = {"kind": "dead", "variable": name, "next_writes": [0]}
        rows.append(base | dead | {"may_end_unwritten": True})
        computed: Row = {"kind": "computed", "expression": name, "last_evaluations": [at]}
        rows.append(base | computed | {"holders": names})
        rows.append({"type": "doubt", "point": at, "line": at + 1, "variable": name, "doubt": 0})
    rows.append({"type": "end", "points": len(names) + 1})
    return framed(rows)


def check_hostile(page: Browser, path: str) -> None:
    """Names that try to be markup are texts."""
    with open(path, encoding="utf-8") as file:
        source = file.read()
    assert source.count("</script") == 2 and "<!--" not in source, "the page's source"
    page.faults.clear()
    page.size(*WIDE)
    page.open(path)
    page.evaluate("window.bad = () => { window.worse = true; }")
    page.press("Home")
    for at, name in enumerate(HOSTILE):
        got = seen(page)
        same("a statement", got["statement"], f"{name} = {name}")
        same("remarks", [each["sentence"] for each in got["remarks"]][:2],
             [f"{name} may be used before it is set", f"assignment to {name} is dead"])
        live = [each for names in got["facts"]["live"]["lines"].values() for each in names]
        assert name in got["label"] and name in live, name
        page.press("w")
        assert name in page.evaluate(WAY)["title"], name
        page.press("Escape")
        page.press("j")
    same("markup", page.evaluate("document.querySelectorAll('img, b, script script').length"), 0)
    same("scripts", page.evaluate("[document.scripts.length, 'worse' in window]"), [2, False])
    same("the title", page.evaluate("document.title"), "</title> – tacview")
    same("what the page logged or asked for", page.faults, [])


MANY = 16000


def many_page() -> bytes:
    """One procedure of very many points, with some of each remark."""
    head: Row = {"type": "program", "points": MANY, "procedures": ["main"], "variables": ["x"]}
    head |= {"definitions": 0, "expressions": 0, "definition_names": [], "expression_names": []}
    rows = [head]
    for at in range(MANY):
        end = at == MANY - 1
        row: Row = {"type": "point", "point": at, "procedure": "main", "place": at}
        row |= {"line": None if end else at + 2, "statement": None if end else f"x = x + {at}"}
        rows.append(row | {"labels": [], "edges": [] if end else [{"kind": "step", "to": at + 1}]})
    hops = [{"kind": "step", "from": at, "to": at + 1} for at in range(MANY // 2)]
    unset = {"kind": "unset", "variable": "x", "path": hops}
    rows.append({"type": "remark", "point": MANY // 2, "line": MANY // 2 + 2} | unset)
    rows.append({"type": "end", "points": MANY})
    return framed(rows)


def check_many(page: Browser, path: str) -> None:
    """Of many points only the rows in view are there, and a long way is told in parts."""
    page.faults.clear()
    page.size(1400, 900)
    page.open(path)
    page.press("n")
    page.press("w")
    for key in ("l", "l", "PageDown", "End", "Home"):
        page.press(key)
        rows = page.evaluate("document.querySelectorAll('.row').length")
        steps = page.evaluate("document.querySelectorAll('#way-steps li').length")
        assert rows < 100 and steps < 200, (rows, steps)
    same("the first line", chosen(page), 0)
    nodes = page.evaluate("document.querySelectorAll('#graph .node').length")
    assert nodes <= 300, nodes
    same("what the page logged or asked for", page.faults, [])


SOURCE = os.path.realpath(os.path.join(ROOT, "frontends", "tests", "notes.c"))
SETS_SHOWN = """[...document.querySelectorAll("#remarks .remark")].map(box => ({
  sentence: box.querySelector(".sentence").textContent,
  notes: [...box.querySelectorAll("[data-set=notes]")].map(note => note.textContent) }))"""


def told_of_source(form: str) -> bytes:
    """What check-c writes of a source in C."""
    words = ["--whole", "--kinds", "all", "--format", form, SOURCE]
    done = subprocess.run(
        [os.path.join(ROOT, "frontends", "check-c"), *words],
        capture_output=True,
        env={**os.environ, "TACVIEW": os.path.realpath(TACVIEW)},
    )
    assert done.returncode == 0, done.stderr.decode()
    return done.stdout


def check_source(page: Browser, path: str) -> None:
    """A source in C: its lines, remarks with their notes, and no graph."""
    with open(SOURCE, encoding="utf-8") as file:
        source = file.read().splitlines()
    told = [json.loads(line) for line in told_of_source("json").splitlines()]
    wanted: dict[int, list[Row]] = {}
    for each in told:
        notes = [f"{note['message']}line {note['line']}" for note in each["notes"]]
        sentence = f"{each['message']} [tacflow-{each['kind']}]"
        wanted.setdefault(each["line"], []).append({"sentence": sentence, "notes": notes})
    page.faults.clear()
    page.size(*WIDE)
    page.open(path)
    rows: list[Row] = page.evaluate(ROWS)
    same("lines", [row["text"] for row in rows], [line.strip() for line in source])
    same("their numbers", [int(row["line"]) for row in rows], list(range(1, len(source) + 1)))
    page.press("End")
    for line, remarks in wanted.items():
        page.press("n")
        same("the next remark", chosen(page), line - 1)
        same("remarks", page.evaluate(SETS_SHOWN), remarks)
    counted = f"{SOURCE} ({len(told)})"
    same("remarks of a file", page.evaluate("document.querySelector('option').text"), counted)
    page.press("g")
    same("the graph", page.evaluate("document.getElementById('graph').checkVisibility()"), False)
    same("faint texts", page.evaluate(FAINT), [])
    page.size(420, 800)
    same("the width", page.evaluate("document.documentElement.scrollWidth"), 420)
    same("what the page logged or asked for", page.faults, [])


# One statement that makes a page of some 250 bytes, so that of these many the page is a large one.
LARGE = b"proc main\n" + b"x = y\n" * 80_000 + b"end\n"


def check_written() -> None:
    """A title is one line of the page; of a large page a line on standard error tells; and a page
    that can't be written is a fault."""
    page = page_of(ONE, "--title", 'a "b" \\ </script>\n\u00e4')
    wanted = '{"type":"page","title":"a \\"b\\" \\\\ \\u003c/script> \u00e4"}\n'
    assert page.count(wanted.encode()) == 1, page[:100]
    words = ["--format", "html", "--facts", "none", "--limits", "large"]
    done = subprocess.run([TACVIEW, *words], input=LARGE, capture_output=True)
    size, warned = len(done.stdout) // 1_000_000, done.stderr.splitlines(keepends=True)
    assert done.returncode == 0 and size >= 15, size
    said = f"tacview: {size} MB, a page that takes seconds to open: "
    said += "--procedure NAME shows one procedure, --facts LIST fewer facts\n"
    same("a large page", warned[-1].decode(), said)
    with open("/dev/full", "wb") as full:
        done = subprocess.run([TACVIEW, *words], input=ONE, stdout=full, stderr=subprocess.PIPE)
    assert done.returncode == 1 and done.stderr.endswith(b"tacview: write fault\n"), done.stderr


def check_script(folder: str) -> None:
    """The frame's script is one that node reads, in strict mode, and writes no markup."""
    script = frame()[1].decode().rpartition("<script>")[2].partition("</script>")[0]
    assert script.lstrip().startswith('"use strict";')
    for word in ("innerHTML", "outerHTML", "insertAdjacentHTML", "document.write", "eval("):
        assert word not in script, word
    path = os.path.join(folder, "frame.js")
    with open(path, "w", encoding="utf-8") as file:
        file.write(script)
    node = shutil.which("node")
    if node:
        done = subprocess.run([node, "--check", path], capture_output=True)
        assert done.returncode == 0, done.stderr.decode()


def attempt(name: str, check: Callable[[], None]) -> bool:
    try:
        check()
    except (AssertionError, KeyError, ValueError, OSError, browser.Broken) as fault:
        print(f"{name}: {type(fault).__name__} {str(fault)[:700]}")
        return False
    return True


def try_page(page: Browser, folder: str, each: Page) -> None:
    path = os.path.join(folder, each.name + ".html")
    with open(path, "wb") as out:
        out.write(each.make())
    each.check(page, path)


def tries(words: list[str], folder: str, page: Browser) -> list[tuple[str, Callable[[], None]]]:
    """All that is tried, or those of some names."""
    pages = programs()
    pages.append(rounds("rounds", example("textbook_reaching"), "main"))
    pages.append(rounds("rounds around calls", PASSES, "main"))
    pages.append(rounds("rounds in a loop", PASSES, "h", "--facts", "reach,avail"))
    pages.append(rounds("rounds where no path leads", ODD, "lonely", "--facts", "busy"))
    pages.append(Page("hostile", hostile_page, check_hostile))
    pages.append(Page("many", many_page, check_many))
    if shutil.which("gcc"):
        pages.append(Page("C", functools.partial(told_of_source, "html"), check_source))

    found: list[tuple[str, Callable[[], None]]] = [
        (each.name, functools.partial(try_page, page, folder, each)) for each in pages
    ]
    found.append(("what is written", check_written))
    found.append(("the script", functools.partial(check_script, folder)))
    return [each for each in found if not words or each[0] in words]


def tell_times(page: Browser, paths: list[str]) -> None:
    """Prints the size of each page, when it was loaded and drawn, and how long a key takes."""
    page.size(1400, 900)
    for path in paths:
        opened = page.open(os.path.realpath(path))
        began, keys = time.monotonic(), 20
        for _ in range(keys):
            page.press("j")
        key = (time.monotonic() - began) / keys
        size = os.path.getsize(path) / 1e6
        print(f"{path}: {size:.1f} MB, opens in {opened:.2f} s, a key takes {key * 1000:.0f} ms")


def main(words: list[str]) -> int:
    program = browser.find()
    if program is None:
        print("skipped: no chromium")
        return 0
    if words[:1] == ["--time"]:
        page = Browser(program)
        try:
            tell_times(page, words[1:])
        finally:
            page.close()
        return 0
    with tempfile.TemporaryDirectory() as folder:
        page = Browser(program)
        try:
            results = [attempt(name, check) for name, check in tries(words, folder, page)]
        finally:
            page.close()
    print(f"{sum(results)} passed, {len(results) - sum(results)} failed")
    return 0 if all(results) else 1


if __name__ == "__main__":
    sys.exit(main(sys.argv[1:]))
