"""Whether a page shows the rounds of an iteration as the lines of tacview --steps tell them: of each
analysis, round by round, forwards and back, the set, the turn and the mark of each point in the text,
at the chosen line and in the graph; the slider and what it says; and, behind `s`, what holds in the
end. The sets are worked out here, from the lines alone."""

from __future__ import annotations

from browser import Browser, Row

NAMES = {
    "reach": "definition_names",
    "live": "variables",
    "avail": "expression_names",
    "busy": "expression_names",
}

# What is shown of a round. In the graph each node's tooltip has its statement, and then its set.
ROUND = """(() => {
  const all = (from, selector) => [...from.querySelectorAll(selector)];
  const text = (from, selector) => from.querySelector(selector)?.textContent ?? null;
  const chips = box => all(box, ".chips > :not(.more)").map(chip => chip.textContent);
  const slider = document.getElementById("round");
  const box = document.querySelector(".analysis");
  return {
    slider: [slider.value, slider.max, slider.disabled],
    says: [slider.getAttribute("aria-valuetext"), text(document, "#round-now")],
    pressed: document.getElementById("round-switch").getAttribute("aria-pressed"),
    rows: all(document, "[role=option]").map(row => [Number(row.dataset.point), text(row, ".set"),
      text(row, ".stations"), row.classList.contains("changed"), row.getAttribute("aria-label")]),
    nodes: all(document, "#graph .node").map(node => [Number(node.dataset.point),
      text(node, "title").split("\\n")[1] ?? null, text(node, ".ordinal"),
      node.classList.contains("changed"), node.classList.contains("known-set")]),
    round: box.dataset.round ?? null,
    facts: Object.fromEntries(all(box, ".change").filter(line => !line.dataset.changed)
      .map(line => [line.classList[1], chips(line).filter(name => name !== "nothing")])),
    changed: all(box, "[data-changed] [data-to]").map(link => Number(link.dataset.to)),
  };
})()"""


def same(what: str, got: object, wanted: object) -> None:
    if got != wanted:
        raise AssertionError(f"{what}: {str(got)[:300]}, and not {str(wanted)[:300]}")


class Iteration:
    """The rounds of an analysis, and the sets behind each."""

    def __init__(self, head: Row, lines: list[Row]) -> None:
        start, *rounds = lines
        self.names: list[str] = head[NAMES[start["analysis"]]]
        self.begin: str = start["begin"]
        self.turns = {point: str(at) for at, point in enumerate(start["order"], 1)}
        self.changed: list[list[Row]] = [[], *(line["changed"] for line in rounds)]
        begin = set(range(len(self.names))) if self.begin == "everything" else set()
        sets = {known["point"]: set(known["bits"]) for known in start["known"]}
        sets |= {point: set(begin) for point in start["order"]}
        self.sets = []
        for changes in self.changed:
            for change in changes:
                old = sets[change["point"]]
                sets[change["point"]] = (old - set(change["went"])) | set(change["came"])
            self.sets.append({point: set(bits) for point, bits in sets.items()})

    def named(self, bits: set[int] | list[int]) -> list[str]:
        """What bits are called, in order."""
        return [self.names[bit] for bit in sorted(bits)]

    def words(self, number: int) -> str:
        """What is said of a round; 0 is the start."""
        count = len(self.turns)
        if number == 0:
            return f"start: {self.begin} at {count} point{'s' * (count != 1)} that rounds compute"
        count = len(self.changed[number])
        changes = f"{count} set{'s' * (count != 1)} changed" if count else "nothing changed, this holds"
        return f"round {number} of {len(self.changed) - 1}: {changes}"

    def change(self, number: int, point: int) -> Row | None:
        return next((each for each in self.changed[number] if each["point"] == point), None)

    def shown(self, number: int, point: int) -> list[object]:
        """A point's set, its turn, and whether the round changed it."""
        names = ", ".join(self.named(self.sets[number][point])) or "nothing"
        return [names, self.turns.get(point), self.change(number, point) is not None]

    def facts(self, number: int, point: int) -> dict[str, list[str]]:
        """What is shown at the chosen line: what came, what went, and the rest where there is some."""
        change, bits = self.change(number, point), self.sets[number][point]
        lines = {
            "came": self.named(change["came"] if change else []),
            "went": self.named(change["went"] if change else []),
            "stays": self.named(bits - set(change["came"] if change else [])),
        }
        return {
            kind: sorted(names)
            for kind, names in lines.items()
            if names or (kind == "stays" and not change)
        }


def check_round(page: Browser, iteration: Iteration, number: int, chosen: int) -> None:
    """All that is shown of a round."""
    got: Row = page.evaluate(ROUND)
    last = str(len(iteration.changed) - 1)
    words = iteration.words(number)
    same("the slider", got["slider"], [str(number), last, False])
    same("what is said", [*got["says"], got["pressed"]], [words, words, "true"])
    for point, names, margin, changed, label in got["rows"]:
        wanted = iteration.shown(number, point)
        same(f"the row of point {point}", [names, margin, changed], [wanted[0], wanted[1] or "–", wanted[2]])
        assert f"holds {wanted[0]}" in label, label
        turn = f"number {wanted[1]} in each round" if wanted[1] else "known from the beginning"
        assert turn in label, label
        change = iteration.change(number, point)
        for word in ("came", "went"):
            moved = ", ".join(iteration.named(change[word])) if change else ""
            assert (f"{word} {moved}" in label) == bool(moved) or not moved, label
    for point, names, badge, changed, known in got["nodes"]:
        wanted = iteration.shown(number, point)
        same(f"the node of point {point}", [names, badge, changed], wanted)
        same(f"what is known at point {point}", known, point not in iteration.turns)
    facts = {kind: sorted(names) for kind, names in got["facts"].items()}
    same("the line", [got["round"], facts], [str(number), iteration.facts(number, chosen)])
    links = [each["point"] for each in iteration.changed[number]]
    same("the points that changed", got["changed"], links)


def check_analysis(page: Browser, iteration: Iteration, points: list[int]) -> None:
    """Each round, to the last and back; another line is chosen in each."""
    rounds = len(iteration.changed)
    page.press("Home")
    for at, number in enumerate([*range(rounds), *range(rounds - 2, -1, -1)]):
        check_round(page, iteration, number, points[min(at, len(points) - 1)])
        page.press("." if at < rounds - 1 else ",")
        page.press("j")
    page.press(",")
    same("no round before the start", page.evaluate(ROUND)["slider"][0], "0")
    slider = "document.getElementById('round')"
    last = rounds - 1
    page.evaluate(f"{slider}.value = {last}; {slider}.dispatchEvent(new Event('input'))")
    page.press("Home")
    check_round(page, iteration, last, points[0])


def check_rounds(page: Browser, rows: list[Row], faint: str) -> None:
    """The page around the lines of one procedure and these of its rounds."""
    head = rows[0]
    points = list(range(rows[1]["first"], rows[1]["first"] + rows[1]["points"]))
    analyses: list[str] = rows[1]["analyses"]
    page.press("e")  # values at the beginning are no longer folded
    for at, analysis in enumerate(analyses, 1):
        lines = [row for row in rows[2:-1] if row["analysis"] == analysis]
        page.press(str(at))
        goes_on = page.evaluate(ROUND)["slider"]
        page.press("s")
        same("what holds in the end", page.evaluate(ROUND)["rows"][0][1], None)
        page.press("s")
        same("from the start", page.evaluate(ROUND)["slider"], ["0", goes_on[1], False])
        check_analysis(page, Iteration(head, lines), points)
    for dark in (False, True):
        page.dark(dark)
        for _ in range(2):
            page.press(",")
            same("faint texts", page.evaluate(faint), [])
    page.dark(False)
    page.press("0")
    if len(analyses) > 1:
        state = page.evaluate(ROUND)
        same("of all analyses", [state["slider"][2], state["says"][0]], [True, "choose one analysis"])
    page.press("1")
