"""A page that shows C sources with their remarks: lines of JSON in the frame of tacview's pages."""

from __future__ import annotations

import json
from collections.abc import Iterator
from typing import TYPE_CHECKING, Any

from gimple.faults import Refusal

from .compiling import Unusable
from .reports import answered
from .sources import text_of

if TYPE_CHECKING:
    from .remark import Note, Remark
    from .sources import Lines

# A program whose page has the frame.
SMALLEST = b"proc main\nend\n"
# The kinds of remarks that the frame knows.
SHOWN_AS = {
    "dead": "dead",
    "dead-initial": "dead",
    "dead-last": "dead",
    "unset": "unset",
    "maybe-unset": "unset",
    "never": "never_reached",
    "computed": "computed",
    "busy": "busy",
}


def page(remarks: list[Remark], known: Lines, files: list[str]) -> Iterator[str]:
    """The page of these files, and of others that remarks or their notes speak of."""
    before, behind = frame()
    yield before
    for row in rows(remarks, known, files):
        yield json.dumps(row, separators=(",", ":")).replace("<", "\\u003c") + "\n"
    yield behind


def frame() -> tuple[str, str]:
    """What stands before the lines of tacview's pages, and what behind them."""
    try:
        made = answered("--format", "html", input=SMALLEST)[0]
    except Refusal as refusal:
        raise Unusable([str(refusal)]) from None
    before, opening, rest = made.partition('id="lines">\n')
    _, closing, behind = rest.partition("</script>")
    if not opening or not closing:
        raise Unusable(["tacview writes no page"])
    return before + opening, closing + behind


def rows(remarks: list[Remark], known: Lines, files: list[str]) -> Iterator[dict[str, Any]]:
    """The lines: the sources, each of their lines as a point, and the remarks."""
    spoken = [at for remark in remarks for at in (remark, *remark.notes)]
    named = list(dict.fromkeys([*files, *(at.file for at in spoken)]))
    shown = [(file, *line) for file in named for line in lines_of(file, spoken, known)]
    points = {(file, number): point for point, (file, number, _) in enumerate(shown)}
    yield {"type": "page", "title": named[0] if len(named) == 1 else f"{len(named)} C sources"}
    yield {"type": "program", "language": "C", "points": len(shown), "procedures": named}
    place = 0
    for point, (file, number, text) in enumerate(shown):
        place = place + 1 if point and shown[point - 1][0] == file else 0
        where = {"point": point, "procedure": file, "place": place, "line": number}
        yield {"type": "point", **where, "labels": [], "statement": text, "edges": []}
    for remark in remarks:
        yield row_of(remark, points)
    yield {"type": "end", "points": len(shown)}


def lines_of(
    file: str, spoken: list[Remark | Note], known: Lines
) -> Iterator[tuple[int, str]]:
    """The lines of a file, by number; where it can't be read here, those that are spoken of."""
    text = text_of(file)
    lines = [] if text is None else text.removesuffix("\n").split("\n")
    yield from enumerate(lines, 1)
    others = {at.line: known.line(at) for at in spoken if at.file == file}
    yield from sorted((number, line) for number, line in others.items() if number > len(lines))


def row_of(remark: Remark, points: dict[tuple[str, int], int]) -> dict[str, Any]:
    """A remark as a line, with its notes."""
    notes = [
        {
            "message": note.text,
            "point": points[note.file, note.line],
            "place": f"{note.file}:{note.line}",
        }
        for note in remark.notes
    ]
    return {
        "type": "remark",
        "point": points[remark.file, remark.line],
        "line": remark.line,
        "kind": SHOWN_AS[remark.kind],
        "message": f"{remark.text} [tacflow-{remark.kind}]",
        "notes": notes,
    }
