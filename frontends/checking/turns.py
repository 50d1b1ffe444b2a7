"""By which way a local that may be unset comes to its use, by the turns that taclint tells.

Each use has a procedure of its own: what one activation of its function does to the local
(ways.py), where nothing else reads it. taclint tells so many turns of a way at most; a longer way
is asked for anew from the last of them on.
"""

from __future__ import annotations

import re
from typing import TYPE_CHECKING

from gimple import emit, flow
from gimple.code import Builder, Label, Procedure, Step, Variable
from gimple.faults import Refusal

from .lints import turns_in
from .ways import Excerpt, Move, Way, behind_labels

if TYPE_CHECKING:
    from .findings import Claim, Line
    from .lints import Row
    from .remark import Note
    from .sources import Sources

LEADS_ON = re.compile(r"the way leads on to line (\d+)")
# So many procedures one statement of the language may call.
CALLED = 8


class Search:
    """A search for a way to a use of a local: its moves as far as they are known, and the step from
    which on they are not.
    """

    def __init__(self, line: Line, variable: Variable, never: set[int]) -> None:
        _, self.reader, function = line
        self.variable = Variable("x")
        self.excerpt = Excerpt(function, {variable: self.variable}, never, self.reader)
        self.procedure = self.excerpt.procedure
        self.steps = self.procedure.steps
        self.follow = flow.successors(self.steps)
        self.at = behind_labels(self.steps, 0)
        self.moves: list[Move] = []

    def body(self) -> Procedure:
        """The procedure that leads on from the step."""
        start = Label()
        body = Procedure(self.procedure.wish, self.procedure.source, self.procedure.function)
        body.steps = [
            *(Step("goto", label=start), *self.steps[: self.at]),
            *(Step("label", label=start), *self.steps[self.at :]),
        ]
        return body

    def is_done(self) -> bool:
        """Whether the way is known up to the use."""
        return self.steps[self.at] is self.excerpt.uses.get(self.reader)

    def goes_on(self) -> bool:
        """Whether the use is there, and not reached yet by a way that passes each step once."""
        is_short = len(self.moves) <= len(self.steps)
        return self.reader in self.excerpt.uses and is_short and not self.is_done()

    def take(self, turns: list[Row]) -> None:
        """Goes on by turns, whose lines are those of the text that was written last."""
        places = {step.line: at for at, step in enumerate(self.steps) if step.line}
        ahead = iter([(row["line"], to) for row in turns if (to := leads_to(row["words"]))])
        while not self.is_done():
            if self.steps[self.at].kind in ("use", "fork"):
                line, to = next(ahead, (0, 0))
                if not to:
                    return
                if places[line] != self.at:
                    raise Refusal(f"taclint's turn in line {line} is none of the way there")
                after = places[to]
            else:
                after = behind_labels(self.steps, self.follow[self.at][0])
            self.moves.append(Move(self.at, after))
            self.at = after

    def notes(self, sources: Sources) -> tuple[Note, ...]:
        """What is to be said of the way."""
        return Way(self.procedure, self.variable, self.moves, sources).notes()


def leads_to(words: str) -> int:
    """The line to which a turn leads on from a test, 0 where it is no turn at a test."""
    found = LEADS_ON.fullmatch(words)
    return int(found[1]) if found else 0


def notes_of_turns(
    unsure: dict[Claim, tuple[Line, Variable]], never: set[int], sources: Sources, workers: int
) -> dict[Claim, tuple[Note, ...]]:
    """What is to be said of the ways to uses of variables, of those to which one is found."""
    searches = {key: Search(*use, never) for key, use in unsure.items()}
    written = written_in_groups([search for search in searches.values() if search.goes_on()])
    while written:
        longer: list[Search] = []
        for (group, _), turns in zip(written, turns_in([text for _, text in written], workers)):
            for search in group:
                known = turns.get(search.variable.name)
                if known is not None:
                    search.take(known.rows)
                    if known.has_more and search.goes_on():
                        longer.append(search)
        written = written_in_groups(longer)
    return {key: search.notes(sources) for key, search in searches.items() if search.is_done()}


def written_in_groups(searches: list[Search]) -> list[tuple[list[Search], list[str]]]:
    """Groups of these searches, each with the text of a program that does its own; without those
    that are too large.
    """
    groups = [searches[at : at + CALLED] for at in range(0, len(searches), CALLED)]
    return [(group, text) for group in groups if (text := text_of(group))]


def text_of(searches: list[Search]) -> list[str]:
    """The text of a program that does one of these searches; none where it is too large."""
    main = Procedure("main")
    bodies = [search.body() for search in searches]
    Builder(main).call(bodies)
    for search in searches:
        search.variable.name = ""  # by its place in this text
    try:
        return emit.Writer().write([main, *bodies]).pieces
    except emit.TooLarge:
        return []
