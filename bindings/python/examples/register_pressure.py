"""How many variables are live at each point of a program: how many registers it would take to keep
them all.

    register_pressure.py FILE            a table, with a bar for each point
    register_pressure.py FILE PICTURE    a plot, by matplotlib where it is there; else the table

The picture's ending says its form, as .svg or .png. The program may be as large as the large limits
allow.
"""

from __future__ import annotations

import importlib
import importlib.util
import sys
from collections.abc import Sequence
from pathlib import Path
from typing import TextIO

import tacflow


def write_table(program: tacflow.Program, live: tacflow.Facts, out: TextIO) -> None:
    """For each procedure the point where most is live, and a line for each point."""
    counts = [int(count) for count in live.counts()]
    for number, name in enumerate(program.procedures):
        points = program.points_of(number)
        most = max(points, key=lambda point: counts[point])
        names = ", ".join(live.names_at(most)) or "-"
        out.write(f"{name}: at most {counts[most]} live, at place {program.points[most].place}: ")
        out.write(f"{names}\n")
        for point in points:
            at = program.points[point]
            line = f"line {at.line}" if at.line else "end"
            out.write(f"{at.place:6}  {line:10} {counts[point]:5}  {'#' * counts[point]}\n")


def write_plot(program: tacflow.Program, live: tacflow.Facts, picture: str) -> None:
    """One line over all points, with a mark where each procedure begins."""
    counts = [int(count) for count in live.counts()]
    importlib.import_module("matplotlib").use("Agg")
    pyplot = importlib.import_module("matplotlib.pyplot")
    figure, axes = pyplot.subplots(figsize=(10, 4), layout="constrained")
    axes.step(range(len(counts)), counts, where="post")
    for number, name in enumerate(program.procedures):
        start = program.points_of(number).start
        axes.axvline(start, color="lightgrey", linewidth=0.8)
        axes.text(start, max(counts) + 0.9, f" {name}", fontsize=8, va="top")
    axes.set(xlabel="point", ylabel="live variables", ylim=(0, max(counts) + 1))
    figure.savefig(picture)


def main(words: Sequence[str]) -> int:
    if len(words) not in (1, 2):
        print(__doc__, file=sys.stderr)
        return 2
    try:
        text = Path(words[0]).read_bytes()
        with tacflow.open(text, "large") as program:
            live = program.facts("live")
            if len(words) == 2 and importlib.util.find_spec("matplotlib"):
                write_plot(program, live, words[1])
            else:
                write_table(program, live, sys.stdout)
    except (tacflow.Error, OSError) as error:
        print(f"register_pressure.py: {words[0]}: {error}", file=sys.stderr)
        return 1
    return 0


if __name__ == "__main__":
    sys.exit(main(sys.argv[1:]))
