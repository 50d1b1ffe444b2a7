"""How remarks are written: as a compiler's warnings, as lines of JSON, as SARIF."""

from __future__ import annotations

import json
import os
from collections import Counter
from collections.abc import Iterator
from typing import TYPE_CHECKING, Any, TextIO

from .baseline import print_of
from .remark import KINDS, Kind, Note, Remark

if TYPE_CHECKING:
    from .sources import Lines

COLOURS = {"place": "\033[1m", "warning": "\033[1;35m", "note": "\033[1;36m", "caret": "\033[1;32m"}
PLAIN = "\033[0m"
SCHEMA = (
    "https://docs.oasis-open.org/sarif/sarif/v2.1.0/errata01/os/schemas/sarif-schema-2.1.0.json"
)
# What relative names begin at.
BASE = "%SRCROOT%"
WARNINGS = ("dead", "unset", "never")


def has_colours(stream: TextIO) -> bool:
    """Whether colours are wanted on a stream."""
    return stream.isatty() and not os.environ.get("NO_COLOR") and os.environ.get("TERM") != "dumb"


class TextForm:
    """Remarks as a compiler writes warnings, with the source's line and a caret."""

    def __init__(self, lines: Lines, with_colours: bool) -> None:
        self.known = lines
        self.with_colours = with_colours

    def painted(self, what: str, text: str) -> str:
        """A text in its colour."""
        return f"{COLOURS[what]}{text}{PLAIN}" if self.with_colours else text

    def lines(self, remarks: list[Remark]) -> Iterator[str]:
        """The lines of all remarks."""
        for remark in remarks:
            yield from self.told(remark, "warning", f"{remark.text} [tacflow-{remark.kind}]")
            for note in remark.notes:
                yield from self.told(note, "note", note.text)

    def told(self, at: Note | Remark, level: str, text: str) -> Iterator[str]:
        """The lines of a remark or a note."""
        place = self.painted("place", f"{at.file}:{at.line}:{at.column}:")
        yield f"{place} {self.painted(level, level + ':')} {text}"
        line = self.known.line(at)
        if not line:
            return
        blank = "".join("\t" if sign == "\t" else " " for sign in self.known.before(at))
        yield f"{at.line:5} | {line}"
        yield f"      | {blank}{self.painted('caret', '^')}"


def json_lines(remarks: list[Remark]) -> Iterator[str]:
    """The remarks as objects of JSON, one a line."""
    for remark in remarks:
        yield json.dumps(as_object(remark))


def as_object(remark: Remark) -> dict[str, Any]:
    """A remark as an object of JSON."""
    notes = [
        {"file": note.file, "line": note.line, "column": note.column, "message": note.text}
        for note in remark.notes
    ]
    return {
        "file": remark.file,
        "line": remark.line,
        "column": remark.column,
        "kind": remark.kind,
        "function": remark.function,
        "message": remark.text,
        "notes": notes,
    }


def from_object(told: dict[str, Any]) -> Remark:
    """The remark that was written as an object of JSON."""
    notes = tuple(
        Note(note["file"], note["line"], note["column"], note["message"]) for note in told["notes"]
    )
    place = told["file"], told["line"], told["column"]
    return Remark(*place, told["kind"], told["message"], told["function"], notes)


def sarif_lines(remarks: list[Remark], lines: Lines, version: str) -> Iterator[str]:
    """The remarks as one object of SARIF 2.1.0."""
    import hashlib  # it takes a while, and the other formats need none

    numbers = {kind: number for number, kind in enumerate(KINDS)}
    seen: Counter[str] = Counter()
    results = []
    for remark in remarks:
        known_by = print_of(remark)
        seen[known_by] += 1
        mark = hashlib.sha256(f"{known_by}\t{seen[known_by]}".encode("utf-8", "surrogateescape"))
        results.append(
            {
                "ruleId": f"tacflow-{remark.kind}",
                "ruleIndex": numbers[remark.kind],
                "level": level_of(remark.kind),
                "message": {"text": remark.text},
                "locations": [location(remark, lines)],
                "partialFingerprints": {"tacflow/v1": mark.hexdigest()},
                "relatedLocations": [
                    {**location(note, lines), "message": {"text": note.text}}
                    for note in remark.notes
                ],
            }
        )
    run = {
        "tool": {
            "driver": {
                "name": "tacflow",
                "version": version,
                "rules": rules(),
                "supportedTaxonomies": [{"name": "CWE", "index": 0}],
            }
        },
        "taxonomies": [taxonomy()],
        "results": results,
        "columnKind": "unicodeCodePoints",
        "originalUriBaseIds": {BASE: {"uri": uri_of(os.getcwd()) + "/"}},
    }
    yield json.dumps({"$schema": SCHEMA, "version": "2.1.0", "runs": [run]}, indent=1)


def rules() -> list[dict[str, Any]]:
    """SARIF's rule of each kind."""
    found = []
    for name, kind in KINDS.items():
        rule = {
            "id": f"tacflow-{name}",
            "name": name,
            "shortDescription": {"text": kind.says},
            "defaultConfiguration": {"level": level_of(name), "enabled": kind.is_told},
            "help": {"text": f"{kind.says}. {kind.act}", "markdown": markdown(name, kind)},
        }
        if kind.weakness:
            rule["properties"] = {"tags": [f"external/cwe/cwe-{kind.weakness}"]}
            target = {"id": str(kind.weakness), "toolComponent": {"name": "CWE", "index": 0}}
            rule["relationships"] = [{"target": target, "kinds": ["superset"]}]
        found.append(rule)
    return found


def taxonomy() -> dict[str, Any]:
    """The entries of the list CWE that rules name."""
    numbers = sorted({kind.weakness for kind in KINDS.values() if kind.weakness})
    return {
        "name": "CWE",
        "organization": "MITRE",
        "shortDescription": {"text": "Common Weakness Enumeration"},
        "taxa": [{"id": str(one)} for one in numbers],
    }


def markdown(name: str, kind: Kind) -> str:
    """The help of a kind as Markdown."""
    weakness = f"\n\nCWE-{kind.weakness}." if kind.weakness else ""
    return (
        f"**{name}**: {kind.says}.\n\n{kind.act}\n\nA comment `tacflow: ignore {name}` on the "
        f"line, or on one of its own before it, silences this.{weakness}"
    )


def level_of(kind: str) -> str:
    """SARIF's level of a kind."""
    return "warning" if kind in WARNINGS else "note"


def location(at: Note | Remark, lines: Lines) -> dict[str, Any]:
    """SARIF's location of a place."""
    column = len(lines.before(at)) + 1 if lines.line(at) else at.column
    artifact = {"uri": uri_of(at.file)}
    if not os.path.isabs(at.file):
        artifact["uriBaseId"] = BASE
    region = {"startLine": at.line, "startColumn": column}
    return {"physicalLocation": {"artifactLocation": artifact, "region": region}}


def uri_of(path: str) -> str:
    """A path as a URI."""
    return "file://" * os.path.isabs(path) + "/".join(map(quoted, path.split(os.sep)))


def quoted(part: str) -> str:
    """A part of a path as it stands in a URI."""
    return "".join(
        sign
        if sign.isascii() and (sign.isalnum() or sign in "-._~+")
        else "".join(f"%{byte:02X}" for byte in sign.encode("utf-8", "surrogateescape"))
        for sign in part
    )
