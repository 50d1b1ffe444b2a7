"""Files of facts: shares as --emit writes them and --merge reads them, in lines of JSON."""

from __future__ import annotations

import base64
import functools
import hashlib
import json
import zlib
from collections import Counter
from collections.abc import Iterable, Iterator
from dataclasses import asdict, dataclass, field
from typing import Any

from gimple.dump import Place
from gimple.faults import Refusal
from gimple.inputs import Code
from gimple.symbols import Symbol, Symbols

from .analysis import Outcome
from .compiling import SYSTEM_HEADERS
from .findings import Claim
from .formats import as_object, from_object
from .makers import build, compiler, version
from .shares import Making, Share
from .sums import sum_of

KIND = "check-c facts"
FORMAT = 1
# Sets of symbols, as lists in order.
SETS = ("addressed", "endless", "volatile", "volatile_behind", "cast_away")
PAIRS = ("volatile_behind", "cast_away")

Line = dict[str, Any]


@dataclass
class Facts:
    """A share that was read, with how it was made.

    kinds: those that it has. sums: of the files that were read for it, by name.
    """

    path: str
    share: Share
    gcc: str
    is_linked: bool
    shows_all: bool
    by_executions: bool
    kinds: list[str]
    sums: dict[str, str] = field(default_factory=dict)


def encoded(share: Share, making: Making) -> bytes:
    """A share as the bytes of a file."""
    body = "".join(json.dumps(line) + "\n" for line in lines_of(share, making)).encode("ascii")
    head = {
        "is": KIND,
        "format": FORMAT,
        "version": version(),
        "build": build(),
        "bytes": len(body),
        "sha256": hashlib.sha256(body).hexdigest(),
    }
    return json.dumps(head).encode("ascii") + b"\n" + body


def lines_of(share: Share, making: Making) -> Iterator[Line]:
    """The lines behind the first one."""
    yield {
        "source": share.source,
        "gcc": compiler(),
        "linked": making.is_linked,
        "all": making.shows_all,
        "executions": making.by_executions,
        "kinds": making.held(),
        "left_out": share.left_out,
    }
    for name in share.read:
        if not name.startswith(SYSTEM_HEADERS):
            yield {"read": name, "sha256": sum_of(name)}
    for outcome in share.outcomes:
        yield from lines_of_outcome(outcome)
    for code in share.codes:
        yield line_of_code(code)
    for name, text in (share.texts or {}).items():
        yield {"file": name, "text": None if text is None else packed(text)}


def lines_of_outcome(outcome: Outcome) -> Iterator[Line]:
    """The lines of a program: what is told of it, and what could be told at places that others may
    have too.
    """
    yield {"own": sorted(outcome.own), "copies": outcome.copies, "notes": outcome.notes}
    for (place, kind, name), remark in outcome.remarks.items():
        yield {"at": list(place), "kind": kind, "name": name, "remark": as_object(remark)}
    seen: dict[Place, dict[str, list[str]]] = {}
    for place, kind, name in sorted(outcome.seen):
        seen.setdefault(place, {}).setdefault(kind, []).append(name)
    for place, kinds in seen.items():
        yield {"at": list(place), "seen": kinds}
    for (name, number), text in outcome.lines.known.items():
        yield {"line": [name, number], "text": text}


def line_of_code(code: Code) -> Line:
    """The line of a file's code."""
    names = {name: code.shown(name) for name in code.names()}
    known = {
        **vars(code.symbols),
        "by_name": [asdict(symbol) for symbol in code.symbols.by_name.values()],
        **{name: sorted(getattr(code.symbols, name)) for name in SETS},
    }
    shown = {name: other for name, other in names.items() if name != other}
    return {"code": code.name, "shown": shown, "symbols": known, "text": packed(code.text)}


def packed(text: str) -> str:
    """A text in few letters."""
    return base64.b64encode(zlib.compress(text.encode("utf-8", "surrogateescape"))).decode("ascii")


def unpacked(text: str) -> str:
    """The text of these letters."""
    return zlib.decompress(base64.b64decode(text)).decode("utf-8", "surrogateescape")


def decoded(data: bytes, path: str) -> Facts:
    """The share that a file's bytes have."""
    first, _, body = data.partition(b"\n")
    try:
        refuse_other(head_of(first), body, path)
        lines = map(json.loads, body.splitlines())
        return facts_of(next(lines), lines, path)
    except (ValueError, LookupError, TypeError, AttributeError, StopIteration, zlib.error):
        raise Refusal(f"{path} is damaged") from None


def head_of(line: bytes) -> Line | None:
    """What a first line says, None where it is none of ours."""
    try:
        head = json.loads(line)
    except (ValueError, RecursionError):
        return None
    return head if isinstance(head, dict) and head.get("is") == KIND else None


def refuse_other(head: Line | None, body: bytes, path: str) -> None:
    """Refuses what is no file of facts, of another version, cut short or damaged."""
    if head is None:
        raise Refusal(f"{path} is no file of facts that --emit wrote, or its beginning is lost")
    if head.get("format") != FORMAT:
        raise Refusal(
            f"{path} has facts in the format {head.get('format')}; this check-c has {FORMAT}"
        )
    if head.get("version") != version():
        raise Refusal(
            f"{path} was written by check-c {head.get('version')}; this is {version()}"
        )
    if head.get("build") != build():
        raise Refusal(f"{path} was written by a check-c {version()} with other sources than this")
    if len(body) < head["bytes"]:
        raise Refusal(f"{path} is cut short: {len(body)} bytes of {head['bytes']} are there")
    if head.get("sha256") != hashlib.sha256(body).hexdigest():
        raise Refusal(f"{path} is damaged: its sum is another one than it says")


def facts_of(head: Line, lines: Iterable[Line], path: str) -> Facts:
    """The share of these lines."""
    share = Share(head["source"], left_out=head["left_out"])
    how = (head["linked"], head["all"], head["executions"], head["kinds"])
    facts = Facts(path, share, head["gcc"], *how)
    texts: dict[str, str | None] = {}
    for line in lines:
        if "read" in line:
            share.read.append(line["read"])
            facts.sums[line["read"]] = line["sha256"]
        elif "own" in line:
            outcome = Outcome(own=set(line["own"]), copies=Counter(line["copies"]))
            outcome.notes += line["notes"]
            share.outcomes.append(outcome)
        elif "code" in line:
            share.codes.append(code_of(line))
        elif "file" in line:
            texts[line["file"]] = None if line["text"] is None else unpacked(line["text"])
        else:
            take_line(share.outcomes[-1], line)
    share.texts = texts if facts.is_linked else None
    return facts


def take_line(outcome: Outcome, line: Line) -> None:
    """Takes in a line of a program."""
    if "line" in line:
        name, number = line["line"]
        outcome.lines.known[name, number] = line["text"]
        return
    place = Place(*line["at"])
    if "remark" in line:
        key: Claim = (place, line["kind"], line["name"])
        outcome.remarks[key] = from_object(line["remark"])
        return
    for kind, names in line["seen"].items():
        outcome.seen.update((place, kind, name) for name in names)


def code_of(line: Line) -> Code:
    """The code of a line."""
    known = dict(line["symbols"])
    for name in SETS:
        known[name] = set(map(tuple, known[name]) if name in PAIRS else known[name])
    known["by_name"] = {symbol["name"]: Symbol(**symbol) for symbol in known["by_name"]}
    known["definitions"] = {name: tuple(at) for name, at in known["definitions"].items()}
    shown = functools.partial(called, line["shown"])
    return Code(line["code"], unpacked(line["text"]), Symbols(**known), shown)


def called(shown: dict[str, str], name: str) -> str:
    """What messages call a file."""
    return shown.get(name, name)
