"""Whether an object is as docs/tacview.schema.json or docs/taclint.schema.json says: the few rules
of JSON Schema that stand there, and no others."""

from __future__ import annotations

import json
import os
from typing import Any

HERE = os.path.dirname(os.path.realpath(__file__))
DOCS = os.path.join(HERE, "..", "docs")
TYPES = {
    "object": dict,
    "array": list,
    "string": str,
    "integer": int,
    "boolean": bool,
    "null": type(None),
}
KNOWN = {
    "$schema", "title", "$defs", "$ref", "type", "required", "additionalProperties", "properties",
    "oneOf", "const", "enum", "items", "minimum", "minLength",
}  # fmt: skip


class Schema:
    """The schema of the lines of a program, tacview or taclint."""

    def __init__(self, program: str = "tacview") -> None:
        with open(os.path.join(DOCS, f"{program}.schema.json"), encoding="utf-8") as file:
            self.whole: dict[str, Any] = json.load(file)

    def fault(self, value: Any) -> str | None:
        """What is wrong with a line's object, if something is."""
        kind = value.get("type") if isinstance(value, dict) else None
        if kind not in self.whole["$defs"] or {"$ref": f"#/$defs/{kind}"} not in self.whole["oneOf"]:
            return f"no kind of line: {kind}"
        return self.wrong(value, self.whole["$defs"][kind], kind)

    def wrong(self, value: Any, rule: dict[str, Any], at: str) -> str | None:
        if "$ref" in rule:
            rule = self.whole["$defs"][rule["$ref"].removeprefix("#/$defs/")]
        assert not set(rule) - KNOWN, set(rule) - KNOWN
        types = rule.get("type", [])
        types = [types] if isinstance(types, str) else types
        if types and not any(self.is_a(value, each) for each in types):
            return f"{at} is no {' or '.join(types)}"
        if "const" in rule and value != rule["const"]:
            return f"{at} is not {rule['const']}"
        if "enum" in rule and value not in rule["enum"]:
            return f"{at} is none of {rule['enum']}"
        if isinstance(value, int) and value < rule.get("minimum", value):
            return f"{at} is below {rule['minimum']}"
        if isinstance(value, str) and len(value) < rule.get("minLength", 0):
            return f"{at} is too short"
        return self.wrong_parts(value, rule, at)

    def wrong_parts(self, value: Any, rule: dict[str, Any], at: str) -> str | None:
        """What is wrong with the parts of an object or an array."""
        parts: list[tuple[Any, dict[str, Any], str]] = []
        if isinstance(value, dict) and "properties" in rule:
            known = rule["properties"]
            if set(rule.get("required", [])) - set(value):
                return f"{at} lacks {sorted(set(rule['required']) - set(value))}"
            wanted = [set(one["required"]) for one in rule.get("oneOf", [])]
            if wanted and sum(names <= set(value) for names in wanted) != 1:
                return f"{at} has not the fields of one form"
            if set(value) - set(known):
                return f"{at} has {sorted(set(value) - set(known))} besides"
            parts = [(each, known[name], f"{at}.{name}") for name, each in value.items()]
        if isinstance(value, list) and "items" in rule:
            parts = [(each, rule["items"], f"{at}[{n}]") for n, each in enumerate(value)]
        return next((fault for part in parts if (fault := self.wrong(*part))), None)

    @staticmethod
    def is_a(value: Any, word: str) -> bool:
        """Whether a value has a type: a truth value is no number."""
        return isinstance(value, TYPES[word]) and (word == "boolean" or not isinstance(value, bool))
