"""The part of JSON Schema that the schemas of docs/reference use."""

from __future__ import annotations

import json
import re
from collections.abc import Callable
from pathlib import Path
from typing import Any

from .needs import stop

TYPES: dict[str, Callable[[Any], bool]] = {
    "object": lambda value: isinstance(value, dict),
    "array": lambda value: isinstance(value, list),
    "string": lambda value: isinstance(value, str),
    "integer": lambda value: isinstance(value, int) and not isinstance(value, bool),
    "boolean": lambda value: isinstance(value, bool),
    "null": lambda value: value is None,
}
WORDS = set("type const enum pattern minimum maximum items maxItems properties required additionalProperties oneOf".split())
WORDS |= set("dependentSchemas $ref $schema $comment $defs title description".split())


class Schema:
    """A schema. It remembers which of its forms and keys a good line had."""

    def __init__(self, path: Path) -> None:
        self.root: dict[str, Any] = json.loads(path.read_text(encoding="utf-8"))
        self.seen: set[int] = set()
        self.nodes: dict[int, str] = {}
        self.walk(self.root, "#")

    def walk(self, node: dict[str, Any], path: str) -> None:
        """Looks for words that are not known here, and names each form and each key."""
        unknown = node.keys() - WORDS
        if unknown:
            stop(f"{path} has {sorted(unknown)}, which are not read here")
        if not re.fullmatch(r"\^.*\$", node.get("pattern", "^$")):
            stop(f"the pattern of {path} is not one of a whole string")
        for name, one in node.get("$defs", {}).items():
            self.walk(one, f"{path}/{name}")
        for name, one in node.get("properties", {}).items():
            self.nodes[id(one)] = f"{path}/{name}"
            self.walk(one, f"{path}/{name}")
        for at, one in enumerate(node.get("oneOf", [])):
            self.nodes[id(one)] = f"{path}/{at}"
            self.walk(one, f"{path}/{at}")
        for one in [*node.get("dependentSchemas", {}).values(), *([node["items"]] if "items" in node else [])]:
            self.walk(one, path)

    def allows(self, value: Any) -> bool:
        """Whether a value fits. If it does, its forms and keys are seen."""
        found: set[int] = set()
        if not self.fits(self.root, value, found):
            return False
        self.seen |= found
        return True

    def may_fit(self, form: dict[str, Any], value: Any) -> bool:
        """Whether a line is of the word that a form says: only then the form is looked at further."""
        word = self.resolved(form).get("properties", {}).get("line", {}).get("const")
        return word is None or not isinstance(value, dict) or value.get("line") == word

    def resolved(self, node: dict[str, Any]) -> dict[str, Any]:
        if "$ref" not in node:
            return node
        found: dict[str, Any] = self.root["$defs"][node["$ref"].removeprefix("#/$defs/")]
        return found

    def fits(self, node: dict[str, Any], value: Any, found: set[int]) -> bool:
        node = self.resolved(node)
        if "oneOf" in node:
            forms = []
            for form in node["oneOf"]:
                inner: set[int] = {id(form)}
                if self.may_fit(form, value) and self.fits(form, value, inner):
                    forms.append(inner)
            if len(forms) != 1:
                return False
            found |= forms[0]
        if "type" in node and not TYPES[node["type"]](value):
            return False
        if "const" in node and (value != node["const"] or isinstance(value, bool) != isinstance(node["const"], bool)):
            return False
        if "enum" in node and value not in node["enum"]:
            return False
        if isinstance(value, str) and "pattern" in node and not re.fullmatch(node["pattern"][1:-1], value):
            return False
        if TYPES["integer"](value) and not node.get("minimum", value) <= value <= node.get("maximum", value):
            return False
        if isinstance(value, list):
            is_short = len(value) <= node.get("maxItems", len(value))
            if not is_short or not all(self.fits(node.get("items", {}), one, found) for one in value):
                return False
        return not isinstance(value, dict) or self.members_fit(node, value, found)

    def members_fit(self, node: dict[str, Any], value: dict[str, Any], found: set[int]) -> bool:
        properties = node.get("properties", {})
        for key, one in value.items():
            if key in properties:
                if not self.fits(properties[key], one, found):
                    return False
                found.add(id(properties[key]))
            elif node.get("additionalProperties") is False:
                return False
        if any(key not in value for key in node.get("required", [])):
            return False
        beside = node.get("dependentSchemas", {})
        return all(self.fits(beside[key], value, found) for key in beside if key in value)

    def is_in_order(self, value: Any, node: dict[str, Any] | None = None) -> bool:
        """Whether the keys of a value have the order of the schema, or of a form of it that has them all."""
        node = self.resolved(self.root if node is None else node)
        if "oneOf" in node:
            return any(self.may_fit(form, value) and self.is_in_order(value, form) for form in node["oneOf"])
        if isinstance(value, list):
            return all(self.is_in_order(one, node.get("items", {})) for one in value)
        if not isinstance(value, dict):
            return True
        properties = node.get("properties", {})
        in_order = list(value) == [key for key in properties if key in value]
        return in_order and all(self.is_in_order(one, properties[key]) for key, one in value.items())

    def unseen(self) -> list[str]:
        """The forms and the keys that no good line had."""
        return [path for node, path in self.nodes.items() if node not in self.seen]
