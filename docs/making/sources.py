"""Reads structures of crates/*/src: their fields, what the header calls them, and where they stand."""

from __future__ import annotations

import re
from dataclasses import dataclass
from pathlib import Path

from lib.generated import Mistake

from .definitions import CRATES

STRUCT = re.compile(r"((?:^///.*\n)+)(?:#\[.*\n)*pub struct (\w+)(?:<'a>)? \{\n((?:(?!\}).*\n)*)\}", re.M)
FIELD = re.compile(r"((?:^    ///.*\n)+)    pub (\w+): ([^,\n]+),", re.M)
FILES = [
    "mdmp_wire/src/*.rt", "mdmp_lister/src/item.rt", "mdmp_lister/src/fault.rt", "mdmp_source/src/location.rt",
    "mdmp_summary/src/part.rt",
]


@dataclass(frozen=True)
class Field:
    name: str
    kind: str
    doc: str

    @property
    def in_header(self) -> str:
        """What the header calls it: the first word of its comment that is code."""
        found = re.match(r"`(\w+)`", self.doc)
        if not found:
            raise Mistake(f"the comment of {self.name} does not begin with the header's name")
        return found[1]


@dataclass(frozen=True)
class Structure:
    name: str
    doc: str
    path: Path
    fields: dict[str, Field]
    size: int | None

    @property
    def in_header(self) -> list[str]:
        """What the header calls it, or both if a structure stands inside another one."""
        return re.findall(r"`((?:MINIDUMP|VS)_\w+)`", self.doc)


def doc_of(lines: str) -> str:
    return " ".join(line.strip().removeprefix("///").strip() for line in lines.strip().split("\n"))


def structures_in(path: Path) -> dict[str, Structure]:
    text = path.read_text(encoding="utf-8")
    size = re.search(r"const SIZE: usize = (\d+);", text)
    made = {}
    for doc, name, body in STRUCT.findall(text):
        fields = {field: Field(field, kind, doc_of(lines)) for lines, field, kind in FIELD.findall(body)}
        made[name] = Structure(name, doc_of(doc), path, fields, int(size[1]) if size else None)
    return made


def all_structures() -> dict[str, Structure]:
    """The structures of records and of items, by their names."""
    return {
        name: structure
        for pattern in FILES
        for path in sorted(CRATES.glob(pattern))
        for name, structure in structures_in(path).items()
    }


def offsets_in_code(path: Path) -> dict[str, int]:
    """Where `read` of a structure takes each field."""
    text = path.read_text(encoding="utf-8")
    return {field: int(at) for field, at in re.findall(r"^\s+(\w+): get_at\(bytes, (\d+)\),", text, re.M)}
