"""The structures of mdmp_wire, read from its code: their fields, where each begins, and how many bytes a structure has."""

from __future__ import annotations

import re
from dataclasses import dataclass
from functools import cache

from lib.generated import Mistake
from lib.needs import TOP

RECORDS = "crates/mdmp_wire/src"
NUMBERS = {"u8": 8, "u16": 16, "u32": 32, "u64": 64}  # the bits of each type
STRUCT = re.compile(r"^pub struct (\w+) \{\n(.*?)^\}", re.M | re.S)
FIELD = re.compile(r"^((?:    /// .*\n)+)    pub (\w+): (.+),$", re.M)
IMPL = re.compile(r"^impl Record for (\w+) \{\n(.*?)^\}", re.M | re.S)
SIZE = re.compile(r"^    const SIZE: usize = (\d+);", re.M)
OFFSET = re.compile(r"\b(\w+): get_at\(bytes, (\d+)\)")


@dataclass(frozen=True)
class RecordField:
    """A field of a structure."""

    name: str
    type: str
    doc: str  # one line, without `///`


@dataclass(frozen=True)
class RecordStructure:
    """A structure: a record, or one inside a record."""

    name: str
    module: str  # its file, without the ending
    fields: list[RecordField]
    impl: str  # how it is read and written

    @property
    def size(self) -> int:
        """How many bytes it has."""
        found = SIZE.search(self.impl)
        if found is None:
            raise Mistake(f"{RECORDS} has no size of {self.name}")
        return int(found[1])


def doc_line(comment: str) -> str:
    """A comment as one line."""
    return " ".join(line.strip().removeprefix("///").strip() for line in comment.splitlines())


@cache
def structures() -> dict[str, RecordStructure]:
    """All of them, by their names."""
    found = {}
    for path in sorted((TOP / RECORDS).glob("*.rt")):
        text = path.read_text(encoding="utf-8")
        impls = dict(IMPL.findall(text))
        for name, body in STRUCT.findall(text):
            fields = [RecordField(one, kind, doc_line(doc)) for doc, one, kind in FIELD.findall(body)]
            found[name] = RecordStructure(name, path.stem, fields, impls.get(name, ""))
    return found


def structure(name: str) -> RecordStructure:
    """The structure of a name."""
    if name not in structures():
        raise Mistake(f"{RECORDS} has no {name}")
    return structures()[name]


def field_at(struct: str, path: str) -> RecordField:
    """The field of a structure at a place, which may be in a structure of its own."""
    first, _, rest = path.partition(".")
    found = next((one for one in structure(struct).fields if one.name == first), None)
    if found is None:
        raise Mistake(f"{RECORDS} has no {struct} with {first}")
    return field_at(found.type, rest) if rest else found


def offset_at(struct: str, path: str) -> int:
    """Where the field at a place begins in the structure."""
    first, _, rest = path.partition(".")
    offset = dict(OFFSET.findall(structure(struct).impl)).get(first)
    if offset is None:
        raise Mistake(f"{RECORDS} does not read {first} of {struct} at an offset")
    return int(offset) + (offset_at(field_at(struct, first).type, rest) if rest else 0)
