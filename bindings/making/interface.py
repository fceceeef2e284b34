"""The description of the C surface, read from interface.toml and checked."""

from __future__ import annotations

import os
import tomllib
from dataclasses import dataclass

from lib.generated import Mistake

from .spelling import camel

MADE = "Made by bindings/generate from bindings/interface.toml."
HERE = os.path.dirname(os.path.dirname(os.path.abspath(__file__)))
# The order in which pages have the tables. Others come before the ranges.
ORDER = ["thread", "module", "unloaded", "exception", "system", "region", "thread_name"]
NUMBERS = {"bool": 1, "u8": 1, "u32": 4, "u64": 8}


@dataclass(frozen=True)
class Enum:
    name: str
    face: str
    doc: str
    values: list[tuple[str, int, str]]
    prefix: str = "MDMP_"

    def short(self, name: str) -> str:
        """A value's name without what all of them begin with."""
        if not name.startswith(self.prefix):
            raise Mistake(f"{self.name}: {name} does not begin with {self.prefix}")
        return name.removeprefix(self.prefix)


@dataclass(frozen=True)
class Field:
    name: str
    base: str  # a number's type, or the name of a structure
    count: int | None  # of an array
    enum: Enum | None
    doc: str
    offset: int
    size: int

    @property
    def is_reserved(self) -> bool:
        return self.name == "reserved"


@dataclass(frozen=True)
class Table:
    """The call that gives an array of a structure, and what the records of it point at."""

    call: str
    doc: str
    types: list[int]  # of the streams that have these records
    parts: list[tuple[str, str]]  # a field, and the number of the part that is there
    row: str  # what the structure is called in Rattle, in words with _
    item: str  # the variant of Item that has such a record
    of: dict[str, str]  # the field of the record that a field is, if that has another name
    is_row_alone: bool
    face_doc: str  # what Python and Rust say of it
    is_python_own: bool  # whether Python's property is written by hand
    words: str  # what the records are called

    @property
    def name(self) -> str:
        return self.call.removeprefix("mdmp_")


@dataclass(frozen=True)
class Structure:
    name: str
    face: str  # what Python and Rust call it, and its record
    doc: str
    size: int
    alignment: int
    fields: list[Field]
    table: Table | None
    is_public: bool
    python_also: list[tuple[str, str, str, str]]

    @property
    def shown(self) -> list[Field]:
        """The fields that are members of its record: none that is reserved, or the upper half of another."""
        return [field for field in self.fields if not field.is_reserved and not field.name.endswith("_high")]

    @property
    def names(self) -> list[str]:
        """The fields that are the place of a name."""
        return [field.name for field in self.fields if field.base == "mdmp_name_place"]

    @property
    def places(self) -> list[str]:
        """The fields that say where a part of the record is: a place, or the extent of the record's own bytes."""
        return [
            field.name
            for field in self.fields
            if field.base == "mdmp_place" or (field.enum is not None and field.enum.name == "mdmp_extent")
        ]

    def is_halved(self, field: Field) -> bool:
        """Whether another field has the upper half of this one."""
        return any(other.name == f"{field.name}_high" for other in self.fields)

    @property
    def has_record(self) -> bool:
        return self.is_public or self.table is not None


@dataclass(frozen=True)
class Argument:
    name: str
    length: str | None  # the name of the length beside a slice
    base: str
    is_pointer: bool
    is_written: bool


@dataclass(frozen=True)
class Call:
    name: str
    doc: str
    arguments: list[Argument]

    @property
    def symbol(self) -> str:
        """The exported name. It ends in _ where the header has a function of the plain name before it."""
        return self.name + "_" if self.arguments else self.name


class Interface:
    """All of interface.toml."""

    def __init__(self) -> None:
        with open(os.path.join(HERE, "interface.toml"), "rb") as file:
            data = tomllib.load(file)
        self.abi: int = data["abi"]
        self.version = tuple(int(part) for part in data["version"].split("."))
        self.page: str = data["page"].strip("\n")
        self.limits: dict[str, int] = data["limits"]
        self.enums = {entry["name"]: Enum(**entry) for entry in data["enum"]}
        self.structures: dict[str, Structure] = {}
        for entry in data["structure"]:
            self.structures[entry["name"]] = self._structure(entry)
        self.calls: list[Call] = []
        for entry in data["call"]:
            self.calls += self._calls(entry)

    @property
    def records(self) -> list[Structure]:
        """The structures that have a record."""
        return [structure for structure in self.structures.values() if structure.has_record]

    @property
    def tables(self) -> list[tuple[Structure, Table]]:
        """The structures that a call gives an array of, with that call."""
        return [(structure, structure.table) for structure in self.structures.values() if structure.table is not None]

    @property
    def listed(self) -> list[tuple[Structure, Table]]:
        """The same in the order of the pages and of Rattle's definitions. A file of definitions in another order is proved anew."""
        last = len(ORDER) + 1
        rank = {row: at for at, row in enumerate(ORDER)} | {"range": last}
        return sorted(self.tables, key=lambda one: rank.get(one[1].row, last - 1))

    @property
    def soname(self) -> str:
        """The SONAME of the shared library, which is also the name of its file."""
        return f"libmdmp.so.{self.abi}"

    @property
    def version_number(self) -> int:
        major, minor, patch = self.version
        return major << 16 | minor << 8 | patch

    def size_of(self, base: str) -> tuple[int, int]:
        """The size and the alignment of a type."""
        if base in NUMBERS:
            return NUMBERS[base], NUMBERS[base]
        if base in self.structures:
            return self.structures[base].size, self.structures[base].alignment
        raise Mistake(f"no type {base}")

    def _structure(self, entry: dict) -> Structure:
        name, at, widest, fields = entry["name"], 0, 1, []
        for field_name, words, doc in entry["fields"]:
            kind, _, enum = words.partition(" ")
            base, _, count = kind.rstrip("]").partition("[")
            size, alignment = self.size_of(base)
            if at % alignment:
                raise Mistake(f"{name}.{field_name} stands at {at}: there would be padding before it")
            number = int(count) if count else None
            field = Field(field_name, base, number, self.enums[enum] if enum else None, doc, at, size * (number or 1))
            fields.append(field)
            at, widest = at + field.size, max(widest, alignment)
        if at != entry["size"] or at % widest:
            raise Mistake(f"{name} has {at} bytes, aligned to {widest}, and not {entry['size']}")
        face = entry.get("face", camel(name))
        also = [tuple(words) for words in entry.get("python_also", [])]
        table = self._table(entry) if "table" in entry else None
        made = Structure(name, face, entry["doc"], at, widest, fields, table, entry.get("public", False), also)
        if table and [field for field, _ in table.parts] != made.places:
            raise Mistake(f"{name}: `parts` names not each place of the record, in the order of the fields")
        return made

    def _table(self, entry: dict) -> Table:
        known = [name for name, _, _ in self.enums["mdmp_part"].values]
        row, what = entry.get("row", entry["name"].removeprefix("mdmp_")), entry["table_doc"].partition(":")[0]
        table = Table(
            entry["table"],
            entry["table_doc"],
            entry["types"],
            [(field, part) for field, part in entry.get("parts", [])],
            row,
            entry.get("item", camel(row)),
            entry.get("of", {}),
            entry.get("row_alone", False),
            entry.get("rust_doc", f"{what}."),
            entry.get("python_own", False),
            entry.get("words", what.removeprefix("The ")),
        )
        for _, part in table.parts:
            if part not in known:
                raise Mistake(f"{entry['name']}: mdmp_part has no {part}")
        for structure, other in self.tables:
            if set(other.types) & set(table.types):
                raise Mistake(f"{entry['name']} and {structure.name} have one type of stream")
        return table

    def _calls(self, entry: dict) -> list[Call]:
        if not entry.get("tables"):
            return [self._call(entry["name"], entry["doc"], entry["arguments"], "")]
        return [
            self._call(table.call, f"{table.doc} {entry['doc']}", entry["arguments"], structure.name)
            for structure, table in self.tables
        ]

    def _call(self, name: str, doc: str, arguments: list[list[str]], record: str) -> Call:
        made = []
        for names, words in arguments:
            own, _, length = names.partition(" ")
            base = words.lstrip("&").removeprefix("mut ").strip("[]").replace("RECORD", record)
            self.size_of(base)
            if bool(length) != ("[" in words):
                raise Mistake(f"{name}: {names} is {words}")
            made.append(Argument(own, length or None, base, "&" in words, "mut " in words))
        return Call(name, doc.strip("\n").replace("\n", " "), made)
