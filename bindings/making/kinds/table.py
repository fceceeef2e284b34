"""bindings/kinds.toml, read: the kinds of streams whose records are known, and what each record points at."""

from __future__ import annotations

import tomllib
from dataclasses import dataclass
from typing import Any

from lib.generated import Mistake, read

from ..spelling import camel
from .records import field_at, structure

SOURCE = "bindings/kinds.toml"
MADE = f"Made by bindings/generate from {SOURCE}."
PLACES = ["first", "second", "third"]  # of slots, in code


@dataclass(frozen=True)
class Slot:
    """What a record points at: a name, a part, or bytes that follow those of earlier records."""

    name: str = ""  # the field with the RVA of the name
    part: str = ""  # the variant of PartName
    at: str = ""  # the field with the location of the part
    behind: str = ""  # the field with a number of bytes
    value: str = "name"  # the field of the value
    doc: str = ""  # the comment of that field
    called: str = ""  # what a comment calls it, if that is not the name of the field

    @property
    def path(self) -> str:
        """The field of the record that says where it is."""
        return self.name or self.at or self.behind


@dataclass(frozen=True)
class ValueField:
    """A field of a value that is no slot."""

    value: str  # its name there
    at: str  # where the record has it
    doc: str = ""  # its comment, if it is not that of the record


@dataclass(frozen=True)
class Kind:
    """A kind of streams. bindings/kinds.toml says what each of its keys is."""

    type: int
    stream: str
    header: str
    form: str
    record: str
    struct: str
    module: str
    one: str
    of_a_dump: str
    structures: str
    item: str = ""
    printed: str = ""
    value: str = ""
    value_module: str = ""
    local: str = ""
    called: str = ""
    value_by_hand: bool = False
    value_doc: str = ""
    is_range: bool = False
    slots: tuple[Slot, ...] = ()
    fields: tuple[ValueField, ...] = ()

    @property
    def is_list(self) -> bool:
        return self.form != "Single"

    @property
    def names(self) -> list[Slot]:
        """The names that a record points at."""
        return [slot for slot in self.slots if slot.name]

    @property
    def parts(self) -> list[Slot]:
        """The parts that a record points at."""
        return [slot for slot in self.slots if slot.part]

    @property
    def has_bytes(self) -> bool:
        """Whether a record points at bytes: at a part, or at those that follow earlier ones."""
        return any(not slot.name for slot in self.slots)

    @property
    def is_behind(self) -> bool:
        """Whether the bytes of its records follow those of earlier records."""
        return any(slot.behind for slot in self.slots)

    @property
    def has_wide_name(self) -> bool:
        """Whether a record has the RVA of its name in 64 bits."""
        return any(self.is_wide(slot) for slot in self.names)

    def is_wide(self, slot: Slot) -> bool:
        """Whether the number of a name, or of bytes, has 64 bits and not 32."""
        found = field_at(self.struct, slot.path).type
        if found not in ("u32", "u64"):
            raise Mistake(f"{self.struct}.{slot.path} is {found}, and neither u32 nor u64")
        return found == "u64"

    @property
    def record_file(self) -> str:
        """The file of the definitions of its record, in mdmp_wire."""
        return camel(self.module)

    @property
    def value_file(self) -> str:
        """The file of the definitions of its value, in mdmp_dump, and of the proofs."""
        return camel(self.value_module)


def of_three(made: list[str], none: str) -> list[str]:
    """What is made of each slot of a record, and behind it what stands for the slots that it does not have."""
    return [*made, *[none] * (3 - len(made))]


def kind_of(table: dict[str, Any]) -> Kind:
    """A kind, of its entry."""
    slots = tuple(Slot(**({"called": slot.get("value", "name")} | slot)) for slot in table["slots"])
    fields = tuple(ValueField(**one) for one in table.get("fields", []))
    left_out = {"item": table["record"], "value_module": table["module"], "local": table["module"]}
    left_out["called"] = table.get("local", table["module"])
    every: dict[str, Any] = {**left_out, **table, "slots": slots, "fields": fields}
    kind = Kind(**every)
    if len(slots) > 3 or any(slot.name for slot in slots[1:]):
        raise Mistake(f"{kind.stream} has more than three slots, or a name behind another")
    if structure(kind.struct).module != kind.module:
        raise Mistake(f"{kind.struct} is not in {kind.module}.rt")
    for path in [slot.path for slot in slots] + [one.at for one in fields]:
        field_at(kind.struct, path)
    return kind


class Kinds:
    """All of them, by their items, and by their types."""

    def __init__(self) -> None:
        self.by_item = [kind_of(table) for table in tomllib.loads(read(SOURCE))["kind"]]
        self.by_type = sorted(self.by_item, key=lambda kind: kind.type)

    @property
    def lists(self) -> list[Kind]:
        """Those whose streams have any number of records."""
        return [kind for kind in self.by_type if kind.is_list]

    @property
    def singles(self) -> list[Kind]:
        """Those whose streams have one record."""
        return [kind for kind in self.by_type if not kind.is_list]

    @property
    def ranges(self) -> list[Kind]:
        """Those whose records are ranges of memory."""
        return [kind for kind in self.by_type if kind.is_range]

    @property
    def with_values(self) -> list[Kind]:
        """Those whose records are read into values of other types."""
        return [kind for kind in self.by_type if kind.value]

    @property
    def without_values(self) -> list[Kind]:
        """Those whose records are their own values."""
        return [kind for kind in self.by_type if not kind.value]

    @property
    def record_sizes(self) -> dict[int, int]:
        """How many bytes a record has, by the types of streams."""
        return {kind.type: structure(kind.struct).size for kind in self.by_type}
