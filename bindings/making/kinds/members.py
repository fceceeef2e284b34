"""What the value of a record consists of: its members, in the order of the record's fields."""

from __future__ import annotations

import re
from collections.abc import Callable, Iterator
from dataclasses import dataclass

from lib.generated import Mistake

from ..spelling import camel, marked
from .records import NUMBERS, structure, structures
from .table import Kind, Kinds, Slot, ValueField

ARRAY = re.compile(r"\[(u8|u16|u32|u64); (\d+)\]")


@dataclass(frozen=True)
class Member:
    """A field of a value, and where the record has it."""

    name: str
    path: str
    type: str  # that of the record's field
    doc: str
    slot: Slot | None = None

    @property
    def bits(self) -> int:
        """How many bits the number has; 0 if it is no number."""
        return 0 if self.slot else NUMBERS.get(self.type, 0)

    @property
    def array(self) -> tuple[str, int] | None:
        """The type and the number of the elements, if it is an array of numbers."""
        found = ARRAY.fullmatch(self.type)
        return (found[1], int(found[2])) if found else None

    @property
    def is_nested(self) -> bool:
        """Whether it is a structure of its own, all of whose fields are numbers."""
        return not self.slot and not self.bits and not self.array

    @property
    def is_name(self) -> bool:
        """Whether it is a name that the record points at."""
        return bool(self.slot and self.slot.name)

    @property
    def is_part(self) -> bool:
        """Whether it is a part that the record points at."""
        return bool(self.slot and self.slot.part)

    @property
    def size_function(self) -> str:
        """What gives its size, of a name or a part."""
        return "name_size" if self.is_name else "size_of"

    @property
    def bytes_function(self) -> str:
        """What gives its bytes, of a name or a part."""
        return "unit_bytes" if self.is_name else "bytes_of"

    @property
    def stands_definition(self) -> str:
        """The definition that it stands where the record says, of a name or a part."""
        return "IsName" if self.is_name else "IsPart"


class Shape:
    """A kind with the members of its value, and the names that follow from the table."""

    def __init__(self, kind: Kind) -> None:
        self.kind = kind
        self.name = kind.value_module
        self.camel = kind.value_file
        self.value = kind.value or kind.struct
        self.at = f"{kind.module}_at"
        self.members = list(members_of(kind))
        # The structures inside the record whose definitions are another kind's, and the name of its file in specs/.
        self.borrowed: dict[str, str] = {}
        if bool(kind.value) != bool(kind.slots) or kind.is_behind:
            raise Mistake(f"{kind.stream} has a value but no slots, or slots but no value, or a slot that is `behind`")
        if [one.slot for one in self.slots] != [*kind.slots]:
            raise Mistake(f"{kind.stream} has slots in another order than that of its record's fields")

    @property
    def plain(self) -> list[Member]:
        """The members that are copied from the record."""
        return [one for one in self.members if not one.slot]

    @property
    def slots(self) -> list[Member]:
        """The members that the record points at, in order."""
        return [one for one in self.members if one.slot]

    @property
    def names(self) -> list[Member]:
        return [one for one in self.members if one.is_name]

    @property
    def parts(self) -> list[Member]:
        return [one for one in self.members if one.is_part]

    @property
    def arrays(self) -> list[Member]:
        return [one for one in self.members if one.array]

    @property
    def nested(self) -> list[Member]:
        return [one for one in self.members if one.is_nested]

    @property
    def own_nested(self) -> dict[str, str]:
        """The structures inside the record whose definitions are this kind's, and the member that each is."""
        return {one.type: one.name for one in reversed(self.nested) if one.type not in self.borrowed}

    @property
    def has_elements(self) -> bool:
        """Whether an array is of numbers that each have to fit: any other than bytes."""
        return any(one.array and one.array[0] != "u8" for one in self.arrays)

    @property
    def opened(self) -> list[str]:
        """The structures inside the record whose fields are members of their own."""
        outer = dict.fromkeys(one.path.partition(".")[0] for one in self.members if "." in one.path)
        return [field.type for field in structure(self.kind.struct).fields if field.name in outer]


def shapes_of(kinds: Kinds) -> list[Shape]:
    """The kinds whose files are made. A structure inside the records of several has its definitions with the first."""
    shapes = [Shape(kind) for kind in kinds.by_type if not kind.value_by_hand]
    owners: dict[str, Shape] = {}
    for shape in shapes:
        for struct in shape.own_nested:
            if owners.setdefault(struct, shape) is not shape:
                shape.borrowed[struct] = owners[struct].camel
    return shapes


def members_of(kind: Kind, struct: str = "", before: str = "") -> Iterator[Member]:
    """The members that the record gives, or a structure of it. That is opened if the table names one of its fields."""
    slots = {slot.path: slot for slot in kind.slots}
    renamed = {one.at: one for one in kind.fields}
    for field in structure(struct or kind.struct).fields:
        path = before + field.name
        if path in slots:
            yield Member(slots[path].value, path, field.type, slots[path].doc, slots[path])
        elif any(other.startswith(f"{path}.") for other in [*slots, *renamed]):
            yield from members_of(kind, field.type, f"{path}.")
        else:
            entry = renamed.get(path, ValueField(field.name, path))
            member = Member(entry.value, path, field.type, entry.doc or field.doc)
            if member.is_nested:
                nested_members(field.type)
            yield member


def fields_in_specs(shape: Shape, told: Callable[[Member], str], struct: str = "", before: str = "") -> list[str]:
    """The fields of the record in definitions, or of a structure of it: what is told of each member."""
    members = {one.path: one for one in shape.members}
    lines = []
    for field in structure(struct or shape.kind.struct).fields:
        path = before + field.name
        if path in members:
            text = told(members[path])
        else:
            text = f"record {{ {'; '.join(fields_in_specs(shape, told, field.type, f'{path}.'))} }}"
        lines.append(f"{marked(field.name)} = {text}")
    return lines


# ---- structures inside a record, whose fields are no members


def nested_members(struct: str) -> list[Member]:
    """The numbers of a structure inside a record."""
    fields = structures()[struct].fields if struct in structures() else []
    members = [Member(one.name, one.name, one.type, one.doc) for one in fields]
    if not members or not all(one.bits for one in members):
        raise Mistake(f"{struct} is neither a number, an array of numbers, nor a structure of numbers")
    return members


def nested_fits(struct: str) -> str:
    """The definition that the numbers of a structure inside a record fit their fields."""
    return f"{camel(structure(struct).module)}Fits"
