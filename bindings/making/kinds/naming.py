"""What the code and the definitions call the things of a kind, where these definitions are, and the orders that kinds stand in."""

from __future__ import annotations

import re
from collections.abc import Callable, Iterable

from ..spelling import camel, marked, snake
from .records import structure
from .table import Kind, Kinds, of_three

CALLED_IN_SPECS = {"module": "image"}  # what definitions call a record, if that is plainer than its name between « and »
WIRE, DUMP = "mdmp_wire.specs", "mdmp_dump.specs"
ITEM = "mdmp_lister.specs.declared.item"

# ---- records and items


def local_in_specs(kind: Kind) -> str:
    """What definitions call a record."""
    return marked(CALLED_IN_SPECS.get(kind.local, kind.local))


def records_name(kind: Kind) -> str:
    """What the code calls its records, or the one record."""
    return f"{kind.local}s" if kind.is_list else kind.local


def records_in_specs(kind: Kind) -> str:
    """What definitions call them."""
    name = CALLED_IN_SPECS.get(kind.local, kind.local)
    return marked(f"{name}s" if kind.is_list else name)


def printed(kind: Kind) -> str:
    """What the functions of its line are called, such as `print_thread`."""
    return kind.printed or snake(kind.item)


def initial(name: str) -> str:
    """What definitions call one thing of this name, for short. `e` is the number of an entry."""
    return name[0].lower().replace("e", "x")


def item_function(kind: Kind) -> str:
    """The definition of its item. Where kinds share an item, the number in the name of the record tells them apart."""
    number = re.search(r"\d*$", kind.record)
    return f"{snake(kind.item)}{number[0] if number else ''}_item"


# ---- values


def value_type(kind: Kind) -> str:
    """The type of its values in the code."""
    return f"{kind.value}<A>" if kind.value else kind.struct


def generic(kind: Kind) -> str:
    """The type parameters of an `impl` for its values."""
    return "<A: Allocator>" if kind.value else ""


def value_in_specs(kind: Kind) -> str:
    """The type of its values in definitions."""
    return f"{kind.value} Z" if kind.value else kind.struct


def seen_name(kind: Kind) -> str:
    """The definition of a value as a view gives it."""
    return f"{kind.value_module}_seen"


def fits_name(kind: Kind) -> str:
    """The definition that the numbers of a value fit."""
    return f"{kind.value_file}Fits"


def is_name(kind: Kind) -> str:
    """The definition that a value stands at a place."""
    return f"Is{kind.value_file}"


def in_name(kind: Kind) -> str:
    """The definition of the value that a file has at a place."""
    return f"{kind.value_module}_in"


def value_at(kind: Kind, start: str = "at.rva", value: str = "x") -> str:
    """That the record with an index, at a place, is a value: of bytes behind others also by where the list starts."""
    if not kind.value:
        return f"(λ k o {value}. {kind.module}_at F o ≡ {value})"
    if kind.is_behind:
        return f"(λ k o. {is_name(kind)} F {start} k o)"
    return f"(λ k o. {is_name(kind)} F o)"


def sizes_told(kind: Kind, value: str) -> str:
    """Why a view gives the sizes of what a value has: three proofs."""
    of_slots = [f"({'name' if slot.name else 'part'}_sized {value}.{slot.value})" for slot in kind.slots if not slot.behind]
    return " ".join(of_three(of_slots, "refl"))


def stream_of(kind: Kind, many: str = "xs", one: str = "x") -> str:
    """A stream of the kind, as definitions take it apart."""
    return f"(streams.{kind.stream} {many if kind.is_list else one})"


# ---- where definitions are


def record_path(kind: Kind, *ends: str) -> str:
    """Definitions of its record, by the ends of their names."""
    return f"{WIRE}.{kind.record_file}.{{{', '.join(f'{kind.module}_{end}' for end in ends)}}}"


def struct_file(struct: str) -> str:
    """The file of a structure of mdmp_wire."""
    return f"{WIRE}.declared.{structure(struct).module}.{struct}"


def struct_path(struct: str) -> str:
    """A structure of mdmp_wire."""
    return f"{struct_file(struct)}.{{{struct}}}"


def struct_uses(struct: str, *ends: str) -> dict[str, list[str]]:
    """A structure of mdmp_wire and definitions of it, by the ends of their names: the names in each file."""
    module = structure(struct).module
    return {struct_file(struct): [struct], f"{WIRE}.{camel(module)}": [f"{module}_{end}" for end in ends]}


def item_paths(kinds: Iterable[Kind]) -> list[str]:
    """The structures of items."""
    return [f"{ITEM}.{item}.{{{item}}}" for item in dict.fromkeys(f"{kind.item}Item" for kind in kinds)]


def value_paths(kinds: Iterable[Kind], name: Callable[[Kind], str]) -> list[str]:
    """The definitions of values that have these names."""
    return [f"{DUMP}.{kind.value_file}.{{{name(kind)}}}" for kind in kinds]


def value_type_paths(kinds: Iterable[Kind]) -> list[str]:
    """The types of values."""
    return [f"{DUMP}.declared.{kind.value_module}.{kind.value}.{{{kind.value}}}" for kind in kinds]


def proof_paths(kinds: Iterable[Kind], folder: str, name: Callable[[Kind], str]) -> list[str]:
    """The proofs of these names, each in its file of a folder."""
    return [f"{folder}.{kind.value_file}.{{{name(kind)}}}" for kind in kinds]


# ---- orders, beside those of items and of types


def part_names(kinds: Kinds) -> str:
    """The parts that records have, in the order of items."""
    return ", ".join(dict.fromkeys(slot.part for kind in kinds.by_item for slot in kind.parts))


def places_first(kinds: Kinds) -> list[Kind]:
    """By type: first the kinds whose records say where all is that they point at, and at the end those that point at nothing."""
    return sorted(kinds.by_type, key=lambda kind: 2 if not kind.slots else 1 if kind.is_behind else 0)


def ranges_together(kinds: Kinds) -> list[Kind]:
    """By type, but ranges of memory stand together, where the first of them does."""
    first = min((kind.type for kind in kinds.ranges), default=0)
    return sorted(kinds.by_type, key=lambda kind: first if kind.is_range else kind.type)


def alike_together(kinds: Kinds) -> list[Kind]:
    """By item, but kinds whose records are called alike stand together."""
    names = [kind.local for kind in kinds.by_item]
    return sorted(kinds.by_item, key=lambda kind: names.index(kind.local))


def each_item(kinds: Kinds) -> list[Kind]:
    """By item: of kinds that share an item, the first alone."""
    found: dict[str, Kind] = {}
    for kind in kinds.by_item:
        found.setdefault(kind.item, kind)
    return list(found.values())
