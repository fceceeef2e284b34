"""C that prints records as Debug of Rust does, for the tests: each member by its name."""

from __future__ import annotations

from .interface import MADE, Enum, Field, Interface, Structure
from .rust import variant



def shown(name: str) -> str:
    """The function that prints a structure or a number of an enum."""
    return f"show_{name}"


def enum_text(enum: Enum) -> str:
    rows = "".join(f'        {{{number}, "{variant(enum, name)}"}},\n' for name, number, _ in enum.values)
    return (
        f"static inline void {shown(enum.name)}(const char *key, uint32_t number) {{\n"
        f"    static const named NAMES[] = {{\n{rows}    }};\n"
        "    show_named(key, number, NAMES, sizeof NAMES / sizeof *NAMES);\n}"
    )


def member_text(interface: Interface, structure: Structure, field: Field) -> str:
    name, value = f'"{field.name}"', f"row->{field.name}"
    if field.base in interface.structures:
        return f"{shown(field.base)}({name}, &{value});"
    if field.enum:
        return f"{shown(field.enum.name)}({name}, {value});"
    if field.count:
        return f"show_{'bytes' if field.base == 'u8' else 'numbers'}({name}, {value}, {field.count});"
    if structure.is_halved(field):
        return f"show_wide({name}, {value}_high, {value});"
    return f"show_number({name}, {value});"


def record_text(interface: Interface, structure: Structure) -> str:
    members = "".join(f"    {member_text(interface, structure, field)}\n" for field in structure.shown)
    return (
        f"static inline void {shown(structure.name)}(const char *key, const {structure.name} *row) {{\n"
        f'    begin(key, "{structure.face}");\n{members}    end();\n}}'
    )


def records_text(interface: Interface) -> str:
    with_enums = [*interface.records, interface.structures["mdmp_symbol_file"]]
    used = {field.enum.name for structure in with_enums for field in structure.fields if field.enum}
    return (
        f"/* Prints each record by its members; inline, as a file may have none of some. {MADE} */\n\n"
        + "\n\n".join(enum_text(enum) for enum in interface.enums.values() if enum.name in used)
        + "\n\n"
        + "\n\n".join(record_text(interface, structure) for structure in interface.records)
        + "\n"
    )
