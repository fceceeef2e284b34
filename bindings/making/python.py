"""Python's declarations: the plain structures and the types of the calls, and the records that programs see."""

from __future__ import annotations

import re
import textwrap

from lib.generated import Mistake, Stretches

from .interface import MADE, Argument, Call, Enum, Field, Interface, Structure, Table
from .kinds.table import Kinds
from .lines import wrapped

TYPES = {"bool": "c_bool", "u8": "c_uint8", "u32": "c_uint32", "u64": "c_uint64"}


def type_of(interface: Interface, base: str) -> str:
    return TYPES[base] if base in TYPES else interface.structures[base].face


def raw_hint(interface: Interface, field: Field) -> str:
    base = "int" if field.base in TYPES else interface.structures[field.base].face
    return f"Array[{TYPES[field.base]}]" if field.count else base


def structure_text(interface: Interface, structure: Structure) -> str:
    lines = [f"class {structure.face}(Structure):", f'    """{structure.name}"""', ""]
    lines += [f"    {field.name}: {raw_hint(interface, field)}" for field in structure.fields]
    lines += ["", "    _fields_ = ["]
    for field in structure.fields:
        kind = type_of(interface, field.base) + (f" * {field.count}" if field.count else "")
        lines.append(f'        ("{field.name}", {kind}),')
    return "\n".join(lines + ["    ]"])


def layout_text(structure: Structure) -> str:
    offsets = ", ".join(f'"{field.name}": {field.offset}' for field in structure.fields)
    words = textwrap.wrap(f"{{{offsets}}}", 100, subsequent_indent=" " * 12, break_long_words=False)
    return f"    {structure.face}: (\n        {structure.size},\n        " + "\n".join(words) + ",\n    ),"


def argument_types(interface: Interface, argument: Argument) -> list[str]:
    if not argument.is_pointer:
        return [TYPES[argument.base]]
    if argument.base == "u8" and not argument.is_written:
        return ["c_void_p", "c_size_t"]  # any bytes, by their address
    pointer = f"POINTER({type_of(interface, argument.base)})"
    return [pointer, "c_size_t"] if argument.length else [pointer]


def declare_text(interface: Interface, call: Call) -> str:
    words = [word for argument in call.arguments for word in argument_types(interface, argument)]
    types = f"library.{call.symbol}.argtypes = [{', '.join(words)}]"
    if len(types) > 106:
        types = f"library.{call.symbol}.argtypes = [\n" + "".join(f"        {word},\n" for word in words) + "    ]"
    return f"    {types}\n    library.{call.symbol}.restype = c_uint32"


def table_text(structure: Structure, table: Table) -> str:
    """A row of TABLES."""
    places = [(field, part.removeprefix("MDMP_PART_").lower()) for field, part in table.parts if field != "extent"]
    values = f'{structure.face}, "{table.words}", {tuple(table.types)}, {tuple(structure.names)}, {tuple(places)}'
    return f'    "{table.name}": Table({values}),'.replace("'", '"')


def structures_text(interface: Interface) -> str:
    structures = interface.structures.values()
    known, sizes = {kind for _, table in interface.tables for kind in table.types}, Kinds().record_sizes
    if known != {*sizes}:
        raise Mistake(f"the tables have the types {sorted(known)}, and the kinds {sorted(sizes)}")
    return (
        f'"""The plain structures of mdmp.h, and the types of its calls. {MADE}"""\n\n'
        "from __future__ import annotations\n\n"
        "from ctypes import (\n    CDLL,\n    POINTER,\n    Array,\n    Structure,\n    c_bool,\n    c_size_t,\n    c_uint8,\n"
        "    c_uint32,\n    c_uint64,\n    c_void_p,\n)\nfrom typing import NamedTuple\n\n"
        f"ABI = {interface.abi}\nSONAME = \"{interface.soname}\"\n\n"
        f"WINDOW, NAME = {interface.limits['window']}, {interface.limits['name']}\n"
        f"UNTRUSTED = {interface.limits['untrusted']}  # each limit of MDMP_LIMITS_UNTRUSTED\n"
        "NO_LIMIT = (1 << 64) - 1\n\n\n"
        + "\n\n\n".join(structure_text(interface, structure) for structure in structures)
        + "\n\n\n# For each structure its size, and the offset of each field.\n"
        + "LAYOUT: dict[type[Structure], tuple[int, dict[str, int]]] = {\n"
        + "\n".join(layout_text(structure) for structure in structures)
        + f"\n}}\n\n\n{TABLE}\n\n\n"
        "# The tables, by their names.\nTABLES = {\n"
        + "\n".join(table_text(structure, table) for structure, table in interface.tables)
        + "\n}\n\n# How many bytes a record in a stream has at least, by the type of the stream.\n"
        f"RECORD_SIZES = {sizes}\n\n\ndef declare(library: CDLL) -> None:\n"
        + '    """Sets the types of the arguments and the result of each call of a library."""\n'
        + "\n".join(declare_text(interface, call) for call in interface.calls)
        + "\n"
    )


TABLE = """\
class Table(NamedTuple):
    \"""A call that gives an array of records.\"""

    row: type[Structure]
    words: str  # what the records are called
    types: tuple[int, ...]  # of the streams that have them
    names: tuple[str, ...]  # the fields that are places of names
    places: tuple[tuple[str, str], ...]  # the fields that are places of parts, and which part"""


# ---- records


def docstring(first: str, rows: list[tuple[str, str]]) -> list[str]:
    """A class's docstring: what it is, and a line for each name, which help() shows."""
    width = max(len(name) for name, _ in rows)
    return [f'    """{first}', ""] + [f"    {name:<{width}}  {doc}" for name, doc in rows] + ['    """', ""]


def enum_text(enum: Enum) -> str:
    rows = [(enum.short(name), number, doc) for name, number, doc in enum.values]
    lines = [f"class {enum.face}(Numbers):"] + docstring(enum.doc, [(name, doc) for name, _, doc in rows])
    return "\n".join(lines + [f"    {name} = {number}" for name, number, _ in rows])


def bound(structure: Structure, name: str, value: str) -> str:
    """The value of a member, which has a name where another member is made of it."""
    is_used = any(re.search(rf"\b{name}\b", also) for _, _, also, _ in structure.python_also)
    return f"({name} := {value})" if is_used else value


def members(interface: Interface, structure: Structure) -> list[tuple[str, str, str, str]]:
    """Of each member of a record: its name, its type, how it comes of the plain structure, and its doc."""
    made = []
    for field in structure.shown:
        name, raw = field.name, f"raw.{field.name}"
        if field.base == "mdmp_name_place":
            doc = field.doc + "; None if there is none within the limit"
            made.append((name, "str | None", bound(structure, name, f"read._name_at({raw})"), doc))
            made.append((f"{name}_place", "NamePlace", f"NamePlace._of({raw}, read)", "the place of the name"))
        elif field.base in interface.structures:
            face = interface.structures[field.base].face
            made.append((name, face, f"{face}._of({raw}, read)", field.doc))
        elif field.enum:
            made.append((name, field.enum.face, f"{field.enum.face}({raw})", field.doc))
        elif field.count:
            kind = ("bytes", "bytes") if field.base == "u8" else ("tuple[int, ...]", "tuple")
            made.append((name, kind[0], f"{kind[1]}({raw})", field.doc))
        elif structure.is_halved(field):
            made.append((name, "int", f"{raw} | raw.{name}_high << 64", field.doc.split(":")[0]))
        else:
            made.append((name, "int", raw, field.doc))
    return made + [(name, kind, value, doc) for name, kind, value, doc in structure.python_also]


def record_text(interface: Interface, structure: Structure) -> str:
    found = members(interface, structure)
    lines = ["@dataclass(frozen=True, slots=True)", f"class {structure.face}:"]
    lines += docstring(structure.doc, [(name, doc) for name, _, _, doc in found])
    lines += [f"    {name}: {kind}" for name, kind, _, _ in found]
    lines += ["", "    @classmethod"]
    lines += [f"    def _of(cls, raw: _structures.{structure.face}, read: Reader) -> {structure.face}:"]
    lines.append(wrapped("return cls", [value for _, _, value, _ in found], "", "        "))
    return "\n".join(lines)


def records_text(interface: Interface) -> str:
    names = sorted([enum.face for enum in interface.enums.values()] + [structure.face for structure in interface.records])
    return (
        f'"""Records and numbers as programs see them. {MADE}"""\n\n'
        "from __future__ import annotations\n\n"
        "from dataclasses import dataclass\n\n"
        "from . import _structures\nfrom ._ids import ModuleIds\nfrom ._parts import Numbers, Reader, SymbolFile, Version, version\n\n"
        + "__all__ = [\n" + "".join(f'    "{name}",\n' for name in names) + "]\n\n\n"
        + "\n\n\n".join(enum_text(enum) for enum in interface.enums.values())
        + "\n\n\n"
        + "\n\n\n".join(record_text(interface, structure) for structure in interface.records)
        + "\n"
    )


# ---- stretches of files that are written by hand


PACKAGE = "bindings/python/mdmp"


def names_on_lines(names: set[str]) -> str:
    return "".join(f"    {name},\n" for name in sorted(names))


def property_text(structure: Structure, table: Table) -> str:
    face = structure.face
    return (
        f'    @property\n    def {table.name}(self) -> tuple[{face}, ...]:\n        """{table.face_doc}"""\n'
        f"        rows: tuple[{face}, ...] = self._rows(library.{table.call}_, {face})\n        return rows\n\n"
    )


def put_package(files: Stretches, interface: Interface) -> None:
    """What the package imports and shows, and the properties of `Dump` that give records."""
    faces = {structure.face for structure, _ in interface.tables}
    shown = {enum.face for enum in interface.enums.values()} | {structure.face for structure in interface.records}
    imported = "from ._records import (\n"
    files.put(f"{PACKAGE}/_dump.py", imported, ")", names_on_lines(faces | {"Header", "Status", "Stream"}))
    properties = [property_text(structure, table) for structure, table in interface.listed if not table.is_python_own]
    files.put(f"{PACKAGE}/_dump.py", "    # ---- records of other kinds\n\n", "    # ---- memory", "".join(properties))
    files.put(f"{PACKAGE}/__init__.py", imported, ")", names_on_lines(shown))
    given = re.findall(r"^from \._\w+ import (?:(\w[\w, ]*)$|\(\n(.*?)\))", files.text(f"{PACKAGE}/__init__.py"), re.M | re.S)
    every = {name for line, lines in given for name in re.findall(r"\w+", line + lines) if " as " not in line} | {"__version__"}
    files.put(f"{PACKAGE}/__init__.py", "\n__all__ = [\n", "]", "".join(f'    "{name}",\n' for name in sorted(every)))


def put_page(files: Stretches, interface: Interface) -> None:
    """The properties, in a list of what there is."""
    names = ", ".join(f"`{table.name}`" for _, table in interface.listed)
    files.put("docs/python.md", "| records, as a tuple | ", " |", names)
