"""The records of a dump in the lines that bindings/tests/in_c/records.c prints: each member by its name."""

from __future__ import annotations

import dataclasses
from collections.abc import Iterator
from enum import IntEnum
from typing import Any

import mdmp
from mdmp import _structures


def members(record: Any) -> Iterator[tuple[str, Any]]:
    """The members that the structure of mdmp.h has too; of a name its place."""
    for field, *_ in getattr(_structures, type(record).__name__)._fields_:
        if field != "reserved" and not field.endswith("_high"):
            yield field, getattr(record, f"{field}_place", None) or getattr(record, field)


def shown(value: Any) -> str:
    if isinstance(value, IntEnum):
        return "".join(word.capitalize() for word in value.name.split("_"))
    if isinstance(value, bool):
        return str(value).lower()
    if isinstance(value, (tuple, bytes)):
        return str(list(value))
    if dataclasses.is_dataclass(value):
        return structure(value, members(value))
    return str(value)


def structure(value: Any, inside: Iterator[tuple[str, Any]]) -> str:
    return f"{type(value).__name__} {{ {', '.join(f'{name}: {shown(member)}' for name, member in inside)} }}"


def name(text: str | None) -> str:
    return "None" if text is None else f"Some({shown(text.encode())})"


def symbol_file(found: mdmp.SymbolFile) -> str:
    guid, signature = found.guid.bytes if found.guid else bytes(16), found.signature or bytes(4)
    given = {field.name: getattr(found, field.name) for field in dataclasses.fields(found)}
    return structure(found, iter({**given, "guid": guid, "signature": signature}.items()))


def lines(dump: mdmp.Dump) -> Iterator[str]:
    """The header, the entries and the records of each kind; after a record its name and its symbol file."""
    yield shown(dump.header)
    yield from map(shown, dump.streams)
    for kind, table in _structures.TABLES.items():
        for record in getattr(dump, kind):
            yield shown(record)
            yield from (name(getattr(record, field)) for field in table.names)
            if getattr(record, "symbols", None) is not None:
                yield symbol_file(record.symbols)
