"""How many bytes the rows of a property take."""

from __future__ import annotations

from enum import Enum
from functools import lru_cache
from sys import getsizeof
from typing import Any
from uuid import UUID

from . import _structures
from ._ids import ModuleIds
from ._parts import Reader, SymbolFile
from ._records import IdKind, SymbolKind

_PLACE_IN_A_TUPLE = 8
_BIG = (1 << 32) - 1  # takes as many bytes as any number of 32 bits


def size_of(value: Any) -> int:
    """How many bytes a value takes with its parts. Members of enums and None are there in any case."""
    if value is None or isinstance(value, Enum):
        return 0
    names = getattr(type(value), "__slots__", ())
    held = value if isinstance(value, tuple) else [getattr(value, name) for name in names if name != "__weakref__"]
    return getsizeof(value) + sum(size_of(part) for part in held)


def exception_size(error: Exception) -> int:
    """How many bytes an exception takes, whose members are its arguments."""
    return _PLACE_IN_A_TUPLE + getsizeof(error) + getsizeof(vars(error)) + size_of(error.args)


class _NoNames:
    """Reads no names, and a symbol file without one."""

    def _name_at(self, place: _structures.NamePlace) -> str | None:
        return None

    def _symbols_at(self, place: _structures.Place) -> SymbolFile | None:
        return SymbolFile(SymbolKind.RSDS, UUID(int=(1 << 128) - 1), _BIG, b"", True, b"")

    def _ids_of(self, raw: Any, name: str | None, symbols: SymbolFile | None) -> ModuleIds:
        return ModuleIds(IdKind.ELF, "F" * 40, "f" * 40, bytes(20), True, None, None)

    def _thread_name(self, thread_id: int) -> str | None:
        return None


@lru_cache(maxsize=None)
def row_size(record: Any) -> int:
    """The most bytes that a row takes without its names: those for a structure whose bytes are all 255."""
    raw = getattr(_structures, record.__name__)
    greatest = raw.from_buffer_copy(b"\xff" * _structures.LAYOUT[raw][0])
    return _PLACE_IN_A_TUPLE + size_of(record._of(greatest, _NoNames()))


class Counting:
    """Reads names for rows, and counts the bytes that the names take."""

    def __init__(self, read: Reader) -> None:
        self._read, self.bytes = read, 0

    def _name_at(self, place: _structures.NamePlace) -> str | None:
        name = self._read._name_at(place)
        self.bytes += 0 if name is None else getsizeof(name)
        return name

    def _symbols_at(self, place: _structures.Place) -> SymbolFile | None:
        found = self._read._symbols_at(place)
        self.bytes += 0 if found is None else getsizeof(found.name)
        return found

    def _ids_of(self, raw: Any, name: str | None, symbols: SymbolFile | None) -> ModuleIds:
        ids = self._read._ids_of(raw, name, symbols)
        self.bytes += sum(getsizeof(file) for file in (ids.debug_file, ids.code_file) if file is not None)
        return ids

    def _thread_name(self, thread_id: int) -> str | None:
        return self._read._thread_name(thread_id)
