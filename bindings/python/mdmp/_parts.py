"""Parts of records: names, symbol files and versions."""

from __future__ import annotations

from dataclasses import dataclass
from enum import IntEnum
from typing import TYPE_CHECKING, NamedTuple, Protocol
from uuid import UUID

if TYPE_CHECKING:
    from . import _structures
    from ._ids import ModuleIds
    from ._records import SymbolKind


class Numbers(IntEnum):
    """Numbers with names. A later library may return a number that has no name here."""

    @classmethod
    def _missing_(cls, value: object) -> Numbers | None:
        if not isinstance(value, int):
            return None
        number = int.__new__(cls, value)
        number._name_, number._value_ = f"NUMBER_{value}", value
        return number

    @property
    def is_named(self) -> bool:
        """Whether the number has a name here."""
        return self._value_ in type(self)._value2member_map_


class Version(NamedTuple):
    """The four numbers of a version, as in 10.0.19041.1."""

    major: int
    minor: int
    build: int
    revision: int

    def __str__(self) -> str:
        return ".".join(str(number) for number in self)


def version(upper: int, lower: int) -> Version:
    """The version in two numbers of 32 bits."""
    return Version(upper >> 16, upper & 0xFFFF, lower >> 16, lower & 0xFFFF)


@dataclass(frozen=True, slots=True)
class SymbolFile:
    """The CodeView record of a module, which names its symbol file."""

    kind: SymbolKind
    """Which kind of record it is. A member that this kind does not have is None, 0, False or empty."""
    guid: UUID | None
    """RSDS: the identity of the symbol file."""
    age: int
    """RSDS: how often the symbol file was written since it got its identity."""
    name: bytes
    """RSDS: the name, in no known encoding. It has at most as many bytes as `name` of the dump's limits."""
    name_ended: bool
    """RSDS: True if a zero byte ends the name, False if the record or the limit ends it."""
    signature: bytes
    """Another kind: the first four bytes of the record."""


class Reader(Protocol):
    """Reads what a record names."""

    def _name_at(self, place: _structures.NamePlace) -> str | None:
        """A name, or None if there is none within the limit."""

    def _symbols_at(self, place: _structures.Place) -> SymbolFile | None:
        """A CodeView record, or None if it is not inside the file."""

    def _ids_of(
        self, raw: _structures.Module | _structures.SummaryModule, name: str | None, symbols: SymbolFile | None
    ) -> ModuleIds:
        """The ids of a module with this name and this symbol file."""

    def _thread_name(self, thread_id: int) -> str | None:
        """The first name that the file has for a thread, or None."""
