"""Calls of the library over the bytes of a file, within limits."""

from __future__ import annotations

from ctypes import byref, c_uint8, sizeof
from typing import Any, Callable, Iterable, TypeVar
from uuid import UUID

from . import _structures
from ._buffer import Bytes, Lent, bytes_at
from ._fault import Fault, OutputLimit, expect_good, fault_of, output_limit
from ._ids import ModuleIds, ids_of
from ._library import Filled, fill, library
from ._limits import Limits
from ._output import Counting, exception_size, row_size
from ._part_lines import SHORTEST, first_lines, with_parts
from ._parts import SymbolFile
from ._records import Extent, FaultKind, IdKind, NameState, SymbolKind

_T = TypeVar("_T")


# Guesses of how many items a file of a size has: powers of two, so that there are few types of arrays. A call that gives more
# goes over the file twice. Of a long buffer, only what is written to takes memory.
def some_records(size: int) -> int:
    return 1 << (18 if size >= 1 << 16 else (size // 24).bit_length())


def some_text(_: int) -> int:
    return 1 << 26


def some_name(_: int) -> int:
    return 512


class Calls:
    """The bytes of a file, the limits of each call over them, and what earlier calls returned."""

    def __init__(self, data: Bytes, limits: Limits) -> None:
        self._data: Bytes | None = data
        self._limits, self._plain = limits, limits._plain()
        self._kept: dict[str, Any] = {}

    @property
    def limits(self) -> Limits:
        """The limits of this dump."""
        return self._limits

    def _lent(self) -> Lent:
        if self._data is None:
            raise ValueError("the dump was closed")
        return Lent(self._data)

    def _bytes(self, offset: int, size: int) -> bytes:
        """A copy of bytes that are inside the file."""
        with self._lent() as (file, _):
            return bytes_at(file + offset, size)

    def _most(self, size: int) -> int | None:
        """How many items of this size `output` allows, or None if it is no limit."""
        return None if self._limits.output is None else self._limits.output // size

    def _fill(
        self, call: Any, item: Any, guess: Callable[[int], int], *arguments: Any, most: int | None = None
    ) -> Filled:
        """What a call returns, up to the most items. `guess` is how many items a file of a size has."""
        with self._lent() as (file, size):
            return fill(lambda *out: call(file, size, *arguments, *out), item, guess(size), most)

    def _expect_whole(self, filled: Filled, partial: Any) -> None:
        """Raises the error that ended the call, unless the call returned everything."""
        if filled.is_cut:
            raise output_limit(self._limits.output or 0, partial)
        expect_good(filled.status, filled.fault, partial)

    def _expect_room(self, kept: int, given: list[Any]) -> None:
        """Raises OutputLimit with the rows so far, if `kept` bytes are more than a property may keep."""
        if self._limits.output is not None and kept > self._limits.output:
            raise output_limit(self._limits.output, tuple(given))

    def _keep(self, name: str, make: Callable[[], _T]) -> _T:
        """The value of this name, which is made once."""
        self._lent()
        if name not in self._kept:
            self._kept[name] = make()
        made: _T = self._kept[name]
        return made

    def _rows_of(self, raws: Iterable[Any], record: Any) -> tuple[Any, ...]:
        """The records that these structures are, as many as a property may keep."""
        size, names = row_size(record), Counting(self)
        given: list[Any] = []
        for raw in raws:
            row = record._of(raw, names)
            self._expect_room((len(given) + 1) * size + names.bytes, given)
            given.append(row)
        return tuple(given)

    def _rows(self, call: Any, record: Any, has_limits: bool = True) -> Any:
        """The records of one kind."""

        def make() -> tuple[Any, ...]:
            raw, limits = getattr(_structures, record.__name__), [byref(self._plain)] if has_limits else []
            filled = self._fill(call, raw, some_records, *limits, most=self._most(row_size(record)))
            given = self._rows_of((filled.items[at] for at in range(filled.given)), record)
            self._expect_whole(filled, given)
            return given

        return self._keep(record.__name__, make)

    def _judged(self, call: Any) -> tuple[Fault | None, ...]:
        """The errors that a check returns as rows, with None for a good entry. That entries are bad is no error of the call."""
        raw, kept = _structures.Fault, 0
        given: list[Fault | None] = []
        filled = self._fill(call, raw, some_records, byref(self._plain), most=self._most(sizeof(raw)))
        for at in range(filled.given):
            error = fault_of(filled.items[at]) if filled.items[at].kind else None
            kept += sizeof(raw) if error is None else exception_size(error)
            self._expect_room(kept, given)
            given.append(error)
        if filled.is_cut or filled.fault.kind != FaultKind.BAD_ENTRIES:
            self._expect_whole(filled, tuple(given))
        return tuple(given)

    def _text_with_parts(self, call: Any, line: Callable[[Fault], str]) -> str:
        """The text of a check, with the lines of the parts outside the file."""
        most, is_cut = self._limits.output, False
        try:
            text = self._text(call)
        except OutputLimit as reached:
            text, is_cut = reached.partial, True
        except Fault as fault:
            text = fault.partial  # the next call reports the same error, or at least as many bad entries
        rows = None if most is None else most // SHORTEST + 1  # the lines of so many parts are longer than `output`
        filled = self._fill(library.mdmp_parts_outside_, _structures.Fault, some_records, byref(self._plain), most=rows)
        told = with_parts(text, (fault_of(filled.items[at]) for at in range(filled.given)), line)
        if most is not None and (is_cut or filled.is_cut or len(told) > most):
            raise output_limit(most, first_lines(told, most))
        expect_good(filled.status, filled.fault, told)
        return told

    def _text(self, call: Any, *arguments: Any) -> str:
        filled = self._fill(call, c_uint8, some_text, byref(self._plain), *arguments, most=self._limits.output)
        text = filled.text()
        self._expect_whole(filled, text)
        return text

    def _name_at(self, place: _structures.NamePlace) -> str | None:
        """The name at a place, or None if there is none within the limit."""
        if place.state != NameState.GIVEN:
            return None
        filled = self._fill(library.mdmp_name_, c_uint8, some_name, place.rva, self._limits.name)
        expect_good(filled.status, filled.fault)
        return filled.bytes().decode("utf-8")

    def _symbols_at(self, place: _structures.Place) -> SymbolFile | None:
        """The CodeView record at a place, or None if it is not inside the file."""
        if place.extent != Extent.INSIDE:
            return None
        raw, fault = _structures.SymbolFile(), _structures.Fault()
        with self._lent() as (file, size):
            status = library.mdmp_symbols_(file, size, byref(self._plain), byref(place), byref(raw), byref(fault))
            expect_good(status, fault)
            name = bytes_at(file + raw.name_offset, raw.name_size)
        kind = SymbolKind(raw.kind)
        guid = UUID(bytes=bytes(raw.guid)) if kind == SymbolKind.RSDS else None
        signature = bytes(raw.signature) if kind == SymbolKind.OTHER else b""
        return SymbolFile(kind, guid, raw.age, name, raw.name_ended == 1, signature)

    def _ids_of(
        self, raw: _structures.Module | _structures.SummaryModule, name: str | None, symbols: SymbolFile | None
    ) -> ModuleIds:
        """The ids of a module with this name and this symbol file."""
        row, ids = _structures.Module(), _structures.ModuleIds()
        row.codeview, row.time_date_stamp, row.size_of_image = raw.codeview, raw.time_date_stamp, raw.size_of_image
        with self._lent() as (file, size):
            library.mdmp_ids_(file, size, byref(row), byref(ids))  # it always returns MDMP_OK
        return ids_of(ids, IdKind(ids.kind), name, symbols)

    def _thread_name(self, thread_id: int) -> str | None:
        """The first name that the file has for a thread, or None."""
        raise NotImplementedError
