"""The modules and the threads of all entries, each entry up to its own error.

A list of the library ends at the first error of the file. If there is one, the records are read here, and what they name is read
by the library, as for a list.
"""

from __future__ import annotations

from struct import Struct
from typing import TYPE_CHECKING, Any, Callable, Iterator

from . import _structures
from ._fault import Fault, LimitReached
from ._records import Extent, Module, NameState, Thread
from .names import StreamType

if TYPE_CHECKING:
    from ._dump import Dump

# MINIDUMP_MODULE: base, size, checksum, time and name, the versions of the file and the product, and two locations.
_MODULE = Struct("<Q4I8x4I28x4I16x")
# MINIDUMP_THREAD
_THREAD = Struct("<4I2Q4I")


class _Records:
    """Reads the records of a dump."""

    def __init__(self, dump: Dump) -> None:
        self._dump = dump
        with dump._lent() as (_, size):
            self._size = size

    def _number(self, offset: int) -> int:
        return int.from_bytes(self._dump._bytes(offset, 4), "little")

    def _values(self, stream_type: StreamType, form: Struct) -> Iterator[tuple[int, int, tuple[int, ...]]]:
        """The records of a form: the number of the entry, that of the record, and the fields."""
        for entry, (stream, fault) in enumerate(zip(self._dump.streams, self._dump.verdicts)):
            # An error of no record is one of the stream, before its records.
            if stream.stream_type != stream_type or (fault is not None and fault.index is None):
                continue
            count = self._number(stream.rva)
            good = count if fault is None or fault.index is None else fault.index
            head = 8 if stream.size == 8 + count * form.size else 4
            data = self._dump._bytes(stream.rva + head, good * form.size)
            for index, values in enumerate(form.iter_unpack(data)):
                yield entry, index, values

    def _place(self, size: int, rva: int) -> _structures.Place:
        if size == 0:
            extent = Extent.EMPTY
        elif rva == 0:
            extent = Extent.ABSENT
        else:
            extent = Extent.INSIDE if rva + size <= self._size else Extent.OUTSIDE
        return _structures.Place(size, rva, extent)

    def _name(self, rva: int) -> _structures.NamePlace:
        """The place of a name without an error."""
        if rva == 0:
            return _structures.NamePlace(0, 0, NameState.NONE)
        size = self._number(rva)
        return _structures.NamePlace(rva, size, NameState.LONG if size > self._dump.limits.name else NameState.GIVEN)

    def modules(self) -> Iterator[_structures.Module]:
        for entry, index, values in self._values(StreamType.ModuleListStream, _MODULE):
            base, size, checksum, time, name, *versions = values[:9]
            codeview, misc = self._place(*values[9:11]), self._place(*values[11:])
            yield _structures.Module(index, base, entry, size, checksum, time, *versions, self._name(name), codeview, misc)

    def threads(self) -> Iterator[_structures.Thread]:
        for entry, index, values in self._values(StreamType.ThreadListStream, _THREAD):
            thread_id, suspend_count, priority_class, priority, teb, start, *parts = values
            stack, context = self._place(*parts[:2]), self._place(*parts[2:])
            fields = (thread_id, suspend_count, priority_class, priority, stack, context)
            yield _structures.Thread(index, teb, start, entry, *fields)


def _all(rows: Callable[[], Any], dump: Dump, record: Any, read: Callable[[_Records], Iterator[Any]]) -> Any:
    try:
        return rows()
    except LimitReached:
        raise
    except Fault:
        return dump._rows_of(read(_Records(dump)), record)


def all_modules(dump: Dump) -> tuple[Module, ...]:
    """The modules of all entries."""
    rows: tuple[Module, ...] = _all(lambda: dump.modules, dump, Module, _Records.modules)
    return rows


def all_threads(dump: Dump) -> tuple[Thread, ...]:
    """The threads of all entries."""
    rows: tuple[Thread, ...] = _all(lambda: dump.threads, dump, Thread, _Records.threads)
    return rows
