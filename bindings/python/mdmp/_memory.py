"""Memory of the dumped process."""

from __future__ import annotations

from ctypes import Array, byref, c_bool, c_uint8, c_uint64
from typing import TYPE_CHECKING, NamedTuple, overload

from . import _structures
from ._buffer import bytes_at
from ._fault import expect_good
from ._library import array_of, library

if TYPE_CHECKING:
    from ._dump import Dump

_END = 1 << 64


class Cells(NamedTuple):
    """Bytes of consecutive addresses."""

    data: bytes
    """The bytes; a byte that is not known is 0."""
    known: tuple[bool, ...]
    """For each byte, whether the file has it."""


class Memory:
    """Memory of the dumped process, by address. `dump.memory` reads the memory lists once, and keeps an index.

    >>> import mdmp
    >>> with mdmp.open("crashpad-one.dmp") as dump:
    ...     stack = dump.threads[0].stack_start
    ...     print(dump.memory[stack : stack + 8].hex())
    ...     print(stack in dump.memory, stack - 1 in dump.memory)
    0000000000000000
    True False
    """

    def __init__(self, dump: Dump, ranges: Array[_structures.Range], count: int) -> None:
        room, given, fault = 2 * count, c_uint64(), _structures.Fault()
        slots = array_of(_structures.Slot, room)()
        with dump._lent() as (file, file_size):
            status = library.mdmp_index_(file, file_size, ranges, count, slots, room, byref(given), byref(fault))
        expect_good(status, fault)
        self._dump, self._slots, self._count = dump, slots, given.value

    def read(self, address: int, size: int) -> Cells:
        """The bytes from an address on, and which of them the file has.

        >>> import mdmp
        >>> with mdmp.open("llvm-all-kinds.dmp") as dump:
        ...     print(dump.memory.read(0x0FFF, 4))
        Cells(data=b'\\x00\\x00\\x01\\x02', known=(False, True, True, True))
        """
        if address < 0 or size < 0 or address + size > _END:
            raise ValueError("addresses lie below 2**64")
        out, known, fault = array_of(c_uint8, size)(), array_of(c_bool, size)(), _structures.Fault()
        with self._dump._lent() as (file, file_size):
            status = library.mdmp_read_index_(
                file, file_size, self._slots, self._count, address, out, size, known, size, byref(fault)
            )
        expect_good(status, fault)
        return Cells(bytes_at(out, size), tuple(known[:size]))

    @overload
    def __getitem__(self, key: int) -> int: ...

    @overload
    def __getitem__(self, key: slice) -> bytes: ...

    def __getitem__(self, key: int | slice) -> int | bytes:
        """The byte at an address, or the bytes of a slice. KeyError has the first address that the file lacks."""
        if isinstance(key, int):
            return self[key : key + 1][0]
        if key.start is None or key.stop is None or key.step not in (None, 1):
            raise ValueError("memory is read by memory[start:stop]")
        cells = self.read(key.start, max(key.stop - key.start, 0))
        if not all(cells.known):
            raise KeyError(hex(key.start + cells.known.index(False)))
        return cells.data

    def __contains__(self, address: object) -> bool:
        """Whether the file has the byte at an address."""
        return isinstance(address, int) and 0 <= address < _END and self.read(address, 1).known[0]
