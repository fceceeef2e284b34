"""Finds the module that has an address, by an index that the library makes."""

from __future__ import annotations

from ctypes import Array, byref, c_uint64

from . import _structures
from ._fault import expect_good
from ._library import array_of, library


class Images:
    """An index of the images of modules, which may overlap. It uses at most 64 bytes for each module. To make it for n
    modules takes O(n log n)."""

    def __init__(self, modules: Array[_structures.Module], count: int) -> None:
        """`count` is the number of modules: the array may be longer."""
        room, given, fault = 2 * count, c_uint64(), _structures.Fault()
        slots = array_of(_structures.Slot, room)()
        status = library.mdmp_index_modules_(modules, count, slots, room, byref(given), byref(fault))
        expect_good(status, fault)
        self._slots, self._count, self._modules = slots, given.value, count

    def first(self, address: int) -> int | None:
        """The number, from 0, of the first module that has an address; None if no module has it. It takes O(log n)."""
        if not 0 <= address < 1 << 64:
            return None
        owner = c_uint64()
        library.mdmp_where_(self._slots, self._count, address, byref(owner))  # it always returns MDMP_OK
        return owner.value if owner.value < self._modules else None
