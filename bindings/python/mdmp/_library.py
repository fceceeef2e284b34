"""Finds the library, and calls it."""

from __future__ import annotations

import mmap
import os
from ctypes import CDLL, Array, byref, c_uint8, c_uint64, sizeof
from functools import lru_cache
from typing import Any, Callable, NamedTuple

from . import _structures
from ._buffer import bytes_at
from ._records import Status

_LONG = 1 << 18  # bytes from which a buffer is mapped


def _load() -> CDLL:
    """The library that MDMP_LIBRARY names, or the one in this folder, or the system's."""
    named = os.environ.get("MDMP_LIBRARY")
    soname = _structures.SONAME
    beside = os.path.join(os.path.dirname(os.path.abspath(__file__)), soname)
    path = named or (beside if os.path.exists(beside) else soname)
    try:
        loaded = CDLL(path)
    except OSError as error:
        raise ImportError(f"{soname} was not found ({error}): install it, or name it in MDMP_LIBRARY") from None
    loaded.mdmp_abi.argtypes = []
    if loaded.mdmp_abi() != _structures.ABI:
        raise ImportError(f"{path} has calls of form {loaded.mdmp_abi()}, and this package wants {_structures.ABI}")
    _structures.declare(loaded)
    return loaded


library = _load()


@lru_cache(maxsize=256)
def array_of(item: Any, room: int) -> type[Array[Any]]:
    """The type of an array. To make one takes longer than most calls."""
    made: type[Array[Any]] = item * max(room, 1)
    return made


def buffer_of(item: Any, room: int) -> Array[Any]:
    """A buffer for items. Of a long one, only what is written to takes memory."""
    kind = array_of(item, room)
    if sizeof(kind) < _LONG:
        return kind()
    try:
        return kind.from_buffer(mmap.mmap(-1, sizeof(kind), flags=mmap.MAP_PRIVATE))
    except OSError:
        raise MemoryError from None


class Filled(NamedTuple):
    """What a call returned, and the buffer that it filled. `is_cut`: there are more items than the most."""

    status: Status
    items: Array[Any]
    given: int
    fault: _structures.Fault
    is_cut: bool = False

    def bytes(self) -> bytes:
        """The bytes that the call returned."""
        return bytes_at(self.items, self.given)

    def text(self) -> str:
        """The text that the call returned; if it is cut, only its whole lines."""
        data = memoryview(self.items)[: self.given]
        if not self.is_cut:
            return str(data, "utf-8")
        text = str(data, "utf-8", "ignore")  # the last letter may be cut too
        return text[: text.rfind("\n") + 1]


def fill(call: Callable[..., int], item: Any, room: int, most: int | None = None) -> Filled:
    """Calls with a buffer for `room` items. If that is too short, calls again with one of the length that the call asks
    for, up to the most items."""
    is_guess = True
    while True:
        room = room if most is None else min(room, most)
        try:
            items = buffer_of(item, room)
        except MemoryError:
            if not is_guess or room <= 1:
                raise
            is_guess, room = False, 1  # the call tells how much there is
            continue
        count, fault = c_uint64(), _structures.Fault()
        status = call(items, room, byref(count), byref(fault))
        if status != Status.BUFFER_TOO_SHORT:
            return Filled(Status(status), items, count.value, fault)
        if room == most:
            return Filled(Status.BUFFER_TOO_SHORT, items, room, fault, is_cut=True)
        is_guess, room = False, count.value


def fault_text(fault: _structures.Fault) -> str:
    """The message of the command for an error."""

    def call(out: Any, room: int, size: Any, _: Any) -> int:
        return int(library.mdmp_fault_text_(byref(fault), out, room, size))

    filled = fill(call, c_uint8, 128)
    return filled.bytes().decode("ascii") if filled.status == Status.OK else f"fault {fault.kind}"
