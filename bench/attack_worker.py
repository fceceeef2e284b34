"""Makes one call of the library in a process of its own, through ctypes or the Python package, and prints what it took as JSON.

usage: attack_worker.py WAY CALL FILE LIMITS NAME ADDRESS

WAY is `C` or `Python`, LIMITS `strangers` or `none`, NAME the longest name, and ADDRESS where memory is read.
`attack_worker.py WAY` prints the calls of a way.
"""

from __future__ import annotations

import io
import json
import mmap
import os
import resource
import sys
from ctypes import POINTER, Array, byref, c_bool, c_uint8, c_uint32, c_uint64, cast, sizeof
from typing import Any, Callable

import mdmp
from mdmp import _calls, _structures
from mdmp._buffer import Lent
from mdmp._library import Filled, fill, library

ROOM = 64 << 20  # bytes of the buffer that a call gets; of it only what is written to takes memory
LENGTH = 64 << 10  # addresses of memory that are asked for
TYPES = (4, 5, 6, 16, 24)


class Calls:
    """The calls of the library over one file. Each gives its status, and how many bytes it wrote. `own` is how many bytes of
    the caller's buffer were written to."""

    def __init__(self, file: int, size: int, limits: _structures.Limits, address: int) -> None:
        self.file, self.size, self.limits, self.address = file, size, byref(limits), address
        self.name_limit, self.own = limits.name, 0
        self.count, self.fault = c_uint64(), _structures.Fault()
        self.buffer = mmap.mmap(-1, ROOM, flags=mmap.MAP_PRIVATE)

    def fill(self, call: Any, item: Any, *arguments: Any) -> tuple[int, int]:
        """A call that fills the buffer with items."""
        room = ROOM // sizeof(item)
        with Lent(self.buffer) as (out, _):
            status = call(
                self.file, self.size, *arguments, cast(out, POINTER(item)), room, byref(self.count), byref(self.fault)
            )
        self.own = min(self.count.value, room) * sizeof(item)
        return status, self.own

    def rows(self, table: str) -> tuple[int, Array[Any]]:
        """How many rows a table has, as far as there is room, and the rows."""
        item = _structures.TABLES[table].row
        _, given = self.fill(getattr(library, f"mdmp_{table}_"), item, self.limits)
        return given // sizeof(item), (item * (ROOM // sizeof(item))).from_buffer(self.buffer)

    def memory(self) -> tuple[int, int]:
        out, known = (c_uint8 * LENGTH)(), (c_bool * LENGTH)()
        status = library.mdmp_memory_(
            self.file, self.size, self.limits, self.address, out, LENGTH, known, LENGTH, byref(self.fault)
        )
        return status, 2 * LENGTH

    def read(self) -> tuple[int, int]:
        count, rows = self.rows("ranges")
        out, known = (c_uint8 * LENGTH)(), (c_bool * LENGTH)()
        status = library.mdmp_read_(
            self.file, self.size, rows, count, self.address, out, LENGTH, known, LENGTH, byref(self.fault)
        )
        return status, 2 * LENGTH

    def _index(self, table: str) -> tuple[int, Array[Any], int]:
        """An index of a table: the status, its slots, and how many there are."""
        count, rows = self.rows(table)
        room = 2 * count
        slots = (_structures.Slot * max(room, 1))()
        out = (slots, room, byref(self.count), byref(self.fault))
        if table == "ranges":
            status = library.mdmp_index_(self.file, self.size, rows, count, *out)
        else:
            status = library.mdmp_index_modules_(rows, count, *out)
        self.own += sizeof(slots)
        return status, slots, self.count.value

    def index(self, table: str) -> tuple[int, int]:
        status, _, count = self._index(table)
        return status, count * sizeof(_structures.Slot)

    def read_index(self) -> tuple[int, int]:
        """1,000 reads by an index, and one of as many bytes as `read` asks for."""
        _, slots, count = self._index("ranges")
        out, known, status = (c_uint8 * LENGTH)(), (c_bool * LENGTH)(), 0
        for at, length in [(8 * number, 8) for number in range(1000)] + [(0, LENGTH)]:
            status = library.mdmp_read_index_(
                self.file, self.size, slots, count, self.address + at, out, length, known, length, byref(self.fault)
            )
        return status, 2 * LENGTH

    def where(self) -> tuple[int, int]:
        """The module of 1,000 addresses."""
        _, slots, count = self._index("modules")
        owner, status = c_uint64(), 0
        for number in range(1, 1001):
            status = library.mdmp_where_(slots, count, (1 << 64) - number, byref(owner))
        return status, sizeof(owner)

    def names(self) -> tuple[int, int]:
        """The name of each module."""
        count, rows = self.rows("modules")
        out, status, given = (c_uint8 * 65536)(), 0, 0
        for at in range(count):
            status = library.mdmp_name_(
                self.file, self.size, rows[at].name.rva, self.name_limit, out, 65536, byref(self.count), byref(self.fault)
            )
            given += min(self.count.value, 65536)
        return status, given

    def symbols(self) -> tuple[int, int]:
        """What each module tells of its symbol file."""
        count, rows = self.rows("modules")
        found, status = _structures.SymbolFile(), 0
        for at in range(count):
            place = byref(rows[at].codeview)
            status = library.mdmp_symbols_(self.file, self.size, self.limits, place, byref(found), byref(self.fault))
        return status, count * sizeof(found)

    def ids(self) -> tuple[int, int]:
        """The ids of each module."""
        count, rows = self.rows("modules")
        found, status = _structures.ModuleIds(), 0
        for at in range(count):
            status = library.mdmp_ids_(self.file, self.size, byref(rows[at]), byref(found))
        return status, count * sizeof(found)

    def summary(self) -> tuple[int, int]:
        out = _structures.Summary()
        return library.mdmp_summary_(self.file, self.size, self.limits, byref(out), byref(self.fault)), sizeof(out)

    def header(self) -> tuple[int, int]:
        out = _structures.Header()
        return library.mdmp_header_(self.file, self.size, byref(out), byref(self.fault)), sizeof(out)

    def all(self) -> dict[str, Callable[[], tuple[int, int]]]:
        """Each call by its name."""
        types, limits, fill = (c_uint32 * len(TYPES))(*TYPES), self.limits, self.fill
        calls: dict[str, Callable[[], tuple[int, int]]] = {
            "mdmp_header": self.header,
            "mdmp_streams": lambda: fill(library.mdmp_streams_, _structures.Stream),
            "mdmp_verdicts": lambda: fill(library.mdmp_verdicts_, _structures.Fault, limits),
            "mdmp_parts_outside": lambda: fill(library.mdmp_parts_outside_, _structures.Fault, limits),
            "mdmp_check": lambda: fill(library.mdmp_check_, c_uint8, limits),
            "mdmp_check_json": lambda: fill(library.mdmp_check_json_, c_uint8, limits),
            "mdmp_list": lambda: fill(library.mdmp_list_, c_uint8, limits, True),
            "mdmp_list_json": lambda: fill(library.mdmp_list_json_, c_uint8, limits, True),
            "mdmp_list_part": lambda: fill(library.mdmp_list_part_, c_uint8, limits, True, 0),
            "mdmp_copy": lambda: fill(library.mdmp_copy_, c_uint8, limits, types, len(TYPES)),
            "mdmp_memory": self.memory,
            "mdmp_read": self.read,
            "mdmp_index": lambda: self.index("ranges"),
            "mdmp_read_index, 1,000 times": self.read_index,
            "mdmp_index_modules": lambda: self.index("modules"),
            "mdmp_where, 1,000 times": self.where,
            "mdmp_name of each module": self.names,
            "mdmp_symbols of each module": self.symbols,
            "mdmp_ids of each module": self.ids,
            "mdmp_summary": self.summary,
        }
        for table, (item, *_) in _structures.TABLES.items():
            call = getattr(library, f"mdmp_{table}_")
            calls[f"mdmp_{table}"] = lambda call=call, item=item: fill(call, item, limits)  # type: ignore[misc]
        return calls


def c_limits(is_strangers: bool, name: int) -> _structures.Limits:
    """MDMP_LIMITS_UNTRUSTED or MDMP_LIMITS_DEFAULT, with this longest name."""
    most = _structures.UNTRUSTED if is_strangers else _structures.NO_LIMIT
    return _structures.Limits(_structures.WINDOW, name, budget=most, memory=most, aside=most)


def opened(path: str, is_strangers: bool, name: int) -> mdmp.Dump:
    """A dump with these limits."""
    return mdmp.open(path, limits=mdmp.Limits.untrusted() if is_strangers else None, name=name)


def properties(dump: mdmp.Dump, address: int) -> dict[str, Callable[[], Any]]:
    """Each property and method of a dump."""
    names = ["header", "streams", "verdicts", "parts_outside", *_structures.TABLES, "memory", "summary"]
    asked: dict[str, Callable[[], Any]] = {name: lambda name=name: getattr(dump, name) for name in names}  # type: ignore[misc]
    asked["memory.read"] = lambda: dump.memory.read(address, LENGTH).data
    asked["where, 1,000 times"] = lambda: [dump.where((1 << 64) - number) for number in range(1, 1001)]
    asked["list"] = lambda: dump.list(pdb=True)
    asked["list_json"] = lambda: dump.list_json(pdb=True)
    asked["check"], asked["check_json"] = dump.check, dump.check_json
    asked["write_list"] = lambda: dump.write_list(io.TextIOWrapper(open(os.devnull, "wb")), pdb=True)
    asked["copy"] = lambda: dump.copy(*TYPES)
    return asked


def length(given: Any) -> int:
    """How many bytes a text or bytes have, or the rows of a table in C."""
    if isinstance(given, (bytes, str)):
        return len(given)
    if isinstance(given, tuple) and given:
        return len(given) * sizeof(getattr(_structures, type(given[0]).__name__, _structures.Fault))
    return 0


class Written:
    """Counts the bytes that the library makes for the package. A text that is longer than the first buffer is made twice."""

    def __init__(self) -> None:
        self.bytes = 0

    def fill(self, call: Callable[..., int], item: Any, room: int, most: int | None = None) -> Filled:
        def counted(items: Any, room: int, count: Any, fault: Any) -> int:
            status = call(items, room, count, fault)
            self.bytes += count._obj.value * sizeof(item)
            return status

        return fill(counted, item, room, most)


def in_python(call: str, path: str, is_strangers: bool, name: int, address: int) -> tuple[str, int, int]:
    """How an answer of the package ends, and how many bytes it has or the library made for it; none are the caller's."""
    written = Written()
    setattr(_calls, "fill", written.fill)
    with opened(path, is_strangers, name) as dump:
        try:
            ends, given = "0", properties(dump, address)[call]()
        except mdmp.OutputLimit as fault:
            ends, given = "output limit", fault.partial
        except mdmp.Fault as fault:
            ends, given = fault.kind.name.lower().replace("_", " "), fault.partial
        except Exception as error:
            ends, given = type(error).__name__, getattr(error, "partial", None)
    return ends, max(length(given), written.bytes), 0


def in_c(call: str, path: str, is_strangers: bool, name: int, address: int) -> tuple[str, int, int]:
    """The status of a call, how many bytes it wrote, and how many of the caller's buffer were written to."""
    with open(path, "rb") as stream, mmap.mmap(stream.fileno(), 0, access=mmap.ACCESS_READ) as file:
        with Lent(file) as (place, size):
            calls = Calls(place, size, c_limits(is_strangers, name), address)
            status, given = calls.all()[call]()
    return str(status), max(given, calls.own), calls.own


def main() -> None:
    if len(sys.argv) == 2:
        with mdmp.Dump(b"") as dump:
            calls = Calls(0, 0, c_limits(True, 4096), 0).all() if sys.argv[1] == "C" else properties(dump, 0)
        print(json.dumps(list(calls)))
        return
    way, call, path, limits, *numbers = sys.argv[1:]
    name, address = map(int, numbers)
    before = resource.getrusage(resource.RUSAGE_SELF)
    ends, given, own = (in_c if way == "C" else in_python)(call, path, limits == "strangers", name, address)
    after = resource.getrusage(resource.RUSAGE_SELF)
    seconds = after.ru_utime + after.ru_stime - before.ru_utime - before.ru_stime
    print(json.dumps({"ends": ends, "seconds": seconds, "resident": after.ru_maxrss - own // 1024, "out": given}))


main()
