"""Files of strangers: each is small, and asks for as much time, memory or output as its form can."""

from __future__ import annotations

import os
import sys
from collections.abc import Callable
from dataclasses import dataclass
from struct import iter_unpack, unpack_from

sys.path.insert(1, os.path.join(os.path.dirname(os.path.dirname(os.path.abspath(__file__))), "tests"))
from lib import strange_dumps  # noqa: E402
from lib.minidumps import ENTRY_SIZE, EXCEPTION, HEADER_SIZE, MEMORY, MEMORY64, MODULE_SIZE, MODULES, NO_PART  # noqa: E402
from lib.minidumps import RANGE_SIZE, REGION_SIZE, REGIONS, SYSTEM, THREAD_NAMES, THREAD_SIZE, THREADS, UNLOADED  # noqa: E402
from lib.minidumps import File, Part, counted, memory_range, thread_name  # noqa: E402

FIRST = 0x10000000  # the first address of memory that a call asks for
SPAN = 1 << 20  # how many addresses of it the files have ranges in
LISTED = 16 << 20  # bytes that may be listed four times within the read limit of strangers
RANGES = (MEMORY, MEMORY64)  # types of streams whose records are ranges of memory
LISTS = (THREADS, MODULES, UNLOADED, REGIONS, THREAD_NAMES)
RECORDS = (*RANGES, *LISTS, EXCEPTION, SYSTEM)  # types of streams whose records are listed


@dataclass(frozen=True)
class Attack:
    """A form of file. `make` gives one of about so many bytes. `name` is the longest name that each call is given."""

    title: str
    make: Callable[[int], bytes]
    name: int = 4096


def _named_often(kind: int, size: int, listed: Callable[[File, int], bytes]) -> bytes:
    """A file whose one list is named by all of its entries, which are half of the file. `listed` gives a list of about so
    many bytes."""
    file = File(size // 2 // ENTRY_SIZE)
    stream = file.placed(listed(file, size // 2))
    for _ in range(file.streams):
        file.entry(kind, *stream)
    return file.bytes()


def _named_within(kind: int, size: int, listed: Callable[[File, int], bytes], *first: tuple[int, bytes]) -> bytes:
    """As `_named_often`, but by no more entries than list so many bytes as `summary --json` may list to its end. The streams of
    `first` come before them."""
    length = len(listed(File(0), size // 2))
    count = min(size // 2 // ENTRY_SIZE, (LISTED - 28 * size // 24) // length)
    file = File(len(first) + count)
    for one, data in first:
        file.stream(one, data)
    stream = file.placed(listed(file, size // 2))
    for _ in range(count):
        file.entry(kind, *stream)
    return file.bytes()


def _once(kind: int, size: int, listed: Callable[[File, int], bytes]) -> bytes:
    """A file that has one list."""
    file = File(1)
    file.stream(kind, listed(file, size))
    return file.bytes()


def _sorted_ranges(_: File, size: int) -> bytes:
    """Ranges of one byte, each after a gap."""
    return counted([memory_range(FIRST + 3 * number, (1, 32)) for number in range(size // RANGE_SIZE)])


def _unsorted_ranges(_: File, size: int) -> bytes:
    """Ranges of one byte in no order."""
    starts = (FIRST + number * 377_777 % SPAN for number in range(size // RANGE_SIZE))
    return counted([memory_range(start, (1, 32)) for start in starts])


def _regions(_: File, size: int) -> bytes:
    return strange_dumps.regions(size // REGION_SIZE)


def _names(file: File, size: int) -> bytes:
    """Names of threads, all of which are one string of 4,096 bytes."""
    place = file.name("n" * 2048)
    return counted([thread_name(number, place) for number in range(max(size - 4100, 120) // 12)])


def _codeview(file: File, size: int) -> Part:
    """A CodeView record of so many bytes, whose name no zero byte ends: its size and its place."""
    return file.placed(strange_dumps.codeview(b"p" * (size - 24)))


def _modules(name: int, size: int, symbols: Part = NO_PART) -> bytes:
    """Modules of about so many bytes, which have one name and one symbol file."""
    count = size // MODULE_SIZE
    return counted([strange_dumps.module(name, number << 16, 0x8000, symbols) for number in range(count)])


def _modules_of_one_symbol_file(file: File, size: int) -> bytes:
    name, symbols = file.name("module.dll"), _codeview(file, size // 2)
    return _modules(name, size // 2, symbols)


def _modules_of_one_record(file: File, size: int) -> bytes:
    """Modules without a name, whose one symbol file has a name of 4,096 bytes."""
    return _modules(0, max(size - 4200, 1080), _codeview(file, 4120))


def _threads(file: File, size: int) -> bytes:
    """Threads of one context."""
    context = file.placed(bytes(1232))
    count = max(size - 1300, 480) // THREAD_SIZE
    return counted([strange_dumps.thread(number, 0, NO_PART, context) for number in range(count)])


def _modules_of_one_name(file: File, size: int) -> bytes:
    name, symbols = file.name("m" * 2048), _codeview(file, 4096)
    return _modules(name, max(size - 8200, 1080), symbols)


def _exceptions_and_modules(size: int) -> bytes:
    """Entries that name one exception, which no module holds, and modules: each is half of the file."""
    file = File(size // 2 // ENTRY_SIZE)
    file.stream(MODULES, _modules(file.name("module.dll"), max(size // 2 - 300, 1080)))
    exception = file.placed(strange_dumps.exception(7, 0xC0000005, (1 << 64) - 1))
    for _ in range(file.streams - 1):
        file.entry(EXCEPTION, *exception)
    return file.bytes()


def _alternating(size: int) -> bytes:
    """Entries that name two empty memory lists in turn, which lie more than a block of 16 KiB apart."""
    apart = min(40_000, size // 4)
    file = File((size - apart) // ENTRY_SIZE)
    places = [file.part(bytes(4)), file.part(bytes(apart)), file.part(bytes(4))]
    for number in range(file.streams):
        file.entry(MEMORY, 4, places[number % 2 * 2])
    return file.bytes()


ATTACKS = [
    Attack("unsorted ranges", lambda size: _once(MEMORY, size, _unsorted_ranges)),
    Attack("sorted ranges", lambda size: _once(MEMORY, size, _sorted_ranges)),
    Attack("unsorted ranges, named often", lambda size: _named_often(MEMORY, size, _unsorted_ranges)),
    Attack("sorted ranges, named often", lambda size: _named_often(MEMORY, size, _sorted_ranges)),
    Attack("regions, named often", lambda size: _named_often(REGIONS, size, _regions)),
    Attack("thread names of one string, named often", lambda size: _named_often(THREAD_NAMES, size, _names)),
    Attack("modules of one symbol file", lambda size: _once(MODULES, size, _modules_of_one_symbol_file)),
    Attack("modules of one name, named often", lambda size: _named_often(MODULES, size, _modules_of_one_name)),
    Attack("modules of one symbol file, within the read limit", lambda size: _named_within(MODULES, size, _modules_of_one_record)),
    Attack(
        "threads of one context, within the read limit",
        lambda size: _named_within(THREADS, size, _threads, (SYSTEM, strange_dumps.system(0))),
    ),
    Attack("exceptions and modules", _exceptions_and_modules),
    Attack("lists far apart in turn", _alternating),
    Attack("a name limit of 1 GiB", lambda size: strange_dumps.many_modules(max(size // 180, 1)), name=1 << 30),
]


def fetched(data: bytes, most: int) -> tuple[int, int]:
    """About how many bytes are fetched for the directory of a file, and for a listing within a budget and a limit of memory of
    so many bytes: 32 + 12s, and 32 + 28s + n without the names, or without n where the map of ranges passes the limit."""
    count, directory = unpack_from("<II", data, 8)
    entries = list(iter_unpack("<III", data[directory : directory + ENTRY_SIZE * count]))
    listed = sum(size for kind, size, _ in entries if kind in RECORDS)
    ranges = sum(size // RANGE_SIZE for kind, size, _ in entries if kind in RANGES)
    if 24 * ranges > most:
        listed = 0
    return HEADER_SIZE + ENTRY_SIZE * count, min(HEADER_SIZE + 28 * count + listed, most)
