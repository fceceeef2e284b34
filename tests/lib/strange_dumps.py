"""Dumps that are made: with markup in every name, very many modules, streams over one another, and hostile ones."""

from __future__ import annotations

import random
from collections.abc import Callable, Iterator

from . import minidumps
from .minidumps import NO_PART, File, Part, counted, memory64, memory_range, numbers, thread_name

MARKUP = "\"><script>document.title='ran'</script><img src=x onerror=\"document.title='ran'\">"
GUID = bytes(range(16))


def codeview(name: bytes) -> bytes:
    """A CodeView record of this name."""
    return minidumps.codeview(GUID, 1, name)


def module(name: int, base: int, size: int, symbols: Part = NO_PART) -> bytes:
    """A module of version 1.2.3.4."""
    version = numbers(0xFEEF04BD, 0x10000, *[0x10002, 0x30004] * 2, *[0] * 7)
    return minidumps.module(base, size, name=name, version=version, codeview=symbols)


def thread(number: int, stack_start: int, stack: Part, context: Part = NO_PART) -> bytes:
    return minidumps.thread(number, 0, 32, 8, 0x7FFD0000, stack_start, stack, context)


def exception(number: int, code: int, address: int, *given: int) -> bytes:
    return minidumps.exception(
        number, exception_code=code, exception_address=address, number_parameters=len(given), information=given
    )


def system(name: int, platform: int = 2) -> bytes:
    return minidumps.system(9, 6, 0, 4, 1, 10, 0, 19045, platform, name)


def regions(count: int) -> bytes:
    protections = [(0x1000, 0x04, 0x20000), (0x1000, 0x20, 0x1000000), (0x2000, 0, 0x20000), (0x10000, 1, 0)]
    records = []
    for number in range(count):
        state, protect, kind = protections[number % 4]
        records.append(minidumps.region(0x10000 * number, 0, protect, 0, 0x10000, state, protect, kind))
    return minidumps.regions(records)


def named(name: str, modules: int = 3) -> bytes:
    """A good dump of nine streams with this name wherever a name can be."""
    file = File(9)
    places = [file.name(name) for _ in range(4)]
    symbols = file.placed(codeview(name.encode("utf-8", "replace") + b"\0"))
    stack, registers = file.placed(bytes(512)), file.placed(bytes(1232))
    file.stream(7, system(places[0]))
    file.stream(3, counted([thread(7, 0x10000, stack, registers), thread(8, 0x20000, NO_PART)]))
    file.stream(4, counted([module(places[1], 0x140000000 + (at << 24), 0x200000, symbols) for at in range(modules)]))
    file.stream(6, exception(7, 0xC0000005, 0x140001234, 1, 0x10))
    file.stream(14, minidumps.unloaded_modules([minidumps.unloaded_module(0x180000000, 0x1000, name=places[2])]))
    file.stream(16, regions(6))
    file.stream(24, counted([thread_name(number, places[3]) for number in (7, 8)]))
    file.stream(5, counted([memory_range(0x10000, stack)]))
    file.stream(0x10000, name.encode("utf-8", "replace")[:64])
    return file.bytes()


def many_modules(count: int) -> bytes:
    """A dump of so many modules, each with a name of its own."""
    file = File(1)
    places = [file.name(f"C:\\programs\\part_{number:06}.dll") for number in range(count)]
    file.stream(4, counted([module(place, 0x140000000 + 0x10000 * number, 0x8000) for number, place in enumerate(places)]))
    return file.bytes()


def crowded(modules: list[tuple[int, int]], addresses: list[int]) -> bytes:
    """A dump of modules, each a first address and a size, that crashed at these addresses."""
    file = File(1 + len(addresses))
    places = [file.name(f"module_{number}.dll") for number in range(len(modules))]
    file.stream(4, counted([module(place, base, size) for place, (base, size) in zip(places, modules)]))
    for number, address in enumerate(addresses):
        file.stream(6, exception(number, 0xC0000005, address))
    return file.bytes()


def greatest() -> bytes:
    """A good dump whose numbers are the greatest, except those that say where streams are and how many records they have.
    It has no names."""
    file = File(6)
    ones = b"\xff"
    file.stream(7, ones * 24 + bytes(4) + ones * 28)
    file.stream(3, counted([ones * 48]))
    file.stream(4, counted([ones * 20 + bytes(4) + ones * 84]))
    file.stream(6, ones * 168)
    file.stream(16, minidumps.regions([ones * 48]))
    file.stream(14, minidumps.unloaded_modules([ones * 20 + bytes(4)]))
    made = bytearray(file.bytes())
    made[16:32] = ones * 16  # checksum, time and flags
    return bytes(made)


def many_threads(count: int) -> bytes:
    """A dump of so many threads, each with a name, a stack and registers, and of 60 modules, that crashed."""
    file = File(6)
    stack, registers = file.placed(bytes(512)), file.placed(bytes(1232))
    ids = range(1000, 1000 + count)
    file.stream(3, counted([thread(number, number << 16, stack, registers) for number in ids]))
    file.stream(24, counted([thread_name(number, file.name(f"worker {number}")) for number in ids]))
    file.stream(5, counted([memory_range(number << 16, stack) for number in ids]))
    names = [file.name(f"C:\\programs\\part_{number}.dll") for number in range(60)]
    file.stream(4, counted([module(name, 0x140000000 + (at << 24), 0x200000) for at, name in enumerate(names)]))
    file.stream(6, exception(1100, 0xC0000005, 0x140001234, 1, 0x10))
    file.stream(16, regions(300))
    return file.bytes()


def many_entries(count: int) -> Iterator[tuple[str, bytes]]:
    """Dumps of so many entries, each with its name: entries of all types all over the file, one over another, and of lists
    with an error."""
    size, chance = minidumps.HEADER_SIZE + minidumps.ENTRY_SIZE * count, random.Random(81)
    kinds = (3, 4, 5, 6, 7, 9, 14, 16, 24, 0x10000)
    yield "wild", _many_entries(count, lambda _: (chance.choice(kinds), chance.randrange(5000), chance.randrange(size)))
    yield "nested", _many_entries(count, lambda number: (0x10000, size - 12 * number, 32 + 6 * number))
    yield "exceptions", _many_entries(count, lambda _: (6, 168, chance.randrange(32, size - 168)))


def overlapping() -> bytes:
    """A dump whose streams lie over one another, over the directory and behind the file's end, with a gap between."""
    file = File(8)
    name = file.name("C:\\strange\\module.dll")
    stack = file.placed(bytes(256))
    modules = file.stream(4, counted([module(name, 0x140000000, 0x200000), module(name, 0x140100000, 0x200000)]))
    file.stream(3, counted([thread(7, 0x10000, stack), thread(8, 0x10080, (200, stack[1] + 100))]))
    file.entry(0x10000, 300, modules + 40)
    file.entry(0x10001, 120, modules + 100)
    file.entry(0x10002, 40, 60)
    file.part(b"\xcc" * 700)
    file.stream(6, exception(7, 0xC0000005, 0x140101234, 0, 0))
    file.entry(0x10003, 4000, file.at - 100)
    file.entry(0x10004, 4096, 0xFFFF0000)
    return file.bytes()


def large(size: int) -> tuple[bytes, bytes, int]:
    """A dump of so many bytes, all but the first of which are two ranges, one of 24 bytes: what stands first, what
    stands last, and where that is."""
    file = File(3)
    name = file.name("C:\\large\\program.exe")
    file.stream(4, counted([module(name, 0x140000000, 0x200000)]))
    file.stream(6, exception(7, 0xC00000FD, 0x140000010))
    last = b"the end of it"
    start = file.at + 16 + 2 * 16
    file.stream(9, memory64(start, [(0x10000, 24), (0x200000, size - start - 24)]))
    return file.bytes(), last, size - len(last)


def hostile() -> Iterator[tuple[str, bytes]]:
    """Twenty dumps that mean harm, each with its name."""
    good = named("module.dll")
    yield "empty", b""
    yield "cut-header", good[:31]
    yield "no-dump", b"PK\x03\x04" + bytes(400)
    yield "version", good[:4] + b"\0\0" + good[6:]
    yield "directory-outside", _changed(good, 12, 0xFFFFFFF0)
    yield "directory-count", _changed(good, 8, 0xFFFFFFFF)
    yield "overlapping", overlapping()
    yield "all-over-all", _many_entries(3000, lambda number: (0x10000 + number, 36000, 32))
    yield "nested", _many_entries(2000, lambda number: (0x10000, 20000 - number * 5, 32 + number * 5))
    yield "wild", _many_entries(2000, lambda number: (0x10000, number * 997, number * 1048573 & 0xFFFFFFFF))
    yield "one-list-often", _one_list_often()
    yield "names-of-control", named("a\0b\x01\x1b[31m\u202etxt.exe\u2066\ufeff\ufffe\U000e0041\ud800</title>")
    yield "names-of-marks", named("e" + "\u0301" * 400 + "\U0001f600" * 60)
    yield "names-long", named("<b>&amp;" * 255)
    yield "names-wide", named("試験" * 300)
    yield "name-odd", _changed(good, 32 + 108, 1)
    yield "name-huge", _changed(good, 32 + 108, 0xFFFFFFFE)
    yield "addresses", _addresses()
    yield "many-crashes", _many_crashes()
    rest, chance = bytearray(good), random.Random(49)
    for _ in range(200):
        rest[chance.randrange(32, len(rest))] = chance.randrange(256)
    yield "by-chance", bytes(rest)


def _changed(data: bytes, at: int, number: int) -> bytes:
    return data[:at] + numbers(number) + data[at + 4 :]


def _many_entries(count: int, entry: Callable[[int], tuple[int, int, int]]) -> bytes:
    file = File(count)
    for number in range(count):
        file.entry(*entry(number))
    file.part(bytes(64))
    return file.bytes()


def _one_list_often() -> bytes:
    file = File(500)
    at = file.part(counted([memory_range(0x1000 * number, (64, 4000)) for number in range(2000)]))
    for _ in range(500):
        file.entry(5, 4 + 16 * 2000, at)
    return file.bytes()


def _addresses() -> bytes:
    file = File(4)
    name = file.name("wraps.dll")
    last = (1 << 64) - 1
    file.stream(4, counted([module(name, last - 15, 0xFFFFFFFF), module(name, 0, 0), module(name, last, 1)]))
    file.stream(3, counted([thread(1, last, (0xFFFFFFFF, 32)), thread(2, 0, (4, 0)), thread(3, 5, (4, 0xFFFFFFFF))]))
    file.stream(9, memory64(last, [(0, last), (0, last)]))
    file.stream(6, _changed(exception(9, 0xFFFFFFFF, last), 32, 0xFFFFFFFF))
    return file.bytes()


def _many_crashes() -> bytes:
    file = File(400)
    for number in range(400):
        file.stream(6, exception(number, 0x80000003 + number, number))
    return file.bytes()
