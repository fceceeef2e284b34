"""Minidumps made by chance, the same each time, for scripts that compare two readers of them.

`made(number)` is a small file with streams of all kinds. One third has no error. One third has a few: wrong counts and sizes,
names that are odd or outside the file, parts outside it, entries that name one stream or overlap. In one third, bytes are changed
or cut off besides. `large()` gives a few files that reach limits.
"""

from __future__ import annotations

from collections.abc import Callable, Iterator
from random import Random

from . import minidumps
from .minidumps import ENTRY_SIZE, HEADER_SIZE, VERSION, File, Part, Parts, numbers, units, wide_numbers

LISTS = (3, 4, 5, 9, 14, 16, 24)
CRASH = (7, 4, 6, 24, 4, 3, 6)  # types of which most files have some
UNPARSED = (1, 10, 11, 12, 13, 15, 17, 0x43500001, 65536, 65537, 0xFFFFFFFF)
EDGES = (0, 1, 2, 0x7FFFFFFF, 0x80000000, 0xFFFFFFFE, 0xFFFFFFFF)
WIDE_EDGES = (*EDGES, 1 << 32, 1 << 60, (1 << 63) - 1, 1 << 63, (1 << 64) - 2, (1 << 64) - 1)
CONTROLS = (0, *range(8, 14), 0x1F, 0x7F, 0x80, 0x2028)
UNITS = (*CONTROLS, 0x20, 0x22, 0x5C, 0x7E, 0xD7FF, 0xD800, 0xDBFF, 0xDC00, 0xDFFF, 0xE000, 0xFFFD, 0xFFFF)
NO_TEXT = (b"\xed\xa0\x80", b"\xe2\x82", b"\xff", b"\xc0\x80")
BYTES = (b'"', b"\\", b"/", b"\0", b"\t\r", b"\x7f", b"\xc3\xa9", b"\xf0\x9f\x98\x80", *NO_TEXT)
# Where ranges of memory begin: they overlap, and some reach past the last address.
STARTS = (0x1000, 0x1004, 0x1010, 0x1030, (1 << 64) - 16, (1 << 64) - 1, 0, 0x7FFE00000000)
# What a crash has: where its modules and its addresses are, the processor and the platform, the code and the flags, and what the
# thread did at an address.
PLACES = (0x400000, 0x400000, 0x7FF600000000, (1 << 64) - 0x4000)
PROCESSORS = (0, 5, 9, 9, 9, 10, 12, 0x8003)
PLATFORMS = (1, 2, 2, 3, 0x8101, 0x8102, 0x8201, 0x8201, 0x8203)
CODES = (*range(1, 32), 0x80000003, 0x80000004, 0xC0000005, 0xC0000005, 0xC0000006, 0xE06D7363, 0xFFFFFFFF)
CODE_FLAGS = (*range(16), 0x80, 0x101, 0x10003, 0xFFFFFFFA)
ACCESSES = (0, 1, 2, 8)
# What `hex` prints of each file.
SPANS = ((0x0FF8, 72), ((1 << 64) - 24, 24), (0, 17))


class Maker:
    """Makes a file. `end` is where a file of the same choices ended, so that places near it can be chosen."""

    def __init__(self, number: int, end: int) -> None:
        self.chance = Random(number)
        self.errors = (0.0, 0.04, 0.15)[number % 3]
        self.end = end
        self.place = self.chance.choice(PLACES)
        count = self.chance.choice((0, 1, 2, 3, 5, 5, 8, 8, 13))
        self.data = bytearray(HEADER_SIZE + ENTRY_SIZE * count)
        kinds = [self.chance.choice((*LISTS, *LISTS, 6, 7, 0, self.chance.choice(UNPARSED))) for _ in range(count)]
        if self.chance.random() < 0.7:
            kinds = [*CRASH, *kinds][:count]
            self.chance.shuffle(kinds)
        entries = [self.entry(kind) for kind in kinds]
        for index, entry in enumerate(entries):
            if index and self.chance.random() < 0.1:
                entry = self.chance.choice(entries)
            if self.is_bad():
                entry = self.bad_entry(*entry)
            self.write(HEADER_SIZE + ENTRY_SIZE * index, minidumps.entry(*entry))
        self.header(count)
        if number % 3 == 2:
            self.spoil()

    def write(self, at: int, data: bytes) -> None:
        self.data[at : at + len(data)] = data

    def is_bad(self) -> bool:
        return self.chance.random() < self.errors

    def number(self) -> int:
        """A number of 32 bits."""
        return self.chance.choice((self.chance.choice(EDGES), self.chance.randrange(1 << 32), self.chance.randrange(100)))

    def wide(self) -> int:
        """A number of 64 bits."""
        chance = self.chance
        return chance.choice((chance.choice(WIDE_EDGES), chance.randrange(1 << 64), chance.randrange(1 << 32)))

    def address(self) -> int:
        """An address of a crash: mostly one in a module, or a little below or above it."""
        return self.place + self.chance.randrange(0x4000) if self.chance.random() < 0.85 else self.wide()

    def thread(self) -> int:
        """The number of a thread."""
        return self.chance.choice((1, 1, 2, self.number()))

    def context(self) -> bytes:
        """The registers of a thread, each an address, or a part of them."""
        length = self.chance.choice((40, 100, 204, 272, 1232))
        if self.chance.random() < 0.5:
            return wide_numbers(*[self.address() for _ in range(154)])[:length]
        return numbers(*[self.address() & 0xFFFFFFFF for _ in range(308)])[:length]

    def put(self, data: bytes) -> int:
        """Where these bytes are, mostly at a multiple of 4."""
        if self.chance.random() < 0.8:
            self.data += bytes(-len(self.data) % 4)
        place = len(self.data)
        self.data += data
        return place

    def bad_place(self, size: int) -> int:
        """A place at the end of the file, or outside of it."""
        near = [self.end - size + step for step in (-2, -1, 0, 1)]
        return max(0, self.chance.choice((*near, self.chance.choice(EDGES)))) & 0xFFFFFFFF

    def part(self, data: bytes) -> Part:
        """The size and the place of a part."""
        chosen = self.chance.random()
        if chosen < 0.1:
            return 0, self.number()
        if chosen < 0.2:
            return self.chance.choice((len(data), self.number())), 0
        if self.chance.random() < 3 * self.errors:
            size = self.chance.choice((len(data), self.number()))
            return size, self.bad_place(size)
        if chosen < 0.3:
            return len(data), self.chance.randrange(32)
        return len(data), self.put(data)

    def some(self, most: int) -> bytes:
        return self.chance.randbytes(self.chance.randrange(most))

    def name(self) -> int:
        """Where a name is; 0 for none."""
        if self.chance.random() < 0.1:
            return 0
        letters = [*range(0x20, 0x7F)] * 2
        name = units(*[self.chance.choice((*letters, *UNITS * 4)) for _ in range(self.chance.choice((0, 1, 2, 7, 8, 9, 20)))])
        length = len(name)
        if self.is_bad():
            length = self.chance.choice((length + 1, self.number(), 0x7FFFFFFE, 4096, 4098))
        if self.is_bad():
            return self.bad_place(self.chance.choice((0, 4)))
        place = self.put(numbers(length) + name)
        if self.is_bad():
            # The units end where the file ends, or a little before or after that.
            self.write(place, numbers(max(0, self.end - place - 4 + self.chance.choice((-2, -1, 0, 1, 2, 4, 8)))))
        return place

    def codeview(self) -> bytes:
        name = b"".join(self.chance.choice((*BYTES, b"a", b"bc", b"d.pdb")) for _ in range(self.chance.choice((0, 1, 3, 8))))
        end = self.chance.choice((b"\0", b"\0xyz", b""))
        record = minidumps.codeview(self.chance.randbytes(16), self.number(), name + end)
        chosen = self.chance.random()
        if chosen < 0.6:
            return record
        cut = self.chance.choice((3, 4, 23, 24, self.chance.randrange(25)))
        return record[:cut] if chosen < 0.8 else b"NB10" + self.some(40)

    def version(self) -> bytes:
        return numbers(*[self.number() for _ in range(13)])

    def record(self, kind: int) -> bytes:
        """A record of a list."""
        number, wide = self.number, self.wide
        if kind == 3:
            return minidumps.thread(
                self.thread(), number(), number(), number(), wide(), wide(), self.part(self.some(24)), self.part(self.context())
            )
        if kind == 4:
            near = self.place + 0x1000 * self.chance.randrange(4), self.chance.choice((0x800, 0x1000))
            base, size = self.chance.choice((near, near, near, (wide(), number())))
            return minidumps.module(
                base, size, number(), number(), self.name(), self.version(),
                self.part(self.codeview()), self.part(self.some(16)), self.chance.randbytes(16),
            )
        if kind == 5:
            return minidumps.memory_range(self.start(), self.part(self.some(40)))
        if kind == 9:
            size = self.chance.choice((0, 1, 4, 16, 33))
            return wide_numbers(self.start(), wide() if self.is_bad() else size)
        if kind == 14:
            return minidumps.unloaded_module(wide(), number(), number(), number(), self.name())
        if kind == 16:
            return minidumps.region(wide(), wide(), number(), number(), wide(), number(), number(), number(), number())
        return minidumps.thread_name(self.thread(), self.name() + (1 << 32 if self.is_bad() else 0))

    def start(self) -> int:
        return self.chance.choice((*STARTS, self.wide()))

    def exception(self) -> bytes:
        count = self.chance.choice((*range(16), 16, self.number()))
        number, wide = self.number, self.wide
        code, flags = (self.chance.choice((*some, number())) for some in (CODES, CODE_FLAGS))
        return minidumps.exception(
            self.thread(), number(), code, flags, wide(), self.address(), count, number(),
            [self.chance.choice((*ACCESSES, wide())), *[wide() for _ in range(14)]], self.part(self.context()),
        )

    def system(self) -> bytes:
        name, chance = self.name(), self.chance
        processor, platform = (chance.choice((*some, self.number())) for some in (PROCESSORS, PLATFORMS))
        head = units(processor & 0xFFFF) + chance.randbytes(6) + numbers(*[self.number() for _ in range(3)], platform, name)
        return head + chance.randbytes(28)

    def list_of(self, kind: int) -> bytes:
        """A list with its head."""
        count = self.chance.choice((0, 1, 2, 3, 5))
        records = [self.record(kind) for _ in range(count)]
        counted = count
        if self.is_bad():
            counted = self.chance.choice((count + 1, max(count - 1, 0), self.wide() if kind in (9, 16) else self.number()))
        slack = self.some(20) if self.chance.random() < 0.2 else b""
        if kind in (14, 16):
            head, size = (12, 24) if kind == 14 else (16, 48)
            begin, apart = (value + self.chance.choice((0, 0, 0, 4, 5)) for value in (head, size))
            rows = b"".join(row + self.chance.randbytes(apart - size) for row in records) + slack
            gap = self.chance.randbytes(begin - head)
            if self.is_bad():
                begin = self.chance.choice((head - 1, 0, head + len(gap) + len(rows) + self.chance.choice((0, 1)), self.number()))
            if self.is_bad() or not count:
                apart = self.chance.choice((size - 1, 0, size + 1, self.number()))
            made = numbers(begin, apart, counted) if kind == 14 else minidumps.regions_head(begin, apart, counted)
            return made + gap + rows
        if kind == 9:
            total = self.chance.randbytes(sum(int.from_bytes(row[8:], "little") % 64 for row in records))
            base = self.put(total)
            if self.is_bad():
                base = self.chance.choice((self.bad_place(len(total)), self.wide()))
            return wide_numbers(counted, base) + b"".join(records) + slack
        padding = self.chance.choice((b"", b"", bytes(4), b"pads"))
        return numbers(counted) + padding + b"".join(records) + (b"" if padding else slack)

    def entry(self, kind: int) -> tuple[int, int, int]:
        """The type, the size and the place of a stream."""
        if kind == 0:
            return 0, self.number(), self.number()
        makers: dict[int, Callable[[], bytes]] = {6: self.exception, 7: self.system}
        if kind in LISTS:
            stream = self.list_of(kind)
        elif kind in makers:
            stream = makers[kind]() + self.some(self.chance.choice((1, 1, 9)))
        else:
            stream = self.some(30)
        return kind, len(stream), self.put(stream)

    def bad_entry(self, kind: int, size: int, place: int) -> tuple[int, int, int]:
        """An entry that is changed."""
        return self.chance.choice(
            (
                (kind, max(0, size + self.chance.choice((-24, -4, -1, 1, 4))), place),
                (kind, size, place + self.chance.choice((1, 4, 12)) & 0xFFFFFFFF),
                (kind, size, self.bad_place(size)),
                (kind, self.chance.choice((0, 3, 4, 11, 15, 16, self.number())), place),
                (self.chance.choice((*LISTS, 6, 7, 0, 15)), size, place),
            )
        )

    def header(self, count: int) -> None:
        signature, version, directory = b"MDMP", VERSION | self.chance.choice((0, self.number() << 16 & 0xFFFFFFFF)), HEADER_SIZE
        if count == 0:
            directory = self.number()
        if self.is_bad() and self.chance.random() < 0.6:
            chosen = self.chance.randrange(4)
            if chosen == 0:
                signature = self.chance.choice((b"MDMp", b"PMDM", bytes(4)))
            elif chosen == 1:
                version = self.chance.choice((self.number(), version ^ 1 << self.chance.randrange(16)))
            elif chosen == 2:
                count = self.chance.choice((count + 1, self.number()))
            else:
                directory = self.bad_place(12 * count)
        rest = self.number(), self.number(), self.wide()
        made = minidumps.header(count, directory, *rest, version=version, signature=int.from_bytes(signature, "little"))
        self.write(0, made)

    def spoil(self) -> None:
        """Changes bytes after the directory, or cuts some off at the end."""
        chosen = self.chance.random()
        if chosen < 0.3:
            del self.data[self.chance.randrange(len(self.data) + 1) :]
        elif chosen < 0.6 and len(self.data) > 44:
            for _ in range(self.chance.choice((1, 2, 5))):
                byte = self.chance.choice((0, 1, 0x7F, 0x80, 0xFF, self.chance.randrange(256)))
                self.data[self.chance.randrange(32, len(self.data))] = byte


def made(number: int) -> bytes:
    """The file of this number."""
    return bytes(Maker(number, len(Maker(number, 1000).data)).data)


def file_of(*streams: tuple[int, bytes], again: int = 1, rest: bytes = b"") -> bytes:
    """A file of these streams, each named by so many entries, and bytes after them."""
    file = File(again * len(streams), alignment=1)
    for kind, stream in streams:
        at = file.part(stream)
        for _ in range(again):
            file.entry(kind, len(stream), at)
    file.part(rest)
    return file.bytes(time_date_stamp=0)


def large(path: str, out: str) -> Iterator[tuple[str, bytes, list[str]]]:
    """Files that reach a limit: what is large, the file, and the command lines for a file at a path, and for its copy."""
    lists = [f"list {path}", f"list --json --pdb {path}", f"check {path}"]
    # As many ranges as may be, which are too many for `--memory`, and more of them.
    ranges = minidumps.counted([minidumps.memory_range(0x1000, (0, 0))] * (1 << 16))
    yield "most ranges", file_of((5, ranges), again=1 << 12), [f"{line} --memory 1000000" for line in (*lists, f"hex {path} 0 1")]
    yield "more ranges", file_of((5, ranges), again=(1 << 12) + 1), [*lists, f"hex {path} 0 1"]
    # A copy has the bytes of a range as often as ranges name them: here 4 GiB.
    shared = minidumps.counted([minidumps.memory_range(0x1000, (1 << 20, 48 + (16 << 12)))] * (1 << 12))
    yield "copy", file_of((5, shared), rest=bytes(1 << 20)), [f"check {path}", f"copy {path} {out} 5"]
    # Heads and records that are larger than the window.
    rows = [minidumps.unloaded_module(k, 1, 2, 3) + bytes(69976) for k in range(3)]
    far = minidumps.unloaded_modules(rows, 80000, 70000, bytes(79988))
    windows = [f"list {path} --window {window}" for window in (168, 4096, 70000, 1 << 20)]
    yield "records", file_of((14, far), again=2), [*lists, f"summary {path}", *windows, f"copy {path} {out} 14"]
    # Names around the limit, and around what a block of output has.
    lengths = (4094, 4096, 4098, 65534, 65536, 80000)
    names, records = Parts(44 + 4 + 12 * len(lengths), alignment=1), list[bytes]()
    for k, length in enumerate(lengths):
        records.append(minidumps.thread_name(k, names.string(bytes([0x61 + k, 0x20 * (k % 2)]) * (length // 2))))
    more = [f"{line} --name {limit}" for line in (*lists, f"copy {path} {out} 24", f"summary {path}") for limit in (4094, 65536, 80000, 1 << 20)]
    yield "names", file_of((24, minidumps.counted(records)), rest=b"".join(names.parts)), [*lists, *more, f"copy {path} {out} 24"]
