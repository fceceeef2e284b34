"""The bytes of minidumps: headers, entries, names, records and streams of each kind, and files of them.

The arguments of a record have the names of mdmp.h, in the order of minidumpapiset.h; a number that is not given is 0. Nothing is
checked, so a file can be as bad as a test wants it.
"""

from __future__ import annotations

from collections.abc import Iterable, Sequence
from struct import pack

SIGNATURE = 0x504D444D  # MDMP
VERSION = 0xA793
HEADER_SIZE, ENTRY_SIZE, THREAD_SIZE, MODULE_SIZE, REGION_SIZE, RANGE_SIZE = 32, 12, 48, 108, 48, 16
FRONT_SIZE = HEADER_SIZE + ENTRY_SIZE  # of a file of one stream
TIME = 1_700_000_000  # of a file: a day in November of 2023

# Types of streams.
THREADS, MODULES, MEMORY, EXCEPTION, SYSTEM, MEMORY64 = 3, 4, 5, 6, 7, 9
UNLOADED, REGIONS, THREAD_NAMES = 14, 16, 24

Part = tuple[int, int]  # the size and the place of a part of a record
NO_PART: Part = (0, 0)


# ---- numbers and names


def numbers(*given: int) -> bytes:
    """Numbers of 32 bits."""
    return pack(f"<{len(given)}I", *given)


def wide_numbers(*given: int) -> bytes:
    """Numbers of 64 bits."""
    return pack(f"<{len(given)}Q", *given)


def units(*given: int) -> bytes:
    """Units of UTF-16, which may be no text."""
    return pack(f"<{len(given)}H", *given)


def utf16(text: str) -> bytes:
    """The units of a text, which may have halves of surrogates."""
    return text.encode("utf-16-le", "surrogatepass")


def string(name: bytes) -> bytes:
    """MINIDUMP_STRING: units after their length."""
    return numbers(len(name)) + name


def padded(data: bytes, alignment: int = 4) -> bytes:
    """Bytes, and zeros up to a multiple of so many."""
    return data + bytes(-len(data) % alignment)


def codeview(guid: bytes, age: int, name: bytes) -> bytes:
    """A CodeView record of the kind RSDS: its name has a zero byte at its end, or none."""
    return b"RSDS" + guid + numbers(age) + name


# ---- the header and the directory


def header(
    number_of_streams: int,
    stream_directory_rva: int = HEADER_SIZE,
    checksum: int = 0,
    time_date_stamp: int = 0,
    flags: int = 0,
    *,
    version: int = VERSION,
    signature: int = SIGNATURE,
) -> bytes:
    """MINIDUMP_HEADER."""
    return pack("<6IQ", signature, version, number_of_streams, stream_directory_rva, checksum, time_date_stamp, flags)


def entry(stream_type: int, size: int, rva: int) -> bytes:
    """MINIDUMP_DIRECTORY."""
    return numbers(stream_type, size, rva)


# ---- records


def thread(
    thread_id: int = 0,
    suspend_count: int = 0,
    priority_class: int = 0,
    priority: int = 0,
    teb: int = 0,
    stack_start: int = 0,
    stack: Part = NO_PART,
    context: Part = NO_PART,
) -> bytes:
    """MINIDUMP_THREAD."""
    return pack("<4I2Q4I", thread_id, suspend_count, priority_class, priority, teb, stack_start, *stack, *context)


def module(
    base_of_image: int = 0,
    size_of_image: int = 0,
    checksum: int = 0,
    time_date_stamp: int = 0,
    name: int = 0,
    version: bytes = bytes(52),
    codeview: Part = NO_PART,
    misc: Part = NO_PART,
    reserved: bytes = bytes(16),
) -> bytes:
    """MINIDUMP_MODULE, with the place of its name, and the bytes of its VS_FIXEDFILEINFO."""
    head = pack("<Q4I", base_of_image, size_of_image, checksum, time_date_stamp, name)
    return head + version + numbers(*codeview, *misc) + reserved


def exception(
    thread_id: int = 0,
    alignment: int = 0,
    exception_code: int = 0,
    exception_flags: int = 0,
    exception_record: int = 0,
    exception_address: int = 0,
    number_parameters: int = 0,
    more_alignment: int = 0,
    information: Sequence[int] = (),
    context: Part = NO_PART,
) -> bytes:
    """MINIDUMP_EXCEPTION_STREAM, with up to 15 parameters, and zeros for the others."""
    head = numbers(thread_id, alignment, exception_code, exception_flags)
    head += wide_numbers(exception_record, exception_address) + numbers(number_parameters, more_alignment)
    return head + wide_numbers(*information, *[0] * (15 - len(information))) + numbers(*context)


def system(
    processor_architecture: int = 0,
    processor_level: int = 0,
    processor_revision: int = 0,
    number_of_processors: int = 0,
    product_type: int = 0,
    major_version: int = 0,
    minor_version: int = 0,
    build_number: int = 0,
    platform_id: int = 0,
    csd_version: int = 0,
    suite_mask: int = 0,
    reserved: int = 0,
    cpu: bytes = bytes(24),
) -> bytes:
    """MINIDUMP_SYSTEM_INFO, with the place of the name of its service pack."""
    head = pack(
        "<3H2B", processor_architecture, processor_level, processor_revision, number_of_processors, product_type
    )
    body = numbers(major_version, minor_version, build_number, platform_id, csd_version)
    return head + body + units(suite_mask, reserved) + cpu


def unloaded_module(
    base_of_image: int = 0, size_of_image: int = 0, checksum: int = 0, time_date_stamp: int = 0, name: int = 0
) -> bytes:
    """MINIDUMP_UNLOADED_MODULE, with the place of its name."""
    return pack("<Q4I", base_of_image, size_of_image, checksum, time_date_stamp, name)


def region(
    base_address: int = 0,
    allocation_base: int = 0,
    allocation_protect: int = 0,
    alignment: int = 0,
    region_size: int = 0,
    state: int = 0,
    protect: int = 0,
    memory_type: int = 0,
    more_alignment: int = 0,
) -> bytes:
    """MINIDUMP_MEMORY_INFO."""
    head = pack("<2Q2IQ", base_address, allocation_base, allocation_protect, alignment, region_size)
    return head + numbers(state, protect, memory_type, more_alignment)


def thread_name(thread_id: int, name: int) -> bytes:
    """MINIDUMP_THREAD_NAME, with the place of the name."""
    return pack("<IQ", thread_id, name)


def memory_range(start: int, part: Part) -> bytes:
    """MINIDUMP_MEMORY_DESCRIPTOR."""
    return pack("<Q2I", start, *part)


# ---- streams: those of an exception and a system are the record


def counted(records: Sequence[bytes]) -> bytes:
    """A list of threads, modules, ranges of memory or names of threads."""
    return numbers(len(records)) + b"".join(records)


def memory64(base: int, ranges: Sequence[tuple[int, int]]) -> bytes:
    """MINIDUMP_MEMORY64_LIST: where its bytes are, and each range by its first address and its size."""
    return wide_numbers(len(ranges), base, *(number for one in ranges for number in one))


def unloaded_modules(records: Sequence[bytes], size_of_header: int = 12, size_of_entry: int = 24, head: bytes = b"") -> bytes:
    """MINIDUMP_UNLOADED_MODULE_LIST, with bytes between its header and its records."""
    return numbers(size_of_header, size_of_entry, len(records)) + head + b"".join(records)


def regions_head(size_of_header: int, size_of_entry: int, count: int) -> bytes:
    """The header of a MINIDUMP_MEMORY_INFO_LIST."""
    return pack("<2IQ", size_of_header, size_of_entry, count)


def regions(records: Sequence[bytes]) -> bytes:
    """MINIDUMP_MEMORY_INFO_LIST."""
    return regions_head(16, REGION_SIZE, len(records)) + b"".join(records)


# ---- files


class Parts:
    """Parts that follow one another from a place on, each at a multiple of `alignment`."""

    def __init__(self, at: int, alignment: int = 4) -> None:
        self.at, self.alignment = at, alignment
        self.parts: list[bytes] = []

    def part(self, data: bytes) -> int:
        """Puts bytes after what is there, and gives their place."""
        at, kept = self.at, padded(data, self.alignment)
        self.parts.append(kept)
        self.at += len(kept)
        return at

    def placed(self, data: bytes) -> Part:
        """Puts bytes after what is there, and gives their size and their place."""
        return len(data), self.part(data)

    def string(self, name: bytes) -> int:
        """Puts a name, and gives its place."""
        return self.part(string(name))

    def name(self, text: str) -> int:
        """Puts the name of a text, and gives its place."""
        return self.string(utf16(text))


class File(Parts):
    """A file of so many streams: parts follow one another after the header and the directory."""

    def __init__(self, streams: int, alignment: int = 4) -> None:
        super().__init__(HEADER_SIZE + ENTRY_SIZE * streams, alignment)
        self.streams = streams
        self.entries: list[tuple[int, int, int]] = []

    def stream(self, stream_type: int, data: bytes) -> int:
        """Puts a stream, and gives its place."""
        at = self.part(data)
        self.entry(stream_type, len(data), at)
        return at

    def entry(self, stream_type: int, size: int, rva: int) -> None:
        """An entry of the directory, whatever is at its place."""
        self.entries.append((stream_type, size, rva))

    def bytes(self, checksum: int = 0, time_date_stamp: int = TIME, flags: int = 0, version: int = VERSION) -> bytes:
        """The file, with these numbers in its header."""
        assert len(self.entries) == self.streams
        head = header(self.streams, HEADER_SIZE, checksum, time_date_stamp, flags, version=version)
        return b"".join([head, *(entry(*one) for one in self.entries), *self.parts])


def front(stream_type: int, size: int) -> bytes:
    """The header and the directory of a file of one stream, which follows them."""
    return header(1) + entry(stream_type, size, FRONT_SIZE)


def file_of_modules(names: Sequence[bytes], symbols: Sequence[bytes]) -> bytes:
    """A file of a module for each of these names, with a CodeView record that has the name of a symbol file."""
    size = 4 + MODULE_SIZE * len(names)
    parts, records = Parts(FRONT_SIZE + size, alignment=1), []
    for number, (name, symbol) in enumerate(zip(names, symbols)):
        place = parts.string(name)
        record = parts.placed(codeview(wide_numbers(number, number), 1, symbol + b"\0"))
        records.append(module(number << 16, 4096, name=place, codeview=record))
    return front(MODULES, size) + counted(records) + b"".join(parts.parts)


def file_of(streams: Iterable[tuple[int, bytes | Part]]) -> File:
    """A file of these streams in their order, each its bytes, or the size and the place of its entry."""
    listed = list(streams)
    file = File(len(listed))
    for stream_type, stream in listed:
        if isinstance(stream, bytes):
            file.stream(stream_type, stream)
        else:
            file.entry(stream_type, *stream)
    return file
