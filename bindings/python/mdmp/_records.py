"""Records and numbers as programs see them. Made by bindings/generate from bindings/interface.toml."""

from __future__ import annotations

from dataclasses import dataclass

from . import _structures
from ._ids import ModuleIds
from ._parts import Numbers, Reader, SymbolFile, Version, version

__all__ = [
    "Access",
    "Counts",
    "ExceptionRecord",
    "Extent",
    "FaultKind",
    "Header",
    "IdKind",
    "Module",
    "NamePlace",
    "NameState",
    "Part",
    "Place",
    "Range",
    "Region",
    "Registers",
    "Status",
    "Stream",
    "SummaryModule",
    "SymbolKind",
    "System",
    "Thread",
    "ThreadName",
    "UnloadedModule",
]


class Status(Numbers):
    """What a call returns. 0 to 3 are also exit statuses of the command; for 5, the command exits with 3.

    OK                success
    FAULT             the file has an error
    BAD_ARGUMENT      an argument is wrong: limits, types of streams, lengths
    NO_MEMORY         out of memory
    BUFFER_TOO_SHORT  the buffer is too short
    LIMIT             a limit is reached, and the kind of `fault` says which
    """

    OK = 0
    FAULT = 1
    BAD_ARGUMENT = 2
    NO_MEMORY = 3
    BUFFER_TOO_SHORT = 4
    LIMIT = 5


class FaultKind(Numbers):
    """Which error it is. The comment of each kind names the fields of mdmp_fault that the kind uses.

    NONE                 no error
    FILE_TOO_SHORT       size: the bytes of the file, which are fewer than 32
    BAD_SIGNATURE        the file does not begin with MDMP
    BAD_VERSION          size: the low 16 bits of Version, which are not 0xa793
    DIRECTORY_OUTSIDE    offset, size: the directory, which is not inside the file
    TOO_MANY_RANGES      size (high: its upper 64 bits): the number of memory ranges, over 2^28
    STREAM_OUTSIDE       entry, offset, size: the stream is not inside the file
    SHORT_STREAM         entry, offset, size: the stream is shorter than its head or its record
    BAD_HEADER_SIZE      entry, offset, size: SizeOfHeader
    BAD_ENTRY_SIZE       entry, offset, size: SizeOfEntry
    BAD_COUNT            entry, offset, size: the count of records
    NAME_LENGTH_OUTSIDE  entry, index, offset, size (4): a name's length is not inside the file
    NAME_ODD             entry, index, offset, size: a name's length is odd
    NAME_OUTSIDE         entry, index, offset, size: a name is not inside the file
    PART_OUTSIDE         entry, index, part, offset (high: its upper 64 bits), size: outside the file
    NAME_TOO_LONG        entry, index, size: a name's length, which is over the limit
    RAW_KNOWN_TYPE       no call returns this
    COPY_TOO_LARGE       the copy would be longer than the format allows
    BAD_ENTRIES          size: the number of directory entries that have an error, or lose a part
    NOT_COPIED           size: a type of stream that is not copied
    NO_MEMORY            out of memory: malloc or realloc returned NULL
    BAD_LIMITS           a limit is out of its bounds
    BAD_TYPES            there are no types to copy, or more than 16
    STORE                no call returns this
    LENGTHS_DIFFER       two lengths that must be equal differ
    BUDGET               offset, size: bytes that were not read, as they would pass `budget`
    MEMORY_LIMIT         size (high: its upper 64 bits): the bytes that the lists would take
    ASIDE_LIMIT          offset, size: a CodeView record that was not read, as it would pass `aside`
    COPY_BUDGET          size (high: its upper 64 bits): the bytes that the copy needs
    """

    NONE = 0
    FILE_TOO_SHORT = 1
    BAD_SIGNATURE = 2
    BAD_VERSION = 3
    DIRECTORY_OUTSIDE = 4
    TOO_MANY_RANGES = 5
    STREAM_OUTSIDE = 16
    SHORT_STREAM = 17
    BAD_HEADER_SIZE = 18
    BAD_ENTRY_SIZE = 19
    BAD_COUNT = 20
    NAME_LENGTH_OUTSIDE = 21
    NAME_ODD = 22
    NAME_OUTSIDE = 23
    PART_OUTSIDE = 32
    NAME_TOO_LONG = 33
    RAW_KNOWN_TYPE = 48
    COPY_TOO_LARGE = 49
    BAD_ENTRIES = 64
    NOT_COPIED = 65
    NO_MEMORY = 66
    BAD_LIMITS = 67
    BAD_TYPES = 68
    STORE = 69
    LENGTHS_DIFFER = 70
    BUDGET = 71
    MEMORY_LIMIT = 72
    ASIDE_LIMIT = 73
    COPY_BUDGET = 74


class Part(Numbers):
    """Which part of a record has the error.

    STACK     the stack of a thread
    CONTEXT   the registers of a thread or an exception
    CODEVIEW  the CodeView record of a module
    MISC      the miscellaneous record of a module
    MEMORY    the bytes of a range of memory
    """

    STACK = 1
    CONTEXT = 2
    CODEVIEW = 3
    MISC = 4
    MEMORY = 5


class Extent(Numbers):
    """What is at the place that a record names.

    EMPTY    no bytes
    ABSENT   bytes that the producer did not keep
    INSIDE   bytes of the file
    OUTSIDE  bytes that are not all inside the file
    """

    EMPTY = 0
    ABSENT = 1
    INSIDE = 2
    OUTSIDE = 3


class NameState(Numbers):
    """Whether a record has a name.

    NONE   no name
    GIVEN  a name within the limit
    LONG   a name longer than the limit
    """

    NONE = 0
    GIVEN = 1
    LONG = 2


class SymbolKind(Numbers):
    """Which kind of CodeView record a module has.

    RSDS   RSDS: identity, age and name of a PDB file
    OTHER  another kind
    SHORT  a record that is too short for its kind
    """

    RSDS = 0
    OTHER = 1
    SHORT = 2


class IdKind(Numbers):
    """Which kind of CodeView record the ids of a module are from.

    NONE   no record inside the file, or one that is too short for its kind
    RSDS   RSDS: identity and age of a PDB file
    PDB20  NB10: time and age of a file of PDB 2.0
    ELF    the bytes 4c 45 70 42: the build id of an ELF file
    OTHER  another kind
    """

    NONE = 0
    RSDS = 1
    PDB20 = 2
    ELF = 3
    OTHER = 4


class Access(Numbers):
    """What a thread tried to do at an address when it crashed.

    NONE      the exception does not say that the thread tried to reach an address
    READ      to read
    WRITE     to write
    EXECUTE   to execute
    NOT_SAID  the exception does not say what
    """

    NONE = 0
    READ = 1
    WRITE = 2
    EXECUTE = 3
    NOT_SAID = 4


@dataclass(frozen=True, slots=True)
class Place:
    """The place of a part of a record: MINIDUMP_LOCATION_DESCRIPTOR, and what is there.

    size    DataSize, in bytes
    rva     Rva, an offset from the start of the file
    extent  what is there
    """

    size: int
    rva: int
    extent: Extent

    @classmethod
    def _of(cls, raw: _structures.Place, read: Reader) -> Place:
        return cls(raw.size, raw.rva, Extent(raw.extent))


@dataclass(frozen=True, slots=True)
class NamePlace:
    """The place of a name, a MINIDUMP_STRING: mdmp_name returns its text.

    rva    the offset of its Length from the start of the file; 0 for no name
    size   bytes of its UTF-16 units, which follow the 4 bytes of Length
    state  whether there is a name
    """

    rva: int
    size: int
    state: NameState

    @classmethod
    def _of(cls, raw: _structures.NamePlace, read: Reader) -> NamePlace:
        return cls(raw.rva, raw.size, NameState(raw.state))


@dataclass(frozen=True, slots=True)
class Header:
    """The header: MINIDUMP_HEADER.

    flags                 Flags
    signature             Signature
    version               Version: the low 16 bits are 0xa793, the high 16 bits are the producer's own
    number_of_streams     NumberOfStreams
    stream_directory_rva  StreamDirectoryRva, an offset from the start of the file
    checksum              CheckSum, which is not checked
    time_date_stamp       TimeDateStamp, in seconds since 1970
    """

    flags: int
    signature: int
    version: int
    number_of_streams: int
    stream_directory_rva: int
    checksum: int
    time_date_stamp: int

    @classmethod
    def _of(cls, raw: _structures.Header, read: Reader) -> Header:
        return cls(raw.flags, raw.signature, raw.version, raw.number_of_streams, raw.stream_directory_rva,
            raw.checksum, raw.time_date_stamp)


@dataclass(frozen=True, slots=True)
class Stream:
    """An entry of the directory: MINIDUMP_DIRECTORY.

    entry        the number of the entry in the directory, from 0
    stream_type  StreamType
    size         Location.DataSize, in bytes
    rva          Location.Rva, an offset from the start of the file
    """

    entry: int
    stream_type: int
    size: int
    rva: int

    @classmethod
    def _of(cls, raw: _structures.Stream, read: Reader) -> Stream:
        return cls(raw.entry, raw.stream_type, raw.size, raw.rva)


@dataclass(frozen=True, slots=True)
class Thread:
    """A thread: MINIDUMP_THREAD.

    index           the number of the record in its stream, from 0
    teb             Teb, an address of the dumped process
    stack_start     Stack.StartOfMemoryRange, an address of the dumped process
    entry           the number of the directory entry, from 0
    thread_id       ThreadId
    suspend_count   SuspendCount
    priority_class  PriorityClass
    priority        Priority
    stack           Stack.Memory
    context         ThreadContext, the registers
    name            the first name of the thread in the file, or None
    """

    index: int
    teb: int
    stack_start: int
    entry: int
    thread_id: int
    suspend_count: int
    priority_class: int
    priority: int
    stack: Place
    context: Place
    name: str | None

    @classmethod
    def _of(cls, raw: _structures.Thread, read: Reader) -> Thread:
        return cls(raw.index, raw.teb, raw.stack_start, raw.entry, raw.thread_id, raw.suspend_count,
            raw.priority_class, raw.priority, Place._of(raw.stack, read), Place._of(raw.context, read),
            read._thread_name(raw.thread_id))


@dataclass(frozen=True, slots=True)
class Module:
    """A module: MINIDUMP_MODULE.

    index               the number of the record in its stream, from 0
    base_of_image       BaseOfImage, an address of the dumped process
    entry               the number of the directory entry, from 0
    size_of_image       SizeOfImage, in bytes
    checksum            CheckSum
    time_date_stamp     TimeDateStamp, in seconds since 1970
    file_version_ms     VersionInfo.dwFileVersionMS: the first two of the four numbers of the version
    file_version_ls     VersionInfo.dwFileVersionLS: the last two numbers
    product_version_ms  VersionInfo.dwProductVersionMS
    product_version_ls  VersionInfo.dwProductVersionLS
    name                the name at ModuleNameRva; None if there is none within the limit
    name_place          the place of the name
    codeview            CvRecord: mdmp_symbols reads the record that is there
    misc                MiscRecord
    file_version        four numbers
    product_version     four numbers
    symbols             its CodeView record, or None if that is not inside the file
    ids                 the ids by which symbol servers know it
    """

    index: int
    base_of_image: int
    entry: int
    size_of_image: int
    checksum: int
    time_date_stamp: int
    file_version_ms: int
    file_version_ls: int
    product_version_ms: int
    product_version_ls: int
    name: str | None
    name_place: NamePlace
    codeview: Place
    misc: Place
    file_version: Version
    product_version: Version
    symbols: SymbolFile | None
    ids: ModuleIds

    @classmethod
    def _of(cls, raw: _structures.Module, read: Reader) -> Module:
        return cls(raw.index, raw.base_of_image, raw.entry, raw.size_of_image, raw.checksum,
            raw.time_date_stamp, raw.file_version_ms, raw.file_version_ls, raw.product_version_ms,
            raw.product_version_ls, (name := read._name_at(raw.name)), NamePlace._of(raw.name, read),
            Place._of(raw.codeview, read), Place._of(raw.misc, read),
            version(raw.file_version_ms, raw.file_version_ls),
            version(raw.product_version_ms, raw.product_version_ls),
            (symbols := read._symbols_at(raw.codeview)), read._ids_of(raw, name, symbols))


@dataclass(frozen=True, slots=True)
class ExceptionRecord:
    """An exception: MINIDUMP_EXCEPTION_STREAM.

    index              the number of the record in its stream: 0
    exception_record   ExceptionRecord, an address of the dumped process
    exception_address  ExceptionAddress, an address of the dumped process
    information        ExceptionInformation
    entry              the number of the directory entry, from 0
    thread_id          ThreadId
    exception_code     ExceptionCode
    exception_flags    ExceptionFlags
    number_parameters  NumberParameters: how many elements of information are used; may be over 15
    context            ThreadContext, the registers
    """

    index: int
    exception_record: int
    exception_address: int
    information: tuple[int, ...]
    entry: int
    thread_id: int
    exception_code: int
    exception_flags: int
    number_parameters: int
    context: Place

    @classmethod
    def _of(cls, raw: _structures.ExceptionRecord, read: Reader) -> ExceptionRecord:
        return cls(raw.index, raw.exception_record, raw.exception_address, tuple(raw.information), raw.entry,
            raw.thread_id, raw.exception_code, raw.exception_flags, raw.number_parameters,
            Place._of(raw.context, read))


@dataclass(frozen=True, slots=True)
class System:
    """The system: MINIDUMP_SYSTEM_INFO.

    index                   the number of the record in its stream: 0
    csd_version             the name at CSDVersionRva: the service pack; None if there is none within the limit
    csd_version_place       the place of the name
    entry                   the number of the directory entry, from 0
    processor_architecture  ProcessorArchitecture: 0 is x86, 9 is x64, 12 is ARM64
    processor_level         ProcessorLevel
    processor_revision      ProcessorRevision
    number_of_processors    NumberOfProcessors
    product_type            ProductType
    major_version           MajorVersion
    minor_version           MinorVersion
    build_number            BuildNumber
    platform_id             PlatformId
    suite_mask              SuiteMask
    cpu                     Cpu
    """

    index: int
    csd_version: str | None
    csd_version_place: NamePlace
    entry: int
    processor_architecture: int
    processor_level: int
    processor_revision: int
    number_of_processors: int
    product_type: int
    major_version: int
    minor_version: int
    build_number: int
    platform_id: int
    suite_mask: int
    cpu: bytes

    @classmethod
    def _of(cls, raw: _structures.System, read: Reader) -> System:
        return cls(raw.index, read._name_at(raw.csd_version), NamePlace._of(raw.csd_version, read), raw.entry,
            raw.processor_architecture, raw.processor_level, raw.processor_revision, raw.number_of_processors,
            raw.product_type, raw.major_version, raw.minor_version, raw.build_number, raw.platform_id,
            raw.suite_mask, bytes(raw.cpu))


@dataclass(frozen=True, slots=True)
class UnloadedModule:
    """An unloaded module: MINIDUMP_UNLOADED_MODULE.

    index            the number of the record in its stream, from 0
    base_of_image    BaseOfImage, an address of the dumped process
    entry            the number of the directory entry, from 0
    size_of_image    SizeOfImage, in bytes
    checksum         CheckSum
    time_date_stamp  TimeDateStamp, in seconds since 1970
    name             the name at ModuleNameRva; None if there is none within the limit
    name_place       the place of the name
    """

    index: int
    base_of_image: int
    entry: int
    size_of_image: int
    checksum: int
    time_date_stamp: int
    name: str | None
    name_place: NamePlace

    @classmethod
    def _of(cls, raw: _structures.UnloadedModule, read: Reader) -> UnloadedModule:
        return cls(raw.index, raw.base_of_image, raw.entry, raw.size_of_image, raw.checksum,
            raw.time_date_stamp, read._name_at(raw.name), NamePlace._of(raw.name, read))


@dataclass(frozen=True, slots=True)
class Region:
    """A region of memory: MINIDUMP_MEMORY_INFO.

    index               the number of the record in its stream, from 0
    base_address        BaseAddress, an address of the dumped process
    allocation_base     AllocationBase, an address of the dumped process
    region_size         RegionSize, in bytes
    entry               the number of the directory entry, from 0
    allocation_protect  AllocationProtect
    state               State
    protect             Protect
    memory_type         Type
    """

    index: int
    base_address: int
    allocation_base: int
    region_size: int
    entry: int
    allocation_protect: int
    state: int
    protect: int
    memory_type: int

    @classmethod
    def _of(cls, raw: _structures.Region, read: Reader) -> Region:
        return cls(raw.index, raw.base_address, raw.allocation_base, raw.region_size, raw.entry,
            raw.allocation_protect, raw.state, raw.protect, raw.memory_type)


@dataclass(frozen=True, slots=True)
class ThreadName:
    """The name of a thread: MINIDUMP_THREAD_NAME.

    index       the number of the record in its stream, from 0
    entry       the number of the directory entry, from 0
    thread_id   ThreadId
    name        the name at RvaOfThreadName, an offset of 64 bits; None if there is none within the limit
    name_place  the place of the name
    """

    index: int
    entry: int
    thread_id: int
    name: str | None
    name_place: NamePlace

    @classmethod
    def _of(cls, raw: _structures.ThreadName, read: Reader) -> ThreadName:
        return cls(raw.index, raw.entry, raw.thread_id, read._name_at(raw.name),
            NamePlace._of(raw.name, read))


@dataclass(frozen=True, slots=True)
class Range:
    """A range of memory: MINIDUMP_MEMORY_DESCRIPTOR or MINIDUMP_MEMORY_DESCRIPTOR64.

    index   the number of the record in its stream, from 0
    start   StartOfMemoryRange, an address of the dumped process
    size    DataSize, in bytes
    offset  the offset of its bytes from the start of the file
    entry   the number of the directory entry, from 0
    extent  whether its bytes are in the file
    """

    index: int
    start: int
    size: int
    offset: int
    entry: int
    extent: Extent

    @classmethod
    def _of(cls, raw: _structures.Range, read: Reader) -> Range:
        return cls(raw.index, raw.start, raw.size, raw.offset | raw.offset_high << 64, raw.entry,
            Extent(raw.extent))


@dataclass(frozen=True, slots=True)
class Registers:
    """Where a thread was, by its CPU context.

    instruction  the instruction pointer: Eip, Rip, Pc
    stack        the stack pointer: Esp, Rsp, Sp
    frame        the frame pointer: Ebp, Rbp, Fp of ARM64; of ARM the register r11
    """

    instruction: int
    stack: int
    frame: int

    @classmethod
    def _of(cls, raw: _structures.Registers, read: Reader) -> Registers:
        return cls(raw.instruction, raw.stack, raw.frame)


@dataclass(frozen=True, slots=True)
class SummaryModule:
    """A module of a summary: MINIDUMP_MODULE, without its number in the list of modules.

    base_of_image       BaseOfImage, an address of the dumped process
    name                the name at ModuleNameRva; None if there is none within the limit
    name_place          the place of the name
    size_of_image       SizeOfImage, in bytes
    checksum            CheckSum
    time_date_stamp     TimeDateStamp, in seconds since 1970
    file_version_ms     VersionInfo.dwFileVersionMS: the first two of four numbers
    file_version_ls     VersionInfo.dwFileVersionLS: the last two
    product_version_ms  VersionInfo.dwProductVersionMS
    product_version_ls  VersionInfo.dwProductVersionLS
    codeview            CvRecord: what it says about its symbol file
    file_version        four numbers
    product_version     four numbers
    symbols             its CodeView record, or None if that is not inside the file
    ids                 the ids by which symbol servers know it
    """

    base_of_image: int
    name: str | None
    name_place: NamePlace
    size_of_image: int
    checksum: int
    time_date_stamp: int
    file_version_ms: int
    file_version_ls: int
    product_version_ms: int
    product_version_ls: int
    codeview: Place
    file_version: Version
    product_version: Version
    symbols: SymbolFile | None
    ids: ModuleIds

    @classmethod
    def _of(cls, raw: _structures.SummaryModule, read: Reader) -> SummaryModule:
        return cls(raw.base_of_image, (name := read._name_at(raw.name)), NamePlace._of(raw.name, read),
            raw.size_of_image, raw.checksum, raw.time_date_stamp, raw.file_version_ms, raw.file_version_ls,
            raw.product_version_ms, raw.product_version_ls, Place._of(raw.codeview, read),
            version(raw.file_version_ms, raw.file_version_ls),
            version(raw.product_version_ms, raw.product_version_ls),
            (symbols := read._symbols_at(raw.codeview)), read._ids_of(raw, name, symbols))


@dataclass(frozen=True, slots=True)
class Counts:
    """How many records the entries have, each entry up to its own error.

    streams     entries of the directory
    threads     threads
    modules     modules
    exceptions  exceptions
    ranges      ranges of memory, of both kinds of memory list
    memory      bytes of these ranges that are inside the file
    """

    streams: int
    threads: int
    modules: int
    exceptions: int
    ranges: int
    memory: int

    @classmethod
    def _of(cls, raw: _structures.Counts, read: Reader) -> Counts:
        return cls(raw.streams, raw.threads, raw.modules, raw.exceptions, raw.ranges,
            raw.memory | raw.memory_high << 64)
