"""The plain structures of mdmp.h, and the types of its calls. Made by bindings/generate from bindings/interface.toml."""

from __future__ import annotations

from ctypes import (
    CDLL,
    POINTER,
    Array,
    Structure,
    c_bool,
    c_size_t,
    c_uint8,
    c_uint32,
    c_uint64,
    c_void_p,
)
from typing import NamedTuple

ABI = 2
SONAME = "libmdmp.so.2"

WINDOW, NAME = 65536, 4096
UNTRUSTED = 67108864  # each limit of MDMP_LIMITS_UNTRUSTED
NO_LIMIT = (1 << 64) - 1


class Limits(Structure):
    """mdmp_limits"""

    window: int
    name: int
    budget: int
    memory: int
    aside: int

    _fields_ = [
        ("window", c_uint32),
        ("name", c_uint32),
        ("budget", c_uint64),
        ("memory", c_uint64),
        ("aside", c_uint64),
    ]


class Fault(Structure):
    """mdmp_fault"""

    kind: int
    entry: int
    index: int
    offset: int
    size: int
    high: int
    part: int
    has_index: int
    reserved: Array[c_uint32]

    _fields_ = [
        ("kind", c_uint32),
        ("entry", c_uint32),
        ("index", c_uint64),
        ("offset", c_uint64),
        ("size", c_uint64),
        ("high", c_uint64),
        ("part", c_uint32),
        ("has_index", c_uint32),
        ("reserved", c_uint32 * 4),
    ]


class Place(Structure):
    """mdmp_place"""

    size: int
    rva: int
    extent: int
    reserved: int

    _fields_ = [
        ("size", c_uint32),
        ("rva", c_uint32),
        ("extent", c_uint32),
        ("reserved", c_uint32),
    ]


class NamePlace(Structure):
    """mdmp_name_place"""

    rva: int
    size: int
    state: int

    _fields_ = [
        ("rva", c_uint64),
        ("size", c_uint32),
        ("state", c_uint32),
    ]


class Header(Structure):
    """mdmp_header_record"""

    flags: int
    signature: int
    version: int
    number_of_streams: int
    stream_directory_rva: int
    checksum: int
    time_date_stamp: int
    reserved: Array[c_uint32]

    _fields_ = [
        ("flags", c_uint64),
        ("signature", c_uint32),
        ("version", c_uint32),
        ("number_of_streams", c_uint32),
        ("stream_directory_rva", c_uint32),
        ("checksum", c_uint32),
        ("time_date_stamp", c_uint32),
        ("reserved", c_uint32 * 2),
    ]


class Stream(Structure):
    """mdmp_stream"""

    entry: int
    stream_type: int
    size: int
    rva: int
    reserved: Array[c_uint32]

    _fields_ = [
        ("entry", c_uint32),
        ("stream_type", c_uint32),
        ("size", c_uint32),
        ("rva", c_uint32),
        ("reserved", c_uint32 * 2),
    ]


class Thread(Structure):
    """mdmp_thread"""

    index: int
    teb: int
    stack_start: int
    entry: int
    thread_id: int
    suspend_count: int
    priority_class: int
    priority: int
    stack: Place
    context: Place
    reserved: Array[c_uint32]

    _fields_ = [
        ("index", c_uint64),
        ("teb", c_uint64),
        ("stack_start", c_uint64),
        ("entry", c_uint32),
        ("thread_id", c_uint32),
        ("suspend_count", c_uint32),
        ("priority_class", c_uint32),
        ("priority", c_uint32),
        ("stack", Place),
        ("context", Place),
        ("reserved", c_uint32 * 3),
    ]


class Module(Structure):
    """mdmp_module"""

    index: int
    base_of_image: int
    entry: int
    size_of_image: int
    checksum: int
    time_date_stamp: int
    file_version_ms: int
    file_version_ls: int
    product_version_ms: int
    product_version_ls: int
    name: NamePlace
    codeview: Place
    misc: Place
    reserved: Array[c_uint32]

    _fields_ = [
        ("index", c_uint64),
        ("base_of_image", c_uint64),
        ("entry", c_uint32),
        ("size_of_image", c_uint32),
        ("checksum", c_uint32),
        ("time_date_stamp", c_uint32),
        ("file_version_ms", c_uint32),
        ("file_version_ls", c_uint32),
        ("product_version_ms", c_uint32),
        ("product_version_ls", c_uint32),
        ("name", NamePlace),
        ("codeview", Place),
        ("misc", Place),
        ("reserved", c_uint32 * 2),
    ]


class ExceptionRecord(Structure):
    """mdmp_exception"""

    index: int
    exception_record: int
    exception_address: int
    information: Array[c_uint64]
    entry: int
    thread_id: int
    exception_code: int
    exception_flags: int
    number_parameters: int
    context: Place
    reserved: Array[c_uint32]

    _fields_ = [
        ("index", c_uint64),
        ("exception_record", c_uint64),
        ("exception_address", c_uint64),
        ("information", c_uint64 * 15),
        ("entry", c_uint32),
        ("thread_id", c_uint32),
        ("exception_code", c_uint32),
        ("exception_flags", c_uint32),
        ("number_parameters", c_uint32),
        ("context", Place),
        ("reserved", c_uint32 * 3),
    ]


class System(Structure):
    """mdmp_system"""

    index: int
    csd_version: NamePlace
    entry: int
    processor_architecture: int
    processor_level: int
    processor_revision: int
    number_of_processors: int
    product_type: int
    major_version: int
    minor_version: int
    build_number: int
    platform_id: int
    suite_mask: int
    cpu: Array[c_uint8]
    reserved: Array[c_uint32]

    _fields_ = [
        ("index", c_uint64),
        ("csd_version", NamePlace),
        ("entry", c_uint32),
        ("processor_architecture", c_uint32),
        ("processor_level", c_uint32),
        ("processor_revision", c_uint32),
        ("number_of_processors", c_uint32),
        ("product_type", c_uint32),
        ("major_version", c_uint32),
        ("minor_version", c_uint32),
        ("build_number", c_uint32),
        ("platform_id", c_uint32),
        ("suite_mask", c_uint32),
        ("cpu", c_uint8 * 24),
        ("reserved", c_uint32 * 3),
    ]


class UnloadedModule(Structure):
    """mdmp_unloaded_module"""

    index: int
    base_of_image: int
    entry: int
    size_of_image: int
    checksum: int
    time_date_stamp: int
    name: NamePlace
    reserved: Array[c_uint32]

    _fields_ = [
        ("index", c_uint64),
        ("base_of_image", c_uint64),
        ("entry", c_uint32),
        ("size_of_image", c_uint32),
        ("checksum", c_uint32),
        ("time_date_stamp", c_uint32),
        ("name", NamePlace),
        ("reserved", c_uint32 * 2),
    ]


class Region(Structure):
    """mdmp_region"""

    index: int
    base_address: int
    allocation_base: int
    region_size: int
    entry: int
    allocation_protect: int
    state: int
    protect: int
    memory_type: int
    reserved: Array[c_uint32]

    _fields_ = [
        ("index", c_uint64),
        ("base_address", c_uint64),
        ("allocation_base", c_uint64),
        ("region_size", c_uint64),
        ("entry", c_uint32),
        ("allocation_protect", c_uint32),
        ("state", c_uint32),
        ("protect", c_uint32),
        ("memory_type", c_uint32),
        ("reserved", c_uint32 * 3),
    ]


class ThreadName(Structure):
    """mdmp_thread_name"""

    index: int
    entry: int
    thread_id: int
    name: NamePlace
    reserved: Array[c_uint32]

    _fields_ = [
        ("index", c_uint64),
        ("entry", c_uint32),
        ("thread_id", c_uint32),
        ("name", NamePlace),
        ("reserved", c_uint32 * 2),
    ]


class Range(Structure):
    """mdmp_range"""

    index: int
    start: int
    size: int
    offset: int
    offset_high: int
    entry: int
    extent: int
    reserved: Array[c_uint32]

    _fields_ = [
        ("index", c_uint64),
        ("start", c_uint64),
        ("size", c_uint64),
        ("offset", c_uint64),
        ("offset_high", c_uint64),
        ("entry", c_uint32),
        ("extent", c_uint32),
        ("reserved", c_uint32 * 2),
    ]


class Slot(Structure):
    """mdmp_slot"""

    start: int
    length: int
    offset: int
    owner: int

    _fields_ = [
        ("start", c_uint64),
        ("length", c_uint64),
        ("offset", c_uint64),
        ("owner", c_uint64),
    ]


class SymbolFile(Structure):
    """mdmp_symbol_file"""

    name_offset: int
    kind: int
    age: int
    name_size: int
    name_ended: int
    guid: Array[c_uint8]
    signature: Array[c_uint8]
    reserved: Array[c_uint32]

    _fields_ = [
        ("name_offset", c_uint64),
        ("kind", c_uint32),
        ("age", c_uint32),
        ("name_size", c_uint32),
        ("name_ended", c_uint32),
        ("guid", c_uint8 * 16),
        ("signature", c_uint8 * 4),
        ("reserved", c_uint32 * 3),
    ]


class ModuleIds(Structure):
    """mdmp_module_ids"""

    kind: int
    age: int
    guid: Array[c_uint8]
    signature: int
    build_id_size: int
    build_id_cut: int
    time_date_stamp: int
    size_of_image: int
    build_id: Array[c_uint8]

    _fields_ = [
        ("kind", c_uint32),
        ("age", c_uint32),
        ("guid", c_uint8 * 16),
        ("signature", c_uint32),
        ("build_id_size", c_uint32),
        ("build_id_cut", c_uint32),
        ("time_date_stamp", c_uint32),
        ("size_of_image", c_uint32),
        ("build_id", c_uint8 * 20),
    ]


class Registers(Structure):
    """mdmp_registers"""

    instruction: int
    stack: int
    frame: int

    _fields_ = [
        ("instruction", c_uint64),
        ("stack", c_uint64),
        ("frame", c_uint64),
    ]


class SummaryModule(Structure):
    """mdmp_summary_module"""

    base_of_image: int
    name: NamePlace
    size_of_image: int
    checksum: int
    time_date_stamp: int
    file_version_ms: int
    file_version_ls: int
    product_version_ms: int
    product_version_ls: int
    codeview: Place
    reserved: int

    _fields_ = [
        ("base_of_image", c_uint64),
        ("name", NamePlace),
        ("size_of_image", c_uint32),
        ("checksum", c_uint32),
        ("time_date_stamp", c_uint32),
        ("file_version_ms", c_uint32),
        ("file_version_ls", c_uint32),
        ("product_version_ms", c_uint32),
        ("product_version_ls", c_uint32),
        ("codeview", Place),
        ("reserved", c_uint32),
    ]


class PlaceInModule(Structure):
    """mdmp_place_in_module"""

    module: SummaryModule
    offset: int

    _fields_ = [
        ("module", SummaryModule),
        ("offset", c_uint64),
    ]


class SummarySystem(Structure):
    """mdmp_summary_system"""

    csd_version: NamePlace
    processor_architecture: int
    processor_level: int
    processor_revision: int
    number_of_processors: int
    product_type: int
    major_version: int
    minor_version: int
    build_number: int
    platform_id: int
    suite_mask: int
    cpu: Array[c_uint8]
    reserved: Array[c_uint32]

    _fields_ = [
        ("csd_version", NamePlace),
        ("processor_architecture", c_uint32),
        ("processor_level", c_uint32),
        ("processor_revision", c_uint32),
        ("number_of_processors", c_uint32),
        ("product_type", c_uint32),
        ("major_version", c_uint32),
        ("minor_version", c_uint32),
        ("build_number", c_uint32),
        ("platform_id", c_uint32),
        ("suite_mask", c_uint32),
        ("cpu", c_uint8 * 24),
        ("reserved", c_uint32 * 2),
    ]


class Counts(Structure):
    """mdmp_counts"""

    streams: int
    threads: int
    modules: int
    exceptions: int
    ranges: int
    memory: int
    memory_high: int

    _fields_ = [
        ("streams", c_uint64),
        ("threads", c_uint64),
        ("modules", c_uint64),
        ("exceptions", c_uint64),
        ("ranges", c_uint64),
        ("memory", c_uint64),
        ("memory_high", c_uint64),
    ]


class Crash(Structure):
    """mdmp_crash"""

    exception: ExceptionRecord
    thread_name: NamePlace
    address: int
    registers: Registers
    module: PlaceInModule
    near: PlaceInModule
    reached: int
    access: int
    has_registers: int
    has_module: int
    has_near: int

    _fields_ = [
        ("exception", ExceptionRecord),
        ("thread_name", NamePlace),
        ("address", c_uint64),
        ("registers", Registers),
        ("module", PlaceInModule),
        ("near", PlaceInModule),
        ("reached", c_uint64),
        ("access", c_uint32),
        ("has_registers", c_uint32),
        ("has_module", c_uint32),
        ("has_near", c_uint32),
    ]


class Summary(Structure):
    """mdmp_summary_record"""

    header: Header
    counts: Counts
    bad_entries: int
    first_error: Fault
    parts_outside: int
    first_outside: Fault
    crash: Crash
    program: SummaryModule
    system: SummarySystem
    has_crash: int
    has_program: int
    has_system: int
    reserved: int

    _fields_ = [
        ("header", Header),
        ("counts", Counts),
        ("bad_entries", c_uint64),
        ("first_error", Fault),
        ("parts_outside", c_uint64),
        ("first_outside", Fault),
        ("crash", Crash),
        ("program", SummaryModule),
        ("system", SummarySystem),
        ("has_crash", c_uint32),
        ("has_program", c_uint32),
        ("has_system", c_uint32),
        ("reserved", c_uint32),
    ]


# For each structure its size, and the offset of each field.
LAYOUT: dict[type[Structure], tuple[int, dict[str, int]]] = {
    Limits: (
        32,
        {"window": 0, "name": 4, "budget": 8, "memory": 16, "aside": 24},
    ),
    Fault: (
        64,
        {"kind": 0, "entry": 4, "index": 8, "offset": 16, "size": 24, "high": 32, "part": 40, "has_index":
            44, "reserved": 48},
    ),
    Place: (
        16,
        {"size": 0, "rva": 4, "extent": 8, "reserved": 12},
    ),
    NamePlace: (
        16,
        {"rva": 0, "size": 8, "state": 12},
    ),
    Header: (
        40,
        {"flags": 0, "signature": 8, "version": 12, "number_of_streams": 16, "stream_directory_rva": 20,
            "checksum": 24, "time_date_stamp": 28, "reserved": 32},
    ),
    Stream: (
        24,
        {"entry": 0, "stream_type": 4, "size": 8, "rva": 12, "reserved": 16},
    ),
    Thread: (
        88,
        {"index": 0, "teb": 8, "stack_start": 16, "entry": 24, "thread_id": 28, "suspend_count": 32,
            "priority_class": 36, "priority": 40, "stack": 44, "context": 60, "reserved": 76},
    ),
    Module: (
        104,
        {"index": 0, "base_of_image": 8, "entry": 16, "size_of_image": 20, "checksum": 24,
            "time_date_stamp": 28, "file_version_ms": 32, "file_version_ls": 36,
            "product_version_ms": 40, "product_version_ls": 44, "name": 48, "codeview": 64, "misc":
            80, "reserved": 96},
    ),
    ExceptionRecord: (
        192,
        {"index": 0, "exception_record": 8, "exception_address": 16, "information": 24, "entry": 144,
            "thread_id": 148, "exception_code": 152, "exception_flags": 156, "number_parameters":
            160, "context": 164, "reserved": 180},
    ),
    System: (
        104,
        {"index": 0, "csd_version": 8, "entry": 24, "processor_architecture": 28, "processor_level": 32,
            "processor_revision": 36, "number_of_processors": 40, "product_type": 44,
            "major_version": 48, "minor_version": 52, "build_number": 56, "platform_id": 60,
            "suite_mask": 64, "cpu": 68, "reserved": 92},
    ),
    UnloadedModule: (
        56,
        {"index": 0, "base_of_image": 8, "entry": 16, "size_of_image": 20, "checksum": 24,
            "time_date_stamp": 28, "name": 32, "reserved": 48},
    ),
    Region: (
        64,
        {"index": 0, "base_address": 8, "allocation_base": 16, "region_size": 24, "entry": 32,
            "allocation_protect": 36, "state": 40, "protect": 44, "memory_type": 48, "reserved": 52},
    ),
    ThreadName: (
        40,
        {"index": 0, "entry": 8, "thread_id": 12, "name": 16, "reserved": 32},
    ),
    Range: (
        56,
        {"index": 0, "start": 8, "size": 16, "offset": 24, "offset_high": 32, "entry": 40, "extent": 44,
            "reserved": 48},
    ),
    Slot: (
        32,
        {"start": 0, "length": 8, "offset": 16, "owner": 24},
    ),
    SymbolFile: (
        56,
        {"name_offset": 0, "kind": 8, "age": 12, "name_size": 16, "name_ended": 20, "guid": 24, "signature":
            40, "reserved": 44},
    ),
    ModuleIds: (
        64,
        {"kind": 0, "age": 4, "guid": 8, "signature": 24, "build_id_size": 28, "build_id_cut": 32,
            "time_date_stamp": 36, "size_of_image": 40, "build_id": 44},
    ),
    Registers: (
        24,
        {"instruction": 0, "stack": 8, "frame": 16},
    ),
    SummaryModule: (
        72,
        {"base_of_image": 0, "name": 8, "size_of_image": 24, "checksum": 28, "time_date_stamp": 32,
            "file_version_ms": 36, "file_version_ls": 40, "product_version_ms": 44,
            "product_version_ls": 48, "codeview": 52, "reserved": 68},
    ),
    PlaceInModule: (
        80,
        {"module": 0, "offset": 72},
    ),
    SummarySystem: (
        88,
        {"csd_version": 0, "processor_architecture": 16, "processor_level": 20, "processor_revision": 24,
            "number_of_processors": 28, "product_type": 32, "major_version": 36, "minor_version":
            40, "build_number": 44, "platform_id": 48, "suite_mask": 52, "cpu": 56, "reserved": 80},
    ),
    Counts: (
        56,
        {"streams": 0, "threads": 8, "modules": 16, "exceptions": 24, "ranges": 32, "memory": 40,
            "memory_high": 48},
    ),
    Crash: (
        424,
        {"exception": 0, "thread_name": 192, "address": 208, "registers": 216, "module": 240, "near": 320,
            "reached": 400, "access": 408, "has_registers": 412, "has_module": 416, "has_near": 420},
    ),
    Summary: (
        840,
        {"header": 0, "counts": 40, "bad_entries": 96, "first_error": 104, "parts_outside": 168,
            "first_outside": 176, "crash": 240, "program": 664, "system": 736, "has_crash": 824,
            "has_program": 828, "has_system": 832, "reserved": 836},
    ),
}


class Table(NamedTuple):
    """A call that gives an array of records."""

    row: type[Structure]
    words: str  # what the records are called
    types: tuple[int, ...]  # of the streams that have them
    names: tuple[str, ...]  # the fields that are places of names
    places: tuple[tuple[str, str], ...]  # the fields that are places of parts, and which part


# The tables, by their names.
TABLES = {
    "threads": Table(Thread, "threads", (3,), (), (("stack", "stack"), ("context", "context"))),
    "modules": Table(Module, "modules", (4,), ("name",), (("codeview", "codeview"), ("misc", "misc"))),
    "exceptions": Table(ExceptionRecord, "exceptions", (6,), (), (("context", "context"),)),
    "systems": Table(System, "systems", (7,), ("csd_version",), ()),
    "unloaded": Table(UnloadedModule, "unloaded modules", (14,), ("name",), ()),
    "regions": Table(Region, "regions of memory", (16,), (), ()),
    "thread_names": Table(ThreadName, "names of threads", (24,), ("name",), ()),
    "ranges": Table(Range, "ranges", (5, 9), (), ()),
}

# How many bytes a record in a stream has at least, by the type of the stream.
RECORD_SIZES = {3: 48, 4: 108, 5: 16, 6: 168, 7: 56, 9: 16, 14: 24, 16: 48, 24: 12}


def declare(library: CDLL) -> None:
    """Sets the types of the arguments and the result of each call of a library."""
    library.mdmp_abi.argtypes = []
    library.mdmp_abi.restype = c_uint32
    library.mdmp_version.argtypes = []
    library.mdmp_version.restype = c_uint32
    library.mdmp_header_.argtypes = [c_void_p, c_size_t, POINTER(Header), POINTER(Fault)]
    library.mdmp_header_.restype = c_uint32
    library.mdmp_streams_.argtypes = [
        c_void_p,
        c_size_t,
        POINTER(Stream),
        c_size_t,
        POINTER(c_uint64),
        POINTER(Fault),
    ]
    library.mdmp_streams_.restype = c_uint32
    library.mdmp_check_.argtypes = [
        c_void_p,
        c_size_t,
        POINTER(Limits),
        POINTER(c_uint8),
        c_size_t,
        POINTER(c_uint64),
        POINTER(Fault),
    ]
    library.mdmp_check_.restype = c_uint32
    library.mdmp_check_json_.argtypes = [
        c_void_p,
        c_size_t,
        POINTER(Limits),
        POINTER(c_uint8),
        c_size_t,
        POINTER(c_uint64),
        POINTER(Fault),
    ]
    library.mdmp_check_json_.restype = c_uint32
    library.mdmp_verdicts_.argtypes = [
        c_void_p,
        c_size_t,
        POINTER(Limits),
        POINTER(Fault),
        c_size_t,
        POINTER(c_uint64),
        POINTER(Fault),
    ]
    library.mdmp_verdicts_.restype = c_uint32
    library.mdmp_parts_outside_.argtypes = [
        c_void_p,
        c_size_t,
        POINTER(Limits),
        POINTER(Fault),
        c_size_t,
        POINTER(c_uint64),
        POINTER(Fault),
    ]
    library.mdmp_parts_outside_.restype = c_uint32
    library.mdmp_list_.argtypes = [
        c_void_p,
        c_size_t,
        POINTER(Limits),
        c_bool,
        POINTER(c_uint8),
        c_size_t,
        POINTER(c_uint64),
        POINTER(Fault),
    ]
    library.mdmp_list_.restype = c_uint32
    library.mdmp_list_json_.argtypes = [
        c_void_p,
        c_size_t,
        POINTER(Limits),
        c_bool,
        POINTER(c_uint8),
        c_size_t,
        POINTER(c_uint64),
        POINTER(Fault),
    ]
    library.mdmp_list_json_.restype = c_uint32
    library.mdmp_list_part_.argtypes = [
        c_void_p,
        c_size_t,
        POINTER(Limits),
        c_bool,
        c_uint64,
        POINTER(c_uint8),
        c_size_t,
        POINTER(c_uint64),
        POINTER(Fault),
    ]
    library.mdmp_list_part_.restype = c_uint32
    library.mdmp_copy_.argtypes = [
        c_void_p,
        c_size_t,
        POINTER(Limits),
        POINTER(c_uint32),
        c_size_t,
        POINTER(c_uint8),
        c_size_t,
        POINTER(c_uint64),
        POINTER(Fault),
    ]
    library.mdmp_copy_.restype = c_uint32
    library.mdmp_threads_.argtypes = [
        c_void_p,
        c_size_t,
        POINTER(Limits),
        POINTER(Thread),
        c_size_t,
        POINTER(c_uint64),
        POINTER(Fault),
    ]
    library.mdmp_threads_.restype = c_uint32
    library.mdmp_modules_.argtypes = [
        c_void_p,
        c_size_t,
        POINTER(Limits),
        POINTER(Module),
        c_size_t,
        POINTER(c_uint64),
        POINTER(Fault),
    ]
    library.mdmp_modules_.restype = c_uint32
    library.mdmp_exceptions_.argtypes = [
        c_void_p,
        c_size_t,
        POINTER(Limits),
        POINTER(ExceptionRecord),
        c_size_t,
        POINTER(c_uint64),
        POINTER(Fault),
    ]
    library.mdmp_exceptions_.restype = c_uint32
    library.mdmp_systems_.argtypes = [
        c_void_p,
        c_size_t,
        POINTER(Limits),
        POINTER(System),
        c_size_t,
        POINTER(c_uint64),
        POINTER(Fault),
    ]
    library.mdmp_systems_.restype = c_uint32
    library.mdmp_unloaded_.argtypes = [
        c_void_p,
        c_size_t,
        POINTER(Limits),
        POINTER(UnloadedModule),
        c_size_t,
        POINTER(c_uint64),
        POINTER(Fault),
    ]
    library.mdmp_unloaded_.restype = c_uint32
    library.mdmp_regions_.argtypes = [
        c_void_p,
        c_size_t,
        POINTER(Limits),
        POINTER(Region),
        c_size_t,
        POINTER(c_uint64),
        POINTER(Fault),
    ]
    library.mdmp_regions_.restype = c_uint32
    library.mdmp_thread_names_.argtypes = [
        c_void_p,
        c_size_t,
        POINTER(Limits),
        POINTER(ThreadName),
        c_size_t,
        POINTER(c_uint64),
        POINTER(Fault),
    ]
    library.mdmp_thread_names_.restype = c_uint32
    library.mdmp_ranges_.argtypes = [
        c_void_p,
        c_size_t,
        POINTER(Limits),
        POINTER(Range),
        c_size_t,
        POINTER(c_uint64),
        POINTER(Fault),
    ]
    library.mdmp_ranges_.restype = c_uint32
    library.mdmp_memory_.argtypes = [
        c_void_p,
        c_size_t,
        POINTER(Limits),
        c_uint64,
        POINTER(c_uint8),
        c_size_t,
        POINTER(c_bool),
        c_size_t,
        POINTER(Fault),
    ]
    library.mdmp_memory_.restype = c_uint32
    library.mdmp_read_.argtypes = [
        c_void_p,
        c_size_t,
        POINTER(Range),
        c_size_t,
        c_uint64,
        POINTER(c_uint8),
        c_size_t,
        POINTER(c_bool),
        c_size_t,
        POINTER(Fault),
    ]
    library.mdmp_read_.restype = c_uint32
    library.mdmp_index_.argtypes = [
        c_void_p,
        c_size_t,
        POINTER(Range),
        c_size_t,
        POINTER(Slot),
        c_size_t,
        POINTER(c_uint64),
        POINTER(Fault),
    ]
    library.mdmp_index_.restype = c_uint32
    library.mdmp_index_modules_.argtypes = [
        POINTER(Module),
        c_size_t,
        POINTER(Slot),
        c_size_t,
        POINTER(c_uint64),
        POINTER(Fault),
    ]
    library.mdmp_index_modules_.restype = c_uint32
    library.mdmp_read_index_.argtypes = [
        c_void_p,
        c_size_t,
        POINTER(Slot),
        c_size_t,
        c_uint64,
        POINTER(c_uint8),
        c_size_t,
        POINTER(c_bool),
        c_size_t,
        POINTER(Fault),
    ]
    library.mdmp_read_index_.restype = c_uint32
    library.mdmp_where_.argtypes = [POINTER(Slot), c_size_t, c_uint64, POINTER(c_uint64)]
    library.mdmp_where_.restype = c_uint32
    library.mdmp_name_.argtypes = [
        c_void_p,
        c_size_t,
        c_uint64,
        c_uint32,
        POINTER(c_uint8),
        c_size_t,
        POINTER(c_uint64),
        POINTER(Fault),
    ]
    library.mdmp_name_.restype = c_uint32
    library.mdmp_symbols_.argtypes = [
        c_void_p,
        c_size_t,
        POINTER(Limits),
        POINTER(Place),
        POINTER(SymbolFile),
        POINTER(Fault),
    ]
    library.mdmp_symbols_.restype = c_uint32
    library.mdmp_summary_.argtypes = [c_void_p, c_size_t, POINTER(Limits), POINTER(Summary), POINTER(Fault)]
    library.mdmp_summary_.restype = c_uint32
    library.mdmp_ids_.argtypes = [c_void_p, c_size_t, POINTER(Module), POINTER(ModuleIds)]
    library.mdmp_ids_.restype = c_uint32
    library.mdmp_fault_text_.argtypes = [POINTER(Fault), POINTER(c_uint8), c_size_t, POINTER(c_uint64)]
    library.mdmp_fault_text_.restype = c_uint32
