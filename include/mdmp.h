/* mdmp: reads Windows minidump files, for C, C++ and languages that call C.
 *
 * Each call reads a file that is wholly in memory, read or mapped, for as long as the call takes. There are no handles,
 * no callbacks and no state. What a call returns depends only on its arguments, unless memory runs out or a limit is
 * reached.
 *
 * Limits. For a file from a stranger, pass MDMP_LIMITS_UNTRUSTED. For `budget`, `memory` and `aside`, MDMP_NO_LIMIT is no
 * limit, and 0 is no byte. A structure of zeros is rejected with MDMP_FAULT_BAD_LIMITS, since its window is below 168.
 *
 * Memory. A call writes only to memory of the caller, which needs no value before. What a call allocates by malloc, it
 * frees before it returns, on every path. No pointer into the library or the file comes back: names and parts are offsets
 * and sizes in the file. No call writes to the file.
 *
 * Threads. Any number of threads may call at once, also over one file. Do not call from a signal handler. In a forked
 * child of a program with threads, do not call before it runs another program. malloc requires both.
 *
 * Errors. A call returns an mdmp_status. `out` is the memory for the result, with a capacity of `room` elements. If a call
 * returns nothing, `out` is unchanged, and `size` or `count` is 0.
 *
 *   MDMP_OK                Success: `out` has everything, and `size` or `count` says how much that is.
 *                          `fault` is MDMP_FAULT_NONE.
 *   MDMP_FAULT             The file has an error, and `fault` says which and where. `out` has what precedes the error.
 *                          mdmp_check, mdmp_check_json, mdmp_verdicts and mdmp_parts_outside go on after an error, and
 *                          return everything.
 *                          mdmp_copy, mdmp_memory, mdmp_header, mdmp_name and mdmp_summary return nothing.
 *                          mdmp_symbols returns zeros.
 *                          If the file cannot be opened, a call returns nothing.
 *   MDMP_BAD_ARGUMENT      Limits, types or lengths are wrong, and `fault` says which. The call returns nothing;
 *                          mdmp_symbols returns zeros.
 *   MDMP_NO_MEMORY         malloc or realloc returned NULL. The call returns nothing.
 *   MDMP_BUFFER_TOO_SHORT  There are more than `room` elements, and `out` has the first ones. `size` or `count` says how
 *                          many there are. `fault` is what a large enough `out` would give.
 *                          mdmp_index and mdmp_index_modules leave `out` unchanged.
 *   MDMP_LIMIT             A limit of mdmp_limits is reached, and the kind of `fault` says which:
 *                          MDMP_FAULT_BUDGET        The next read would pass `budget`, and is not made.
 *                          MDMP_FAULT_ASIDE_LIMIT   The next CodeView record would pass `aside`, and is not read.
 *                          MDMP_FAULT_MEMORY_LIMIT  The next lists would pass `memory`, and are not allocated.
 *                          MDMP_FAULT_COPY_BUDGET   The copy would pass `budget`, and is not started.
 *                          After the first two, `out` has what precedes the limit, and `size` or `count` says how much.
 *                          A check and its results end there; mdmp_memory, mdmp_copy and mdmp_summary return
 *                          nothing.
 *                          After the last two, and if the file is not open yet, the call returns nothing.
 *
 * So two calls are enough: the first with a guess of `room`, or with 0, and the second with the number that the first
 * returned.
 *
 * Pointers. A pointer may be NULL only if its length is 0: then the call does not use it. Memory that a call writes to
 * must not overlap any other argument, and must be aligned for its type. The library checks none of this.
 *
 * Numbers. Structures have fixed-width fields and no padding; `reserved` is 0. Offsets and sizes are in bytes, and offsets
 * are from the start of the file. The comment of a field has the name that minidumpapiset.h gives to the field.
 */

/* Made by bindings/generate from bindings/interface.toml. */
#ifndef MDMP_H
#define MDMP_H

#include <stdbool.h>
#include <stddef.h>
#include <stdint.h>

#ifdef __cplusplus
extern "C" {
#endif

/* What mdmp_abi() returns for the library of this header. */
#define MDMP_ABI 2

/* The version of this header, as mdmp_version() returns it: major << 16 | minor << 8 | patch. */
#define MDMP_VERSION 0x000100

/* What a call returns. 0 to 3 are also exit statuses of the command; for 5, the command exits with 3. */
typedef enum mdmp_status {
    MDMP_OK = 0,               /* success */
    MDMP_FAULT = 1,            /* the file has an error */
    MDMP_BAD_ARGUMENT = 2,     /* an argument is wrong: limits, types of streams, lengths */
    MDMP_NO_MEMORY = 3,        /* out of memory */
    MDMP_BUFFER_TOO_SHORT = 4, /* the buffer is too short */
    MDMP_LIMIT = 5             /* a limit is reached, and the kind of `fault` says which */
} mdmp_status;

/* Which error it is. The comment of each kind names the fields of mdmp_fault that the kind uses. */
typedef enum mdmp_fault_kind {
    MDMP_FAULT_NONE = 0,                 /* no error */
    MDMP_FAULT_FILE_TOO_SHORT = 1,       /* size: the bytes of the file, which are fewer than 32 */
    MDMP_FAULT_BAD_SIGNATURE = 2,        /* the file does not begin with MDMP */
    MDMP_FAULT_BAD_VERSION = 3,          /* size: the low 16 bits of Version, which are not 0xa793 */
    MDMP_FAULT_DIRECTORY_OUTSIDE = 4,    /* offset, size: the directory, which is not inside the file */
    MDMP_FAULT_TOO_MANY_RANGES = 5,      /* size (high: its upper 64 bits): the number of memory ranges, over 2^28 */
    MDMP_FAULT_STREAM_OUTSIDE = 16,      /* entry, offset, size: the stream is not inside the file */
    MDMP_FAULT_SHORT_STREAM = 17,        /* entry, offset, size: the stream is shorter than its head or its record */
    MDMP_FAULT_BAD_HEADER_SIZE = 18,     /* entry, offset, size: SizeOfHeader */
    MDMP_FAULT_BAD_ENTRY_SIZE = 19,      /* entry, offset, size: SizeOfEntry */
    MDMP_FAULT_BAD_COUNT = 20,           /* entry, offset, size: the count of records */
    MDMP_FAULT_NAME_LENGTH_OUTSIDE = 21, /* entry, index, offset, size (4): a name's length is not inside the file */
    MDMP_FAULT_NAME_ODD = 22,            /* entry, index, offset, size: a name's length is odd */
    MDMP_FAULT_NAME_OUTSIDE = 23,        /* entry, index, offset, size: a name is not inside the file */
    MDMP_FAULT_PART_OUTSIDE = 32,        /* entry, index, part, offset (high: its upper 64 bits), size: outside the file */
    MDMP_FAULT_NAME_TOO_LONG = 33,       /* entry, index, size: a name's length, which is over the limit */
    MDMP_FAULT_RAW_KNOWN_TYPE = 48,      /* no call returns this */
    MDMP_FAULT_COPY_TOO_LARGE = 49,      /* the copy would be longer than the format allows */
    MDMP_FAULT_BAD_ENTRIES = 64,         /* size: the number of directory entries that have an error, or lose a part */
    MDMP_FAULT_NOT_COPIED = 65,          /* size: a type of stream that is not copied */
    MDMP_FAULT_NO_MEMORY = 66,           /* out of memory: malloc or realloc returned NULL */
    MDMP_FAULT_BAD_LIMITS = 67,          /* a limit is out of its bounds */
    MDMP_FAULT_BAD_TYPES = 68,           /* there are no types to copy, or more than 16 */
    MDMP_FAULT_STORE = 69,               /* no call returns this */
    MDMP_FAULT_LENGTHS_DIFFER = 70,      /* two lengths that must be equal differ */
    MDMP_FAULT_BUDGET = 71,              /* offset, size: bytes that were not read, as they would pass `budget` */
    MDMP_FAULT_MEMORY_LIMIT = 72,        /* size (high: its upper 64 bits): the bytes that the lists would take */
    MDMP_FAULT_ASIDE_LIMIT = 73,         /* offset, size: a CodeView record that was not read, as it would pass `aside` */
    MDMP_FAULT_COPY_BUDGET = 74          /* size (high: its upper 64 bits): the bytes that the copy needs */
} mdmp_fault_kind;

/* Which part of a record has the error. */
typedef enum mdmp_part {
    MDMP_PART_STACK = 1,    /* the stack of a thread */
    MDMP_PART_CONTEXT = 2,  /* the registers of a thread or an exception */
    MDMP_PART_CODEVIEW = 3, /* the CodeView record of a module */
    MDMP_PART_MISC = 4,     /* the miscellaneous record of a module */
    MDMP_PART_MEMORY = 5    /* the bytes of a range of memory */
} mdmp_part;

/* What is at the place that a record names. */
typedef enum mdmp_extent {
    MDMP_EXTENT_EMPTY = 0,  /* no bytes */
    MDMP_EXTENT_ABSENT = 1, /* bytes that the producer did not keep */
    MDMP_EXTENT_INSIDE = 2, /* bytes of the file */
    MDMP_EXTENT_OUTSIDE = 3 /* bytes that are not all inside the file */
} mdmp_extent;

/* Whether a record has a name. */
typedef enum mdmp_name_state {
    MDMP_NAME_NONE = 0,  /* no name */
    MDMP_NAME_GIVEN = 1, /* a name within the limit */
    MDMP_NAME_LONG = 2   /* a name longer than the limit */
} mdmp_name_state;

/* Which kind of CodeView record a module has. */
typedef enum mdmp_symbol_kind {
    MDMP_SYMBOLS_RSDS = 0,  /* RSDS: identity, age and name of a PDB file */
    MDMP_SYMBOLS_OTHER = 1, /* another kind */
    MDMP_SYMBOLS_SHORT = 2  /* a record that is too short for its kind */
} mdmp_symbol_kind;

/* Which kind of CodeView record the ids of a module are from. */
typedef enum mdmp_id_kind {
    MDMP_IDS_NONE = 0,  /* no record inside the file, or one that is too short for its kind */
    MDMP_IDS_RSDS = 1,  /* RSDS: identity and age of a PDB file */
    MDMP_IDS_PDB20 = 2, /* NB10: time and age of a file of PDB 2.0 */
    MDMP_IDS_ELF = 3,   /* the bytes 4c 45 70 42: the build id of an ELF file */
    MDMP_IDS_OTHER = 4  /* another kind */
} mdmp_id_kind;

/* What a thread tried to do at an address when it crashed. */
typedef enum mdmp_access {
    MDMP_ACCESS_NONE = 0,    /* the exception does not say that the thread tried to reach an address */
    MDMP_ACCESS_READ = 1,    /* to read */
    MDMP_ACCESS_WRITE = 2,   /* to write */
    MDMP_ACCESS_EXECUTE = 3, /* to execute */
    MDMP_ACCESS_NOT_SAID = 4 /* the exception does not say what */
} mdmp_access;

/* How much a call reads, and how much memory it uses. For a file from a stranger, use
 * MDMP_LIMITS_UNTRUSTED. MDMP_LIMITS_DEFAULT does not limit `budget`, `memory` and `aside`. In these
 * three, MDMP_NO_LIMIT is no limit, and 0 is no byte. Each call counts from 0. */
typedef struct mdmp_limits {
    uint32_t window; /* the size of the buffer for records, in bytes: 168 to 2^30 */
    uint32_t name;   /* the longest name that is read, in bytes: at most 2^30 */
    uint64_t budget; /* the most bytes that are read to list or copy the file; bytes that are read twice count twice */
    uint64_t memory; /* the most bytes that the lists of a call take: window, directory, ranges of memory, name */
    uint64_t aside;  /* the most bytes of CodeView records that a list with `pdb` reads; `budget` does not count them */
} mdmp_limits;

/* An error, and where it is. A number that the comment of the kind does not name is 0. */
typedef struct mdmp_fault {
    uint32_t kind;        /* mdmp_fault_kind: which error it is */
    uint32_t entry;       /* the number of the directory entry, from 0 */
    uint64_t index;       /* the number of the record in its stream, from 0, if has_index is 1 */
    uint64_t offset;      /* an offset from the start of the file */
    uint64_t size;        /* a number of bytes, or what the comment of the kind says */
    uint64_t high;        /* the upper 64 bits of offset or size, if the comment of the kind says so */
    uint32_t part;        /* mdmp_part: which part of the record has the error; 0 if the error is not in a part */
    uint32_t has_index;   /* 1 if the error is in one record, else 0 */
    uint32_t reserved[4]; /* 0 */
} mdmp_fault;

/* The place of a part of a record: MINIDUMP_LOCATION_DESCRIPTOR, and what is there. */
typedef struct mdmp_place {
    uint32_t size;     /* DataSize, in bytes */
    uint32_t rva;      /* Rva, an offset from the start of the file */
    uint32_t extent;   /* mdmp_extent: what is there */
    uint32_t reserved; /* 0 */
} mdmp_place;

/* The place of a name, a MINIDUMP_STRING: mdmp_name returns its text. */
typedef struct mdmp_name_place {
    uint64_t rva;   /* the offset of its Length from the start of the file; 0 for no name */
    uint32_t size;  /* bytes of its UTF-16 units, which follow the 4 bytes of Length */
    uint32_t state; /* mdmp_name_state: whether there is a name */
} mdmp_name_place;

/* The header: MINIDUMP_HEADER. */
typedef struct mdmp_header_record {
    uint64_t flags;                /* Flags */
    uint32_t signature;            /* Signature */
    uint32_t version;              /* Version: the low 16 bits are 0xa793, the high 16 bits are the producer's own */
    uint32_t number_of_streams;    /* NumberOfStreams */
    uint32_t stream_directory_rva; /* StreamDirectoryRva, an offset from the start of the file */
    uint32_t checksum;             /* CheckSum, which is not checked */
    uint32_t time_date_stamp;      /* TimeDateStamp, in seconds since 1970 */
    uint32_t reserved[2];          /* 0 */
} mdmp_header_record;

/* An entry of the directory: MINIDUMP_DIRECTORY. */
typedef struct mdmp_stream {
    uint32_t entry;       /* the number of the entry in the directory, from 0 */
    uint32_t stream_type; /* StreamType */
    uint32_t size;        /* Location.DataSize, in bytes */
    uint32_t rva;         /* Location.Rva, an offset from the start of the file */
    uint32_t reserved[2]; /* 0 */
} mdmp_stream;

/* A thread: MINIDUMP_THREAD. */
typedef struct mdmp_thread {
    uint64_t index;          /* the number of the record in its stream, from 0 */
    uint64_t teb;            /* Teb, an address of the dumped process */
    uint64_t stack_start;    /* Stack.StartOfMemoryRange, an address of the dumped process */
    uint32_t entry;          /* the number of the directory entry, from 0 */
    uint32_t thread_id;      /* ThreadId */
    uint32_t suspend_count;  /* SuspendCount */
    uint32_t priority_class; /* PriorityClass */
    uint32_t priority;       /* Priority */
    mdmp_place stack;        /* Stack.Memory */
    mdmp_place context;      /* ThreadContext, the registers */
    uint32_t reserved[3];    /* 0 */
} mdmp_thread;

/* A module: MINIDUMP_MODULE. */
typedef struct mdmp_module {
    uint64_t index;              /* the number of the record in its stream, from 0 */
    uint64_t base_of_image;      /* BaseOfImage, an address of the dumped process */
    uint32_t entry;              /* the number of the directory entry, from 0 */
    uint32_t size_of_image;      /* SizeOfImage, in bytes */
    uint32_t checksum;           /* CheckSum */
    uint32_t time_date_stamp;    /* TimeDateStamp, in seconds since 1970 */
    uint32_t file_version_ms;    /* VersionInfo.dwFileVersionMS: the first two of the four numbers of the version */
    uint32_t file_version_ls;    /* VersionInfo.dwFileVersionLS: the last two numbers */
    uint32_t product_version_ms; /* VersionInfo.dwProductVersionMS */
    uint32_t product_version_ls; /* VersionInfo.dwProductVersionLS */
    mdmp_name_place name;        /* the name at ModuleNameRva */
    mdmp_place codeview;         /* CvRecord: mdmp_symbols reads the record that is there */
    mdmp_place misc;             /* MiscRecord */
    uint32_t reserved[2];        /* 0 */
} mdmp_module;

/* An exception: MINIDUMP_EXCEPTION_STREAM. */
typedef struct mdmp_exception {
    uint64_t index;             /* the number of the record in its stream: 0 */
    uint64_t exception_record;  /* ExceptionRecord, an address of the dumped process */
    uint64_t exception_address; /* ExceptionAddress, an address of the dumped process */
    uint64_t information[15];   /* ExceptionInformation */
    uint32_t entry;             /* the number of the directory entry, from 0 */
    uint32_t thread_id;         /* ThreadId */
    uint32_t exception_code;    /* ExceptionCode */
    uint32_t exception_flags;   /* ExceptionFlags */
    uint32_t number_parameters; /* NumberParameters: how many elements of information are used; may be over 15 */
    mdmp_place context;         /* ThreadContext, the registers */
    uint32_t reserved[3];       /* 0 */
} mdmp_exception;

/* The system: MINIDUMP_SYSTEM_INFO. */
typedef struct mdmp_system {
    uint64_t index;                  /* the number of the record in its stream: 0 */
    mdmp_name_place csd_version;     /* the name at CSDVersionRva: the service pack */
    uint32_t entry;                  /* the number of the directory entry, from 0 */
    uint32_t processor_architecture; /* ProcessorArchitecture: 0 is x86, 9 is x64, 12 is ARM64 */
    uint32_t processor_level;        /* ProcessorLevel */
    uint32_t processor_revision;     /* ProcessorRevision */
    uint32_t number_of_processors;   /* NumberOfProcessors */
    uint32_t product_type;           /* ProductType */
    uint32_t major_version;          /* MajorVersion */
    uint32_t minor_version;          /* MinorVersion */
    uint32_t build_number;           /* BuildNumber */
    uint32_t platform_id;            /* PlatformId */
    uint32_t suite_mask;             /* SuiteMask */
    uint8_t cpu[24];                 /* Cpu */
    uint32_t reserved[3];            /* 0 */
} mdmp_system;

/* An unloaded module: MINIDUMP_UNLOADED_MODULE. */
typedef struct mdmp_unloaded_module {
    uint64_t index;           /* the number of the record in its stream, from 0 */
    uint64_t base_of_image;   /* BaseOfImage, an address of the dumped process */
    uint32_t entry;           /* the number of the directory entry, from 0 */
    uint32_t size_of_image;   /* SizeOfImage, in bytes */
    uint32_t checksum;        /* CheckSum */
    uint32_t time_date_stamp; /* TimeDateStamp, in seconds since 1970 */
    mdmp_name_place name;     /* the name at ModuleNameRva */
    uint32_t reserved[2];     /* 0 */
} mdmp_unloaded_module;

/* A region of memory: MINIDUMP_MEMORY_INFO. */
typedef struct mdmp_region {
    uint64_t index;              /* the number of the record in its stream, from 0 */
    uint64_t base_address;       /* BaseAddress, an address of the dumped process */
    uint64_t allocation_base;    /* AllocationBase, an address of the dumped process */
    uint64_t region_size;        /* RegionSize, in bytes */
    uint32_t entry;              /* the number of the directory entry, from 0 */
    uint32_t allocation_protect; /* AllocationProtect */
    uint32_t state;              /* State */
    uint32_t protect;            /* Protect */
    uint32_t memory_type;        /* Type */
    uint32_t reserved[3];        /* 0 */
} mdmp_region;

/* The name of a thread: MINIDUMP_THREAD_NAME. */
typedef struct mdmp_thread_name {
    uint64_t index;       /* the number of the record in its stream, from 0 */
    uint32_t entry;       /* the number of the directory entry, from 0 */
    uint32_t thread_id;   /* ThreadId */
    mdmp_name_place name; /* the name at RvaOfThreadName, an offset of 64 bits */
    uint32_t reserved[2]; /* 0 */
} mdmp_thread_name;

/* A range of memory: MINIDUMP_MEMORY_DESCRIPTOR or MINIDUMP_MEMORY_DESCRIPTOR64. */
typedef struct mdmp_range {
    uint64_t index;       /* the number of the record in its stream, from 0 */
    uint64_t start;       /* StartOfMemoryRange, an address of the dumped process */
    uint64_t size;        /* DataSize, in bytes */
    uint64_t offset;      /* the offset of its bytes from the start of the file: the lower 64 bits */
    uint64_t offset_high; /* the upper 64 bits of offset; 0 if the bytes are inside the file */
    uint32_t entry;       /* the number of the directory entry, from 0 */
    uint32_t extent;      /* mdmp_extent: whether its bytes are in the file */
    uint32_t reserved[2]; /* 0 */
} mdmp_range;

/* A slot of an index: consecutive addresses for which the same row is the first that has them. */
typedef struct mdmp_slot {
    uint64_t start;  /* the first address, of the dumped process */
    uint64_t length; /* how many addresses there are */
    uint64_t offset; /* the offset of the byte at start, from the start of the file or of the module's image */
    uint64_t owner;  /* the number of the row, from 0 */
} mdmp_slot;

/* The CodeView record of a module. */
typedef struct mdmp_symbol_file {
    uint64_t name_offset; /* RSDS: the offset of the symbol file's name from the start of the dump */
    uint32_t kind;        /* mdmp_symbol_kind: which kind of record it is; a field that this kind does not have is 0 */
    uint32_t age;         /* RSDS: how often the symbol file was written since it got its identity */
    uint32_t name_size;   /* RSDS: bytes of the name, in no known encoding; at most `name` of the limits */
    uint32_t name_ended;  /* RSDS: 1 if a zero byte ends the name, 0 if the record or the limit ends it */
    uint8_t guid[16];     /* RSDS: the identity of the symbol file, in the order in which it is printed */
    uint8_t signature[4]; /* another kind: the first four bytes of the record */
    uint32_t reserved[3]; /* 0 */
} mdmp_symbol_file;

/* The ids by which symbol servers know a module: numbers and bytes. A field that the kind does not have is
 * 0. */
typedef struct mdmp_module_ids {
    uint32_t kind;            /* mdmp_id_kind: which kind of CodeView record it is */
    uint32_t age;             /* RSDS, NB10: how often the symbol file was written since it got its identity */
    uint8_t guid[16];         /* RSDS: GUID; ELF: what Breakpad makes a GUID of; in the order in which it is printed */
    uint32_t signature;       /* NB10: when the symbol file was made, in seconds since 1970 */
    uint32_t build_id_size;   /* ELF: bytes of build_id, at most 20 */
    uint32_t build_id_cut;    /* ELF: 1 if the record has more bytes of the id, else 0 */
    uint32_t time_date_stamp; /* code id of a PE file: TimeDateStamp; 0 for none */
    uint32_t size_of_image;   /* code id of a PE file: SizeOfImage; 0 for none */
    uint8_t build_id[20];     /* ELF: the first bytes of the build id, in the order of the file */
} mdmp_module_ids;

/* Where a thread was, by its CPU context. */
typedef struct mdmp_registers {
    uint64_t instruction; /* the instruction pointer: Eip, Rip, Pc */
    uint64_t stack;       /* the stack pointer: Esp, Rsp, Sp */
    uint64_t frame;       /* the frame pointer: Ebp, Rbp, Fp of ARM64; of ARM the register r11 */
} mdmp_registers;

/* A module of a summary: MINIDUMP_MODULE, without its number in the list of modules. */
typedef struct mdmp_summary_module {
    uint64_t base_of_image;      /* BaseOfImage, an address of the dumped process */
    mdmp_name_place name;        /* the name at ModuleNameRva */
    uint32_t size_of_image;      /* SizeOfImage, in bytes */
    uint32_t checksum;           /* CheckSum */
    uint32_t time_date_stamp;    /* TimeDateStamp, in seconds since 1970 */
    uint32_t file_version_ms;    /* VersionInfo.dwFileVersionMS: the first two of four numbers */
    uint32_t file_version_ls;    /* VersionInfo.dwFileVersionLS: the last two */
    uint32_t product_version_ms; /* VersionInfo.dwProductVersionMS */
    uint32_t product_version_ls; /* VersionInfo.dwProductVersionLS */
    mdmp_place codeview;         /* CvRecord: what it says about its symbol file */
    uint32_t reserved;           /* 0 */
} mdmp_summary_module;

/* A module, and an address at its base or above it. */
typedef struct mdmp_place_in_module {
    mdmp_summary_module module; /* the module */
    uint64_t offset;            /* how many bytes the address is above the base of the module */
} mdmp_place_in_module;

/* The system of a summary: MINIDUMP_SYSTEM_INFO. */
typedef struct mdmp_summary_system {
    mdmp_name_place csd_version;     /* the name at CSDVersionRva: the service pack */
    uint32_t processor_architecture; /* ProcessorArchitecture */
    uint32_t processor_level;        /* ProcessorLevel */
    uint32_t processor_revision;     /* ProcessorRevision */
    uint32_t number_of_processors;   /* NumberOfProcessors */
    uint32_t product_type;           /* ProductType */
    uint32_t major_version;          /* MajorVersion */
    uint32_t minor_version;          /* MinorVersion */
    uint32_t build_number;           /* BuildNumber */
    uint32_t platform_id;            /* PlatformId */
    uint32_t suite_mask;             /* SuiteMask */
    uint8_t cpu[24];                 /* Cpu */
    uint32_t reserved[2];            /* 0 */
} mdmp_summary_system;

/* How many records the entries have, each entry up to its own error. */
typedef struct mdmp_counts {
    uint64_t streams;     /* entries of the directory */
    uint64_t threads;     /* threads */
    uint64_t modules;     /* modules */
    uint64_t exceptions;  /* exceptions */
    uint64_t ranges;      /* ranges of memory, of both kinds of memory list */
    uint64_t memory;      /* bytes of these ranges that are inside the file: the lower 64 bits */
    uint64_t memory_high; /* the upper 64 bits of memory */
} mdmp_counts;

/* The crash: the first exception that is one. */
typedef struct mdmp_crash {
    mdmp_exception exception;    /* the record */
    mdmp_name_place thread_name; /* the first name of the thread */
    uint64_t address;            /* the address that ran: on Windows ExceptionAddress, else the instruction pointer */
    mdmp_registers registers;    /* the registers of the thread, if has_registers is 1; else 0 */
    mdmp_place_in_module module; /* the first module that has the address, if has_module is 1; else 0 */
    mdmp_place_in_module near;   /* if no module has it: the one with the greatest base below it, if has_near is 1; else 0 */
    uint64_t reached;            /* the address that the thread tried to reach, if access is not MDMP_ACCESS_NONE; else 0 */
    uint32_t access;             /* mdmp_access: what the thread tried to do there */
    uint32_t has_registers;      /* 1 if the context is inside the file and its layout is known, else 0 */
    uint32_t has_module;         /* 1 if a module has the address, else 0 */
    uint32_t has_near;           /* 1 if no module has the address, and one has a base below it; else 0 */
} mdmp_crash;

/* What a dump says of a crash and of itself. A structure whose `has` is 0 is all zero. */
typedef struct mdmp_summary_record {
    mdmp_header_record header;   /* the header */
    mdmp_counts counts;          /* how many records there are */
    uint64_t bad_entries;        /* how many entries have an error: those that mdmp_check calls bad */
    mdmp_fault first_error;      /* the first of these errors, or MDMP_FAULT_NONE */
    uint64_t parts_outside;      /* how many parts of records are not inside the file */
    mdmp_fault first_outside;    /* the first of these parts as MDMP_FAULT_PART_OUTSIDE, or MDMP_FAULT_NONE */
    mdmp_crash crash;            /* the crash, if has_crash is 1 */
    mdmp_summary_module program; /* the first module: the program, if has_program is 1 */
    mdmp_summary_system system;  /* the first system, if has_system is 1 */
    uint32_t has_crash;          /* 1 if an exception is a crash, else 0 */
    uint32_t has_program;        /* 1 if there is a module, else 0 */
    uint32_t has_system;         /* 1 if there is a system, else 0 */
    uint32_t reserved;           /* 0 */
} mdmp_summary_record;

/* As a limit: no limit. */
#define MDMP_NO_LIMIT UINT64_MAX

/* The window and the longest name of the command, and no other limit. */
#define MDMP_LIMITS_DEFAULT { 65536, 4096, MDMP_NO_LIMIT, MDMP_NO_LIMIT, MDMP_NO_LIMIT }

/* This window and this longest name, and limits for a file from a stranger. */
#define MDMP_LIMITS_UNTRUSTED { 65536, 4096, 67108864, 67108864, 67108864 }

/* Returns MDMP_ABI of the library. If it is not MDMP_ABI of the header, do not use the library. Until the
 * first release the number stays, even if a structure or the meaning of a call changes: compile with the
 * header of the library. */
uint32_t mdmp_abi(void);

/* Returns the version of the library, as MDMP_VERSION has it: major << 16 | minor << 8 | patch. */
uint32_t mdmp_version(void);

/* What the library exports. These take no NULL, not even with a length of 0: call the functions below. */
uint32_t mdmp_header_(const uint8_t *file, size_t file_size, mdmp_header_record *out, mdmp_fault *fault);
uint32_t mdmp_streams_(const uint8_t *file, size_t file_size, mdmp_stream *out, size_t room, uint64_t *count,
    mdmp_fault *fault);
uint32_t mdmp_check_(const uint8_t *file, size_t file_size, const mdmp_limits *limits, uint8_t *out,
    size_t room, uint64_t *size, mdmp_fault *fault);
uint32_t mdmp_check_json_(const uint8_t *file, size_t file_size, const mdmp_limits *limits, uint8_t *out,
    size_t room, uint64_t *size, mdmp_fault *fault);
uint32_t mdmp_verdicts_(const uint8_t *file, size_t file_size, const mdmp_limits *limits, mdmp_fault *out,
    size_t room, uint64_t *count, mdmp_fault *fault);
uint32_t mdmp_parts_outside_(const uint8_t *file, size_t file_size, const mdmp_limits *limits,
    mdmp_fault *out, size_t room, uint64_t *count, mdmp_fault *fault);
uint32_t mdmp_list_(const uint8_t *file, size_t file_size, const mdmp_limits *limits, bool pdb, uint8_t *out,
    size_t room, uint64_t *size, mdmp_fault *fault);
uint32_t mdmp_list_json_(const uint8_t *file, size_t file_size, const mdmp_limits *limits, bool pdb,
    uint8_t *out, size_t room, uint64_t *size, mdmp_fault *fault);
uint32_t mdmp_list_part_(const uint8_t *file, size_t file_size, const mdmp_limits *limits, bool pdb,
    uint64_t skip, uint8_t *out, size_t room, uint64_t *size, mdmp_fault *fault);
uint32_t mdmp_copy_(const uint8_t *file, size_t file_size, const mdmp_limits *limits, const uint32_t *types,
    size_t types_count, uint8_t *out, size_t room, uint64_t *size, mdmp_fault *fault);
uint32_t mdmp_threads_(const uint8_t *file, size_t file_size, const mdmp_limits *limits, mdmp_thread *out,
    size_t room, uint64_t *count, mdmp_fault *fault);
uint32_t mdmp_modules_(const uint8_t *file, size_t file_size, const mdmp_limits *limits, mdmp_module *out,
    size_t room, uint64_t *count, mdmp_fault *fault);
uint32_t mdmp_exceptions_(const uint8_t *file, size_t file_size, const mdmp_limits *limits,
    mdmp_exception *out, size_t room, uint64_t *count, mdmp_fault *fault);
uint32_t mdmp_systems_(const uint8_t *file, size_t file_size, const mdmp_limits *limits, mdmp_system *out,
    size_t room, uint64_t *count, mdmp_fault *fault);
uint32_t mdmp_unloaded_(const uint8_t *file, size_t file_size, const mdmp_limits *limits,
    mdmp_unloaded_module *out, size_t room, uint64_t *count, mdmp_fault *fault);
uint32_t mdmp_regions_(const uint8_t *file, size_t file_size, const mdmp_limits *limits, mdmp_region *out,
    size_t room, uint64_t *count, mdmp_fault *fault);
uint32_t mdmp_thread_names_(const uint8_t *file, size_t file_size, const mdmp_limits *limits,
    mdmp_thread_name *out, size_t room, uint64_t *count, mdmp_fault *fault);
uint32_t mdmp_ranges_(const uint8_t *file, size_t file_size, const mdmp_limits *limits, mdmp_range *out,
    size_t room, uint64_t *count, mdmp_fault *fault);
uint32_t mdmp_memory_(const uint8_t *file, size_t file_size, const mdmp_limits *limits, uint64_t address,
    uint8_t *out, size_t room, bool *known, size_t known_size, mdmp_fault *fault);
uint32_t mdmp_read_(const uint8_t *file, size_t file_size, const mdmp_range *ranges, size_t ranges_count,
    uint64_t address, uint8_t *out, size_t room, bool *known, size_t known_size, mdmp_fault *fault);
uint32_t mdmp_index_(const uint8_t *file, size_t file_size, const mdmp_range *ranges, size_t ranges_count,
    mdmp_slot *out, size_t room, uint64_t *count, mdmp_fault *fault);
uint32_t mdmp_index_modules_(const mdmp_module *modules, size_t modules_count, mdmp_slot *out, size_t room,
    uint64_t *count, mdmp_fault *fault);
uint32_t mdmp_read_index_(const uint8_t *file, size_t file_size, const mdmp_slot *slots, size_t slots_count,
    uint64_t address, uint8_t *out, size_t room, bool *known, size_t known_size, mdmp_fault *fault);
uint32_t mdmp_where_(const mdmp_slot *slots, size_t slots_count, uint64_t address, uint64_t *owner);
uint32_t mdmp_name_(const uint8_t *file, size_t file_size, uint64_t rva, uint32_t limit, uint8_t *out,
    size_t room, uint64_t *size, mdmp_fault *fault);
uint32_t mdmp_symbols_(const uint8_t *file, size_t file_size, const mdmp_limits *limits,
    const mdmp_place *place, mdmp_symbol_file *out, mdmp_fault *fault);
uint32_t mdmp_summary_(const uint8_t *file, size_t file_size, const mdmp_limits *limits,
    mdmp_summary_record *out, mdmp_fault *fault);
uint32_t mdmp_ids_(const uint8_t *file, size_t file_size, const mdmp_module *module, mdmp_module_ids *out);
uint32_t mdmp_fault_text_(const mdmp_fault *fault, uint8_t *out, size_t room, uint64_t *size);

/* Returns the header of a file whose directory is inside the file; else the status is MDMP_FAULT. The
 * checksum and the streams are not checked. If the status is not MDMP_OK, `out` is unchanged. Allocates
 * nothing. */
static inline uint32_t mdmp_header(const uint8_t *file, size_t file_size, mdmp_header_record *out,
    mdmp_fault *fault) {
    static uint8_t no_file;
    return mdmp_header_(file_size != 0 ? file : &no_file, file_size, out, fault);
}

/* Returns the entries of the directory, and does not check the streams that they name. Allocates nothing. */
static inline uint32_t mdmp_streams(const uint8_t *file, size_t file_size, mdmp_stream *out, size_t room,
    uint64_t *count, mdmp_fault *fault) {
    static uint8_t no_file;
    static mdmp_stream no_out;
    return mdmp_streams_(file_size != 0 ? file : &no_file, file_size, room != 0 ? out : &no_out, room, count,
        fault);
}

/* Returns the text of `mdmp check`: a line for each entry of the directory, which says that the entry is
 * good, or its first error. If an entry is bad, the status is MDMP_FAULT, `fault` is
 * MDMP_FAULT_BAD_ENTRIES, and `out` has the whole text. */
static inline uint32_t mdmp_check(const uint8_t *file, size_t file_size, const mdmp_limits *limits,
    uint8_t *out, size_t room, uint64_t *size, mdmp_fault *fault) {
    static uint8_t no_file;
    static uint8_t no_out;
    return mdmp_check_(file_size != 0 ? file : &no_file, file_size, limits, room != 0 ? out : &no_out, room,
        size, fault);
}

/* Returns the text of `mdmp check --json`, in UTF-8: a JSON object for each entry. A line feed ends each
 * object. Status and `fault` are those of mdmp_check. */
static inline uint32_t mdmp_check_json(const uint8_t *file, size_t file_size, const mdmp_limits *limits,
    uint8_t *out, size_t room, uint64_t *size, mdmp_fault *fault) {
    static uint8_t no_file;
    static uint8_t no_out;
    return mdmp_check_json_(file_size != 0 ? file : &no_file, file_size, limits, room != 0 ? out : &no_out,
        room, size, fault);
}

/* Returns the result of checking each entry of the directory, in the order of the directory: the first
 * error of the entry. If the entry is good, the kind is MDMP_FAULT_NONE, and `entry` is the number of the
 * entry. Status and `fault` are those of mdmp_check. If an entry is bad, all results are returned. */
static inline uint32_t mdmp_verdicts(const uint8_t *file, size_t file_size, const mdmp_limits *limits,
    mdmp_fault *out, size_t room, uint64_t *count, mdmp_fault *fault) {
    static uint8_t no_file;
    static mdmp_fault no_out;
    return mdmp_verdicts_(file_size != 0 ? file : &no_file, file_size, limits, room != 0 ? out : &no_out,
        room, count, fault);
}

/* Returns the parts of records, such as stacks, that are not inside the file, as `mdmp check --parts`
 * prints them. Each is an MDMP_FAULT_PART_OUTSIDE. They are in the order of the directory; an entry is
 * read up to its own error. If an entry has an error or such a part, the status is MDMP_FAULT, and `fault`
 * is MDMP_FAULT_BAD_ENTRIES with the number of these entries. */
static inline uint32_t mdmp_parts_outside(const uint8_t *file, size_t file_size, const mdmp_limits *limits,
    mdmp_fault *out, size_t room, uint64_t *count, mdmp_fault *fault) {
    static uint8_t no_file;
    static mdmp_fault no_out;
    return mdmp_parts_outside_(file_size != 0 ? file : &no_file, file_size, limits, room != 0 ? out : &no_out,
        room, count, fault);
}

/* Returns the text of `mdmp list` up to the first error: a line for the header, for each entry and for
 * each record. With `pdb` it is the text of `mdmp list --pdb`: a module whose CodeView record is inside
 * the file has a second line. `aside` limits the bytes of these records that are read. If `aside` ends the
 * list, the first line of that module is returned. */
static inline uint32_t mdmp_list(const uint8_t *file, size_t file_size, const mdmp_limits *limits, bool pdb,
    uint8_t *out, size_t room, uint64_t *size, mdmp_fault *fault) {
    static uint8_t no_file;
    static uint8_t no_out;
    return mdmp_list_(file_size != 0 ? file : &no_file, file_size, limits, pdb, room != 0 ? out : &no_out,
        room, size, fault);
}

/* Returns the text of `mdmp list --json` or `mdmp list --json --pdb`, in UTF-8: a JSON object in the place
 * of each line of mdmp_list. A line feed ends each object. */
static inline uint32_t mdmp_list_json(const uint8_t *file, size_t file_size, const mdmp_limits *limits,
    bool pdb, uint8_t *out, size_t room, uint64_t *size, mdmp_fault *fault) {
    static uint8_t no_file;
    static uint8_t no_out;
    return mdmp_list_json_(file_size != 0 ? file : &no_file, file_size, limits, pdb,
        room != 0 ? out : &no_out, room, size, fault);
}

/* Returns what follows the first `skip` bytes of the text of mdmp_list. `size` is how long that is. Status
 * and `fault` are those of the whole list. If the status is MDMP_BUFFER_TOO_SHORT, more follows: call
 * again with `skip + room`. The call has at most `room` bytes of the text in memory, and the lines of one
 * record. Each call lists the file again. */
static inline uint32_t mdmp_list_part(const uint8_t *file, size_t file_size, const mdmp_limits *limits,
    bool pdb, uint64_t skip, uint8_t *out, size_t room, uint64_t *size, mdmp_fault *fault) {
    static uint8_t no_file;
    static uint8_t no_out;
    return mdmp_list_part_(file_size != 0 ? file : &no_file, file_size, limits, pdb, skip,
        room != 0 ? out : &no_out, room, size, fault);
}

/* Returns the bytes of a new file, as `mdmp copy` writes it: the streams of 1 to 16 types, and all that
 * their records name. If one of these streams, names or parts has an error, the call returns nothing. If
 * the copy would read more than `budget`, it is not started: MDMP_FAULT_COPY_BUDGET says how many bytes it
 * needs. */
static inline uint32_t mdmp_copy(const uint8_t *file, size_t file_size, const mdmp_limits *limits,
    const uint32_t *types, size_t types_count, uint8_t *out, size_t room, uint64_t *size, mdmp_fault *fault) {
    static uint8_t no_file;
    static uint32_t no_types;
    static uint8_t no_out;
    return mdmp_copy_(file_size != 0 ? file : &no_file, file_size, limits,
        types_count != 0 ? types : &no_types, types_count, room != 0 ? out : &no_out, room, size, fault);
}

/* The threads: ThreadListStream. Returns the records of all these streams, in the order of the directory,
 * up to their first error. The call ignores errors of other streams. */
static inline uint32_t mdmp_threads(const uint8_t *file, size_t file_size, const mdmp_limits *limits,
    mdmp_thread *out, size_t room, uint64_t *count, mdmp_fault *fault) {
    static uint8_t no_file;
    static mdmp_thread no_out;
    return mdmp_threads_(file_size != 0 ? file : &no_file, file_size, limits, room != 0 ? out : &no_out, room,
        count, fault);
}

/* The modules: ModuleListStream. Returns the records of all these streams, in the order of the directory,
 * up to their first error. The call ignores errors of other streams. */
static inline uint32_t mdmp_modules(const uint8_t *file, size_t file_size, const mdmp_limits *limits,
    mdmp_module *out, size_t room, uint64_t *count, mdmp_fault *fault) {
    static uint8_t no_file;
    static mdmp_module no_out;
    return mdmp_modules_(file_size != 0 ? file : &no_file, file_size, limits, room != 0 ? out : &no_out, room,
        count, fault);
}

/* The exceptions: ExceptionStream. Most files have at most one. Returns the records of all these streams,
 * in the order of the directory, up to their first error. The call ignores errors of other streams. */
static inline uint32_t mdmp_exceptions(const uint8_t *file, size_t file_size, const mdmp_limits *limits,
    mdmp_exception *out, size_t room, uint64_t *count, mdmp_fault *fault) {
    static uint8_t no_file;
    static mdmp_exception no_out;
    return mdmp_exceptions_(file_size != 0 ? file : &no_file, file_size, limits, room != 0 ? out : &no_out,
        room, count, fault);
}

/* The system: SystemInfoStream. Most files have at most one. Returns the records of all these streams, in
 * the order of the directory, up to their first error. The call ignores errors of other streams. */
static inline uint32_t mdmp_systems(const uint8_t *file, size_t file_size, const mdmp_limits *limits,
    mdmp_system *out, size_t room, uint64_t *count, mdmp_fault *fault) {
    static uint8_t no_file;
    static mdmp_system no_out;
    return mdmp_systems_(file_size != 0 ? file : &no_file, file_size, limits, room != 0 ? out : &no_out, room,
        count, fault);
}

/* The unloaded modules: UnloadedModuleListStream. Returns the records of all these streams, in the order
 * of the directory, up to their first error. The call ignores errors of other streams. */
static inline uint32_t mdmp_unloaded(const uint8_t *file, size_t file_size, const mdmp_limits *limits,
    mdmp_unloaded_module *out, size_t room, uint64_t *count, mdmp_fault *fault) {
    static uint8_t no_file;
    static mdmp_unloaded_module no_out;
    return mdmp_unloaded_(file_size != 0 ? file : &no_file, file_size, limits, room != 0 ? out : &no_out,
        room, count, fault);
}

/* The regions of memory: MemoryInfoListStream. Returns the records of all these streams, in the order of
 * the directory, up to their first error. The call ignores errors of other streams. */
static inline uint32_t mdmp_regions(const uint8_t *file, size_t file_size, const mdmp_limits *limits,
    mdmp_region *out, size_t room, uint64_t *count, mdmp_fault *fault) {
    static uint8_t no_file;
    static mdmp_region no_out;
    return mdmp_regions_(file_size != 0 ? file : &no_file, file_size, limits, room != 0 ? out : &no_out, room,
        count, fault);
}

/* The names of threads: ThreadNamesStream. Returns the records of all these streams, in the order of the
 * directory, up to their first error. The call ignores errors of other streams. */
static inline uint32_t mdmp_thread_names(const uint8_t *file, size_t file_size, const mdmp_limits *limits,
    mdmp_thread_name *out, size_t room, uint64_t *count, mdmp_fault *fault) {
    static uint8_t no_file;
    static mdmp_thread_name no_out;
    return mdmp_thread_names_(file_size != 0 ? file : &no_file, file_size, limits, room != 0 ? out : &no_out,
        room, count, fault);
}

/* The ranges of memory whose bytes a file may have: MemoryListStream and Memory64ListStream. Returns the
 * records of all these streams, in the order of the directory, up to their first error. The call ignores
 * errors of other streams. */
static inline uint32_t mdmp_ranges(const uint8_t *file, size_t file_size, const mdmp_limits *limits,
    mdmp_range *out, size_t room, uint64_t *count, mdmp_fault *fault) {
    static uint8_t no_file;
    static mdmp_range no_out;
    return mdmp_ranges_(file_size != 0 ? file : &no_file, file_size, limits, room != 0 ? out : &no_out, room,
        count, fault);
}

/* Returns memory of the dumped process from `address` on. If known[i] is true, out[i] is the byte at
 * address + i; else both are 0. `room` and `known_size` must be equal. Addresses do not wrap: after 2^64 -
 * 1 nothing is known. If a memory list has an error, or a limit is reached, both buffers are unchanged.
 * `budget` does not count the bytes that are returned. */
static inline uint32_t mdmp_memory(const uint8_t *file, size_t file_size, const mdmp_limits *limits,
    uint64_t address, uint8_t *out, size_t room, bool *known, size_t known_size, mdmp_fault *fault) {
    static uint8_t no_file;
    static uint8_t no_out;
    static bool no_known;
    return mdmp_memory_(file_size != 0 ? file : &no_file, file_size, limits, address,
        room != 0 ? out : &no_out, room, known_size != 0 ? known : &no_known, known_size, fault);
}

/* Returns memory as mdmp_memory does, by ranges that mdmp_ranges returned and the caller keeps. The call
 * reads no list again, and allocates nothing. It skips ranges that are not MDMP_EXTENT_INSIDE. It also
 * skips ranges whose bytes are not inside the file, whatever `extent` says. */
static inline uint32_t mdmp_read(const uint8_t *file, size_t file_size, const mdmp_range *ranges,
    size_t ranges_count, uint64_t address, uint8_t *out, size_t room, bool *known, size_t known_size,
    mdmp_fault *fault) {
    static uint8_t no_file;
    static mdmp_range no_ranges;
    static uint8_t no_out;
    static bool no_known;
    return mdmp_read_(file_size != 0 ? file : &no_file, file_size, ranges_count != 0 ? ranges : &no_ranges,
        ranges_count, address, room != 0 ? out : &no_out, room, known_size != 0 ? known : &no_known,
        known_size, fault);
}

/* Returns an index of ranges that mdmp_ranges returned, for callers that read often: sorted slots that do
 * not overlap. A slot belongs to the first range that has its addresses. The index leaves out the ranges
 * that mdmp_read skips. Two slots for each range are enough. If `room` is less, the status is
 * MDMP_BUFFER_TOO_SHORT, `count` is that number, and `out` is unchanged. Allocates nothing. For r ranges,
 * the time is in proportion to r log r. */
static inline uint32_t mdmp_index(const uint8_t *file, size_t file_size, const mdmp_range *ranges,
    size_t ranges_count, mdmp_slot *out, size_t room, uint64_t *count, mdmp_fault *fault) {
    static uint8_t no_file;
    static mdmp_range no_ranges;
    static mdmp_slot no_out;
    return mdmp_index_(file_size != 0 ? file : &no_file, file_size, ranges_count != 0 ? ranges : &no_ranges,
        ranges_count, room != 0 ? out : &no_out, room, count, fault);
}

/* Returns an index of the images of modules that mdmp_modules returned, by base_of_image and
 * size_of_image. Slots, status and time are as for mdmp_index. */
static inline uint32_t mdmp_index_modules(const mdmp_module *modules, size_t modules_count, mdmp_slot *out,
    size_t room, uint64_t *count, mdmp_fault *fault) {
    static mdmp_module no_modules;
    static mdmp_slot no_out;
    return mdmp_index_modules_(modules_count != 0 ? modules : &no_modules, modules_count,
        room != 0 ? out : &no_out, room, count, fault);
}

/* Returns what mdmp_read returns, by an index that mdmp_index made of the same ranges and the same file.
 * It takes one binary search, and time in proportion to the bytes and to the slots that they are in. If
 * `slots` is not an index, the call returns bytes of the file, or none. Allocates nothing. */
static inline uint32_t mdmp_read_index(const uint8_t *file, size_t file_size, const mdmp_slot *slots,
    size_t slots_count, uint64_t address, uint8_t *out, size_t room, bool *known, size_t known_size,
    mdmp_fault *fault) {
    static uint8_t no_file;
    static mdmp_slot no_slots;
    static uint8_t no_out;
    static bool no_known;
    return mdmp_read_index_(file_size != 0 ? file : &no_file, file_size, slots_count != 0 ? slots : &no_slots,
        slots_count, address, room != 0 ? out : &no_out, room, known_size != 0 ? known : &no_known,
        known_size, fault);
}

/* Returns the owner of an address, by an index: the number of the first row that has the address. If no
 * row has the address, the number is 2^64 - 1. The status is always MDMP_OK. */
static inline uint32_t mdmp_where(const mdmp_slot *slots, size_t slots_count, uint64_t address,
    uint64_t *owner) {
    static mdmp_slot no_slots;
    return mdmp_where_(slots_count != 0 ? slots : &no_slots, slots_count, address, owner);
}

/* Returns the name at `rva` as UTF-8, without a zero byte at its end. If its UTF-16 units have more than
 * `limit` bytes, the status is MDMP_FAULT. A surrogate without its other half becomes U+FFFD. If `rva` is
 * 0 there is no name, and the text is empty. */
static inline uint32_t mdmp_name(const uint8_t *file, size_t file_size, uint64_t rva, uint32_t limit,
    uint8_t *out, size_t room, uint64_t *size, mdmp_fault *fault) {
    static uint8_t no_file;
    static uint8_t no_out;
    return mdmp_name_(file_size != 0 ? file : &no_file, file_size, rva, limit, room != 0 ? out : &no_out,
        room, size, fault);
}

/* Returns the CodeView record at `place`, which is the `codeview` of a module. The call does not use the
 * extent of the place: if the place is empty or not inside the file, the status is MDMP_FAULT. If the
 * status is not MDMP_OK, `out` is all zero. The call reads at most `limits->name` bytes of the name. If
 * none of these is zero, `name_size` is their number, and `name_ended` is 0. Allocates nothing. */
static inline uint32_t mdmp_symbols(const uint8_t *file, size_t file_size, const mdmp_limits *limits,
    const mdmp_place *place, mdmp_symbol_file *out, mdmp_fault *fault) {
    static uint8_t no_file;
    return mdmp_symbols_(file_size != 0 ? file : &no_file, file_size, limits, place, out, fault);
}

/* Returns what the file says of a crash and of itself. It covers all entries, each up to its own error, so
 * an error in an entry hides nothing of the others. If an entry is bad, the status is still MDMP_OK. If
 * the status is not MDMP_OK, `out` is unchanged. The call goes over the entries twice if there is a crash,
 * and `budget` counts both. It allocates the window, the directory and a name, and no ranges of memory. */
static inline uint32_t mdmp_summary(const uint8_t *file, size_t file_size, const mdmp_limits *limits,
    mdmp_summary_record *out, mdmp_fault *fault) {
    static uint8_t no_file;
    return mdmp_summary_(file_size != 0 ? file : &no_file, file_size, limits, out, fault);
}

/* Returns the ids by which symbol servers know a module. The call uses `codeview`, `time_date_stamp` and
 * `size_of_image` of the module, and not the extent of `codeview`: if that place is not inside the file,
 * the kind is MDMP_IDS_NONE. The status is always MDMP_OK. Allocates nothing. */
static inline uint32_t mdmp_ids(const uint8_t *file, size_t file_size, const mdmp_module *module,
    mdmp_module_ids *out) {
    static uint8_t no_file;
    return mdmp_ids_(file_size != 0 ? file : &no_file, file_size, module, out);
}

/* Returns the message of the command for an error, without `mdmp: ` and without a line feed. For
 * MDMP_FAULT_NONE the text is empty. mdmp_name and mdmp_symbols know no entry: the message of their errors
 * says entry 0. From MDMP_FAULT_BAD_LIMITS to MDMP_FAULT_LENGTHS_DIFFER, the message is the library's own.
 * If the library does not know the kind or the part, the status is MDMP_BAD_ARGUMENT, and `size` is 0. */
static inline uint32_t mdmp_fault_text(const mdmp_fault *fault, uint8_t *out, size_t room, uint64_t *size) {
    static uint8_t no_out;
    return mdmp_fault_text_(fault, room != 0 ? out : &no_out, room, size);
}

/* The layout of the library: no padding, and each field at its offset. */
#ifdef __cplusplus
#define MDMP_ASSERT_(condition, words) static_assert(condition, words)
#else
#define MDMP_ASSERT_(condition, words) _Static_assert(condition, words)
#endif
MDMP_ASSERT_(sizeof(bool) == 1, "bool");
MDMP_ASSERT_(sizeof(mdmp_limits) == 32, "mdmp_limits");
MDMP_ASSERT_(offsetof(mdmp_limits, window) == 0, "mdmp_limits.window");
MDMP_ASSERT_(offsetof(mdmp_limits, name) == 4, "mdmp_limits.name");
MDMP_ASSERT_(offsetof(mdmp_limits, budget) == 8, "mdmp_limits.budget");
MDMP_ASSERT_(offsetof(mdmp_limits, memory) == 16, "mdmp_limits.memory");
MDMP_ASSERT_(offsetof(mdmp_limits, aside) == 24, "mdmp_limits.aside");
MDMP_ASSERT_(sizeof(mdmp_fault) == 64, "mdmp_fault");
MDMP_ASSERT_(offsetof(mdmp_fault, kind) == 0, "mdmp_fault.kind");
MDMP_ASSERT_(offsetof(mdmp_fault, entry) == 4, "mdmp_fault.entry");
MDMP_ASSERT_(offsetof(mdmp_fault, index) == 8, "mdmp_fault.index");
MDMP_ASSERT_(offsetof(mdmp_fault, offset) == 16, "mdmp_fault.offset");
MDMP_ASSERT_(offsetof(mdmp_fault, size) == 24, "mdmp_fault.size");
MDMP_ASSERT_(offsetof(mdmp_fault, high) == 32, "mdmp_fault.high");
MDMP_ASSERT_(offsetof(mdmp_fault, part) == 40, "mdmp_fault.part");
MDMP_ASSERT_(offsetof(mdmp_fault, has_index) == 44, "mdmp_fault.has_index");
MDMP_ASSERT_(offsetof(mdmp_fault, reserved) == 48, "mdmp_fault.reserved");
MDMP_ASSERT_(sizeof(mdmp_place) == 16, "mdmp_place");
MDMP_ASSERT_(offsetof(mdmp_place, size) == 0, "mdmp_place.size");
MDMP_ASSERT_(offsetof(mdmp_place, rva) == 4, "mdmp_place.rva");
MDMP_ASSERT_(offsetof(mdmp_place, extent) == 8, "mdmp_place.extent");
MDMP_ASSERT_(offsetof(mdmp_place, reserved) == 12, "mdmp_place.reserved");
MDMP_ASSERT_(sizeof(mdmp_name_place) == 16, "mdmp_name_place");
MDMP_ASSERT_(offsetof(mdmp_name_place, rva) == 0, "mdmp_name_place.rva");
MDMP_ASSERT_(offsetof(mdmp_name_place, size) == 8, "mdmp_name_place.size");
MDMP_ASSERT_(offsetof(mdmp_name_place, state) == 12, "mdmp_name_place.state");
MDMP_ASSERT_(sizeof(mdmp_header_record) == 40, "mdmp_header_record");
MDMP_ASSERT_(offsetof(mdmp_header_record, flags) == 0, "mdmp_header_record.flags");
MDMP_ASSERT_(offsetof(mdmp_header_record, signature) == 8, "mdmp_header_record.signature");
MDMP_ASSERT_(offsetof(mdmp_header_record, version) == 12, "mdmp_header_record.version");
MDMP_ASSERT_(offsetof(mdmp_header_record, number_of_streams) == 16, "mdmp_header_record.number_of_streams");
MDMP_ASSERT_(offsetof(mdmp_header_record, stream_directory_rva) == 20, "mdmp_header_record.stream_directory_rva");
MDMP_ASSERT_(offsetof(mdmp_header_record, checksum) == 24, "mdmp_header_record.checksum");
MDMP_ASSERT_(offsetof(mdmp_header_record, time_date_stamp) == 28, "mdmp_header_record.time_date_stamp");
MDMP_ASSERT_(offsetof(mdmp_header_record, reserved) == 32, "mdmp_header_record.reserved");
MDMP_ASSERT_(sizeof(mdmp_stream) == 24, "mdmp_stream");
MDMP_ASSERT_(offsetof(mdmp_stream, entry) == 0, "mdmp_stream.entry");
MDMP_ASSERT_(offsetof(mdmp_stream, stream_type) == 4, "mdmp_stream.stream_type");
MDMP_ASSERT_(offsetof(mdmp_stream, size) == 8, "mdmp_stream.size");
MDMP_ASSERT_(offsetof(mdmp_stream, rva) == 12, "mdmp_stream.rva");
MDMP_ASSERT_(offsetof(mdmp_stream, reserved) == 16, "mdmp_stream.reserved");
MDMP_ASSERT_(sizeof(mdmp_thread) == 88, "mdmp_thread");
MDMP_ASSERT_(offsetof(mdmp_thread, index) == 0, "mdmp_thread.index");
MDMP_ASSERT_(offsetof(mdmp_thread, teb) == 8, "mdmp_thread.teb");
MDMP_ASSERT_(offsetof(mdmp_thread, stack_start) == 16, "mdmp_thread.stack_start");
MDMP_ASSERT_(offsetof(mdmp_thread, entry) == 24, "mdmp_thread.entry");
MDMP_ASSERT_(offsetof(mdmp_thread, thread_id) == 28, "mdmp_thread.thread_id");
MDMP_ASSERT_(offsetof(mdmp_thread, suspend_count) == 32, "mdmp_thread.suspend_count");
MDMP_ASSERT_(offsetof(mdmp_thread, priority_class) == 36, "mdmp_thread.priority_class");
MDMP_ASSERT_(offsetof(mdmp_thread, priority) == 40, "mdmp_thread.priority");
MDMP_ASSERT_(offsetof(mdmp_thread, stack) == 44, "mdmp_thread.stack");
MDMP_ASSERT_(offsetof(mdmp_thread, context) == 60, "mdmp_thread.context");
MDMP_ASSERT_(offsetof(mdmp_thread, reserved) == 76, "mdmp_thread.reserved");
MDMP_ASSERT_(sizeof(mdmp_module) == 104, "mdmp_module");
MDMP_ASSERT_(offsetof(mdmp_module, index) == 0, "mdmp_module.index");
MDMP_ASSERT_(offsetof(mdmp_module, base_of_image) == 8, "mdmp_module.base_of_image");
MDMP_ASSERT_(offsetof(mdmp_module, entry) == 16, "mdmp_module.entry");
MDMP_ASSERT_(offsetof(mdmp_module, size_of_image) == 20, "mdmp_module.size_of_image");
MDMP_ASSERT_(offsetof(mdmp_module, checksum) == 24, "mdmp_module.checksum");
MDMP_ASSERT_(offsetof(mdmp_module, time_date_stamp) == 28, "mdmp_module.time_date_stamp");
MDMP_ASSERT_(offsetof(mdmp_module, file_version_ms) == 32, "mdmp_module.file_version_ms");
MDMP_ASSERT_(offsetof(mdmp_module, file_version_ls) == 36, "mdmp_module.file_version_ls");
MDMP_ASSERT_(offsetof(mdmp_module, product_version_ms) == 40, "mdmp_module.product_version_ms");
MDMP_ASSERT_(offsetof(mdmp_module, product_version_ls) == 44, "mdmp_module.product_version_ls");
MDMP_ASSERT_(offsetof(mdmp_module, name) == 48, "mdmp_module.name");
MDMP_ASSERT_(offsetof(mdmp_module, codeview) == 64, "mdmp_module.codeview");
MDMP_ASSERT_(offsetof(mdmp_module, misc) == 80, "mdmp_module.misc");
MDMP_ASSERT_(offsetof(mdmp_module, reserved) == 96, "mdmp_module.reserved");
MDMP_ASSERT_(sizeof(mdmp_exception) == 192, "mdmp_exception");
MDMP_ASSERT_(offsetof(mdmp_exception, index) == 0, "mdmp_exception.index");
MDMP_ASSERT_(offsetof(mdmp_exception, exception_record) == 8, "mdmp_exception.exception_record");
MDMP_ASSERT_(offsetof(mdmp_exception, exception_address) == 16, "mdmp_exception.exception_address");
MDMP_ASSERT_(offsetof(mdmp_exception, information) == 24, "mdmp_exception.information");
MDMP_ASSERT_(offsetof(mdmp_exception, entry) == 144, "mdmp_exception.entry");
MDMP_ASSERT_(offsetof(mdmp_exception, thread_id) == 148, "mdmp_exception.thread_id");
MDMP_ASSERT_(offsetof(mdmp_exception, exception_code) == 152, "mdmp_exception.exception_code");
MDMP_ASSERT_(offsetof(mdmp_exception, exception_flags) == 156, "mdmp_exception.exception_flags");
MDMP_ASSERT_(offsetof(mdmp_exception, number_parameters) == 160, "mdmp_exception.number_parameters");
MDMP_ASSERT_(offsetof(mdmp_exception, context) == 164, "mdmp_exception.context");
MDMP_ASSERT_(offsetof(mdmp_exception, reserved) == 180, "mdmp_exception.reserved");
MDMP_ASSERT_(sizeof(mdmp_system) == 104, "mdmp_system");
MDMP_ASSERT_(offsetof(mdmp_system, index) == 0, "mdmp_system.index");
MDMP_ASSERT_(offsetof(mdmp_system, csd_version) == 8, "mdmp_system.csd_version");
MDMP_ASSERT_(offsetof(mdmp_system, entry) == 24, "mdmp_system.entry");
MDMP_ASSERT_(offsetof(mdmp_system, processor_architecture) == 28, "mdmp_system.processor_architecture");
MDMP_ASSERT_(offsetof(mdmp_system, processor_level) == 32, "mdmp_system.processor_level");
MDMP_ASSERT_(offsetof(mdmp_system, processor_revision) == 36, "mdmp_system.processor_revision");
MDMP_ASSERT_(offsetof(mdmp_system, number_of_processors) == 40, "mdmp_system.number_of_processors");
MDMP_ASSERT_(offsetof(mdmp_system, product_type) == 44, "mdmp_system.product_type");
MDMP_ASSERT_(offsetof(mdmp_system, major_version) == 48, "mdmp_system.major_version");
MDMP_ASSERT_(offsetof(mdmp_system, minor_version) == 52, "mdmp_system.minor_version");
MDMP_ASSERT_(offsetof(mdmp_system, build_number) == 56, "mdmp_system.build_number");
MDMP_ASSERT_(offsetof(mdmp_system, platform_id) == 60, "mdmp_system.platform_id");
MDMP_ASSERT_(offsetof(mdmp_system, suite_mask) == 64, "mdmp_system.suite_mask");
MDMP_ASSERT_(offsetof(mdmp_system, cpu) == 68, "mdmp_system.cpu");
MDMP_ASSERT_(offsetof(mdmp_system, reserved) == 92, "mdmp_system.reserved");
MDMP_ASSERT_(sizeof(mdmp_unloaded_module) == 56, "mdmp_unloaded_module");
MDMP_ASSERT_(offsetof(mdmp_unloaded_module, index) == 0, "mdmp_unloaded_module.index");
MDMP_ASSERT_(offsetof(mdmp_unloaded_module, base_of_image) == 8, "mdmp_unloaded_module.base_of_image");
MDMP_ASSERT_(offsetof(mdmp_unloaded_module, entry) == 16, "mdmp_unloaded_module.entry");
MDMP_ASSERT_(offsetof(mdmp_unloaded_module, size_of_image) == 20, "mdmp_unloaded_module.size_of_image");
MDMP_ASSERT_(offsetof(mdmp_unloaded_module, checksum) == 24, "mdmp_unloaded_module.checksum");
MDMP_ASSERT_(offsetof(mdmp_unloaded_module, time_date_stamp) == 28, "mdmp_unloaded_module.time_date_stamp");
MDMP_ASSERT_(offsetof(mdmp_unloaded_module, name) == 32, "mdmp_unloaded_module.name");
MDMP_ASSERT_(offsetof(mdmp_unloaded_module, reserved) == 48, "mdmp_unloaded_module.reserved");
MDMP_ASSERT_(sizeof(mdmp_region) == 64, "mdmp_region");
MDMP_ASSERT_(offsetof(mdmp_region, index) == 0, "mdmp_region.index");
MDMP_ASSERT_(offsetof(mdmp_region, base_address) == 8, "mdmp_region.base_address");
MDMP_ASSERT_(offsetof(mdmp_region, allocation_base) == 16, "mdmp_region.allocation_base");
MDMP_ASSERT_(offsetof(mdmp_region, region_size) == 24, "mdmp_region.region_size");
MDMP_ASSERT_(offsetof(mdmp_region, entry) == 32, "mdmp_region.entry");
MDMP_ASSERT_(offsetof(mdmp_region, allocation_protect) == 36, "mdmp_region.allocation_protect");
MDMP_ASSERT_(offsetof(mdmp_region, state) == 40, "mdmp_region.state");
MDMP_ASSERT_(offsetof(mdmp_region, protect) == 44, "mdmp_region.protect");
MDMP_ASSERT_(offsetof(mdmp_region, memory_type) == 48, "mdmp_region.memory_type");
MDMP_ASSERT_(offsetof(mdmp_region, reserved) == 52, "mdmp_region.reserved");
MDMP_ASSERT_(sizeof(mdmp_thread_name) == 40, "mdmp_thread_name");
MDMP_ASSERT_(offsetof(mdmp_thread_name, index) == 0, "mdmp_thread_name.index");
MDMP_ASSERT_(offsetof(mdmp_thread_name, entry) == 8, "mdmp_thread_name.entry");
MDMP_ASSERT_(offsetof(mdmp_thread_name, thread_id) == 12, "mdmp_thread_name.thread_id");
MDMP_ASSERT_(offsetof(mdmp_thread_name, name) == 16, "mdmp_thread_name.name");
MDMP_ASSERT_(offsetof(mdmp_thread_name, reserved) == 32, "mdmp_thread_name.reserved");
MDMP_ASSERT_(sizeof(mdmp_range) == 56, "mdmp_range");
MDMP_ASSERT_(offsetof(mdmp_range, index) == 0, "mdmp_range.index");
MDMP_ASSERT_(offsetof(mdmp_range, start) == 8, "mdmp_range.start");
MDMP_ASSERT_(offsetof(mdmp_range, size) == 16, "mdmp_range.size");
MDMP_ASSERT_(offsetof(mdmp_range, offset) == 24, "mdmp_range.offset");
MDMP_ASSERT_(offsetof(mdmp_range, offset_high) == 32, "mdmp_range.offset_high");
MDMP_ASSERT_(offsetof(mdmp_range, entry) == 40, "mdmp_range.entry");
MDMP_ASSERT_(offsetof(mdmp_range, extent) == 44, "mdmp_range.extent");
MDMP_ASSERT_(offsetof(mdmp_range, reserved) == 48, "mdmp_range.reserved");
MDMP_ASSERT_(sizeof(mdmp_slot) == 32, "mdmp_slot");
MDMP_ASSERT_(offsetof(mdmp_slot, start) == 0, "mdmp_slot.start");
MDMP_ASSERT_(offsetof(mdmp_slot, length) == 8, "mdmp_slot.length");
MDMP_ASSERT_(offsetof(mdmp_slot, offset) == 16, "mdmp_slot.offset");
MDMP_ASSERT_(offsetof(mdmp_slot, owner) == 24, "mdmp_slot.owner");
MDMP_ASSERT_(sizeof(mdmp_symbol_file) == 56, "mdmp_symbol_file");
MDMP_ASSERT_(offsetof(mdmp_symbol_file, name_offset) == 0, "mdmp_symbol_file.name_offset");
MDMP_ASSERT_(offsetof(mdmp_symbol_file, kind) == 8, "mdmp_symbol_file.kind");
MDMP_ASSERT_(offsetof(mdmp_symbol_file, age) == 12, "mdmp_symbol_file.age");
MDMP_ASSERT_(offsetof(mdmp_symbol_file, name_size) == 16, "mdmp_symbol_file.name_size");
MDMP_ASSERT_(offsetof(mdmp_symbol_file, name_ended) == 20, "mdmp_symbol_file.name_ended");
MDMP_ASSERT_(offsetof(mdmp_symbol_file, guid) == 24, "mdmp_symbol_file.guid");
MDMP_ASSERT_(offsetof(mdmp_symbol_file, signature) == 40, "mdmp_symbol_file.signature");
MDMP_ASSERT_(offsetof(mdmp_symbol_file, reserved) == 44, "mdmp_symbol_file.reserved");
MDMP_ASSERT_(sizeof(mdmp_module_ids) == 64, "mdmp_module_ids");
MDMP_ASSERT_(offsetof(mdmp_module_ids, kind) == 0, "mdmp_module_ids.kind");
MDMP_ASSERT_(offsetof(mdmp_module_ids, age) == 4, "mdmp_module_ids.age");
MDMP_ASSERT_(offsetof(mdmp_module_ids, guid) == 8, "mdmp_module_ids.guid");
MDMP_ASSERT_(offsetof(mdmp_module_ids, signature) == 24, "mdmp_module_ids.signature");
MDMP_ASSERT_(offsetof(mdmp_module_ids, build_id_size) == 28, "mdmp_module_ids.build_id_size");
MDMP_ASSERT_(offsetof(mdmp_module_ids, build_id_cut) == 32, "mdmp_module_ids.build_id_cut");
MDMP_ASSERT_(offsetof(mdmp_module_ids, time_date_stamp) == 36, "mdmp_module_ids.time_date_stamp");
MDMP_ASSERT_(offsetof(mdmp_module_ids, size_of_image) == 40, "mdmp_module_ids.size_of_image");
MDMP_ASSERT_(offsetof(mdmp_module_ids, build_id) == 44, "mdmp_module_ids.build_id");
MDMP_ASSERT_(sizeof(mdmp_registers) == 24, "mdmp_registers");
MDMP_ASSERT_(offsetof(mdmp_registers, instruction) == 0, "mdmp_registers.instruction");
MDMP_ASSERT_(offsetof(mdmp_registers, stack) == 8, "mdmp_registers.stack");
MDMP_ASSERT_(offsetof(mdmp_registers, frame) == 16, "mdmp_registers.frame");
MDMP_ASSERT_(sizeof(mdmp_summary_module) == 72, "mdmp_summary_module");
MDMP_ASSERT_(offsetof(mdmp_summary_module, base_of_image) == 0, "mdmp_summary_module.base_of_image");
MDMP_ASSERT_(offsetof(mdmp_summary_module, name) == 8, "mdmp_summary_module.name");
MDMP_ASSERT_(offsetof(mdmp_summary_module, size_of_image) == 24, "mdmp_summary_module.size_of_image");
MDMP_ASSERT_(offsetof(mdmp_summary_module, checksum) == 28, "mdmp_summary_module.checksum");
MDMP_ASSERT_(offsetof(mdmp_summary_module, time_date_stamp) == 32, "mdmp_summary_module.time_date_stamp");
MDMP_ASSERT_(offsetof(mdmp_summary_module, file_version_ms) == 36, "mdmp_summary_module.file_version_ms");
MDMP_ASSERT_(offsetof(mdmp_summary_module, file_version_ls) == 40, "mdmp_summary_module.file_version_ls");
MDMP_ASSERT_(offsetof(mdmp_summary_module, product_version_ms) == 44, "mdmp_summary_module.product_version_ms");
MDMP_ASSERT_(offsetof(mdmp_summary_module, product_version_ls) == 48, "mdmp_summary_module.product_version_ls");
MDMP_ASSERT_(offsetof(mdmp_summary_module, codeview) == 52, "mdmp_summary_module.codeview");
MDMP_ASSERT_(offsetof(mdmp_summary_module, reserved) == 68, "mdmp_summary_module.reserved");
MDMP_ASSERT_(sizeof(mdmp_place_in_module) == 80, "mdmp_place_in_module");
MDMP_ASSERT_(offsetof(mdmp_place_in_module, module) == 0, "mdmp_place_in_module.module");
MDMP_ASSERT_(offsetof(mdmp_place_in_module, offset) == 72, "mdmp_place_in_module.offset");
MDMP_ASSERT_(sizeof(mdmp_summary_system) == 88, "mdmp_summary_system");
MDMP_ASSERT_(offsetof(mdmp_summary_system, csd_version) == 0, "mdmp_summary_system.csd_version");
MDMP_ASSERT_(offsetof(mdmp_summary_system, processor_architecture) == 16, "mdmp_summary_system.processor_architecture");
MDMP_ASSERT_(offsetof(mdmp_summary_system, processor_level) == 20, "mdmp_summary_system.processor_level");
MDMP_ASSERT_(offsetof(mdmp_summary_system, processor_revision) == 24, "mdmp_summary_system.processor_revision");
MDMP_ASSERT_(offsetof(mdmp_summary_system, number_of_processors) == 28, "mdmp_summary_system.number_of_processors");
MDMP_ASSERT_(offsetof(mdmp_summary_system, product_type) == 32, "mdmp_summary_system.product_type");
MDMP_ASSERT_(offsetof(mdmp_summary_system, major_version) == 36, "mdmp_summary_system.major_version");
MDMP_ASSERT_(offsetof(mdmp_summary_system, minor_version) == 40, "mdmp_summary_system.minor_version");
MDMP_ASSERT_(offsetof(mdmp_summary_system, build_number) == 44, "mdmp_summary_system.build_number");
MDMP_ASSERT_(offsetof(mdmp_summary_system, platform_id) == 48, "mdmp_summary_system.platform_id");
MDMP_ASSERT_(offsetof(mdmp_summary_system, suite_mask) == 52, "mdmp_summary_system.suite_mask");
MDMP_ASSERT_(offsetof(mdmp_summary_system, cpu) == 56, "mdmp_summary_system.cpu");
MDMP_ASSERT_(offsetof(mdmp_summary_system, reserved) == 80, "mdmp_summary_system.reserved");
MDMP_ASSERT_(sizeof(mdmp_counts) == 56, "mdmp_counts");
MDMP_ASSERT_(offsetof(mdmp_counts, streams) == 0, "mdmp_counts.streams");
MDMP_ASSERT_(offsetof(mdmp_counts, threads) == 8, "mdmp_counts.threads");
MDMP_ASSERT_(offsetof(mdmp_counts, modules) == 16, "mdmp_counts.modules");
MDMP_ASSERT_(offsetof(mdmp_counts, exceptions) == 24, "mdmp_counts.exceptions");
MDMP_ASSERT_(offsetof(mdmp_counts, ranges) == 32, "mdmp_counts.ranges");
MDMP_ASSERT_(offsetof(mdmp_counts, memory) == 40, "mdmp_counts.memory");
MDMP_ASSERT_(offsetof(mdmp_counts, memory_high) == 48, "mdmp_counts.memory_high");
MDMP_ASSERT_(sizeof(mdmp_crash) == 424, "mdmp_crash");
MDMP_ASSERT_(offsetof(mdmp_crash, exception) == 0, "mdmp_crash.exception");
MDMP_ASSERT_(offsetof(mdmp_crash, thread_name) == 192, "mdmp_crash.thread_name");
MDMP_ASSERT_(offsetof(mdmp_crash, address) == 208, "mdmp_crash.address");
MDMP_ASSERT_(offsetof(mdmp_crash, registers) == 216, "mdmp_crash.registers");
MDMP_ASSERT_(offsetof(mdmp_crash, module) == 240, "mdmp_crash.module");
MDMP_ASSERT_(offsetof(mdmp_crash, near) == 320, "mdmp_crash.near");
MDMP_ASSERT_(offsetof(mdmp_crash, reached) == 400, "mdmp_crash.reached");
MDMP_ASSERT_(offsetof(mdmp_crash, access) == 408, "mdmp_crash.access");
MDMP_ASSERT_(offsetof(mdmp_crash, has_registers) == 412, "mdmp_crash.has_registers");
MDMP_ASSERT_(offsetof(mdmp_crash, has_module) == 416, "mdmp_crash.has_module");
MDMP_ASSERT_(offsetof(mdmp_crash, has_near) == 420, "mdmp_crash.has_near");
MDMP_ASSERT_(sizeof(mdmp_summary_record) == 840, "mdmp_summary_record");
MDMP_ASSERT_(offsetof(mdmp_summary_record, header) == 0, "mdmp_summary_record.header");
MDMP_ASSERT_(offsetof(mdmp_summary_record, counts) == 40, "mdmp_summary_record.counts");
MDMP_ASSERT_(offsetof(mdmp_summary_record, bad_entries) == 96, "mdmp_summary_record.bad_entries");
MDMP_ASSERT_(offsetof(mdmp_summary_record, first_error) == 104, "mdmp_summary_record.first_error");
MDMP_ASSERT_(offsetof(mdmp_summary_record, parts_outside) == 168, "mdmp_summary_record.parts_outside");
MDMP_ASSERT_(offsetof(mdmp_summary_record, first_outside) == 176, "mdmp_summary_record.first_outside");
MDMP_ASSERT_(offsetof(mdmp_summary_record, crash) == 240, "mdmp_summary_record.crash");
MDMP_ASSERT_(offsetof(mdmp_summary_record, program) == 664, "mdmp_summary_record.program");
MDMP_ASSERT_(offsetof(mdmp_summary_record, system) == 736, "mdmp_summary_record.system");
MDMP_ASSERT_(offsetof(mdmp_summary_record, has_crash) == 824, "mdmp_summary_record.has_crash");
MDMP_ASSERT_(offsetof(mdmp_summary_record, has_program) == 828, "mdmp_summary_record.has_program");
MDMP_ASSERT_(offsetof(mdmp_summary_record, has_system) == 832, "mdmp_summary_record.has_system");
MDMP_ASSERT_(offsetof(mdmp_summary_record, reserved) == 836, "mdmp_summary_record.reserved");
#undef MDMP_ASSERT_

#ifdef __cplusplus
}
#endif

#endif
