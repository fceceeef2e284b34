/* What each call answers of a small dump, of wrong arguments, and of NULL beside a length of 0. */
#include "fillers.h"
#include "small.h"

static mdmp_fault fault;

static void test_small_dump(void) {
    mdmp_header_record header;
    ASSERT(mdmp_header(FILE_OF(SYSTEM), &header, &fault) == MDMP_OK);
    ASSERT(header.version == 0xa793 && header.number_of_streams == 1 && header.stream_directory_rva == 32);
    mdmp_system system;
    uint64_t count, size;
    ASSERT(mdmp_systems(FILE_OF(SYSTEM), &LIMITS, &system, 1, &count, &fault) == MDMP_OK && count == 1);
    ASSERT(system.processor_architecture == 9 && system.processor_level == 6 && system.processor_revision == 3);
    ASSERT(system.number_of_processors == 4 && system.product_type == 1 && system.major_version == 6);
    ASSERT(system.minor_version == 1 && system.build_number == 7601 && system.platform_id == 2 &&
           system.suite_mask == 256);
    ASSERT(system.csd_version.rva == 100 && system.csd_version.size == 28 &&
           system.csd_version.state == MDMP_NAME_GIVEN);
    uint8_t name[14];
    ASSERT(mdmp_name(FILE_OF(SYSTEM), 100, 4096, name, sizeof name, &size, &fault) == MDMP_OK);
    ASSERT(size == 14 && memcmp(name, "Service Pack 1", 14) == 0);
    /* a name that is longer than its limit is told by its length */
    ASSERT(mdmp_name(FILE_OF(SYSTEM), 100, 27, name, sizeof name, &size, &fault) == MDMP_FAULT);
    ASSERT(fault.kind == MDMP_FAULT_NAME_TOO_LONG && fault.size == 28 && size == 0);
    mdmp_limits short_names = LIMITS;
    short_names.name = 27;
    ASSERT(mdmp_systems(FILE_OF(SYSTEM), &short_names, &system, 1, &count, &fault) == MDMP_OK);
    ASSERT(system.csd_version.state == MDMP_NAME_LONG && system.csd_version.size == 28);
    ASSERT(mdmp_name(FILE_OF(SYSTEM), UINT64_MAX - 1, 4096, name, sizeof name, &size, &fault) == MDMP_FAULT);
    ASSERT(fault.kind == MDMP_FAULT_NAME_LENGTH_OUTSIDE && fault.offset == UINT64_MAX - 1 && size == 0);
    mdmp_fault verdict;
    ASSERT(mdmp_verdicts(FILE_OF(SYSTEM), &LIMITS, &verdict, 1, &count, &fault) == MDMP_OK && count == 1);
    ASSERT(verdict.kind == MDMP_FAULT_NONE && verdict.entry == 0);
}

/* The first part of the dump has its stream outside, and each call says so in its own way. */
static void test_bad_entry(void) {
    uint64_t count, size;
    mdmp_fault verdict;
    uint8_t text[64];
    ASSERT(mdmp_verdicts(SYSTEM, 99, &LIMITS, &verdict, 1, &count, &fault) == MDMP_FAULT && count == 1);
    ASSERT(fault.kind == MDMP_FAULT_BAD_ENTRIES && fault.size == 1);
    ASSERT(verdict.kind == MDMP_FAULT_STREAM_OUTSIDE && verdict.entry == 0 && verdict.offset == 44 && verdict.size == 56);
    static const char WORDS[] = "entry 0: stream outside the file: offset 44 size 56";
    ASSERT(mdmp_fault_text(&verdict, text, sizeof text, &size) == MDMP_OK);
    ASSERT(size == sizeof WORDS - 1 && memcmp(text, WORDS, (size_t)size) == 0);
    memset(text, 0xaa, sizeof text);
    ASSERT(mdmp_fault_text(&verdict, text, 8, &size) == MDMP_BUFFER_TOO_SHORT && size == sizeof WORDS - 1);
    ASSERT(memcmp(text, WORDS, 8) == 0 && text[8] == 0xaa);
    mdmp_system system;
    ASSERT(mdmp_systems(SYSTEM, 99, &LIMITS, &system, 1, &count, &fault) == MDMP_FAULT && count == 0);
    ASSERT(fault.kind == MDMP_FAULT_STREAM_OUTSIDE);
    ASSERT(mdmp_memory(SYSTEM, 99, &LIMITS, 0, NULL, 0, NULL, 0, &fault) == MDMP_OK);
    mdmp_stream stream;
    ASSERT(mdmp_streams(SYSTEM, 99, &stream, 1, &count, &fault) == MDMP_OK && count == 1 && stream.size == 56);
}

static void test_arguments(void) {
    uint8_t out[512];
    bool known[8];
    uint64_t size;
    uint32_t types[17] = {3, 4, 5, 6, 7, 9, 14, 16, 0, 10, 11, 15, 0x10000, 0x10001, 0x10002, 0x10003, 0x10004};
    ASSERT(mdmp_copy(FILE_OF(SYSTEM), &LIMITS, types, 16, out, sizeof out, &size, &fault) == MDMP_OK && size >= 136);
    for (size_t count = 0; count <= 17; count += 17) {
        ASSERT(
            mdmp_copy(FILE_OF(SYSTEM), &LIMITS, types, count, out, sizeof out, &size, &fault) == MDMP_BAD_ARGUMENT);
        ASSERT(fault.kind == MDMP_FAULT_BAD_TYPES && size == 0);
    }
    types[1] = 12;
    ASSERT(mdmp_copy(FILE_OF(SYSTEM), &LIMITS, types, 2, out, sizeof out, &size, &fault) == MDMP_BAD_ARGUMENT);
    ASSERT(fault.kind == MDMP_FAULT_NOT_COPIED && fault.size == 12 && size == 0);
    memset(out, 0xaa, sizeof out);
    ASSERT(mdmp_memory(FILE_OF(SYSTEM), &LIMITS, 0, out, 7, known, 8, &fault) == MDMP_BAD_ARGUMENT);
    ASSERT(fault.kind == MDMP_FAULT_LENGTHS_DIFFER && out[0] == 0xaa);
    ASSERT(mdmp_read(FILE_OF(SYSTEM), NULL, 0, 0, out, 8, known, 7, &fault) == MDMP_BAD_ARGUMENT);
    ASSERT(fault.kind == MDMP_FAULT_LENGTHS_DIFFER && out[0] == 0xaa);
    /* a part of a text that begins behind its end is none */
    ASSERT(
        mdmp_list_part(FILE_OF(SYSTEM), &LIMITS, false, UINT64_MAX, NULL, 0, &size, &fault) == MDMP_OK && size == 0);
}

/* Of 1 to 16 types each is looked at, wherever it is, and none after them: their array ends where a page begins that can't be
 * touched, or a type follows that is not copied. */
static void test_types(void) {
    uint8_t out[512];
    uint64_t size;
    fenced pages = fenced_new(16 * sizeof(uint32_t));
    for (size_t count = 1; count <= 16; count++) {
        uint32_t *types = fenced_last(&pages, count * sizeof *types), more[17];
        for (size_t i = 0; i < count; i++) {
            types[i] = more[i] = 7;
        }
        ASSERT(mdmp_copy(FILE_OF(SYSTEM), &LIMITS, types, count, out, sizeof out, &size, &fault) == MDMP_OK && size == 136);
        more[count] = 12;
        ASSERT(mdmp_copy(FILE_OF(SYSTEM), &LIMITS, more, count, out, sizeof out, &size, &fault) == MDMP_OK && size == 136);
        for (size_t i = 0; i < count; i++) {
            types[i] = 12;
            ASSERT(
                mdmp_copy(FILE_OF(SYSTEM), &LIMITS, types, count, out, sizeof out, &size, &fault) == MDMP_BAD_ARGUMENT);
            ASSERT(fault.kind == MDMP_FAULT_NOT_COPIED && fault.size == 12 && size == 0);
            types[i] = 7;
        }
    }
    fenced_free(&pages);
}

/* Ranges that overlap, that end at the last address, and that nobody gave. */
static const mdmp_range RANGES[] = {
    {.start = 0, .size = 8, .offset = 0, .extent = MDMP_EXTENT_INSIDE},
    {.start = 4, .size = 8, .offset = 100, .extent = MDMP_EXTENT_INSIDE},
    {.start = UINT64_MAX - 1, .size = 8, .offset = 44, .extent = MDMP_EXTENT_INSIDE},
    {.start = 20, .size = 8, .offset = 129, .extent = MDMP_EXTENT_INSIDE},                 /* one byte too far */
    {.start = 20, .size = 8, .offset = UINT64_MAX - 3, .extent = MDMP_EXTENT_INSIDE},      /* far behind the end */
    {.start = 20, .size = 8, .offset = 0, .offset_high = 1, .extent = MDMP_EXTENT_INSIDE}, /* farther */
    {.start = 20, .size = UINT64_MAX, .offset = 1, .extent = MDMP_EXTENT_INSIDE},          /* longer than the file */
    {.start = 20, .size = 8, .offset = 0, .extent = MDMP_EXTENT_OUTSIDE},                  /* not inside, as it says */
    {.start = 27, .size = 1, .offset = 135, .extent = MDMP_EXTENT_INSIDE, .reserved = {7, 7}}, /* the last byte */
};
enum { COUNT = sizeof RANGES / sizeof *RANGES };

/* The first range that holds an address gives its byte; no address wraps; ranges that nobody gave are passed over. */
static void test_read(void) {
    uint8_t out[32];
    bool known[32];
    ASSERT(mdmp_read(FILE_OF(SYSTEM), RANGES, COUNT, 0, out, 32, known, 32, &fault) == MDMP_OK);
    for (size_t i = 0; i < 32; i++) {
        ASSERT(known[i] == (i < 12 || i == 27));
        ASSERT(out[i] == (i < 8 ? SYSTEM[i] : i < 12 ? SYSTEM[100 + i - 4] : i == 27 ? SYSTEM[135] : 0));
    }
    ASSERT(mdmp_read(FILE_OF(SYSTEM), RANGES, COUNT, UINT64_MAX - 2, out, 8, known, 8, &fault) == MDMP_OK);
    for (size_t i = 0; i < 8; i++) {
        ASSERT(known[i] == (i == 1 || i == 2) && out[i] == (known[i] ? SYSTEM[44 + i - 1] : 0));
    }
}

/* A read by an index gives what a read by its ranges gives; a room that is too small is told. */
static void test_index(void) {
    const uint64_t addresses[] = {0, 3, 20, 27, UINT64_MAX - 2, UINT64_MAX};
    mdmp_slot slots[2 * COUNT] = {{.owner = 7}};
    uint64_t count, owner;
    ASSERT(mdmp_index(FILE_OF(SYSTEM), RANGES, COUNT, slots, 2 * COUNT - 1, &count, &fault) == MDMP_BUFFER_TOO_SHORT);
    ASSERT(count == 2 * COUNT && slots[0].owner == 7);
    ASSERT(mdmp_index(FILE_OF(SYSTEM), RANGES, COUNT, slots, 2 * COUNT, &count, &fault) == MDMP_OK);
    ASSERT(count <= 2 * COUNT && fault.kind == MDMP_FAULT_NONE);
    for (size_t i = 0; i < sizeof addresses / sizeof *addresses; i++) {
        uint8_t out[16], by_index[16];
        bool known[16], known_by_index[16];
        ASSERT(mdmp_read(FILE_OF(SYSTEM), RANGES, COUNT, addresses[i], out, 16, known, 16, &fault) == MDMP_OK);
        ASSERT(mdmp_read_index(
                   FILE_OF(SYSTEM), slots, (size_t)count, addresses[i], by_index, 16, known_by_index, 16, &fault) ==
               MDMP_OK);
        ASSERT(memcmp(out, by_index, 16) == 0 && memcmp(known, known_by_index, sizeof known) == 0);
    }
    const uint64_t owners[] = {0, 0, UINT64_MAX, 8, UINT64_MAX, 2};
    for (size_t i = 0; i < sizeof addresses / sizeof *addresses; i++) {
        ASSERT(mdmp_where(slots, (size_t)count, addresses[i], &owner) == MDMP_OK);
        ASSERT(owner == owners[i]);
    }
    uint8_t byte = 0xaa;
    ASSERT(mdmp_read_index(FILE_OF(SYSTEM), slots, 1, 0, &byte, 1, NULL, 0, &fault) == MDMP_BAD_ARGUMENT);
    ASSERT(fault.kind == MDMP_FAULT_LENGTHS_DIFFER && byte == 0xaa);
}

/* The first module whose image holds an address is its owner. */
static void test_where(void) {
    const mdmp_module modules[] = {{.base_of_image = 0x2000, .size_of_image = 0x1000},
                                   {.base_of_image = 0x1000, .size_of_image = 0x2000},
                                   {.base_of_image = 0x1000, .size_of_image = 0}};
    mdmp_slot slots[6];
    uint64_t count, owner;
    ASSERT(mdmp_index_modules(modules, 3, slots, 6, &count, &fault) == MDMP_OK && count >= 2);
    ASSERT(mdmp_where(slots, (size_t)count, 0xfff, &owner) == MDMP_OK && owner == UINT64_MAX);
    ASSERT(mdmp_where(slots, (size_t)count, 0x1fff, &owner) == MDMP_OK && owner == 1);
    ASSERT(mdmp_where(slots, (size_t)count, 0x2000, &owner) == MDMP_OK && owner == 0);
    ASSERT(mdmp_where(slots, (size_t)count, 0x3000, &owner) == MDMP_OK && owner == UINT64_MAX);
    ASSERT(mdmp_where(NULL, 0, 0, &owner) == MDMP_OK && owner == UINT64_MAX);
}

/* A NULL stands beside each length of 0. */
static void test_null(void) {
    uint64_t count;
    mdmp_header_record header;
    mdmp_symbol_file symbols;
    const mdmp_place place = {4, 0, MDMP_EXTENT_INSIDE, 0};
    const blob nothing = {NULL, 0}, small = {(uint8_t *)SYSTEM, sizeof SYSTEM};
    for (size_t i = 0; i < FILLERS_COUNT; i++) {
        name_rva = 100;
        uint32_t status = FILLERS[i].call(nothing, NULL, 0, &count, &fault);
        ASSERT(status == MDMP_FAULT && count == 0);
        ASSERT(fault.kind ==
               (strcmp(FILLERS[i].name, "mdmp_name") == 0 ? MDMP_FAULT_NAME_LENGTH_OUTSIDE : MDMP_FAULT_FILE_TOO_SHORT));
        status = FILLERS[i].call(small, NULL, 0, &count, &fault);
        ASSERT(status == (count == 0 ? MDMP_OK : MDMP_BUFFER_TOO_SHORT) && fault.kind == MDMP_FAULT_NONE);
    }
    ASSERT(mdmp_header(NULL, 0, &header, &fault) == MDMP_FAULT && fault.kind == MDMP_FAULT_FILE_TOO_SHORT);
    ASSERT(mdmp_symbols(NULL, 0, &LIMITS, &place, &symbols, &fault) == MDMP_FAULT);
    ASSERT(fault.kind == MDMP_FAULT_PART_OUTSIDE);
    ASSERT(mdmp_copy(NULL, 0, &LIMITS, NULL, 0, NULL, 0, &count, &fault) == MDMP_BAD_ARGUMENT);
    ASSERT(mdmp_memory(NULL, 0, &LIMITS, 0, NULL, 0, NULL, 0, &fault) == MDMP_FAULT);
    ASSERT(mdmp_read(NULL, 0, NULL, 0, 0, NULL, 0, NULL, 0, &fault) == MDMP_OK && fault.kind == MDMP_FAULT_NONE);
    fault.kind = MDMP_FAULT_NONE;
    ASSERT(mdmp_fault_text(&fault, NULL, 0, &count) == MDMP_OK && count == 0);
}

/* The words of each kind, as the command has them. */
static void test_words(void) {
    static const struct {
        uint32_t kind;
        const char *words;
    } WORDS[] = {
        {MDMP_FAULT_NONE, ""},
        {MDMP_FAULT_FILE_TOO_SHORT, "file of 8 bytes is too short"},
        {MDMP_FAULT_BAD_SIGNATURE, "bad signature"},
        {MDMP_FAULT_BAD_VERSION, "bad version 0x0008"},
        {MDMP_FAULT_DIRECTORY_OUTSIDE, "directory outside the file: offset 9 size 8"},
        {MDMP_FAULT_TOO_MANY_RANGES, "too many memory ranges: 8"},
        {MDMP_FAULT_STREAM_OUTSIDE, "entry 5: stream outside the file: offset 9 size 8"},
        {MDMP_FAULT_SHORT_STREAM, "entry 5: stream too short: offset 9 size 8"},
        {MDMP_FAULT_BAD_HEADER_SIZE, "entry 5: bad header size: offset 9 size 8"},
        {MDMP_FAULT_BAD_ENTRY_SIZE, "entry 5: bad entry size: offset 9 size 8"},
        {MDMP_FAULT_BAD_COUNT, "entry 5: bad count: offset 9 size 8"},
        {MDMP_FAULT_NAME_LENGTH_OUTSIDE, "entry 5 item 6: name length outside the file: offset 9 size 8"},
        {MDMP_FAULT_NAME_ODD, "entry 5 item 6: odd name length: offset 9 size 8"},
        {MDMP_FAULT_NAME_OUTSIDE, "entry 5 item 6: name outside the file: offset 9 size 8"},
        {MDMP_FAULT_PART_OUTSIDE, "entry 5 item 6: stack outside the file: offset 9 size 8"},
        {MDMP_FAULT_NAME_TOO_LONG, "entry 5 item 6: name too long: 8"},
        {MDMP_FAULT_RAW_KNOWN_TYPE, "stream 8 holds raw bytes of a known type"},
        {MDMP_FAULT_COPY_TOO_LARGE, "the copy is too large"},
        {MDMP_FAULT_BAD_ENTRIES, "8 bad entries"},
        {MDMP_FAULT_NOT_COPIED, "type 8 is not copied"},
        {MDMP_FAULT_NO_MEMORY, "out of memory"},
        {MDMP_FAULT_BAD_LIMITS, "bad limits"},
        {MDMP_FAULT_BAD_TYPES, "between 1 and 16 types of streams are copied at a time"},
        {MDMP_FAULT_STORE, "store failed"},
        {MDMP_FAULT_LENGTHS_DIFFER, "lengths differ"},
        {MDMP_FAULT_BUDGET, "fetch budget reached: offset 9 size 8"},
        {MDMP_FAULT_MEMORY_LIMIT, "memory limit reached: 8"},
        {MDMP_FAULT_ASIDE_LIMIT, "aside limit reached: offset 9 size 8"},
        {MDMP_FAULT_COPY_BUDGET, "copy needs 8 bytes"},
    };
    uint8_t out[128];
    uint64_t size;
    size_t at = 0;
    for (uint32_t kind = 0; kind < 300; kind++) {
        const bool has_item = kind >= MDMP_FAULT_NAME_LENGTH_OUTSIDE && kind <= MDMP_FAULT_NAME_TOO_LONG;
        mdmp_fault told = {.kind = kind,
            .entry = 5,
            .index = has_item ? 6 : 0,
            .offset = 9,
            .size = 8,
            .part = kind == MDMP_FAULT_PART_OUTSIDE ? MDMP_PART_STACK : 0,
            .has_index = has_item};
        uint32_t status = mdmp_fault_text(&told, out, sizeof out, &size);
        if (at < sizeof WORDS / sizeof *WORDS && WORDS[at].kind == kind) {
            ASSERT(status == MDMP_OK && size == strlen(WORDS[at].words) &&
                   memcmp(out, WORDS[at].words, (size_t)size) == 0);
            at++;
        } else {
            ASSERT(status == MDMP_BAD_ARGUMENT && size == 0);
        }
    }
    ASSERT(at == sizeof WORDS / sizeof *WORDS);
}

int main(void) {
    ASSERT(mdmp_abi() == MDMP_ABI);
    ASSERT(mdmp_version() == MDMP_VERSION);
    test_small_dump();
    test_bad_entry();
    test_arguments();
    test_types();
    test_read();
    test_index();
    test_where();
    test_null();
    test_words();
    return 0;
}
