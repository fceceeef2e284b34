/* What each limit refuses at its edge, with which numbers, and what precedes it. */
#include "each_table.h"
#include "small.h"
#include "support.h"

static mdmp_fault fault;

/* With these limits each call but mdmp_copy gives nothing, and reports this. */
static void test_refusals(const mdmp_limits *limits, uint32_t status, mdmp_fault reason) {
    uint8_t out[512];
    bool known[8];
    uint64_t count;
    memset(out, 0xaa, sizeof out);
#define REFUSED(call)                                         \
    ASSERT((call) == status && count == 0 && out[0] == 0xaa); \
    ASSERT(memcmp(&fault, &reason, sizeof fault) == 0)
#define ROWS(call, type)                                                 \
    count = 1;                                                           \
    {                                                                    \
        static type one;                                                 \
        REFUSED(call(FILE_OF(SYSTEM), limits, &one, 1, &count, &fault)); \
    }
    count = 1;
    REFUSED(mdmp_check(FILE_OF(SYSTEM), limits, out, sizeof out, &count, &fault));
    count = 1;
    REFUSED(mdmp_list(FILE_OF(SYSTEM), limits, false, out, sizeof out, &count, &fault));
    count = 1;
    REFUSED(mdmp_list_part(FILE_OF(SYSTEM), limits, false, 0, out, sizeof out, &count, &fault));
    ROWS(mdmp_verdicts, mdmp_fault)
    ROWS(mdmp_parts_outside, mdmp_fault)
#define TABLE_ROWS(name, NAME, row) ROWS(mdmp_##name, row)
    EACH_TABLE(TABLE_ROWS)
    static mdmp_summary_record summary;
    memset(&summary, 0xaa, sizeof summary);
    count = 0;
    REFUSED(mdmp_summary(FILE_OF(SYSTEM), limits, &summary, &fault));
    ASSERT(summary.has_system == 0xaaaaaaaa);
    REFUSED(mdmp_memory(FILE_OF(SYSTEM), limits, 0, out, 8, known, 8, &fault));
}

static void test_limits(void) {
    static const mdmp_limits BAD[] = {
        {0, 0, 0, 0, 0},
        {167, 0, MDMP_NO_LIMIT, MDMP_NO_LIMIT, MDMP_NO_LIMIT},
        {(1u << 30) + 1, 0, MDMP_NO_LIMIT, MDMP_NO_LIMIT, MDMP_NO_LIMIT},
        {168, (1u << 30) + 1, MDMP_NO_LIMIT, MDMP_NO_LIMIT, MDMP_NO_LIMIT},
    };
    uint8_t out[512];
    uint64_t count;
    const uint32_t type = 3;
    for (size_t i = 0; i < sizeof BAD / sizeof *BAD; i++) {
        test_refusals(&BAD[i], MDMP_BAD_ARGUMENT, (mdmp_fault){.kind = MDMP_FAULT_BAD_LIMITS});
        memset(out, 0xaa, sizeof out);
        ASSERT(mdmp_copy(FILE_OF(SYSTEM), &BAD[i], &type, 1, out, sizeof out, &count, &fault) == MDMP_BAD_ARGUMENT);
        ASSERT(fault.kind == MDMP_FAULT_BAD_LIMITS && count == 0 && out[0] == 0xaa);
    }
    static const mdmp_limits GOOD[] = {
        {168, 0, MDMP_NO_LIMIT, MDMP_NO_LIMIT, MDMP_NO_LIMIT},
        {1u << 30, 1u << 30, MDMP_NO_LIMIT - 1, MDMP_NO_LIMIT - 1, 0},
        MDMP_LIMITS_UNTRUSTED,
    };
    for (size_t i = 0; i < sizeof GOOD / sizeof *GOOD; i++) {
        ASSERT(mdmp_check(FILE_OF(SYSTEM), &GOOD[i], out, sizeof out, &count, &fault) == MDMP_OK && count == 12);
    }
}

/* A listing of the dump fetches 132 bytes: of the header 32, the directory 12, the record 56, and the name 4 and 28. */
static void test_budget(void) {
    mdmp_limits limits = LIMITS;
    uint8_t out[512], whole[512];
    uint64_t count, size;
    mdmp_system system;
    ASSERT(mdmp_list(FILE_OF(SYSTEM), &LIMITS, false, whole, sizeof whole, &size, &fault) == MDMP_OK);
    limits.budget = 0;
    test_refusals(&limits, MDMP_LIMIT, (mdmp_fault){.kind = MDMP_FAULT_BUDGET, .offset = 0, .size = 32});
    limits.budget = 43;
    test_refusals(&limits, MDMP_LIMIT, (mdmp_fault){.kind = MDMP_FAULT_BUDGET, .offset = 32, .size = 12});
    /* before the name is read: given are the lines of the header and of the entry, and no byte more is touched */
    limits.budget = 131;
    memset(out, 0xaa, sizeof out);
    ASSERT(mdmp_list(FILE_OF(SYSTEM), &limits, false, out, sizeof out, &count, &fault) == MDMP_LIMIT);
    ASSERT(fault.kind == MDMP_FAULT_BUDGET && fault.offset == 104 && fault.size == 28);
    ASSERT(count > 0 && count < size && memcmp(out, whole, (size_t)count) == 0 && out[count] == 0xaa);
    ASSERT(memcmp(whole + count, "system ", 7) == 0);
    ASSERT(mdmp_list(FILE_OF(SYSTEM), &limits, false, NULL, 0, &count, &fault) == MDMP_BUFFER_TOO_SHORT);
    ASSERT(fault.kind == MDMP_FAULT_BUDGET);
    ASSERT(mdmp_systems(FILE_OF(SYSTEM), &limits, &system, 1, &count, &fault) == MDMP_LIMIT && count == 0);
    ASSERT(fault.kind == MDMP_FAULT_BUDGET && fault.offset == 104 && fault.size == 28);
    limits.budget = 132;
    ASSERT(mdmp_list(FILE_OF(SYSTEM), &limits, false, out, sizeof out, &count, &fault) == MDMP_OK);
    ASSERT(count == size && memcmp(out, whole, (size_t)size) == 0);
    ASSERT(mdmp_check(FILE_OF(SYSTEM), &limits, out, sizeof out, &count, &fault) == MDMP_OK && count == 12);
    ASSERT(mdmp_systems(FILE_OF(SYSTEM), &limits, &system, 1, &count, &fault) == MDMP_OK && count == 1);
}

/* The lists of a call take the window, the longest name, and 12 bytes for the one entry of the directory. */
static void test_memory_limit(void) {
    mdmp_limits limits = LIMITS;
    uint8_t out[512];
    uint64_t count;
    const uint64_t held = LIMITS.window + LIMITS.name + 12;
    limits.memory = held - 1;
    test_refusals(&limits, MDMP_LIMIT, (mdmp_fault){.kind = MDMP_FAULT_MEMORY_LIMIT, .size = held});
    limits.memory = 0;
    test_refusals(&limits, MDMP_LIMIT, (mdmp_fault){.kind = MDMP_FAULT_MEMORY_LIMIT, .size = held});
    limits.memory = held;
    ASSERT(mdmp_list(FILE_OF(SYSTEM), &limits, false, out, sizeof out, &count, &fault) == MDMP_OK);
    ASSERT(mdmp_check(FILE_OF(SYSTEM), &limits, out, sizeof out, &count, &fault) == MDMP_OK);
}

/* What a copy of the dump within these limits answers. If a limit is reached, nothing is given. */
static uint32_t copy_within(const mdmp_limits *limits) {
    uint8_t out[512];
    uint64_t size;
    const uint32_t type = 7;
    memset(out, 0xaa, sizeof out);
    uint32_t status = mdmp_copy(FILE_OF(SYSTEM), limits, &type, 1, out, sizeof out, &size, &fault);
    if (status == MDMP_OK) {
        ASSERT(size == sizeof SYSTEM && memcmp(out, SYSTEM, sizeof SYSTEM) == 0);
    } else {
        ASSERT(status == MDMP_LIMIT && size == 0 && out[0] == 0xaa);
    }
    return status;
}

/* A copy is refused by how much it needs, and made if it may have just that. */
static void test_limits_of_a_copy(void) {
    mdmp_limits limits = LIMITS;
    uint64_t needed = 0;
    limits.budget = 43; /* the directory can't be read */
    ASSERT(copy_within(&limits) == MDMP_LIMIT);
    ASSERT(fault.kind == MDMP_FAULT_BUDGET && fault.offset == 32 && fault.size == 12);
    for (limits.budget = 0; copy_within(&limits) == MDMP_LIMIT; limits.budget++) {
        if (fault.kind == MDMP_FAULT_BUDGET) {
            ASSERT(needed == 0 && fault.offset + fault.size <= sizeof SYSTEM); /* before the file is open */
        } else {
            ASSERT(fault.kind == MDMP_FAULT_COPY_BUDGET && fault.high == 0);
            ASSERT(needed == 0 || needed == fault.size);
            needed = fault.size;
        }
    }
    ASSERT(needed > 132 && limits.budget == needed);
    limits.budget = MDMP_NO_LIMIT;
    limits.memory = 0;
    ASSERT(copy_within(&limits) == MDMP_LIMIT);
    ASSERT(fault.kind == MDMP_FAULT_MEMORY_LIMIT && fault.high == 0 && fault.size >= 2 * (uint64_t)LIMITS.window);
    limits.memory = fault.size;
    ASSERT(copy_within(&limits) == MDMP_OK);
    limits.memory--;
    ASSERT(copy_within(&limits) == MDMP_LIMIT && fault.kind == MDMP_FAULT_MEMORY_LIMIT);
}

/* Three modules, all of which have one CodeView record of 24 bytes and `name`: 40 bytes are read for each line. */
static void test_aside(void) {
    enum { MODULES = 3, MODULE = 108, RECORD = 40, LIST = 44, CODEVIEW = LIST + 4 + MODULES * MODULE };
    static uint8_t file[CODEVIEW + RECORD];
    static const uint8_t HEAD[] = "MDMP\x93\xa7\0\0\x01\0\0\0\x20";
    uint8_t whole[2048], out[2048];
    uint64_t size, given;
    mdmp_limits limits = LIMITS;
    memcpy(file, HEAD, sizeof HEAD - 1);
    const uint32_t entry[] = {4, 4 + MODULES * MODULE, LIST}, codeview[] = {RECORD, CODEVIEW}, count = MODULES;
    memcpy(file + 32, entry, sizeof entry);
    memcpy(file + LIST, &count, sizeof count);
    for (int i = 0; i < MODULES; i++) {
        memcpy(file + LIST + 4 + i * MODULE + 76, codeview, sizeof codeview);
    }
    memcpy(file + CODEVIEW, "RSDS", 4);
    memset(file + CODEVIEW + 24, 'p', RECORD - 25);
    ASSERT(mdmp_list(FILE_OF(file), &LIMITS, true, whole, sizeof whole, &size, &fault) == MDMP_OK);
    limits.aside = MODULES * RECORD;
    ASSERT(mdmp_list(FILE_OF(file), &limits, true, out, sizeof out, &given, &fault) == MDMP_OK);
    ASSERT(given == size && memcmp(out, whole, (size_t)size) == 0);
    limits.aside--; /* all stands but the last line, which the last record tells */
    ASSERT(mdmp_list(FILE_OF(file), &limits, true, out, sizeof out, &given, &fault) == MDMP_LIMIT);
    ASSERT(fault.kind == MDMP_FAULT_ASIDE_LIMIT && fault.offset == CODEVIEW && fault.size == RECORD);
    ASSERT(given < size && memcmp(out, whole, (size_t)given) == 0 && memcmp(whole + given, "pdb ", 4) == 0);
    ASSERT(memchr(whole + given, '\n', (size_t)(size - given)) == whole + size - 1);
    ASSERT(mdmp_list_part(FILE_OF(file), &limits, true, 1, out, sizeof out, &size, &fault) == MDMP_LIMIT);
    ASSERT(size == given - 1 && memcmp(out, whole + 1, (size_t)size) == 0);
    ASSERT(mdmp_list(FILE_OF(file), &limits, true, NULL, 0, &given, &fault) == MDMP_BUFFER_TOO_SHORT);
    ASSERT(fault.kind == MDMP_FAULT_ASIDE_LIMIT);
    limits.aside = 0; /* without `pdb` no CodeView record is read */
    ASSERT(mdmp_list(FILE_OF(file), &limits, false, out, sizeof out, &given, &fault) == MDMP_OK);
    ASSERT(mdmp_list_json(FILE_OF(file), &limits, true, out, sizeof out, &given, &fault) == MDMP_LIMIT);
    ASSERT(fault.kind == MDMP_FAULT_ASIDE_LIMIT);
}

/* What a record of 24 bytes and a name tells within a limit on names. */
static mdmp_symbol_file symbols_of(const char *name, size_t size, uint32_t limit) {
    uint8_t file[64] = "RSDS0123456789abcdef\x4d";
    mdmp_limits limits = LIMITS;
    const mdmp_place place = {(uint32_t)(24 + size), 0, MDMP_EXTENT_INSIDE, 0};
    mdmp_symbol_file symbols;
    memcpy(file + 24, name, size);
    limits.name = limit;
    memset(&symbols, 0xaa, sizeof symbols);
    ASSERT(mdmp_symbols(FILE_OF(file), &limits, &place, &symbols, &fault) == MDMP_OK);
    ASSERT(fault.kind == MDMP_FAULT_NONE && symbols.kind == MDMP_SYMBOLS_RSDS);
    ASSERT(symbols.age == 0x4d && symbols.name_offset == 24);
    return symbols;
}

/* Of the name of a symbol file as many bytes are read as the limit says. */
static void test_symbols(void) {
    static const struct {
        const char *name;
        size_t size; /* of the record behind its first 24 bytes */
        uint32_t limit, name_size, name_ended;
    } ROWS[] = {
        {"one.pdb", 8, 4096, 7, 1}, /* the name, and its zero byte */
        {"one.pdb", 8, 8, 7, 1},    /* the zero byte is the last that is read */
        {"one.pdb", 8, 7, 7, 0},    /* a name that is just as long as the limit */
        {"one.pdb", 8, 6, 6, 0},    /* a longer one */
        {"one.pdb", 8, 0, 0, 0},    /* no byte of it */
        {"one.pdb", 7, 4096, 7, 0}, /* the record ends without a zero byte */
        {"one.pdb", 7, 7, 7, 0},    /* so does the limit */
        {"", 1, 1, 0, 1},           /* one zero byte is an empty name */
        {"", 1, 0, 0, 0},           /* which was not read */
        {"", 0, 1, 0, 0},           /* no name at all */
        {"one\0two", 8, 4, 3, 1},   /* the first zero byte ends the name */
        {"one\0two", 8, 3, 3, 0},   /* the zero byte follows what is read */
    };
    for (size_t i = 0; i < sizeof ROWS / sizeof *ROWS; i++) {
        mdmp_symbol_file symbols = symbols_of(ROWS[i].name, ROWS[i].size, ROWS[i].limit);
        ASSERT(symbols.name_size == ROWS[i].name_size && symbols.name_ended == ROWS[i].name_ended);
    }
}

/* Bad limits come before a place that is outside, and both give zeros; the other limits are no matter. */
static void test_refused_symbols(void) {
    static const mdmp_symbol_file ZEROS;
    const mdmp_place place = {24, 0, MDMP_EXTENT_INSIDE, 0}, outside = {1, sizeof SYSTEM, MDMP_EXTENT_INSIDE, 0};
    static const mdmp_limits BAD[] = {{0, 0, 0, 0, 0}, {65536, (1u << 30) + 1, 0, 0, 0}};
    mdmp_limits limits = LIMITS;
    mdmp_symbol_file symbols;
    const mdmp_place *const places[] = {&place, &outside};
    for (size_t i = 0; i < 4; i++) {
        memset(&symbols, 0xaa, sizeof symbols);
        ASSERT(mdmp_symbols(FILE_OF(SYSTEM), &BAD[i / 2], places[i % 2], &symbols, &fault) == MDMP_BAD_ARGUMENT);
        ASSERT(fault.kind == MDMP_FAULT_BAD_LIMITS && memcmp(&symbols, &ZEROS, sizeof symbols) == 0);
    }
    memset(&symbols, 0xaa, sizeof symbols);
    ASSERT(mdmp_symbols(FILE_OF(SYSTEM), &LIMITS, &outside, &symbols, &fault) == MDMP_FAULT);
    ASSERT(fault.kind == MDMP_FAULT_PART_OUTSIDE && memcmp(&symbols, &ZEROS, sizeof symbols) == 0);
    limits.budget = limits.memory = limits.aside = 0;
    ASSERT(mdmp_symbols(FILE_OF(SYSTEM), &limits, &place, &symbols, &fault) == MDMP_OK);
    ASSERT(symbols.kind == MDMP_SYMBOLS_OTHER && memcmp(symbols.signature, "MDMP", 4) == 0);
}

int main(void) {
    test_limits();
    test_budget();
    test_memory_limit();
    test_limits_of_a_copy();
    test_aside();
    test_symbols();
    test_refused_symbols();
    return 0;
}
