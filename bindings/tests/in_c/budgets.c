/* The last budget that does not suffice and the first that does, for each call that takes limits. */
#include "each_table.h"
#include "small.h"
#include "support.h"

static mdmp_fault fault;

/* The last budget that does not suffice. */
typedef struct {
    uint64_t budget;
    uint64_t offset, size; /* the read that passes it */
} edge;

/* Whether a call ended at this budget; if so, by this read. */
static bool is_short(uint32_t status, uint64_t budget, edge last) {
    if (budget > last.budget) {
        ASSERT(status == MDMP_OK && fault.kind == MDMP_FAULT_NONE);
        return false;
    }
    ASSERT(status == MDMP_LIMIT && fault.kind == MDMP_FAULT_BUDGET);
    ASSERT(fault.offset == last.offset && fault.size == last.size && fault.entry == 0 && fault.has_index == 0);
    return true;
}

/* What a text gives is the first part of what it gives without limits, and nothing after it is touched. */
static void test_text(uint32_t (*call)(const mdmp_limits *, uint8_t *, size_t, uint64_t *)) {
    const edge last = {131, 104, 28};
    uint8_t out[1024], whole[1024];
    uint64_t count, size;
    ASSERT(call(&LIMITS, whole, sizeof whole, &size) == MDMP_OK && size < sizeof whole);
    for (uint64_t budget = last.budget; budget <= last.budget + 1; budget++) {
        mdmp_limits limits = LIMITS;
        limits.budget = budget;
        memset(out, 0xaa, sizeof out);
        if (is_short(call(&limits, out, sizeof out, &count), budget, last)) {
            ASSERT(count < size);
        } else {
            ASSERT(count == size);
        }
        ASSERT(memcmp(out, whole, (size_t)count) == 0 && out[count] == 0xaa);
    }
}

static uint32_t check_text(const mdmp_limits *limits, uint8_t *out, size_t room, uint64_t *size) {
    return mdmp_check(FILE_OF(SYSTEM), limits, out, room, size, &fault);
}

static uint32_t check_json(const mdmp_limits *limits, uint8_t *out, size_t room, uint64_t *size) {
    return mdmp_check_json(FILE_OF(SYSTEM), limits, out, room, size, &fault);
}

static uint32_t list_text(const mdmp_limits *limits, uint8_t *out, size_t room, uint64_t *size) {
    return mdmp_list(FILE_OF(SYSTEM), limits, false, out, room, size, &fault);
}

static uint32_t list_json(const mdmp_limits *limits, uint8_t *out, size_t room, uint64_t *size) {
    return mdmp_list_json(FILE_OF(SYSTEM), limits, false, out, room, size, &fault);
}

static uint32_t list_part(const mdmp_limits *limits, uint8_t *out, size_t room, uint64_t *size) {
    return mdmp_list_part(FILE_OF(SYSTEM), limits, false, 5, out, room, size, &fault);
}

/* Of the dump without such records a call reads the header and the directory: 44 bytes. */
static void test_tables_of_system(void) {
    const edge none = {43, 32, 12}, last = {131, 104, 28};
    for (int at = 0; at < 2; at++) {
        mdmp_limits limits = LIMITS;
        uint64_t count;
#define EDGE(call, type, edge_of)                                                            \
    {                                                                                        \
        static type rows[1];                                                                 \
        limits.budget = (edge_of).budget + (uint64_t)at;                                     \
        count = 9;                                                                           \
        is_short(call(FILE_OF(SYSTEM), &limits, rows, 1, &count, &fault), limits.budget, (edge_of)); \
        ASSERT(count == ((edge_of).budget == last.budget && at == 1 ? 1u : 0u));             \
    }
        EDGE(mdmp_verdicts, mdmp_fault, last)
#define TABLE_EDGE(name, NAME, row) EDGE(mdmp_##name, row, TABLE_##NAME == TABLE_SYSTEMS ? last : none)
        EACH_TABLE(TABLE_EDGE)
    }
}

/* Two ranges of 64-bit memory, the second of which lies outside the file: the head of their list is read twice, 16 bytes and then
 * with the ranges 48. What is read at an address does not count. */
static void test_memory_budget(void) {
    static const uint8_t RANGES[98] =
        "MDMP\x93\xa7\0\0\x01\0\0\0\x20\0\0\0\0\0\0\0\0\0\0\0\0\0\0\0\0\0\0\0"
        "\x09\0\0\0\x30\0\0\0\x2c\0\0\0"
        "\x02\0\0\0\0\0\0\0\x5c\0\0\0\0\0\0\0"
        "\0\x10\0\0\0\0\0\0\x04\0\0\0\0\0\0\0"
        "\0\x20\0\0\0\0\0\0\x04\0\0\0\0\0\0\0"
        "ABCDE";
    const edge last = {107, 44, 48};
    for (int at = 0; at < 2; at++) {
        mdmp_limits limits = LIMITS;
        uint8_t out[6];
        bool known[6] = {false};
        mdmp_range ranges[2];
        uint64_t count;
        limits.budget = last.budget + (uint64_t)at;
        memset(out, 0xaa, sizeof out);
        if (is_short(mdmp_memory(FILE_OF(RANGES), &limits, 0xfff, out, 6, known, 6, &fault), limits.budget, last)) {
            ASSERT(out[0] == 0xaa && memcmp(out, out + 1, 5) == 0 && !known[1]);
        } else {
            ASSERT(memcmp(out, "\0ABCD\0", 6) == 0 && !known[0] && known[1] && known[4] && !known[5]);
        }
        is_short(mdmp_ranges(FILE_OF(RANGES), &limits, ranges, 2, &count, &fault), limits.budget, last);
        ASSERT(count == (at == 0 ? 0 : 2));
    }
    mdmp_limits limits = LIMITS;
    uint8_t out[6];
    bool known[6];
    const uint64_t held = LIMITS.window + LIMITS.name + 12 + 2 * 24;
    limits.memory = held;
    ASSERT(mdmp_memory(FILE_OF(RANGES), &limits, 0xfff, out, 6, known, 6, &fault) == MDMP_OK);
    limits.memory--;
    memset(out, 0xaa, sizeof out);
    ASSERT(mdmp_memory(FILE_OF(RANGES), &limits, 0xfff, out, 6, known, 6, &fault) == MDMP_LIMIT && out[0] == 0xaa);
    ASSERT(fault.kind == MDMP_FAULT_MEMORY_LIMIT && fault.size == held && fault.high == 0);
}

/* Three modules of one name: 4 bytes for its length, and 4 for its units. The rows before the read that passes the budget are given. */
static void test_rows_before_a_budget(void) {
    enum { MODULES = 3, MODULE = 108, LIST = 44, NAME = LIST + 4 + MODULES * MODULE, WHOLE = NAME + MODULES * 8 };
    static uint8_t file[NAME + 8];
    static const uint8_t HEAD[] = "MDMP\x93\xa7\0\0\x01\0\0\0\x20";
    static const struct {
        edge last;
        uint64_t given;
    } ROWS[] = {
        {{WHOLE - 1, NAME + 4, 4}, 2},
        {{WHOLE - 5, NAME, 4}, 2},
        {{WHOLE - 9, NAME + 4, 4}, 1},
        {{WHOLE - 17, NAME + 4, 4}, 0},
        {{WHOLE - 25, LIST, 4 + MODULES * MODULE}, 0},
    };
    memcpy(file, HEAD, sizeof HEAD - 1);
    const uint32_t entry[] = {4, 4 + MODULES * MODULE, LIST}, count = MODULES, name = NAME;
    memcpy(file + 32, entry, sizeof entry);
    memcpy(file + LIST, &count, sizeof count);
    for (int i = 0; i < MODULES; i++) {
        memcpy(file + LIST + 4 + i * MODULE + 20, &name, sizeof name);
    }
    memcpy(file + NAME, "\4\0\0\0a\0b", 7);
    mdmp_module whole[MODULES], rows[MODULES];
    uint64_t given;
    mdmp_limits limits = LIMITS;
    limits.budget = WHOLE;
    ASSERT(mdmp_modules(FILE_OF(file), &limits, whole, MODULES, &given, &fault) == MDMP_OK && given == MODULES);
    for (size_t i = 0; i < sizeof ROWS / sizeof *ROWS; i++) {
        limits.budget = ROWS[i].last.budget;
        memset(rows, 0xaa, sizeof rows);
        uint32_t status = mdmp_modules(FILE_OF(file), &limits, rows, MODULES, &given, &fault);
        ASSERT(is_short(status, limits.budget, ROWS[i].last) && given == ROWS[i].given);
        ASSERT(memcmp(rows, whole, (size_t)given * sizeof *rows) == 0);
        ASSERT(((const uint8_t *)&rows[given])[0] == 0xaa);
    }
}

int main(void) {
    test_text(check_text);
    test_text(check_json);
    test_text(list_text);
    test_text(list_json);
    test_text(list_part);
    test_tables_of_system();
    test_memory_budget();
    test_rows_before_a_budget();
    return 0;
}
