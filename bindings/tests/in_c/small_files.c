/* What the calls give for small files: texts, memory, results of checking, and at which limit they end. */
#include "small.h"
#include "support.h"

static mdmp_fault fault;

/* A file with 64-bit memory: four bytes at 0x1000, and a range that is outside. */
static const uint8_t MEMORY64[98] =
    "MDMP\x93\xa7\0\0\x01\0\0\0\x20\0\0\0\0\0\0\0\0\0\0\0\0\0\0\0\0\0\0\0"
    "\x09\0\0\0\x30\0\0\0\x2c\0\0\0"
    "\x02\0\0\0\0\0\0\0\x5c\0\0\0\0\0\0\0"
    "\0\x10\0\0\0\0\0\0\x04\0\0\0\0\0\0\0"
    "\0\x20\0\0\0\0\0\0\x04\0\0\0\0\0\0\0"
    "ABCDE\x46";

/* Two entries: the system of SYSTEM, and a list of no threads after it. */
static const uint8_t TWO[152] =
    "MDMP\x93\xa7\0\0\x02\0\0\0\x20\0\0\0\0\0\0\0\0\0\0\0\0\0\0\0\0\0\0\0"
    "\x07\0\0\0\x38\0\0\0\x38\0\0\0"
    "\x03\0\0\0\x04\0\0\0\x94\0\0\0"
    "\x09\0\x06\0\x03\0\x04\x01\x06\0\0\0\x01\0\0\0\xb1\x1d\0\0\x02\0\0\0\x70\0\0\0\0\x01\0\0"
    "\0\0\0\0\0\0\0\0\0\0\0\0\0\0\0\0\0\0\0\0\0\0\0\0"
    "\x1c\0\0\0S\0e\0r\0v\0i\0c\0e\0 \0P\0a\0c\0k\0 \0001\0\0\0\0\0\0\0";

static bool is_fault(const mdmp_fault *found, mdmp_fault expected) {
    return memcmp(found, &expected, sizeof expected) == 0;
}

static void test_header(void) {
    mdmp_header_record header;
    ASSERT(mdmp_header(FILE_OF(SYSTEM), &header, &fault) == MDMP_OK);
    ASSERT(header.number_of_streams == 1 && header.stream_directory_rva == 32);
    ASSERT(is_fault(&fault, (mdmp_fault){.kind = MDMP_FAULT_NONE}));
    ASSERT(mdmp_header(SYSTEM, 31, &header, &fault) == MDMP_FAULT);
    ASSERT(is_fault(&fault, (mdmp_fault){.kind = MDMP_FAULT_FILE_TOO_SHORT, .size = 31}));
}

/* A text that has room is given whole, of a longer one the front, and any part of a list. */
static void test_texts(void) {
    uint8_t out[64];
    uint64_t size;
    memset(out, 7, sizeof out);
    ASSERT(mdmp_check(FILE_OF(SYSTEM), &LIMITS, out, sizeof out, &size, &fault) == MDMP_OK);
    ASSERT(size == 12 && memcmp(out, "entry 0: ok\n", 12) == 0 && out[12] == 7);
    ASSERT(mdmp_list(FILE_OF(SYSTEM), &LIMITS, false, out, 5, &size, &fault) == MDMP_BUFFER_TOO_SHORT);
    ASSERT(size == 240 && memcmp(out, "dump ", 5) == 0);
    ASSERT(mdmp_list_part(FILE_OF(SYSTEM), &LIMITS, false, 5, out, 7, &size, &fault) == MDMP_BUFFER_TOO_SHORT);
    ASSERT(size == 235 && memcmp(out, "version", 7) == 0);
    ASSERT(mdmp_list_part(FILE_OF(SYSTEM), &LIMITS, false, 233, out, 7, &size, &fault) == MDMP_OK);
    ASSERT(size == 7 && memcmp(out, "ack 1\"\n", 7) == 0);
}

/* Six bytes from the address before a range of four: by the file, by its ranges and by their index. */
static void test_memory(void) {
    static const bool KNOWN[6] = {false, true, true, true, true, false};
    uint8_t out[6];
    bool known[6];
    mdmp_range ranges[2];
    mdmp_slot slots[4];
    uint64_t count;
#define ASSERT_READ(call)                                                        \
    memset(out, 7, sizeof out);                                                  \
    memset(known, true, sizeof known);                                           \
    ASSERT((call) == MDMP_OK && fault.kind == MDMP_FAULT_NONE);                  \
    ASSERT(memcmp(out, "\0ABCD", 6) == 0 && memcmp(known, KNOWN, sizeof known) == 0)
    ASSERT_READ(mdmp_memory(FILE_OF(MEMORY64), &LIMITS, 0xfff, out, 6, known, 6, &fault));
    ASSERT(mdmp_ranges(FILE_OF(MEMORY64), &LIMITS, ranges, 2, &count, &fault) == MDMP_OK && count == 2);
    ASSERT_READ(mdmp_read(FILE_OF(MEMORY64), ranges, 2, 0xfff, out, 6, known, 6, &fault));
    ASSERT(mdmp_index(FILE_OF(MEMORY64), ranges, 2, slots, 4, &count, &fault) == MDMP_OK && count == 1);
    ASSERT_READ(mdmp_read_index(FILE_OF(MEMORY64), slots, 1, 0xfff, out, 6, known, 6, &fault));
}

/* Which read a budget refuses: each row has a budget, and the read that is not made, or none. */
static void test_budgets(void) {
    static const struct {
        uint64_t budget, offset, size;
    } LISTS[] = {{0, 0, 32}, {31, 0, 32}, {32, 32, 12}, {43, 32, 12}, {44, 44, 56}, {99, 44, 56},
                 {100, 100, 4}, {103, 100, 4}, {104, 104, 28}, {131, 104, 28}, {132, 0, 0}},
      MEMORIES[] = {{0, 0, 32}, {31, 0, 32}, {32, 32, 12}, {43, 32, 12}, {44, 44, 16}, {59, 44, 16},
                    {60, 44, 48}, {107, 44, 48}, {108, 0, 0}};
    mdmp_limits limits = LIMITS;
    uint8_t out[512];
    bool known[4];
    uint64_t size;
    for (size_t i = 0; i < sizeof LISTS / sizeof *LISTS; i++) {
        const bool is_reached = LISTS[i].size != 0;
        limits.budget = LISTS[i].budget;
        uint32_t status = mdmp_list(FILE_OF(SYSTEM), &limits, false, out, sizeof out, &size, &fault);
        ASSERT(status == (is_reached ? MDMP_LIMIT : MDMP_OK));
        ASSERT(fault.kind == (is_reached ? MDMP_FAULT_BUDGET : MDMP_FAULT_NONE));
        ASSERT(fault.offset == LISTS[i].offset && fault.size == LISTS[i].size);
    }
    for (size_t i = 0; i < sizeof MEMORIES / sizeof *MEMORIES; i++) {
        const bool is_reached = MEMORIES[i].size != 0;
        limits.budget = MEMORIES[i].budget;
        memset(out, 0xaa, sizeof out);
        uint32_t status = mdmp_memory(FILE_OF(MEMORY64), &limits, 0x1000, out, 4, known, 4, &fault);
        ASSERT(status == (is_reached ? MDMP_LIMIT : MDMP_OK));
        ASSERT(fault.kind == (is_reached ? MDMP_FAULT_BUDGET : MDMP_FAULT_NONE));
        ASSERT(fault.offset == MEMORIES[i].offset && fault.size == MEMORIES[i].size);
        ASSERT(memcmp(out, is_reached ? "\xaa\xaa\xaa\xaa" : "ABCD", 4) == 0);
    }
}

/* The results of checking: of a file whose name is cut off, and of two entries within budgets. */
static void test_verdicts(void) {
    static const mdmp_fault CUT = {.kind = MDMP_FAULT_NAME_OUTSIDE, .has_index = 1, .offset = 104, .size = 28};
    static const mdmp_fault GOOD = {.kind = MDMP_FAULT_NONE};
    mdmp_fault verdicts[2];
    mdmp_limits limits = LIMITS;
    uint64_t count;
    ASSERT(mdmp_verdicts(SYSTEM, 104, &LIMITS, verdicts, 2, &count, &fault) == MDMP_FAULT && count == 1);
    ASSERT(is_fault(&fault, (mdmp_fault){.kind = MDMP_FAULT_BAD_ENTRIES, .size = 1}) && is_fault(&verdicts[0], CUT));
    limits.budget = 31;
    ASSERT(mdmp_verdicts(FILE_OF(TWO), &limits, verdicts, 2, &count, &fault) == MDMP_LIMIT && count == 0);
    ASSERT(is_fault(&fault, (mdmp_fault){.kind = MDMP_FAULT_BUDGET, .offset = 0, .size = 32}));
    const mdmp_fault reached = {.kind = MDMP_FAULT_BUDGET, .offset = 148, .size = 4};
    limits.budget = 147;
    memset(verdicts, 0xaa, sizeof verdicts);
    const mdmp_fault untouched = verdicts[1];
    ASSERT(mdmp_verdicts(FILE_OF(TWO), &limits, verdicts, 2, &count, &fault) == MDMP_LIMIT && count == 1);
    ASSERT(is_fault(&fault, reached) && is_fault(&verdicts[0], GOOD) && is_fault(&verdicts[1], untouched));
    ASSERT(mdmp_verdicts(FILE_OF(TWO), &limits, NULL, 0, &count, &fault) == MDMP_BUFFER_TOO_SHORT && count == 1);
    ASSERT(is_fault(&fault, reached));
    limits.budget = 148;
    ASSERT(mdmp_verdicts(FILE_OF(TWO), &limits, verdicts, 2, &count, &fault) == MDMP_OK && count == 2);
    ASSERT(is_fault(&fault, GOOD) && is_fault(&verdicts[0], GOOD));
    ASSERT(is_fault(&verdicts[1], (mdmp_fault){.kind = MDMP_FAULT_NONE, .entry = 1}));
}

/* The words of an error, or nothing of a kind that is not known. */
static void test_fault_texts(void) {
    static const struct {
        mdmp_fault fault;
        const char *words;
    } ROWS[] = {
        {{.kind = MDMP_FAULT_NAME_OUTSIDE, .has_index = 1, .offset = 104, .size = 28},
         "entry 0 item 0: name outside the file: offset 104 size 28"},
        {{.kind = MDMP_FAULT_BUDGET, .offset = 104, .size = 28}, "fetch budget reached: offset 104 size 28"},
    };
    const mdmp_fault unknown = {.kind = 1000};
    uint8_t out[64];
    uint64_t size;
    for (size_t i = 0; i < sizeof ROWS / sizeof *ROWS; i++) {
        ASSERT(mdmp_fault_text(&ROWS[i].fault, out, sizeof out, &size) == MDMP_OK);
        ASSERT(size == strlen(ROWS[i].words) && memcmp(out, ROWS[i].words, (size_t)size) == 0);
    }
    memset(out, 7, sizeof out);
    ASSERT(mdmp_fault_text(&unknown, out, 4, &size) == MDMP_BAD_ARGUMENT && size == 0 && out[0] == 7);
}

int main(void) {
    test_header();
    test_texts();
    test_memory();
    test_budgets();
    test_verdicts();
    test_fault_texts();
    return 0;
}
