/* Limits: a smaller window changes nothing, limits that just suffice change nothing, and one less says what is missing. */
#include "oracles.h"

/* What a filler gives with these limits is what it gave, or, if they are too short, a first part of it. */
static filled fill_within(const reading *given, size_t number, const mdmp_limits *limits) {
    filler_limits = *limits;
    filled within = fill_whole(&FILLERS[number], given->file);
    filler_limits = LIMITS;
    const filled *whole = &given->of[number];
    if (status_of(&within.fault) == MDMP_LIMIT) {
        ASSERT(within.count <= whole->count);
        ASSERT(within.bytes == NULL || whole->bytes == NULL ||
               memcmp(within.bytes, whole->bytes, (size_t)within.count * FILLERS[number].item) == 0);
        test_fault(&within.fault);
    } else {
        ASSERT(is_same_fill(&within, whole, FILLERS[number].item));
    }
    free(within.bytes);
    within.bytes = NULL;
    return within;
}

static uint32_t status_within(const reading *given, size_t number, const mdmp_limits *limits) {
    const filled within = fill_within(given, number, limits);
    return status_of(&within.fault);
}

/* A filler that has limits, and that gives the same within each window. */
static size_t choose_filler(void) {
    size_t number = FILL_CHECK + (size_t)below(FILL_NAME - FILL_CHECK);
    return number == FILL_COPY ? FILL_SUMMARY : number;
}

/* The least window, and another small one. */
void test_window(const reading *given) {
    mdmp_limits limits = LIMITS;
    limits.window = 168;
    for (size_t number = FILL_CHECK; number < FILLERS_COUNT; number++) {
        if (number != FILL_NAME && given->of[number].bytes != NULL) {
            ASSERT(status_within(given, number, &limits) != MDMP_LIMIT);
            limits.window = 168 + (uint32_t)below(300);
        }
    }
}

/* A name is long if it has more bytes than the limit, and else all stays as it is. */
void test_name_limit(const reading *given) {
    const mdmp_module *whole = ROWS_OF(given, FILL_MODULES, mdmp_module);
    const uint64_t count = given->of[FILL_MODULES].count;
    if (whole == NULL || count == 0) {
        return;
    }
    filler_limits.name = (uint32_t)below(40);
    filled rows = fill_whole(&FILLERS[FILL_MODULES], given->file);
    ASSERT(rows.count == count && is_same_fault(&rows.fault, &given->of[FILL_MODULES].fault));
    for (uint64_t i = 0; i < count; i++) {
        mdmp_module row = ((const mdmp_module *)(const void *)rows.bytes)[i];
        const bool is_long = whole[i].name.state != MDMP_NAME_NONE && whole[i].name.size > filler_limits.name;
        ASSERT(row.name.state == (is_long ? (uint32_t)MDMP_NAME_LONG : whole[i].name.state));
        row.name.state = whole[i].name.state;
        ASSERT(memcmp(&row, &whole[i], sizeof row) == 0);
    }
    filler_limits = LIMITS;
    free(rows.bytes);
}

static mdmp_fault fault_at_budget(const reading *given, size_t number, uint64_t budget) {
    mdmp_limits limits = LIMITS;
    limits.budget = budget;
    filler_limits = limits;
    uint64_t count;
    mdmp_fault fault;
    FILLERS[number].call(given->file, NULL, 0, &count, &fault);
    filler_limits = LIMITS;
    return fault;
}

/* With the least budget that suffices a filler gives all, and with one less it ends before a read of bytes of the file. */
void test_budget(const reading *given) {
    size_t number = choose_filler();
    uint64_t enough = 64, less = 0;
    mdmp_limits limits = LIMITS;
    while (fault_at_budget(given, number, enough).kind == MDMP_FAULT_BUDGET) {
        less = enough;
        enough *= 2;
    }
    while (enough - less > 1) {
        uint64_t middle = less + (enough - less) / 2;
        if (fault_at_budget(given, number, middle).kind == MDMP_FAULT_BUDGET) {
            less = middle;
        } else {
            enough = middle;
        }
    }
    limits.budget = enough;
    ASSERT(fill_within(given, number, &limits).fault.kind != MDMP_FAULT_BUDGET);
    if (fault_at_budget(given, number, 0).kind == MDMP_FAULT_BUDGET) {
        limits.budget = less;
        mdmp_fault fault = fill_within(given, number, &limits).fault;
        ASSERT(fault.kind == MDMP_FAULT_BUDGET && fault.size != 0);
        ASSERT(fault.offset <= given->file.size && fault.size <= given->file.size - fault.offset);
    }
    limits.budget = below(given->file.size + 1);
    fill_within(given, FILL_LIST, &limits);
}

/* The error of a memory limit says how much suffices, and one byte less does not. */
void test_memory_limit(const reading *given) {
    const size_t number = below(4) == 0 ? FILL_COPY : choose_filler();
    mdmp_limits limits = LIMITS;
    limits.memory = 0;
    mdmp_fault fault = fill_within(given, number, &limits).fault;
    while (fault.kind == MDMP_FAULT_MEMORY_LIMIT) {
        ASSERT(fault.high == 0 && fault.size > limits.memory);
        limits.memory = fault.size;
        fault = fill_within(given, number, &limits).fault;
    }
    ASSERT(status_of(&fault) != MDMP_LIMIT);
    if (limits.memory != 0) {
        const uint64_t needed = limits.memory--;
        fault = fill_within(given, number, &limits).fault;
        ASSERT(fault.kind == MDMP_FAULT_MEMORY_LIMIT && fault.size == needed);
    }
}

/* The CodeView records that a list reads count for themselves. With the bytes that are missing the list goes on to the next
 * record, and with one less than the first has it reads none. */
void test_aside(const reading *given) {
    const size_t number = below(2) == 0 ? FILL_LIST : FILL_LIST_JSON;
    mdmp_limits limits = LIMITS;
    limits.aside = 0; /* without `pdb` no CodeView record is read */
    ASSERT(status_within(given, FILL_LIST_PART, &limits) != MDMP_LIMIT);
    const filled first = fill_within(given, number, &limits);
    filled last = {NULL, 0, first.fault};
    for (int i = 0; i < 8 && last.fault.kind == MDMP_FAULT_ASIDE_LIMIT; i++) {
        const uint64_t count = last.count;
        last = fill_within(given, number, &limits);
        ASSERT(last.count > count);
        limits.aside += last.fault.size; /* of a record of another kind fewer bytes are read, and some are left */
    }
    if (first.fault.kind == MDMP_FAULT_ASIDE_LIMIT) {
        limits.aside = first.fault.size - 1;
        last = fill_within(given, number, &limits);
        ASSERT(last.count == first.count && is_same_fault(&last.fault, &first.fault));
    }
}

/* A copy that is refused says how much it needs, and is made with that. */
void test_copy_budget(const reading *given) {
    mdmp_limits limits = LIMITS;
    limits.budget = 32 + 12 * given->of[FILL_STREAMS].count;
    mdmp_fault fault = fill_within(given, FILL_COPY, &limits).fault;
    for (int i = 0; i < 4 && fault.kind == MDMP_FAULT_BUDGET; i++) {
        limits.budget += fault.size;
        fault = fill_within(given, FILL_COPY, &limits).fault;
    }
    if (fault.kind == MDMP_FAULT_COPY_BUDGET) {
        ASSERT(fault.high == 0 && fault.size > limits.budget);
        limits.budget = fault.size;
        ASSERT(status_within(given, FILL_COPY, &limits) != MDMP_LIMIT);
        limits.budget--;
        mdmp_fault again = fill_within(given, FILL_COPY, &limits).fault;
        ASSERT(is_same_fault(&again, &fault));
    }
}

/* Limits out of their bounds are refused, whatever the file. */
void test_bad_limits(const reading *given) {
    static const mdmp_limits BAD[] = {{0, 0, 0, 0, 0}, {167, 4096, 1, 1, 1}, {(1u << 30) + 1, 0, 1, 1, 1}, {168, (1u << 30) + 1, 1, 1, 1}};
    size_t number = choose_filler();
    uint64_t count = 1;
    mdmp_fault fault;
    const mdmp_limits *limits = &BAD[below(4)];
    filler_limits = *limits;
    uint8_t *out = guarded(64 * FILLERS[number].item);
    uint32_t status = FILLERS[number].call(given->file, out, 64, &count, &fault);
    filler_limits = LIMITS;
    ASSERT(status == MDMP_BAD_ARGUMENT && fault.kind == MDMP_FAULT_BAD_LIMITS && count == 0 && out[0] == 0xaa);
    const mdmp_place place = {24, 0, MDMP_EXTENT_INSIDE, 0};
    mdmp_symbol_file symbols;
    mdmp_fault same;
    bool known[1] = {true};
    ASSERT(mdmp_symbols(given->file.bytes, given->file.size, limits, &place, &symbols, &same) == MDMP_BAD_ARGUMENT);
    ASSERT(is_same_fault(&same, &fault) && symbols.name_offset == 0 && symbols.kind == 0);
    ASSERT(mdmp_memory(given->file.bytes, given->file.size, limits, 0, out, 1, known, 1, &same) == MDMP_BAD_ARGUMENT);
    ASSERT(is_same_fault(&same, &fault) && known[0] && out[0] == 0xaa);
}
