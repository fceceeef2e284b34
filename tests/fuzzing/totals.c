/* The summary beside the rows: how many there are, which parts are outside, and which of them the crash, the program and the
 * system are. */
#include "oracles.h"

static bool is_among(uint32_t type, const uint32_t *types, size_t count) {
    for (size_t i = 0; i < count; i++) {
        if (types[i] == type) {
            return true;
        }
    }
    return false;
}

/* Whether no entry of these types has an error, so that the rows of its kind are all that there are. */
static bool is_good(const reading *given, size_t number, const uint32_t *types, size_t count) {
    const mdmp_fault *verdicts = ROWS_OF(given, FILL_VERDICTS, mdmp_fault);
    const mdmp_stream *streams = ROWS_OF(given, FILL_STREAMS, mdmp_stream);
    if (verdicts == NULL || streams == NULL || given->of[number].bytes == NULL ||
        given->of[FILL_VERDICTS].count != given->of[FILL_STREAMS].count) {
        return false;
    }
    for (uint64_t i = 0; i < given->of[FILL_STREAMS].count; i++) {
        if (is_among(streams[i].stream_type, types, count) && verdicts[i].kind != MDMP_FAULT_NONE) {
            return false;
        }
    }
    return given->of[number].fault.kind == MDMP_FAULT_NONE;
}

/* has_threads and the like, for each table. */
#define HAS(name, NAME, row)                                                        \
    static bool has_##name(const reading *given) {                                  \
        static const uint32_t TYPES[] = {TYPES_OF_##NAME};                          \
        return is_good(given, FILL_##NAME, TYPES, sizeof TYPES / sizeof *TYPES);    \
    }
EACH_TABLE(HAS)

/* The bad entries are those of the verdicts, and so is the first. */
static void test_bad_entries(const reading *given, const mdmp_summary_record *summary) {
    const mdmp_fault *verdicts = ROWS_OF(given, FILL_VERDICTS, mdmp_fault), *first = NULL;
    const uint64_t count = given->of[FILL_VERDICTS].count;
    uint64_t bad = 0;
    if (verdicts == NULL) {
        return;
    }
    for (uint64_t i = 0; i < count; i++) {
        if (verdicts[i].kind != MDMP_FAULT_NONE && bad++ == 0) {
            first = &verdicts[i];
        }
    }
    ASSERT(summary->bad_entries == bad && summary->counts.streams == count);
    ASSERT(first == NULL ? summary->first_error.kind == MDMP_FAULT_NONE : is_same_fault(first, &summary->first_error));
}

typedef struct {
    uint64_t count;
    mdmp_fault first;
} outside_parts;

static void count_part(outside_parts *parts, mdmp_fault at, uint32_t part, uint64_t offset, uint64_t size) {
    if (parts->count++ == 0) {
        parts->first = at;
        parts->first.kind = MDMP_FAULT_PART_OUTSIDE, parts->first.part = part, parts->first.has_index = 1;
        parts->first.offset = offset, parts->first.size = size;
    }
}

static void count_place(outside_parts *parts, uint32_t entry, uint64_t index, uint32_t part, const mdmp_place *place) {
    if (place->extent == MDMP_EXTENT_OUTSIDE) {
        count_part(parts, (mdmp_fault){.entry = entry, .index = index}, part, place->rva, place->size);
    }
}

static void count_bytes(outside_parts *parts, uint32_t entry, uint32_t part, const mdmp_range *row) {
    if (row->extent == MDMP_EXTENT_OUTSIDE) {
        const mdmp_fault at = {.entry = entry, .index = row->index, .high = row->offset_high};
        count_part(parts, at, part, row->offset, row->size);
    }
}

/* Whether a record of this table has a part. */
#define ONE_PLACE(field, part) || true
#define OWN_BYTES(part) || true
#define HAS_PARTS(NAME) (false PLACES_OF_##NAME(ONE_PLACE) BYTES_OF_##NAME(OWN_BYTES))

/* Whether the rows of all tables that have parts are all that there are. */
static bool has_all_parts(const reading *given) {
#define AND_ALL(name, NAME, row) &&(!HAS_PARTS(NAME) || has_##name(given))
    return true EACH_TABLE(AND_ALL);
}

#define COUNT_PLACE(field, part) count_place(&parts, entry, at->index, part, &at->field);
#define COUNT_BYTES(part) count_bytes(&parts, entry, part, at);
#define COUNT(name, NAME, row)                                                                                \
    for (uint64_t i = 0; HAS_PARTS(NAME) && i < given->of[FILL_##NAME].count; i++) {                          \
        const row *at = ROWS_OF(given, FILL_##NAME, row) + i;                                                 \
        if (at->entry == entry) {                                                                             \
            PLACES_OF_##NAME(COUNT_PLACE) BYTES_OF_##NAME(COUNT_BYTES)                                        \
        }                                                                                                     \
    }

/* The parts outside the file, an entry after the other. */
static outside_parts parts_of_rows(const reading *given) {
    outside_parts parts = {0, {.kind = MDMP_FAULT_NONE}};
    for (uint32_t entry = 0; entry < given->of[FILL_STREAMS].count; entry++) {
        EACH_TABLE(COUNT)
    }
    return parts;
}

/* The counts of each kind without an error are those of its rows, and the memory is that of the ranges inside the file. */
void test_counts(const reading *given) {
    const mdmp_summary_record *summary = ROWS_OF(given, FILL_SUMMARY, mdmp_summary_record);
    if (given->of[FILL_SUMMARY].count == 0) {
        ASSERT(is_same_fault(&given->of[FILL_SUMMARY].fault, &given->of[FILL_STREAMS].fault));
        return;
    }
    test_bad_entries(given, summary);
    test_fault(&summary->first_error);
    test_fault(&summary->first_outside);
    ASSERT(!has_threads(given) || summary->counts.threads == given->of[FILL_THREADS].count);
    ASSERT(!has_modules(given) || summary->counts.modules == given->of[FILL_MODULES].count);
    ASSERT(!has_exceptions(given) || summary->counts.exceptions == given->of[FILL_EXCEPTIONS].count);
    if (has_ranges(given)) {
        const mdmp_range *ranges = ROWS_OF(given, FILL_RANGES, mdmp_range);
        uint64_t memory = 0;
        for (uint64_t i = 0; i < given->of[FILL_RANGES].count; i++) {
            memory += ranges[i].extent == MDMP_EXTENT_INSIDE ? ranges[i].size : 0;
        }
        ASSERT(summary->counts.ranges == given->of[FILL_RANGES].count);
        ASSERT(summary->counts.memory == memory && summary->counts.memory_high == 0);
        if (has_all_parts(given) && given->of[FILL_STREAMS].count < 256) {
            const outside_parts parts = parts_of_rows(given);
            ASSERT(summary->parts_outside == parts.count && is_same_fault(&summary->first_outside, &parts.first));
        }
    }
}

/* Whether this part has a byte after the end of the file. */
static bool is_outside(const mdmp_fault *part, size_t file_size) {
    return part->kind == MDMP_FAULT_PART_OUTSIDE && part->size != 0 &&
           (part->high != 0 || part->size > file_size || part->offset > file_size - part->size);
}

/* The parts outside the file are those that the summary counts, in the order of the entries. The bad entries have an error or
 * such a part. */
void test_parts(const reading *given) {
    const filled *parts = &given->of[FILL_PARTS_OUTSIDE], *verdicts = &given->of[FILL_VERDICTS];
    const mdmp_fault *rows = ROWS_OF(given, FILL_PARTS_OUTSIDE, mdmp_fault), *faults = ROWS_OF(given, FILL_VERDICTS, mdmp_fault);
    const mdmp_summary_record *summary = ROWS_OF(given, FILL_SUMMARY, mdmp_summary_record);
    uint64_t at = 0, bad = 0;
    if (rows == NULL || faults == NULL) {
        return;
    }
    for (uint64_t entry = 0; entry < verdicts->count; entry++) {
        const uint64_t first = at;
        for (; at < parts->count && rows[at].entry == entry; at++) {
            test_fault(&rows[at]);
            ASSERT(is_outside(&rows[at], given->file.size));
        }
        bad += faults[entry].kind != MDMP_FAULT_NONE || at != first;
    }
    ASSERT(at == parts->count);
    if (bad == 0) {
        ASSERT(is_same_fault(&parts->fault, &verdicts->fault));
    } else {
        ASSERT(parts->fault.kind == MDMP_FAULT_BAD_ENTRIES && parts->fault.size == bad);
    }
    if (parts->fault.kind == MDMP_FAULT_NONE || bad != 0) {
        ASSERT(given->of[FILL_SUMMARY].count == 1 && summary->parts_outside == at);
        ASSERT(at == 0 || is_same_fault(&rows[0], &summary->first_outside));
    }
}

static bool is_module(const mdmp_summary_module *summed, const mdmp_module *row) {
    return summed->base_of_image == row->base_of_image && summed->size_of_image == row->size_of_image &&
           summed->checksum == row->checksum && summed->time_date_stamp == row->time_date_stamp &&
           summed->file_version_ms == row->file_version_ms && summed->file_version_ls == row->file_version_ls &&
           summed->product_version_ms == row->product_version_ms && summed->product_version_ls == row->product_version_ls &&
           memcmp(&summed->name, &row->name, sizeof row->name) == 0 &&
           memcmp(&summed->codeview, &row->codeview, sizeof row->codeview) == 0 && summed->reserved == 0;
}

/* The first module that has the address; if none has it, the first of those with the greatest base at or below it. */
static void test_module(const reading *given, const mdmp_crash *crash) {
    const mdmp_module *rows = ROWS_OF(given, FILL_MODULES, mdmp_module), *holder = NULL, *near = NULL;
    for (uint64_t i = 0; i < given->of[FILL_MODULES].count; i++) {
        if (rows[i].base_of_image <= crash->address) {
            if (holder == NULL && crash->address - rows[i].base_of_image < rows[i].size_of_image) {
                holder = &rows[i];
            }
            if (near == NULL || near->base_of_image < rows[i].base_of_image) {
                near = &rows[i];
            }
        }
    }
    near = holder != NULL ? NULL : near;
    ASSERT(crash->has_module == (holder != NULL) && crash->has_near == (near != NULL));
    ASSERT(holder == NULL || (is_module(&crash->module.module, holder) &&
                              crash->module.offset == crash->address - holder->base_of_image));
    ASSERT(near == NULL || (is_module(&crash->near.module, near) && crash->near.offset == crash->address - near->base_of_image));
}

static bool is_passed_over(uint32_t platform, uint32_t code) {
    if (platform <= 3) {
        return code == 0x80000003 || code == 0x80000004;
    }
    return (platform == 0x8201 || platform == 0x8203) && ((code >= 17 && code <= 23) || code == 28 || code == 0xffffffff);
}

/* The exception that is the crash: the first that stopped the process. On Windows the first breakpoint, if there is no other. */
static const mdmp_exception *crash_of_rows(const reading *given, uint32_t platform) {
    const mdmp_exception *rows = ROWS_OF(given, FILL_EXCEPTIONS, mdmp_exception);
    for (uint64_t i = 0; i < given->of[FILL_EXCEPTIONS].count; i++) {
        if (!is_passed_over(platform, rows[i].exception_code)) {
            return &rows[i];
        }
    }
    return platform <= 3 && given->of[FILL_EXCEPTIONS].count != 0 ? rows : NULL;
}

/* The registers are bytes of the context. */
static void test_registers(const reading *given, const mdmp_crash *crash) {
    const mdmp_place *context = &crash->exception.context;
    if (crash->has_registers == 0) {
        ASSERT(crash->registers.instruction == 0 && crash->registers.stack == 0 && crash->registers.frame == 0);
        return;
    }
    ASSERT(context->extent == MDMP_EXTENT_INSIDE);
    const uint8_t *bytes = given->file.bytes + context->rva;
    bool is_found = false;
    for (uint32_t at = 0; at + 4 <= context->size && !is_found; at++) {
        is_found = memcmp(bytes + at, &crash->registers.instruction, crash->registers.instruction >> 32 != 0 ? 8 : 4) == 0;
    }
    ASSERT(is_found);
}

/* The name of the crashed thread is the first for its number. */
static void test_thread_name(const reading *given, const mdmp_crash *crash) {
    const mdmp_thread_name *rows = ROWS_OF(given, FILL_THREAD_NAMES, mdmp_thread_name);
    mdmp_name_place name = {0, 0, MDMP_NAME_NONE};
    for (uint64_t i = given->of[FILL_THREAD_NAMES].count; i > 0; i--) {
        name = rows[i - 1].thread_id == crash->exception.thread_id ? rows[i - 1].name : name;
    }
    ASSERT(memcmp(&name, &crash->thread_name, sizeof name) == 0);
}

/* The crash, the program and the system are rows, if the rows are all that there are. */
void test_crash(const reading *given) {
    const mdmp_summary_record *summary = ROWS_OF(given, FILL_SUMMARY, mdmp_summary_record);
    if (given->of[FILL_SUMMARY].count == 0 || !has_systems(given)) {
        return;
    }
    const mdmp_system *system = ROWS_OF(given, FILL_SYSTEMS, mdmp_system);
    const uint32_t platform = given->of[FILL_SYSTEMS].count == 0 ? 0x10000 : system->platform_id;
    ASSERT(summary->has_system == (given->of[FILL_SYSTEMS].count != 0));
    ASSERT(summary->has_system == 0 || (summary->system.build_number == system->build_number &&
                                        memcmp(&summary->system.csd_version, &system->csd_version, 16) == 0 &&
                                        memcmp(summary->system.cpu, system->cpu, 24) == 0));
    if (has_modules(given)) {
        ASSERT(summary->has_program == (given->of[FILL_MODULES].count != 0));
        ASSERT(summary->has_program == 0 || is_module(&summary->program, ROWS_OF(given, FILL_MODULES, mdmp_module)));
    }
    if (has_exceptions(given)) {
        const mdmp_exception *crash = crash_of_rows(given, platform);
        ASSERT(summary->has_crash == (crash != NULL));
        ASSERT(crash == NULL || memcmp(crash, &summary->crash.exception, sizeof *crash) == 0);
    }
    if (summary->has_crash == 1) {
        const bool is_plain = platform <= 3 || summary->crash.has_registers == 0;
        ASSERT(summary->crash.address == (is_plain ? summary->crash.exception.exception_address
                                                   : summary->crash.registers.instruction));
        test_registers(given, &summary->crash);
        if (has_modules(given)) {
            test_module(given, &summary->crash);
        }
        if (has_thread_names(given)) {
            test_thread_name(given, &summary->crash);
        }
    }
}
