/* Summaries of the crash of a sample, whole and cut, its parts outside the file, and the ids of modules: summaries DUMP */
#include "support.h"

static mdmp_fault fault;

static bool is_name(blob file, const mdmp_name_place *place, const char *name) {
    uint8_t text[64];
    uint64_t size;
    return place->state == MDMP_NAME_GIVEN &&
           mdmp_name(file.bytes, file.size, place->rva, LIMITS.name, text, sizeof text, &size, &fault) == MDMP_OK &&
           size == strlen(name) && memcmp(text, name, (size_t)size) == 0;
}

/* What does not depend on the parts that are cut off. */
static void test_crash(blob file, const mdmp_summary_record *summary) {
    const mdmp_crash *crash = &summary->crash;
    ASSERT(summary->header.version == 0xa793 && summary->has_crash == 1 && summary->has_program == 1 && summary->has_system == 1);
    ASSERT(crash->exception.thread_id == 22570 && crash->exception.exception_code == 11);
    ASSERT(crash->exception.exception_flags == 1 && crash->exception.number_parameters == 0);
    ASSERT(is_name(file, &crash->thread_name, "cpad"));
    ASSERT(crash->has_registers == 1 && crash->registers.instruction == 0x55c6e269e4d8);
    ASSERT(crash->address == 0x55c6e269e4d8 && crash->has_module == 1 && crash->has_near == 0);
    ASSERT(crash->module.module.base_of_image == 0x55c6e269d000 && crash->module.offset == 0x14d8);
    ASSERT(is_name(file, &crash->module.module.name, "/usr/sample/cpad"));
    ASSERT(crash->access == MDMP_ACCESS_NOT_SAID && crash->reached == crash->exception.exception_address);
    ASSERT(crash->near.module.base_of_image == 0 && crash->near.module.name.state == MDMP_NAME_NONE);
    ASSERT(summary->program.base_of_image == 0x55c6e269d000);
    ASSERT(summary->system.platform_id == 0x8201 && summary->system.processor_architecture == 9);
    ASSERT(summary->counts.threads == 1 && summary->counts.modules == 4 && summary->counts.exceptions == 1);
    ASSERT(summary->counts.memory_high == 0 && summary->bad_entries == 0);
    ASSERT(summary->first_error.kind == MDMP_FAULT_NONE);
}

static void test_sample(blob file) {
    mdmp_summary_record summary;
    ASSERT(mdmp_summary(file.bytes, file.size, &LIMITS, &summary, &fault) == MDMP_OK && fault.kind == MDMP_FAULT_NONE);
    test_crash(file, &summary);
    ASSERT(summary.parts_outside == 0 && summary.first_outside.kind == MDMP_FAULT_NONE);
    /* cut inside the stack of the thread */
    file.size = 4708;
    ASSERT(mdmp_summary(file.bytes, file.size, &LIMITS, &summary, &fault) == MDMP_OK);
    test_crash(file, &summary);
    const mdmp_fault stack = {.kind = MDMP_FAULT_PART_OUTSIDE,
        .entry = 2,
        .offset = 4720,
        .size = 7264,
        .part = MDMP_PART_STACK,
        .has_index = 1};
    ASSERT(summary.parts_outside > 0 && memcmp(&summary.first_outside, &stack, sizeof stack) == 0);
    /* cut before its directory ends */
    memset(&summary, 0xaa, sizeof summary);
    ASSERT(mdmp_summary(file.bytes, 40, &LIMITS, &summary, &fault) == MDMP_FAULT);
    ASSERT(fault.kind == MDMP_FAULT_DIRECTORY_OUTSIDE && summary.has_crash == 0xaaaaaaaa);
}

/* The parts of the sample cut inside its stack, with room for all of them and for fewer. */
static void test_parts(blob file) {
    static const mdmp_fault PARTS[] = {
        {.kind = MDMP_FAULT_PART_OUTSIDE, .entry = 2, .offset = 4720, .size = 7264, .part = MDMP_PART_STACK, .has_index = 1},
        {.kind = MDMP_FAULT_PART_OUTSIDE, .entry = 7, .offset = 4720, .size = 7264, .part = MDMP_PART_MEMORY, .has_index = 1}};
    mdmp_fault parts[3];
    uint64_t count;
    ASSERT(mdmp_parts_outside(file.bytes, file.size, &LIMITS, parts, 3, &count, &fault) == MDMP_OK && count == 0);
    ASSERT(fault.kind == MDMP_FAULT_NONE);
    file.size = 4708;
    for (size_t room = 0; room <= 3; room++) {
        memset(parts, 0xaa, sizeof parts);
        const mdmp_fault untouched = parts[2];
        uint32_t status = mdmp_parts_outside(file.bytes, file.size, &LIMITS, parts, room, &count, &fault);
        ASSERT(status == (room < 2 ? (uint32_t)MDMP_BUFFER_TOO_SHORT : (uint32_t)MDMP_FAULT) && count == 2);
        ASSERT(fault.kind == MDMP_FAULT_BAD_ENTRIES && fault.size == 2);
        for (size_t i = 0; i < 3; i++) {
            const mdmp_fault *expected = i < room && i < 2 ? &PARTS[i] : &untouched;
            ASSERT(memcmp(&parts[i], expected, sizeof *expected) == 0);
        }
    }
    char text[80];
    uint64_t size;
    ASSERT(mdmp_fault_text(&parts[0], (uint8_t *)text, sizeof text, &size) == MDMP_OK);
    ASSERT(size == 61 && memcmp(text, "entry 2 item 0: stack outside the file: offset 4720 size 7264", 61) == 0);
    /* up to where the budget is reached, the first parts are given */
    mdmp_limits limits = LIMITS;
    for (limits.budget = 0;; limits.budget += fault.size) {
        uint32_t status = mdmp_parts_outside(file.bytes, file.size, &limits, parts, 3, &count, &fault);
        if (status == MDMP_FAULT) {
            break;
        }
        ASSERT(status == MDMP_LIMIT && fault.kind == MDMP_FAULT_BUDGET && fault.size > 0 && count <= 2);
        ASSERT(memcmp(parts, PARTS, (size_t)count * sizeof *parts) == 0 && limits.budget < 4 * file.size);
    }
    ASSERT(count == 2 && fault.kind == MDMP_FAULT_BAD_ENTRIES);
    ASSERT(mdmp_parts_outside(file.bytes, 40, &LIMITS, parts, 3, &count, &fault) == MDMP_FAULT && count == 0);
    ASSERT(fault.kind == MDMP_FAULT_DIRECTORY_OUTSIDE);
}

/* The least budget with which there is a summary: the entries are read twice. No ranges are kept. */
static void test_limits(blob file) {
    mdmp_summary_record summary;
    mdmp_limits limits = LIMITS;
    uint64_t size = 0;
    for (limits.budget = 0;; limits.budget += fault.size) {
        uint32_t status = mdmp_summary(file.bytes, file.size, &limits, &summary, &fault);
        if (status == MDMP_OK) {
            break;
        }
        ASSERT(status == MDMP_LIMIT && fault.kind == MDMP_FAULT_BUDGET && fault.size > 0);
        ASSERT(fault.offset + fault.size <= file.size && limits.budget < 4 * file.size);
        size += fault.size;
    }
    ASSERT(size > 32 && summary.has_crash == 1);
    mdmp_header_record header;
    ASSERT(mdmp_header(file.bytes, file.size, &header, &fault) == MDMP_OK);
    limits = LIMITS;
    limits.memory = limits.window + limits.name + 12 * (uint64_t)header.number_of_streams;
    ASSERT(mdmp_summary(file.bytes, file.size, &limits, &summary, &fault) == MDMP_OK);
    limits.memory--;
    ASSERT(mdmp_summary(file.bytes, file.size, &limits, &summary, &fault) == MDMP_LIMIT);
    ASSERT(fault.kind == MDMP_FAULT_MEMORY_LIMIT && fault.size == limits.memory + 1);
}

/* Ranges that all have nearly the whole file: together they have more bytes than a number of 32 bits counts. */
static void test_much_memory(void) {
    enum { RANGES = 1 << 14, LIST = 44, SIZE = LIST + 4 + 16 * RANGES };
    static uint8_t file[SIZE];
    static const uint8_t HEAD[] = "MDMP\x93\xa7\0\0\x01\0\0\0\x20";
    const uint32_t entry[] = {5, SIZE - LIST, LIST}, count = RANGES, place[] = {SIZE - 1, 1};
    const uint64_t wanted = (uint64_t)RANGES * (SIZE - 1);
    mdmp_summary_record summary;
    memcpy(file, HEAD, sizeof HEAD - 1);
    memcpy(file + 32, entry, sizeof entry);
    memcpy(file + LIST, &count, sizeof count);
    for (size_t i = 0; i < RANGES; i++) {
        memcpy(file + LIST + 4 + 16 * i + 8, place, sizeof place);
    }
    ASSERT(mdmp_summary(file, sizeof file, &LIMITS, &summary, &fault) == MDMP_OK && wanted > UINT32_MAX);
    ASSERT(summary.counts.ranges == RANGES && summary.counts.memory == wanted && summary.counts.memory_high == 0);
}

/* Records of each kind, each with its length. */
static void test_ids(void) {
    static const uint8_t FILE[] =
        "RSDS\x33\x22\x11\0\x55\x44\x77\x66\x88\x99\xaa\xbb\xcc\xdd\xee\xff\x1f\0\0\0a.pdb\0"  /* 30 bytes */
        "NB10\0\0\0\0\x78\x56\x34\x12\x02\0\0\0b.pdb\0"                                         /* 22, at 30 */
        "LEpB\x01\x02\x03\x04\x05\x06\x07\x08\x09\x0a\x0b\x0c\x0d\x0e\x0f\x10\x11\x12\x13\x14\x15" /* 25, at 52 */
        "XXXX";                                                                                 /* 4, at 77 */
    static const uint8_t GUID[] = "\0\x11\x22\x33\x44\x55\x66\x77\x88\x99\xaa\xbb\xcc\xdd\xee\xff";
    static const uint8_t ELF_GUID[] = "\x04\x03\x02\x01\x06\x05\x08\x07\x09\x0a\x0b\x0c\x0d\x0e\x0f\x10";
    static const struct {
        uint32_t size, rva;
        mdmp_module_ids ids;
    } ROWS[] = {
        {30, 0, {.kind = MDMP_IDS_RSDS, .age = 31}},
        {23, 0, {.kind = MDMP_IDS_NONE}},
        {22, 30, {.kind = MDMP_IDS_PDB20, .age = 2, .signature = 0x12345678}},
        {15, 30, {.kind = MDMP_IDS_OTHER}},
        {25, 52, {.kind = MDMP_IDS_ELF, .build_id_size = 20, .build_id_cut = 1}},
        {24, 52, {.kind = MDMP_IDS_ELF, .build_id_size = 20}},
        {6, 52, {.kind = MDMP_IDS_ELF, .build_id_size = 2}},
        {4, 77, {.kind = MDMP_IDS_OTHER}},
        {3, 77, {.kind = MDMP_IDS_NONE}},
        {0, 0, {.kind = MDMP_IDS_NONE}},
        {6, 77, {.kind = MDMP_IDS_NONE}},
        {UINT32_MAX, UINT32_MAX, {.kind = MDMP_IDS_NONE}},
    };
    for (size_t i = 0; i < sizeof ROWS / sizeof *ROWS; i++) {
        mdmp_module module = {.codeview = {ROWS[i].size, ROWS[i].rva, MDMP_EXTENT_OUTSIDE, 0}, .size_of_image = 0x12000};
        mdmp_module_ids ids, expected = ROWS[i].ids;
        if (expected.kind == MDMP_IDS_RSDS) {
            memcpy(expected.guid, GUID, 16);
        }
        memcpy(expected.build_id, FILE + 56, expected.build_id_size);
        if (expected.build_id_size == 20) {
            memcpy(expected.guid, ELF_GUID, 16);
        } else if (expected.build_id_size == 2) {
            memcpy(expected.guid, "\0\0\x02\x01", 4);
        }
        memset(&ids, 0xaa, sizeof ids);
        ASSERT(mdmp_ids(FILE, sizeof FILE, &module, &ids) == MDMP_OK);
        ASSERT(memcmp(&ids, &expected, sizeof ids) == 0);
        module.time_date_stamp = 0x5f3759df;
        expected.time_date_stamp = module.time_date_stamp;
        expected.size_of_image = module.size_of_image;
        ASSERT(mdmp_ids(FILE, sizeof FILE, &module, &ids) == MDMP_OK);
        ASSERT(memcmp(&ids, &expected, sizeof ids) == 0);
    }
    const mdmp_module module = {.codeview = {4, 0, MDMP_EXTENT_INSIDE, 0}};
    mdmp_module_ids ids;
    ASSERT(mdmp_ids(NULL, 0, &module, &ids) == MDMP_OK && ids.kind == MDMP_IDS_NONE);
}

int main(int argc, char **argv) {
    ASSERT(argc == 2);
    blob file = read_file(argv[1]);
    test_sample(file);
    test_parts(file);
    test_limits(file);
    test_much_memory();
    test_ids();
    free(file.bytes);
    return 0;
}
