/* Names, CodeView records and ids beside the bytes of the file. */
#include "oracles.h"

enum { LONGEST = 4096, MOST_ROWS = 64 };

static uint32_t number_at(const uint8_t *bytes) {
    return bytes[0] | (uint32_t)bytes[1] << 8 | (uint32_t)bytes[2] << 16 | (uint32_t)bytes[3] << 24;
}

static size_t put_character(uint8_t *out, uint32_t character) {
    if (character < 0x80) {
        out[0] = (uint8_t)character;
        return 1;
    }
    size_t more = character < 0x800 ? 1 : character < 0x10000 ? 2 : 3;
    out[0] = (uint8_t)(0xff00 >> (more + 1) | character >> (6 * more));
    for (size_t i = 1; i <= more; i++) {
        out[i] = (uint8_t)(0x80 | (character >> (6 * (more - i)) & 0x3f));
    }
    return more + 1;
}

static uint32_t unit_at(const uint8_t *units, uint32_t at, uint32_t size) {
    return at + 2 <= size ? units[at] | (uint32_t)units[at + 1] << 8 : 0;
}

/* The units of UTF-16 as UTF-8: a surrogate without its other half is U+FFFD. */
static size_t decode(uint8_t *out, const uint8_t *units, uint32_t size) {
    size_t end = 0;
    for (uint32_t at = 0; at < size; at += 2) {
        uint32_t unit = unit_at(units, at, size), next = unit_at(units, at + 2, size);
        if ((unit & 0xfc00) == 0xd800 && (next & 0xfc00) == 0xdc00) {
            unit = 0x10000 + ((unit & 0x3ff) << 10 | (next & 0x3ff));
            at += 2;
        } else if ((unit & 0xf800) == 0xd800) {
            unit = 0xfffd;
        }
        end += put_character(out + end, unit);
    }
    return end;
}

/* The error of a name at an offset, by the rules: its length has to be inside the file and even, and so have its units. */
static mdmp_fault fault_at(blob file, uint64_t rva, uint32_t size) {
    if (rva > file.size || file.size - rva < 4) {
        return (mdmp_fault){.kind = MDMP_FAULT_NAME_LENGTH_OUTSIDE, .offset = rva, .size = 4};
    }
    if (size % 2 != 0) {
        return (mdmp_fault){.kind = MDMP_FAULT_NAME_ODD, .offset = rva, .size = size};
    }
    if (size > file.size - rva - 4) {
        return (mdmp_fault){.kind = MDMP_FAULT_NAME_OUTSIDE, .offset = rva + 4, .size = size};
    }
    return (mdmp_fault){.kind = size > LIMITS.name ? MDMP_FAULT_NAME_TOO_LONG : MDMP_FAULT_NONE, .size = size};
}

/* A name at any offset of 64 bits has the error that is due, or the text of its units. */
void test_chosen_name(const reading *given) {
    const filled *whole = &given->of[FILL_NAME];
    static uint8_t text[3 * LONGEST];
    uint8_t length[4] = {0};
    if (name_rva == 0) {
        ASSERT(whole->count == 0 && whole->fault.kind == MDMP_FAULT_NONE);
        return;
    }
    if (name_rva < given->file.size && given->file.size - name_rva >= 4) {
        memcpy(length, given->file.bytes + name_rva, 4);
    }
    const uint32_t size = number_at(length);
    const mdmp_fault wanted = fault_at(given->file, name_rva, size);
    ASSERT(whole->fault.kind == wanted.kind);
    if (wanted.kind != MDMP_FAULT_NONE) {
        ASSERT(whole->fault.offset == wanted.offset && whole->fault.size == wanted.size && whole->count == 0);
        return;
    }
    ASSERT(decode(text, given->file.bytes + name_rva + 4, size) == whole->count);
    ASSERT(memcmp(text, whole->bytes, (size_t)whole->count) == 0);
}

/* The name that a row names is that of the units in the file, none, or longer than the limit. */
static void test_name(blob file, const mdmp_name_place *place) {
    static uint8_t text[3 * LONGEST];
    uint8_t *out = guarded(sizeof text);
    uint64_t size;
    mdmp_fault fault;
    uint32_t status = mdmp_name(file.bytes, file.size, place->rva, LIMITS.name, out, sizeof text, &size, &fault);
    ASSERT(is_guarded(out, sizeof text) && status == status_of(&fault));
    if (place->state == MDMP_NAME_LONG) {
        ASSERT(fault.kind == MDMP_FAULT_NAME_TOO_LONG && fault.size == place->size && size == 0 && place->size > LIMITS.name);
        return;
    }
    ASSERT(status == MDMP_OK && (place->state == MDMP_NAME_GIVEN) == (place->rva != 0));
    if (place->state == MDMP_NAME_NONE) {
        ASSERT(size == 0 && place->size == 0);
        return;
    }
    ASSERT(place->size <= LIMITS.name);
    size_t length = decode(text, file.bytes + place->rva + 4, place->size);
    ASSERT(size == length && memcmp(out, text, length) == 0);
}

#define TEST_NAME(field) test_name(given->file, &at->field);
#define NAMES(name, NAME, row)                                                                     \
    for (uint64_t i = 0; given->of[FILL_##NAME].bytes != NULL && i < given->of[FILL_##NAME].count && i < MOST_ROWS; i++) { \
        const row *at = ROWS_OF(given, FILL_##NAME, row) + i;                                      \
        NAMES_OF_##NAME(TEST_NAME)                                                                 \
        (void)at;                                                                                  \
    }

void test_names(const reading *given) {
    EACH_TABLE(NAMES)
}

/* The GUID of bytes as it is in memory: its first three numbers have their lower bytes first. */
static bool is_guid(const uint8_t *guid, const uint8_t *bytes) {
    static const uint8_t ORDER[16] = {3, 2, 1, 0, 5, 4, 7, 6, 8, 9, 10, 11, 12, 13, 14, 15};
    for (size_t i = 0; i < 16; i++) {
        if (guid[i] != bytes[ORDER[i]]) {
            return false;
        }
    }
    return true;
}

/* The CodeView record at a place inside the file, by its first bytes. */
static void test_record(blob file, const mdmp_place *place, const mdmp_symbol_file *symbols, uint32_t limit) {
    const uint8_t *record = file.bytes + place->rva;
    bool is_rsds = place->size >= 4 && memcmp(record, "RSDS", 4) == 0;
    if (place->size < 4 || (is_rsds && place->size < 24)) {
        ASSERT(symbols->kind == MDMP_SYMBOLS_SHORT && symbols->name_size == 0);
    } else if (!is_rsds) {
        ASSERT(symbols->kind == MDMP_SYMBOLS_OTHER && memcmp(symbols->signature, record, 4) == 0);
    } else {
        uint32_t length = place->size - 24 < limit ? place->size - 24 : limit;
        const uint8_t *name = record + 24, *end = length == 0 ? NULL : memchr(name, 0, length);
        ASSERT(symbols->kind == MDMP_SYMBOLS_RSDS && is_guid(symbols->guid, record + 4));
        ASSERT(symbols->age == number_at(record + 20) && symbols->name_offset == (uint64_t)place->rva + 24);
        ASSERT(symbols->name_ended == (end != NULL) && symbols->name_size == (end == NULL ? length : (uint32_t)(end - name)));
    }
}

/* The ids of a module, by the first bytes of its CodeView record. */
static void test_ids(blob file, const mdmp_module *module, bool is_inside) {
    static const uint8_t ZEROS[20];
    const uint32_t size = is_inside ? module->codeview.size : 0;
    const uint8_t *record = size == 0 ? ZEROS : file.bytes + module->codeview.rva;
    mdmp_module_ids *ids = guarded(sizeof *ids);
    ASSERT(mdmp_ids(file.bytes, file.size, module, ids) == MDMP_OK && is_guarded((uint8_t *)ids, sizeof *ids));
    ASSERT(ids->time_date_stamp == module->time_date_stamp);
    ASSERT(ids->size_of_image == (module->time_date_stamp == 0 ? 0 : module->size_of_image));
    const uint32_t signature = size < 4 ? 0 : number_at(record);
    if (size < 4 || (signature == 0x53445352 && size < 24)) {
        ASSERT(ids->kind == MDMP_IDS_NONE);
    } else if (signature == 0x53445352) {
        ASSERT(ids->kind == MDMP_IDS_RSDS && is_guid(ids->guid, record + 4) && ids->age == number_at(record + 20));
    } else if (signature == 0x3031424e && size >= 16) {
        ASSERT(ids->kind == MDMP_IDS_PDB20 && ids->signature == number_at(record + 8) && ids->age == number_at(record + 12));
    } else if (signature == 0x4270454c) {
        uint8_t first[20] = {0};
        memcpy(first, record + 4, size - 4 < 20 ? size - 4 : 20);
        ASSERT(ids->kind == MDMP_IDS_ELF && ids->build_id_cut == (size > 24) && is_guid(ids->guid, first));
        ASSERT(ids->build_id_size == (size < 24 ? size - 4 : 20) && memcmp(ids->build_id, first, 20) == 0);
    } else {
        ASSERT(ids->kind == MDMP_IDS_OTHER);
    }
    ASSERT(ids->kind == MDMP_IDS_ELF || (ids->build_id_size == 0 && memcmp(ids->build_id, ZEROS, 20) == 0));
}

static void test_place(blob file, const mdmp_module *module, uint32_t limit) {
    const mdmp_place *place = &module->codeview;
    mdmp_limits limits = LIMITS;
    limits.name = limit;
    mdmp_symbol_file *symbols = guarded(sizeof *symbols);
    mdmp_fault fault;
    uint32_t status = mdmp_symbols(file.bytes, file.size, &limits, place, symbols, &fault);
    const bool is_inside = place->size != 0 && (uint64_t)place->rva + place->size <= file.size;
    ASSERT(status == (is_inside ? MDMP_OK : MDMP_FAULT) && status == status_of(&fault));
    ASSERT(is_guarded((uint8_t *)symbols, sizeof *symbols));
    if (is_inside) {
        test_record(file, place, symbols, limit);
    } else {
        static const mdmp_symbol_file NONE;
        ASSERT(memcmp(symbols, &NONE, sizeof NONE) == 0);
    }
    test_fault(&fault);
    test_ids(file, module, is_inside);
}

/* The CodeView records and the ids of the modules. */
void test_symbols(const reading *given) {
    const mdmp_module *modules = ROWS_OF(given, FILL_MODULES, mdmp_module);
    for (uint64_t i = 0; modules != NULL && i < given->of[FILL_MODULES].count && i < MOST_ROWS; i++) {
        test_place(given->file, &modules[i], LIMITS.name);
    }
}

/* CodeView records at places that no module names. */
void test_strange_places(blob file) {
    for (int i = 0; i < 4; i++) {
        uint32_t rva = (uint32_t)below(file.size + 4), size = (uint32_t)below(i < 2 ? 64 : file.size + 4);
        const mdmp_module module = {.codeview = {size, rva, (uint32_t)below(5), 0},
            .time_date_stamp = (uint32_t)below(2),
            .size_of_image = size};
        test_place(file, &module, (uint32_t)below(40));
    }
}
