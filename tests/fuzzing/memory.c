/* Memory: by the file, by its ranges and by their index it is what the ranges say, an address after the other. */
#include "oracles.h"

enum { LENGTH = 64, MOST_RANGES = 512 };

/* The byte at an address: of the first range inside the file that has it. */
static bool byte_at(blob file, const mdmp_range *ranges, size_t count, uint64_t address, uint8_t *byte) {
    for (size_t i = 0; i < count; i++) {
        const mdmp_range *range = &ranges[i];
        if (range->extent == MDMP_EXTENT_INSIDE && range->offset_high == 0 && range->size <= file.size &&
            range->offset <= file.size - range->size && address >= range->start && address - range->start < range->size) {
            *byte = file.bytes[range->offset + (address - range->start)];
            return true;
        }
    }
    *byte = 0;
    return false;
}

typedef struct {
    uint8_t bytes[LENGTH];
    bool known[LENGTH];
} stretch;

/* Both buffers have a pattern, which is no value of bool, as memory that was not set may have. */
static void read_back(stretch *found, const uint8_t *out, const bool *known, size_t length) {
    memcpy(found->bytes, out, length);
    memcpy(found->known, known, length);
}

static bool *known_buffer(size_t length) {
    static fenced pages;
    if (pages.start == NULL) {
        pages = fenced_new(4096);
    }
    bool *known = fenced_last(&pages, length);
    memset(known, 0xaa, length);
    return known;
}

/* So many bytes from an address on. No address wraps. */
static void test_stretch(blob file, const mdmp_range *ranges, size_t count, uint64_t address, size_t length) {
    stretch wanted, found;
    for (size_t i = 0; i < length; i++) {
        wanted.known[i] = address + i >= address && byte_at(file, ranges, count, address + i, &wanted.bytes[i]);
        wanted.bytes[i] = wanted.known[i] ? wanted.bytes[i] : 0;
    }
    mdmp_fault fault;
    uint8_t *out = guarded(length);
    bool *known = known_buffer(length);
    ASSERT(mdmp_read(file.bytes, file.size, ranges, count, address, out, length, known, length, &fault) == MDMP_OK);
    read_back(&found, out, known, length);
    ASSERT(memcmp(found.bytes, wanted.bytes, length) == 0 && memcmp(found.known, wanted.known, length) == 0);
    ASSERT(is_guarded(out, length) && fault.kind == MDMP_FAULT_NONE);
}

/* The file gives what its ranges give, or, if a list has an error, nothing. */
static void test_file_memory(const reading *given, uint64_t address, size_t length) {
    const filled *rows = &given->of[FILL_RANGES];
    const blob file = given->file;
    stretch by_rows;
    mdmp_fault fault;
    bool *known = known_buffer(length);
    ASSERT(mdmp_read(file.bytes, file.size, ROWS_OF(given, FILL_RANGES, mdmp_range), (size_t)rows->count, address,
               by_rows.bytes, length, by_rows.known, length, &fault) == MDMP_OK);
    uint8_t *out = guarded(length);
    uint32_t status = mdmp_memory(file.bytes, file.size, &LIMITS, address, out, length, known, length, &fault);
    ASSERT(status == status_of(&rows->fault) && is_same_fault(&fault, &rows->fault) && is_guarded(out, length));
    for (size_t i = 0; i < length; i++) {
        ASSERT(out[i] == (status == MDMP_OK ? by_rows.bytes[i] : 0xaa));
        ASSERT(((uint8_t *)known)[i] == (status == MDMP_OK ? (uint8_t)by_rows.known[i] : 0xaa));
    }
}

/* An address near the start or the end of a range, near the last one, or anywhere. */
static uint64_t near_range(const mdmp_range *ranges, uint64_t count) {
    if (count == 0 || below(8) == 0) {
        return below(2) == 0 ? UINT64_MAX - below(80) : next_number() >> below(64);
    }
    const mdmp_range *range = &ranges[below(count)];
    return (below(2) == 0 ? range->start : range->start + range->size) - below(LENGTH);
}

void test_memory(const reading *given) {
    const mdmp_range *ranges = ROWS_OF(given, FILL_RANGES, mdmp_range);
    const uint64_t count = given->of[FILL_RANGES].count;
    if (ranges == NULL || count > MOST_RANGES) {
        return;
    }
    for (int i = 0; i < 3; i++) {
        uint64_t address = near_range(ranges, count);
        size_t length = (size_t)below(LENGTH + 1);
        test_stretch(given->file, ranges, (size_t)count, address, length);
        test_file_memory(given, address, length);
    }
}

/* Buffers of two lengths are refused, and not touched. */
void test_lengths(const reading *given) {
    const blob file = given->file;
    const mdmp_slot slot = {0, 1, 0, 0};
    const mdmp_range range = {.size = 1, .extent = MDMP_EXTENT_INSIDE};
    uint8_t *out = guarded(8);
    bool *known = known_buffer(7);
    mdmp_fault faults[3];
    ASSERT(mdmp_memory(file.bytes, file.size, &LIMITS, 0, out, 8, known, 7, &faults[0]) == MDMP_BAD_ARGUMENT);
    ASSERT(mdmp_read(file.bytes, file.size, &range, 1, 0, out, 8, known, 7, &faults[1]) == MDMP_BAD_ARGUMENT);
    ASSERT(mdmp_read_index(file.bytes, file.size, &slot, 1, 0, out, 8, known, 7, &faults[2]) == MDMP_BAD_ARGUMENT);
    for (size_t i = 0; i < 3; i++) {
        ASSERT(faults[i].kind == MDMP_FAULT_LENGTHS_DIFFER);
    }
    ASSERT(out[0] == 0xaa && ((uint8_t *)known)[0] == 0xaa);
}

/* Slots are sorted, do not overlap, and have no address twice. */
static void test_slots(const mdmp_slot *slots, uint64_t count, uint64_t rows) {
    ASSERT(count <= 2 * rows);
    for (uint64_t i = 0; i < count; i++) {
        ASSERT(slots[i].length != 0 && slots[i].owner < rows && slots[i].start + (slots[i].length - 1) >= slots[i].start);
        ASSERT(i == 0 || slots[i].start > slots[i - 1].start + (slots[i - 1].length - 1));
    }
}

/* A read by the index gives what a read by the ranges gives, and each slot has the bytes of its owner. */
static void test_index_of(blob file, const mdmp_range *ranges, size_t count) {
    mdmp_slot *slots = guarded(2 * count * sizeof *slots);
    uint64_t found;
    mdmp_fault fault;
    if (count != 0) {
        ASSERT(mdmp_index(file.bytes, file.size, ranges, count, slots, 2 * count - 1, &found, &fault) == MDMP_BUFFER_TOO_SHORT);
        ASSERT(found == 2 * count && slots[0].owner == 0xaaaaaaaaaaaaaaaa);
    }
    ASSERT(mdmp_index(file.bytes, file.size, ranges, count, slots, 2 * count, &found, &fault) == MDMP_OK);
    ASSERT(is_guarded((uint8_t *)slots, 2 * count * sizeof *slots));
    test_slots(slots, found, count);
    for (uint64_t i = 0; i < found; i++) {
        const mdmp_range *owner = &ranges[slots[i].owner];
        ASSERT(owner->extent == MDMP_EXTENT_INSIDE && slots[i].start >= owner->start);
        ASSERT(slots[i].offset == owner->offset + (slots[i].start - owner->start));
        ASSERT(slots[i].start - owner->start + slots[i].length <= owner->size);
    }
    mdmp_slot *kept = malloc((size_t)found * sizeof *kept + 1);
    memcpy(kept, slots, (size_t)found * sizeof *kept);
    for (int i = 0; i < 3; i++) {
        stretch by_ranges;
        uint64_t address = near_range(ranges, count), owner;
        uint8_t *out = guarded(LENGTH), byte;
        bool *known = known_buffer(LENGTH);
        ASSERT(mdmp_read(file.bytes, file.size, ranges, count, address, by_ranges.bytes, LENGTH, by_ranges.known, LENGTH, &fault) ==
               MDMP_OK);
        ASSERT(mdmp_read_index(file.bytes, file.size, kept, (size_t)found, address, out, LENGTH, known, LENGTH, &fault) == MDMP_OK);
        ASSERT(memcmp(out, by_ranges.bytes, LENGTH) == 0 && memcmp(known, by_ranges.known, LENGTH) == 0);
        ASSERT(mdmp_where(kept, (size_t)found, address, &owner) == MDMP_OK);
        ASSERT((owner != UINT64_MAX) == byte_at(file, ranges, count, address, &byte));
        ASSERT(owner == UINT64_MAX || address - ranges[owner].start < ranges[owner].size);
    }
    free(kept);
}

void test_index(const reading *given) {
    const uint64_t count = given->of[FILL_RANGES].count;
    if (given->of[FILL_RANGES].bytes != NULL && count <= MOST_RANGES) {
        test_index_of(given->file, ROWS_OF(given, FILL_RANGES, mdmp_range), (size_t)count);
    }
}

/* The module that has an address is the first whose image has it. */
void test_where(const reading *given) {
    const mdmp_module *modules = ROWS_OF(given, FILL_MODULES, mdmp_module);
    const size_t count = (size_t)given->of[FILL_MODULES].count;
    uint64_t found, owner;
    mdmp_fault fault;
    if (modules == NULL || count > MOST_RANGES) {
        return;
    }
    mdmp_slot *slots = guarded(2 * count * sizeof *slots);
    ASSERT(mdmp_index_modules(modules, count, slots, 2 * count, &found, &fault) == MDMP_OK);
    test_slots(slots, found, count);
    for (uint64_t i = 0; i < 8; i++) {
        uint64_t address = next_number() >> below(64), first = UINT64_MAX;
        if (count != 0) {
            const mdmp_module *module = &modules[below(count)];
            address = module->base_of_image + (below(2) == 0 ? 0 : module->size_of_image) - below(3);
        }
        for (size_t k = count; k > 0; k--) {
            const mdmp_module *module = &modules[k - 1];
            if (address >= module->base_of_image && address - module->base_of_image < module->size_of_image) {
                first = k - 1;
            }
        }
        ASSERT(mdmp_where(slots, (size_t)found, address, &owner) == MDMP_OK && owner == first);
    }
}

/* Ranges and slots that nobody gave do no harm. */
void test_strange_ranges(blob file) {
    mdmp_range ranges[8];
    for (size_t i = 0; i < 8; i++) {
        ranges[i] = (mdmp_range){.start = below(64),
            .size = next_number() >> below(64),
            .offset = below(file.size + 9),
            .offset_high = below(8) == 0,
            .extent = (uint32_t)below(5)};
    }
    test_stretch(file, ranges, 8, below(64), LENGTH);
    test_index_of(file, ranges, (size_t)below(9));
    mdmp_slot slots[16];
    mdmp_fault fault;
    uint64_t owner;
    for (size_t i = 0; i < 16; i++) {
        slots[i] = (mdmp_slot){.start = below(64),
            .length = next_number() >> below(64),
            .offset = next_number() >> below(64),
            .owner = next_number()};
    }
    uint8_t *out = guarded(LENGTH);
    bool *known = known_buffer(LENGTH);
    ASSERT(mdmp_read_index(file.bytes, file.size, slots, 16, below(64), out, LENGTH, known, LENGTH, &fault) == MDMP_OK);
    for (size_t i = 0; i < LENGTH; i++) {
        ASSERT(((uint8_t *)known)[i] <= 1 && (known[i] || out[i] == 0));
    }
    ASSERT(mdmp_where(slots, 16, below(64), &owner) == MDMP_OK);
}
