/* Errors: the status that fits each, and its words. */
#include "oracles.h"

uint32_t status_of(const mdmp_fault *fault) {
    switch (fault->kind) {
    case MDMP_FAULT_NONE: return MDMP_OK;
    case MDMP_FAULT_BUDGET:
    case MDMP_FAULT_MEMORY_LIMIT:
    case MDMP_FAULT_ASIDE_LIMIT:
    case MDMP_FAULT_COPY_BUDGET: return MDMP_LIMIT;
    default: return fault->kind < MDMP_FAULT_NOT_COPIED ? MDMP_FAULT : MDMP_BAD_ARGUMENT;
    }
}

bool is_same_fault(const mdmp_fault *one, const mdmp_fault *other) {
    return memcmp(one, other, sizeof *one) == 0;
}

/* An error that a call reports has words of ASCII, and no error has none. Reserved fields are 0. */
void test_fault(const mdmp_fault *fault) {
    uint8_t *text = guarded(256);
    uint64_t size, again;
    ASSERT(mdmp_fault_text(fault, text, 256, &size) == MDMP_OK && size <= 256);
    ASSERT((size == 0) == (fault->kind == MDMP_FAULT_NONE));
    for (uint64_t i = 0; i < size; i++) {
        ASSERT(text[i] >= 0x20 && text[i] <= 0x7e);
    }
    ASSERT(is_guarded(text, 256));
    for (int i = 0; i < 4; i++) {
        ASSERT(fault->reserved[i] == 0);
    }
    uint8_t first[256];
    memcpy(first, text, (size_t)size);
    for (size_t room = size == 0 ? 0 : (size_t)size - 1; room <= size + 1; room++) {
        text = guarded(room);
        uint32_t status = mdmp_fault_text(fault, text, room, &again);
        ASSERT(status == (size > room ? (uint32_t)MDMP_BUFFER_TOO_SHORT : (uint32_t)MDMP_OK) && again == size);
        ASSERT(memcmp(text, first, room < size ? room : (size_t)size) == 0 && is_guarded(text, room));
    }
}

/* An error of any kind with the fields that its kind has, or with any fields. */
static mdmp_fault strange_fault(void) {
    mdmp_fault fault = {.kind = (uint32_t)below(80), .offset = next_number(), .size = next_number() >> below(64)};
    const bool is_plain = below(4) != 0;
    const bool has_entry = fault.kind >= MDMP_FAULT_STREAM_OUTSIDE && fault.kind <= MDMP_FAULT_NAME_TOO_LONG;
    fault.has_index = is_plain ? fault.kind >= MDMP_FAULT_NAME_LENGTH_OUTSIDE && has_entry : (uint32_t)below(3);
    fault.entry = !is_plain || has_entry ? (uint32_t)next_number() : 0;
    fault.index = !is_plain || fault.has_index == 1 ? next_number() : 0;
    fault.part = !is_plain || fault.kind == MDMP_FAULT_PART_OUTSIDE ? (uint32_t)below(7) : 0;
    fault.high = below(2) == 0 ? 0 : next_number();
    return fault;
}

/* Words of an error that no call reports: a text, or nothing and a bad argument. */
void test_strange_fault(void) {
    for (int i = 0; i < 4; i++) {
        const mdmp_fault fault = strange_fault();
        uint8_t *text = guarded(256);
        uint64_t size = 1;
        uint32_t status = mdmp_fault_text(&fault, text, 256, &size);
        ASSERT(status == MDMP_OK || (status == MDMP_BAD_ARGUMENT && size == 0 && text[0] == 0xaa));
        ASSERT(size <= 256 && is_guarded(text, 256));
    }
}
