/* What is chosen for a file: numbers from a seed, and what fillers take. */
#include "oracles.h"

static uint64_t state;

void choose_by(uint64_t seed) {
    state = seed ^ 0x9e3779b97f4a7c15;
    if (state == 0) {
        state = 1;
    }
    next_number();
}

/* xorshift64 */
uint64_t next_number(void) {
    state ^= state << 13;
    state ^= state >> 7;
    state ^= state << 17;
    return state;
}

uint64_t below(uint64_t bound) {
    return next_number() % bound;
}

/* Whether records of streams of this type are listed. */
bool has_records(uint32_t type) {
    static const uint32_t TYPES[] = {TYPES_OF_TABLES};
    for (size_t i = 0; i < sizeof TYPES / sizeof *TYPES; i++) {
        if (TYPES[i] == type) {
            return true;
        }
    }
    return false;
}

/* Up to 16 types of streams to copy: mostly types that the file has. */
static void choose_types(blob file) {
    static const uint32_t KNOWN[] = {TYPES_OF_TABLES, 0x12345, 12};
    mdmp_stream streams[64];
    mdmp_fault fault;
    uint64_t count, most = 1 + below(16);
    mdmp_streams(file.bytes, file.size, streams, 64, &count, &fault);
    copied_count = 0;
    for (uint64_t i = 0; i < count && i < 64 && copied_count < most; i++) {
        uint32_t type = streams[i].stream_type;
        if (below(4) != 0 && (type < 8 || type > 24 || has_records(type) || below(8) == 0)) {
            copied_types[copied_count++] = type;
        }
    }
    if (copied_count == 0 && below(16) != 0) {
        copied_types[copied_count++] = KNOWN[below(sizeof KNOWN / sizeof *KNOWN)];
    }
}

/* Where a name is: that of the first module or thread name, or anywhere. */
static uint64_t choose_name(blob file) {
    mdmp_module module;
    mdmp_thread_name name;
    mdmp_fault fault;
    uint64_t count;
    switch (below(4)) {
    case 0:
        mdmp_modules(file.bytes, file.size, &LIMITS, &module, 1, &count, &fault);
        return count != 0 ? module.name.rva : 0;
    case 1:
        mdmp_thread_names(file.bytes, file.size, &LIMITS, &name, 1, &count, &fault);
        return count != 0 ? name.name.rva : 32;
    case 2: return next_number() >> below(64);
    default: return below(file.size + 8);
    }
}

void choose_arguments(blob file) {
    filler_limits = LIMITS;
    list_skip = 0; /* so that the part is the list without `pdb` */
    name_rva = choose_name(file);
    choose_types(file);
}
