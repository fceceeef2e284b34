#include "fillers.h"

_Thread_local uint64_t name_rva = 0, list_skip = 40;
#define COPIED {TYPES_OF_TABLES, 0, 10, 11, 15, 0x12345, 1197932553}
_Thread_local uint32_t copied_types[16] = COPIED;
_Thread_local size_t copied_count = sizeof (uint32_t[])COPIED / sizeof(uint32_t);
_Thread_local mdmp_limits filler_limits = MDMP_LIMITS_DEFAULT;

#define FILLER(name, type, ...)                                                                          \
    static uint32_t fill_##name(blob file, void *out, size_t room, uint64_t *count, mdmp_fault *fault) { \
        return mdmp_##name(file.bytes, file.size, __VA_ARGS__(type *) out, room, count, fault);          \
    }
#define WITH_LIMITS &filler_limits,

FILLER(streams, mdmp_stream, )
FILLER(check, uint8_t, WITH_LIMITS)
FILLER(check_json, uint8_t, WITH_LIMITS)
FILLER(verdicts, mdmp_fault, WITH_LIMITS)
FILLER(parts_outside, mdmp_fault, WITH_LIMITS)
FILLER(list, uint8_t, WITH_LIMITS true, )
FILLER(list_json, uint8_t, WITH_LIMITS true, )
FILLER(list_part, uint8_t, WITH_LIMITS false, list_skip, )
#define TABLE_FILLER(name, NAME, row) FILLER(name, row, WITH_LIMITS)
EACH_TABLE(TABLE_FILLER)
FILLER(name, uint8_t, name_rva, filler_limits.name, )

/* The types end where a page begins that can't be touched. */
static uint32_t fill_copy(blob file, void *out, size_t room, uint64_t *count, mdmp_fault *fault) {
    static _Thread_local fenced pages;
    if (pages.start == NULL) {
        pages = fenced_new(sizeof copied_types);
    }
    uint32_t *types = fenced_last(&pages, copied_count * sizeof *types);
    memcpy(types, copied_types, copied_count * sizeof *types);
    return mdmp_copy(file.bytes, file.size, &filler_limits, types, copied_count, out, room, count, fault);
}

/* A summary is one structure: it fills a buffer of one. */
static uint32_t fill_summary(blob file, void *out, size_t room, uint64_t *count, mdmp_fault *fault) {
    mdmp_summary_record one;
    uint32_t status = mdmp_summary(file.bytes, file.size, &filler_limits, room == 0 ? &one : (mdmp_summary_record *)out, fault);
    *count = status == MDMP_OK;
    return status == MDMP_OK && room == 0 ? (uint32_t)MDMP_BUFFER_TOO_SHORT : status;
}

#define ROW(name, type, takes_memory) \
    { "mdmp_" #name, sizeof(type), fill_##name, takes_memory }
#define TABLE_ROW(name, NAME, row) [FILL_##NAME] = ROW(name, row, true),

const filler FILLERS[FILLERS_COUNT] = {
    [FILL_STREAMS] = ROW(streams, mdmp_stream, false),
    [FILL_CHECK] = ROW(check, uint8_t, true),
    [FILL_CHECK_JSON] = ROW(check_json, uint8_t, true),
    [FILL_VERDICTS] = ROW(verdicts, mdmp_fault, true),
    [FILL_PARTS_OUTSIDE] = ROW(parts_outside, mdmp_fault, true),
    [FILL_LIST] = ROW(list, uint8_t, true),
    [FILL_LIST_JSON] = ROW(list_json, uint8_t, true),
    [FILL_LIST_PART] = ROW(list_part, uint8_t, true),
    [FILL_COPY] = ROW(copy, uint8_t, true),
    EACH_TABLE(TABLE_ROW)
    [FILL_NAME] = ROW(name, uint8_t, true),
    [FILL_SUMMARY] = ROW(summary, mdmp_summary_record, true),
};
