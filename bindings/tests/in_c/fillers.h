/* The calls that fill a buffer, in one form. */
#ifndef FILLERS_H
#define FILLERS_H

#include "each_table.h"
#include "support.h"

typedef struct {
    const char *name;
    size_t item; /* bytes of one */
    uint32_t (*call)(blob file, void *out, size_t room, uint64_t *count, mdmp_fault *fault);
    bool takes_memory;
} filler;

/* The number of each. TABLES_COUNT of them give records, from FILL_TABLES on, in the order of EACH_TABLE. */
#define FILL_NUMBER(name, NAME, row) FILL_##NAME,
enum {
    FILL_STREAMS,
    FILL_CHECK,
    FILL_CHECK_JSON,
    FILL_VERDICTS,
    FILL_PARTS_OUTSIDE,
    FILL_LIST,
    FILL_LIST_JSON,
    FILL_LIST_PART,
    FILL_COPY,
    EACH_TABLE(FILL_NUMBER)
    FILL_NAME,
    FILL_SUMMARY,
    FILLERS_COUNT,
    FILL_TABLES = FILL_COPY + 1
};
#undef FILL_NUMBER
extern const filler FILLERS[FILLERS_COUNT];

/* What they take besides: where `mdmp_name` reads, how much `mdmp_list_part` skips, the types that are copied, and limits. */
extern _Thread_local uint64_t name_rva, list_skip;
extern _Thread_local uint32_t copied_types[16];
extern _Thread_local size_t copied_count;
extern _Thread_local mdmp_limits filler_limits;

#endif
