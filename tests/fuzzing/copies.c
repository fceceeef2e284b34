/* A copy reads back as what it copied: its header, entries, records, names, parts and bytes. A copy of it is the same. */
#include "oracles.h"

/* A file and its copy. `entry` is where the entry that is looked at is in the copy. */
typedef struct {
    blob from, to;
} both_files;

static bool is_copied(uint32_t type) {
    for (size_t i = 0; i < copied_count; i++) {
        if (copied_types[i] == type) {
            return true;
        }
    }
    return false;
}

/* The place of a part: of the same size and kind, with the same bytes. Then what depends on the file is left out. */
static void compare_place(both_files files, mdmp_place *from, mdmp_place *to) {
    ASSERT(from->size == to->size && from->extent == to->extent && from->extent != MDMP_EXTENT_OUTSIDE);
    if (from->extent == MDMP_EXTENT_INSIDE) {
        ASSERT(memcmp(files.from.bytes + from->rva, files.to.bytes + to->rva, from->size) == 0);
    }
    from->rva = to->rva = 0;
}

static void compare_name(both_files files, mdmp_name_place *from, mdmp_name_place *to) {
    ASSERT(from->size == to->size && from->state == to->state && from->state != MDMP_NAME_LONG);
    if (from->state == MDMP_NAME_GIVEN) {
        ASSERT(memcmp(files.from.bytes + from->rva + 4, files.to.bytes + to->rva + 4, from->size) == 0);
    }
    from->rva = to->rva = 0;
}

static void compare_range(both_files files, mdmp_range *from, mdmp_range *to) {
    ASSERT(from->size == to->size && from->extent == to->extent && from->extent != MDMP_EXTENT_OUTSIDE);
    if (from->extent == MDMP_EXTENT_INSIDE) {
        ASSERT(to->offset_high == 0 && to->offset <= files.to.size && to->size <= files.to.size - to->offset);
        ASSERT(memcmp(files.from.bytes + from->offset, files.to.bytes + to->offset, (size_t)from->size) == 0);
    }
    from->offset = to->offset = from->offset_high = to->offset_high = 0;
}

/* The records of one kind: those of the chosen entries, one after the other, the same in all but where things are. */
#define COMPARE_PLACE(field, part) compare_place(files, &from.field, &to.field);
#define COMPARE_NAME(field) compare_name(files, &from.field, &to.field);
#define COMPARE_BYTES(part) compare_range(files, &from, &to);
#define COMPARE(name, NAME, row)                                                                           \
    static void compare_##name(both_files files, const reading *given, const filled *copy, const uint32_t *places) { \
        const row *rows = ROWS_OF(given, FILL_##NAME, row), *copied = (const row *)(const void *)copy->bytes; \
        uint64_t at = 0;                                                                                   \
        for (uint64_t i = 0; i < given->of[FILL_##NAME].count; i++) {                                      \
            if (places[rows[i].entry] == UINT32_MAX) {                                                     \
                continue;                                                                                  \
            }                                                                                              \
            ASSERT(at < copy->count && copied[at].entry == places[rows[i].entry]);                         \
            row from = rows[i], to = copied[at++];                                                         \
            from.entry = to.entry;                                                                         \
            PLACES_OF_##NAME(COMPARE_PLACE) NAMES_OF_##NAME(COMPARE_NAME) BYTES_OF_##NAME(COMPARE_BYTES)   \
            ASSERT(memcmp(&from, &to, sizeof to) == 0);                                                    \
        }                                                                                                  \
        ASSERT(at == copy->count);                                                                         \
        (void)files;                                                                                       \
    }

EACH_TABLE(COMPARE)

typedef void comparison(both_files files, const reading *given, const filled *copy, const uint32_t *places);
#define COMPARISON(name, NAME, row) compare_##name,
static comparison *const COMPARISONS[TABLES_COUNT] = {EACH_TABLE(COMPARISON)};

/* An entry of a type with no known records has its bytes. An unused entry has none. */
static void compare_entry(both_files files, const mdmp_stream *from, const mdmp_stream *to) {
    ASSERT(from->stream_type == to->stream_type);
    if (has_records(from->stream_type)) {
        return;
    }
    if (from->stream_type == 0) {
        ASSERT(to->size == 0 && to->rva == 0);
        return;
    }
    ASSERT(from->size == to->size);
    ASSERT(from->size == 0 || memcmp(files.from.bytes + from->rva, files.to.bytes + to->rva, from->size) == 0);
}

/* The header and the entries. Where an entry of the file is in the copy is left in `places`. */
static void compare_entries(both_files files, const reading *given, uint32_t *places) {
    const mdmp_stream *streams = ROWS_OF(given, FILL_STREAMS, mdmp_stream);
    mdmp_header_record from, to;
    mdmp_fault fault;
    filled copied = fill_whole(&FILLERS[FILL_STREAMS], files.to);
    uint32_t next = 0;
    for (uint64_t i = 0; i < given->of[FILL_STREAMS].count; i++) {
        places[i] = is_copied(streams[i].stream_type) ? next++ : UINT32_MAX;
        if (places[i] != UINT32_MAX) {
            ASSERT(next <= copied.count);
            compare_entry(files, &streams[i], (const mdmp_stream *)(const void *)copied.bytes + places[i]);
        }
    }
    ASSERT(mdmp_header(files.from.bytes, files.from.size, &from, &fault) == MDMP_OK);
    ASSERT(mdmp_header(files.to.bytes, files.to.size, &to, &fault) == MDMP_OK);
    ASSERT(to.number_of_streams == next && copied.count == next && to.stream_directory_rva == 32);
    from.number_of_streams = next;
    from.stream_directory_rva = 32;
    ASSERT(memcmp(&from, &to, sizeof to) == 0);
    free(copied.bytes);
}

void test_copy(const reading *given) {
    const filled *copy = &given->of[FILL_COPY];
    for (size_t i = FILL_STREAMS; i < FILL_TABLES + TABLES_COUNT; i++) {
        if (given->of[i].bytes == NULL) {
            return;
        }
    }
    if (copy->fault.kind != MDMP_FAULT_NONE) {
        ASSERT(copy->count == 0);
        return;
    }
    const both_files files = {given->file, {copy->bytes, (size_t)copy->count}};
    uint32_t *places = malloc(((size_t)given->of[FILL_STREAMS].count + 1) * sizeof *places);
    compare_entries(files, given, places);
    for (size_t i = 0; i < TABLES_COUNT; i++) {
        filled rows = fill_whole(&FILLERS[FILL_TABLES + i], files.to);
        ASSERT(rows.fault.kind == MDMP_FAULT_NONE);
        if (given->of[FILL_TABLES + i].fault.kind == MDMP_FAULT_NONE) {
            COMPARISONS[i](files, given, &rows, places);
        }
        free(rows.bytes);
    }
    filled again = fill_whole(&FILLERS[FILL_COPY], files.to);
    ASSERT(is_same_fill(&again, copy, 1));
    free(again.bytes);
    free(places);
}
