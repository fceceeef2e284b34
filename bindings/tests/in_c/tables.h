/* The records of a whole file, for what prints them. */
#ifndef TABLES_H
#define TABLES_H

#include "each_table.h"
#include "support.h"

/* All records of one kind: call again with the room that is asked for. */
#define ALL(name, NAME, row)                                                                                \
    static row *all_##name(blob file, uint64_t *count) {                                                    \
        mdmp_fault fault;                                                                                   \
        uint32_t status = mdmp_##name(file.bytes, file.size, &LIMITS, NULL, 0, count, &fault);              \
        ASSERT(status == (*count == 0 ? MDMP_OK : MDMP_BUFFER_TOO_SHORT) && fault.kind == MDMP_FAULT_NONE); \
        row *rows = calloc((size_t)*count + 1, sizeof *rows);                                               \
        ASSERT(rows != NULL);                                                                               \
        status = mdmp_##name(file.bytes, file.size, &LIMITS, rows, (size_t)*count, count, &fault);          \
        ASSERT(status == MDMP_OK && fault.kind == MDMP_FAULT_NONE);                                         \
        return rows;                                                                                        \
    }

EACH_TABLE(ALL)

static mdmp_header_record header_of(blob file) {
    mdmp_fault fault;
    mdmp_header_record header;
    ASSERT(mdmp_header(file.bytes, file.size, &header, &fault) == MDMP_OK);
    return header;
}

static mdmp_stream *all_streams(blob file, uint64_t *count) {
    mdmp_fault fault;
    uint32_t room = header_of(file).number_of_streams;
    mdmp_stream *streams = calloc((size_t)room + 1, sizeof *streams);
    ASSERT(mdmp_streams(file.bytes, file.size, streams, room, count, &fault) == MDMP_OK);
    return streams;
}

#endif
