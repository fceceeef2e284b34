/* The lines of `mdmp list` and the records of a file, put together of what the calls give. */
#ifndef TEXTS_H
#define TEXTS_H

#include "each_table.h"
#include "support.h"

/* The rows of a file that the calls give. */
#define TABLE_MEMBER(name, NAME, row) const row *name;
typedef struct {
    mdmp_header_record header;
    const mdmp_stream *streams;
    EACH_TABLE(TABLE_MEMBER)
    uint64_t counts[TABLES_COUNT]; /* of each table */
} given_rows;
#undef TABLE_MEMBER

/* Prints the list up to so many entries, of the rows alone, with names and CodeView records as the file has them. */
void print_rows(FILE *out, blob file, const given_rows *rows, uint32_t entries, bool pdb);

/* Prints the list of a file that is good, field by field, of the structures alone. */
void print_fields(blob file);

/* Prints the header, the entries and the records of each kind of a file that is good: a line for each, and one for its
 * name and its symbol file. */
void print_records(blob file);

/* A number of 128 bits, in decimal. */
void print_wide(FILE *out, uint64_t upper, uint64_t lower);

#endif
