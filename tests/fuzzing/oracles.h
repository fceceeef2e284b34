/* What is true of each file, whatever its bytes are: each oracle is one function, which stops the program if it is not.
 *
 * No second reader is needed: an oracle compares two calls, or what a call gives with the bytes of the file.
 */
#ifndef ORACLES_H
#define ORACLES_H

#include "fillers.h"

/* The most bytes of one result that are kept. Of a longer one, only its size is tested. */
enum { MOST = 1 << 18 };

/* What a filler gave, whole. */
typedef struct {
    uint8_t *bytes; /* NULL if there are more than MOST */
    uint64_t count; /* items */
    mdmp_fault fault;
} filled;

/* What all fillers gave of one file. */
typedef struct {
    blob file;
    filled of[FILLERS_COUNT];
} reading;

#define ROWS_OF(given, number, type) ((const type *)(const void *)(given)->of[number].bytes)

/* All oracles. What they choose depends on the seed alone. */
void test_file(blob file, uint64_t seed);

/* ---- choices.c */
void choose_by(uint64_t seed);
uint64_t next_number(void);
uint64_t below(uint64_t bound);
void choose_arguments(blob file);
bool has_records(uint32_t type);

/* ---- errors.c */
uint32_t status_of(const mdmp_fault *fault);
void test_fault(const mdmp_fault *fault);
void test_strange_fault(void);
bool is_same_fault(const mdmp_fault *one, const mdmp_fault *other);

/* ---- buffers.c */
void *guarded(size_t size);
bool is_guarded(const uint8_t *out, size_t size);
void test_rooms(const filler *tried, blob file, filled *whole);
filled fill_whole(const filler *tried, blob file);
bool is_same_fill(const filled *one, const filled *other, size_t item);

/* ---- listing.c */
void test_header(const reading *given);
void test_streams(const reading *given);
void test_list(const reading *given);
void test_check(const reading *given);
void test_part(const reading *given);

/* ---- json.c */
void test_json(const reading *given);

/* ---- names.c */
void test_names(const reading *given);
void test_chosen_name(const reading *given);
void test_symbols(const reading *given);
void test_strange_places(blob file);

/* ---- totals.c */
void test_counts(const reading *given);
void test_parts(const reading *given);
void test_crash(const reading *given);

/* ---- memory.c */
void test_memory(const reading *given);
void test_lengths(const reading *given);
void test_index(const reading *given);
void test_where(const reading *given);
void test_strange_ranges(blob file);

/* ---- copies.c */
void test_copy(const reading *given);

/* ---- limits.c */
void test_window(const reading *given);
void test_name_limit(const reading *given);
void test_budget(const reading *given);
void test_memory_limit(const reading *given);
void test_aside(const reading *given);
void test_copy_budget(const reading *given);
void test_bad_limits(const reading *given);

/* ---- stores.c */
void test_mapped(const reading *given);

/* ---- refusals.c */
void test_refused(const reading *given);

#endif
