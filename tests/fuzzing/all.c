/* All oracles over one file. */
#include "heap.h"
#include "oracles.h"

/* The library reads and writes structures as whole numbers: a buffer has to be aligned as their numbers are. */
#define IS_ALIGNED(type) _Static_assert(_Alignof(type) == 8, #type)
IS_ALIGNED(mdmp_limits);
IS_ALIGNED(mdmp_fault);
IS_ALIGNED(mdmp_header_record);
#define IS_ROW_ALIGNED(name, NAME, row) IS_ALIGNED(row);
EACH_TABLE(IS_ROW_ALIGNED)
IS_ALIGNED(mdmp_slot);
IS_ALIGNED(mdmp_symbol_file);
IS_ALIGNED(mdmp_summary_record);

void test_file(blob file, uint64_t seed) {
    static void (*const ORACLES[])(const reading *) = {test_header, test_streams, test_list, test_check, test_part, test_json,
        test_names, test_chosen_name, test_symbols, test_counts, test_parts, test_crash, test_memory, test_lengths, test_index, test_where, test_copy, test_window,
        test_name_limit, test_budget, test_memory_limit, test_aside, test_copy_budget, test_bad_limits, test_mapped,
        test_refused};
    const long live = heap.live;
    reading given = {.file = file};
    ASSERT(mdmp_abi() == MDMP_ABI && mdmp_version() == MDMP_VERSION);
    choose_by(seed);
    choose_arguments(file);
    for (size_t i = 0; i < FILLERS_COUNT; i++) {
        test_rooms(&FILLERS[i], file, &given.of[i]);
    }
    for (size_t i = 0; i < sizeof ORACLES / sizeof *ORACLES; i++) {
        ORACLES[i](&given);
    }
    test_strange_fault();
    test_strange_places(file);
    test_strange_ranges(file);
    for (size_t i = 0; i < FILLERS_COUNT; i++) {
        free(given.of[i].bytes);
    }
    ASSERT(heap.live == live); /* the library keeps nothing after its calls */
}
