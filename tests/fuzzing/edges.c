/* Which edges of the library a run reached: linked with a library that is compiled with -fsanitize-coverage=trace-pc-guard,pc-table.
 *
 * At its end the program writes a line for each edge into the file EDGES: whether it was reached, and its address. */
#include <stddef.h>
#include <stdint.h>
#include <stdio.h>
#include <stdlib.h>

void __sanitizer_cov_trace_pc_guard_init(uint32_t *start, uint32_t *stop);
void __sanitizer_cov_trace_pc_guard(uint32_t *guard);
void __sanitizer_cov_pcs_init(const uintptr_t *start, const uintptr_t *stop);

static const uint32_t *guards;
static size_t count;
static const uintptr_t *table; /* an address and flags for each guard */

static void write_edges(void) {
    const char *path = getenv("EDGES");
    FILE *out = path == NULL ? NULL : fopen(path, "w");
    for (size_t i = 0; out != NULL && i < count; i++) {
        fprintf(out, "%d %zx\n", guards[i] == 0, (size_t)table[2 * i]);
    }
    if (out != NULL) {
        fclose(out);
    }
}

/* Each guard is a number until its edge is reached, and then 0. */
void __sanitizer_cov_trace_pc_guard_init(uint32_t *start, uint32_t *stop) {
    guards = start;
    count = (size_t)(stop - start);
    for (uint32_t *guard = start; guard < stop; guard++) {
        *guard = 1;
    }
}

void __sanitizer_cov_trace_pc_guard(uint32_t *guard) {
    *guard = 0;
}

void __sanitizer_cov_pcs_init(const uintptr_t *start, const uintptr_t *stop) {
    (void)stop;
    table = start;
    atexit(write_edges);
}
