/* What the tests share: assertions, files, and buffers behind which no byte may be touched. */
#ifndef SUPPORT_H
#define SUPPORT_H

#include <mdmp.h>
#include <stdio.h>
#include <stdlib.h>
#include <string.h>

#define ASSERT(condition)                                                   \
    do {                                                                    \
        if (!(condition)) {                                                 \
            fprintf(stderr, "%s:%d: %s\n", __FILE__, __LINE__, #condition); \
            abort();                                                        \
        }                                                                   \
    } while (0)

static const mdmp_limits LIMITS = MDMP_LIMITS_DEFAULT;

typedef struct {
    uint8_t *bytes;
    size_t size;
} blob;

/* A whole file, in memory that the caller frees. */
blob read_file(const char *path);

/* Memory that ends where a page begins that can't be touched: the library itself is not built with a sanitizer, and
 * so a byte too far is a fault of the machine. Aligned to 8 where `size` is a multiple of 8. */
typedef struct {
    uint8_t *start; /* of the mapping */
    size_t capacity;
} fenced;
fenced fenced_new(size_t capacity);
void *fenced_last(const fenced *pages, size_t size);
void fenced_free(fenced *pages);

#endif
