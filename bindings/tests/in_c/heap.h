/* The heap of a test: it counts what the library asks for, and refuses what it is told to refuse.
 *
 * Linked with --wrap=malloc --wrap=realloc --wrap=free. */
#ifndef HEAP_H
#define HEAP_H

#include <stddef.h>
#include <stdint.h>

typedef struct {
    long allowed;   /* how many calls are still granted, or -1 for all */
    long asked;     /* calls of malloc and realloc */
    long live;      /* blocks that were not freed */
    size_t largest; /* the largest block that was asked for */
    uint64_t total; /* the bytes of all calls */
} counted_heap;
extern counted_heap heap;

#endif
