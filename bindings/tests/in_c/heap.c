#include "heap.h"

#include <stdbool.h>

void *__real_malloc(size_t size);
void *__real_realloc(void *block, size_t size);
void __real_free(void *block);
void *__wrap_malloc(size_t size);
void *__wrap_realloc(void *block, size_t size);
void __wrap_free(void *block);

counted_heap heap = {.allowed = -1};

static bool refuses(size_t size) {
    heap.asked++;
    heap.largest = size > heap.largest ? size : heap.largest;
    heap.total += size;
    if (heap.allowed > 0) {
        heap.allowed--;
        return false;
    }
    return heap.allowed == 0;
}

void *__wrap_malloc(size_t size) {
    void *block = refuses(size) ? NULL : __real_malloc(size);
    heap.live += block != NULL;
    return block;
}

void *__wrap_realloc(void *block, size_t size) {
    void *grown = refuses(size) ? NULL : __real_realloc(block, size);
    heap.live += block == NULL && grown != NULL;
    return grown;
}

void __wrap_free(void *block) {
    heap.live -= block != NULL;
    __real_free(block);
}
