/* A file that is mapped gives what the same bytes in memory give, and no call writes to it. */
#define _GNU_SOURCE
#include "oracles.h"
#include <sys/mman.h>
#include <unistd.h>

/* The file mapped for reading alone: a write to it would end the program. */
static blob map_file(blob file) {
    static int store = -1;
    if (store < 0) {
        store = memfd_create("dump", 0);
        ASSERT(store >= 0);
    }
    ASSERT(ftruncate(store, (off_t)file.size) == 0 && pwrite(store, file.bytes, file.size, 0) == (ssize_t)file.size);
    blob mapped = {mmap(NULL, file.size, PROT_READ, MAP_PRIVATE, store, 0), file.size};
    ASSERT(mapped.bytes != MAP_FAILED);
    return mapped;
}

void test_mapped(const reading *given) {
    if (given->file.size == 0) {
        return;
    }
    const blob mapped = map_file(given->file);
    for (size_t number = 0; number < FILLERS_COUNT; number++) {
        const filled *whole = &given->of[number];
        if (whole->bytes != NULL) {
            uint8_t *out = guarded((size_t)whole->count * FILLERS[number].item);
            uint64_t count;
            mdmp_fault fault;
            uint32_t status = FILLERS[number].call(mapped, out, (size_t)whole->count, &count, &fault);
            ASSERT(status == status_of(&whole->fault) && count == whole->count && is_same_fault(&fault, &whole->fault));
            ASSERT(count == 0 || memcmp(out, whole->bytes, (size_t)count * FILLERS[number].item) == 0);
        }
    }
    ASSERT(memcmp(mapped.bytes, given->file.bytes, mapped.size) == 0);
    munmap(mapped.bytes, mapped.size);
}
