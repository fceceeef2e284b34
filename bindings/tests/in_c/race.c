/* Eight threads over one mapping of a file: race DUMP LIST */
#define _DEFAULT_SOURCE
#include "fillers.h"
#include <fcntl.h>
#include <pthread.h>
#include <sys/mman.h>
#include <sys/stat.h>
#include <unistd.h>

enum { THREADS = 8, TIMES = 12 };

static blob mapped, listed;

/* Each call that fills, each time with the same bytes as the first time, and the list as it is stored. */
static void *call_all(void *unused) {
    (void)unused;
    size_t capacity = listed.size + (1 << 20);
    uint8_t *first = malloc(capacity), *out = malloc(capacity);
    ASSERT(first != NULL && out != NULL);
    for (int time = 0; time < TIMES; time++) {
        uint64_t size, count;
        mdmp_fault fault;
        uint32_t status = mdmp_list(mapped.bytes, mapped.size, &LIMITS, false, out, capacity, &size, &fault);
        ASSERT(status == MDMP_OK && size == listed.size && memcmp(out, listed.bytes, listed.size) == 0);
        const filler *tried = &FILLERS[(size_t)time % FILLERS_COUNT];
        memset(first, 0xaa, capacity);
        memset(out, 0xaa, capacity);
        ASSERT(tried->call(mapped, first, capacity / tried->item, &count, &fault) == MDMP_OK);
        ASSERT(tried->call(mapped, out, capacity / tried->item, &count, &fault) == MDMP_OK);
        ASSERT(memcmp(first, out, capacity) == 0);
        uint8_t bytes[64];
        bool known[64];
        ASSERT(mdmp_memory(mapped.bytes, mapped.size, &LIMITS, 0x1000, bytes, 64, known, 64, &fault) == MDMP_OK);
    }
    free(out);
    free(first);
    return NULL;
}

int main(int argc, char **argv) {
    ASSERT(argc == 3);
    listed = read_file(argv[2]);
    int file = open(argv[1], O_RDONLY);
    struct stat told;
    ASSERT(file >= 0 && fstat(file, &told) == 0);
    mapped.size = (size_t)told.st_size;
    mapped.bytes = mmap(NULL, mapped.size, PROT_READ, MAP_SHARED, file, 0);
    ASSERT(mapped.bytes != MAP_FAILED);
    pthread_t threads[THREADS];
    for (int i = 0; i < THREADS; i++) {
        ASSERT(pthread_create(&threads[i], NULL, call_all, NULL) == 0);
    }
    for (int i = 0; i < THREADS; i++) {
        ASSERT(pthread_join(threads[i], NULL) == 0);
    }
    munmap(mapped.bytes, mapped.size);
    close(file);
    free(listed.bytes);
    return 0;
}
