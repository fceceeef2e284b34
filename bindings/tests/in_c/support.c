#define _DEFAULT_SOURCE
#include "support.h"
#include <sys/mman.h>

blob read_file(const char *path) {
    FILE *stream = fopen(path, "rb");
    ASSERT(stream != NULL);
    ASSERT(fseek(stream, 0, SEEK_END) == 0);
    blob file = {NULL, (size_t)ftell(stream)};
    rewind(stream);
    file.bytes = malloc(file.size + 1);
    ASSERT(file.bytes != NULL && fread(file.bytes, 1, file.size, stream) == file.size);
    fclose(stream);
    return file;
}

enum { PAGE = 4096 };

fenced fenced_new(size_t capacity) {
    fenced pages = {NULL, (capacity + PAGE - 1) / PAGE * PAGE};
    pages.start = mmap(NULL, pages.capacity + PAGE, PROT_READ | PROT_WRITE, MAP_PRIVATE | MAP_ANONYMOUS, -1, 0);
    ASSERT(pages.start != MAP_FAILED);
    ASSERT(mprotect(pages.start + pages.capacity, PAGE, PROT_NONE) == 0);
    return pages;
}

void *fenced_last(const fenced *pages, size_t size) {
    ASSERT(size <= pages->capacity);
    return pages->start + pages->capacity - size;
}

void fenced_free(fenced *pages) {
    ASSERT(munmap(pages->start, pages->capacity + PAGE) == 0);
}
