/* Prints the modules of a dump: cc example.c $(pkg-config --cflags --libs mdmp) */
#include <inttypes.h>
#include <mdmp.h>
#include <stdio.h>
#include <stdlib.h>

static uint8_t *read_file(const char *path, size_t *size) {
    FILE *stream = fopen(path, "rb");
    if (stream == NULL) {
        return NULL;
    }
    fseek(stream, 0, SEEK_END);
    *size = (size_t)ftell(stream);
    rewind(stream);
    uint8_t *bytes = (uint8_t *)malloc(*size + 1);
    if (bytes != NULL && fread(bytes, 1, *size, stream) != *size) {
        free(bytes);
        bytes = NULL;
    }
    fclose(stream);
    return bytes;
}

/* Tells a fault in the command's words. */
static void tell(const mdmp_fault *fault) {
    uint8_t words[256];
    uint64_t size;
    if (mdmp_fault_text(fault, words, sizeof words, &size) == MDMP_OK) {
        fprintf(stderr, "%.*s\n", (int)size, (const char *)words);
    }
}

int main(int argc, char **argv) {
    size_t file_size;
    uint8_t *file = argc == 2 ? read_file(argv[1], &file_size) : NULL;
    if (file == NULL) {
        fprintf(stderr, "usage: %s DUMP\n", argv[0]);
        return 2;
    }
    const mdmp_limits limits = MDMP_LIMITS_UNTRUSTED;
    mdmp_fault fault;
    mdmp_module *modules = NULL;
    uint64_t count = 0;
    uint32_t status = mdmp_modules(file, file_size, &limits, NULL, 0, &count, &fault);
    if (status == MDMP_BUFFER_TOO_SHORT) {
        /* now with as much room as the first call asked for */
        modules = (mdmp_module *)malloc((size_t)count * sizeof *modules);
        if (modules == NULL) {
            free(file);
            return MDMP_NO_MEMORY;
        }
        status = mdmp_modules(file, file_size, &limits, modules, (size_t)count, &count, &fault);
    }
    for (uint64_t i = 0; i < count; i++) {
        uint8_t name[8192];
        uint64_t size;
        mdmp_fault none;
        if (mdmp_name(file, file_size, modules[i].name.rva, limits.name, name, sizeof name, &size, &none) !=
            MDMP_OK) {
            size = 0;
        }
        printf("0x%" PRIx64 " %.*s\n", modules[i].base_of_image, (int)size, (const char *)name);
    }
    if (status != MDMP_OK) {
        tell(&fault); /* what was printed stands before the fault */
    }
    free(modules);
    free(file);
    return (int)status;
}
