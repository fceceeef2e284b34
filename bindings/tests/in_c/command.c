/* A small command over the calls: command (check | list | pdb | check-json | list-json | pdb-json | parts | fields |
 * records | copy TYPE..) DUMP */
#include "texts.h"

/* What a call that gives bytes was asked for, so that each is called again in one place. */
typedef struct {
    const char *word;
    const uint32_t *types;
    size_t types_count;
} request;

static uint32_t call(const request *asked, blob file, uint8_t *out, size_t room, uint64_t *size, mdmp_fault *fault) {
    if (strcmp(asked->word, "check") == 0) {
        return mdmp_check(file.bytes, file.size, &LIMITS, out, room, size, fault);
    }
    if (strcmp(asked->word, "copy") == 0) {
        return mdmp_copy(file.bytes, file.size, &LIMITS, asked->types, asked->types_count, out, room, size, fault);
    }
    if (strcmp(asked->word, "check-json") == 0) {
        return mdmp_check_json(file.bytes, file.size, &LIMITS, out, room, size, fault);
    }
    bool pdb = strncmp(asked->word, "pdb", strlen("pdb")) == 0;
    if (strstr(asked->word, "-json") != NULL) {
        return mdmp_list_json(file.bytes, file.size, &LIMITS, pdb, out, room, size, fault);
    }
    return mdmp_list(file.bytes, file.size, &LIMITS, pdb, out, room, size, fault);
}

static void print_whole(const request *asked, blob file) {
    uint64_t size;
    mdmp_fault fault;
    uint32_t status = call(asked, file, NULL, 0, &size, &fault);
    ASSERT(status == (size == 0 ? MDMP_OK : MDMP_BUFFER_TOO_SHORT) && fault.kind == MDMP_FAULT_NONE);
    uint8_t *out = malloc((size_t)size + 1);
    ASSERT(call(asked, file, out, (size_t)size, &size, &fault) == MDMP_OK);
    ASSERT(fwrite(out, 1, (size_t)size, stdout) == size);
    free(out);
}

/* The list in parts of 4,096 bytes. */
static void print_parts(blob file) {
    uint8_t out[4096];
    uint64_t skip = 0, left;
    mdmp_fault fault;
    uint32_t status;
    do {
        status = mdmp_list_part(file.bytes, file.size, &LIMITS, false, skip, out, sizeof out, &left, &fault);
        size_t given = left < sizeof out ? (size_t)left : sizeof out;
        ASSERT(fwrite(out, 1, given, stdout) == given);
        skip += given;
    } while (status == MDMP_BUFFER_TOO_SHORT);
    ASSERT(status == MDMP_OK && fault.kind == MDMP_FAULT_NONE);
}

int main(int argc, char **argv) {
    ASSERT(argc >= 3 && argc < 3 + 16);
    blob file = read_file(argv[argc - 1]);
    uint32_t types[16];
    for (int i = 2; i + 1 < argc; i++) {
        types[i - 2] = (uint32_t)strtoul(argv[i], NULL, 10);
    }
    const request asked = {argv[1], types, (size_t)(argc - 3)};
    if (strcmp(asked.word, "fields") == 0) {
        print_fields(file);
    } else if (strcmp(asked.word, "records") == 0) {
        print_records(file);
    } else if (strcmp(asked.word, "parts") == 0) {
        print_parts(file);
    } else {
        print_whole(&asked, file);
    }
    free(file.bytes);
    return 0;
}
