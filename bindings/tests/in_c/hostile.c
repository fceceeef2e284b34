/* The oracles of tests/fuzzing over files that are cut and changed: hostile SHARE SHARES DUMP..
 *
 * The files are every first part of a dump of 136 bytes, and 300 changed copies of each dump, of which this process
 * tries one share of so many. Each ends where a page begins that can't be touched.
 */
#include "oracles.h"
#include "small.h"

enum { MUTANTS = 300 };

static fenced file_pages;

/* An exact copy of a part of a file, at the end of its pages. */
static blob part_of(const uint8_t *bytes, size_t size) {
    blob part = {fenced_last(&file_pages, size), size};
    memcpy(part.bytes, bytes, size);
    return part;
}

static uint32_t number_at(blob file, size_t offset) {
    uint32_t number = 0;
    if (offset + 4 <= file.size) {
        memcpy(&number, file.bytes + offset, 4);
    }
    return number;
}

/* A place to change: the header or the directory, the head of a stream, or anywhere. */
static size_t place_in(blob file) {
    uint32_t streams = number_at(file, 8);
    uint64_t choice = below(4);
    if (choice == 0) {
        return (size_t)below(32 + 12ull * (streams < 64 ? streams : 64));
    }
    if (choice == 1 && streams != 0) {
        return number_at(file, 32 + 12 * (size_t)below(streams) + 8) + (size_t)below(128);
    }
    return (size_t)below(file.size);
}

static void change(blob file) {
    const uint32_t numbers[] = {0, 1, 3, 24, 0x7fffffff, 0xffffffff, (uint32_t)file.size, (uint32_t)next_number()};
    for (uint64_t left = 1 + below(6); left > 0; left--) {
        size_t at = place_in(file);
        uint32_t number = numbers[below(sizeof numbers / sizeof *numbers)];
        size_t size = below(2) == 0 ? 1 : 4;
        if (at + size <= file.size) {
            memcpy(file.bytes + at, &number, size);
        }
    }
}

static void test_first_parts(void) {
    for (size_t size = 0; size <= sizeof SYSTEM; size++) {
        blob part = part_of(SYSTEM, size);
        test_file(part, size + 1);
        uint64_t text;
        mdmp_fault fault;
        mdmp_list(part.bytes, part.size, &LIMITS, false, NULL, 0, &text, &fault);
        uint32_t kind = size < 32    ? MDMP_FAULT_FILE_TOO_SHORT
                        : size < 44  ? MDMP_FAULT_DIRECTORY_OUTSIDE
                        : size < 100 ? MDMP_FAULT_STREAM_OUTSIDE
                        : size < 104 ? MDMP_FAULT_NAME_LENGTH_OUTSIDE
                        : size < 132 ? MDMP_FAULT_NAME_OUTSIDE
                                     : MDMP_FAULT_NONE;
        ASSERT(fault.kind == kind && (kind != MDMP_FAULT_FILE_TOO_SHORT || fault.size == size));
    }
}

static void test_mutants(const char *path, uint64_t share, uint64_t shares) {
    blob file = read_file(path);
    for (uint64_t mutant = share; mutant < MUTANTS; mutant += shares) {
        choose_by(mutant);
        size_t size = below(8) == 0 ? (size_t)below(file.size + 1) : file.size;
        blob part = part_of(file.bytes, size);
        if (size >= 32) {
            change(part);
        }
        test_file(part, next_number());
    }
    free(file.bytes);
}

int main(int argc, char **argv) {
    file_pages = fenced_new(1 << 20);
    ASSERT(argc > 3);
    uint64_t share = strtoul(argv[1], NULL, 10), shares = strtoul(argv[2], NULL, 10);
    if (share == 0) {
        test_first_parts();
    }
    for (int i = 3; i < argc; i++) {
        test_mutants(argv[i], share, shares);
    }
    fenced_free(&file_pages);
    return 0;
}
