/* Runs the oracles over files: harness FILE.., or, built by afl-clang-fast, over what AFL++ gives.
 *
 * The seed of what the oracles choose is a sum over the file's bytes, so a file shows the same each time.
 */
#include "oracles.h"
#include <unistd.h>

/* A longer file is not tried by the fuzzer. */
enum { LONGEST = 1 << 20 };

/* FNV-1a of 64 bits */
static uint64_t seed_of(blob file) {
    uint64_t sum = 0xcbf29ce484222325;
    for (size_t i = 0; i < file.size; i++) {
        sum = (sum ^ file.bytes[i]) * 0x100000001b3;
    }
    return sum;
}

#ifdef __AFL_COMPILER
__AFL_FUZZ_INIT();

/* Each file is copied into a block of its size, after which no byte is. */
int main(void) {
    __AFL_INIT();
    const uint8_t *input = __AFL_FUZZ_TESTCASE_BUF;
    while (__AFL_LOOP(10000)) {
        blob file = {NULL, (size_t)__AFL_FUZZ_TESTCASE_LEN};
        if (file.size <= LONGEST) {
            file.bytes = malloc(file.size + 1);
            ASSERT(file.bytes != NULL);
            memcpy(file.bytes, input, file.size);
            file.bytes = realloc(file.bytes, file.size != 0 ? file.size : 1);
            test_file(file, seed_of(file));
            free(file.bytes);
        }
    }
    return 0;
}
#else
int main(int argc, char **argv) {
    for (int i = 1; i < argc; i++) {
        blob file = read_file(argv[i]);
        file.bytes = realloc(file.bytes, file.size != 0 ? file.size : 1);
        test_file(file, seed_of(file));
        free(file.bytes);
    }
    printf("%d files\n", argc - 1);
    return 0;
}
#endif
