/* Prints the microseconds of a call of check, list, summary, modules, memory and read over a dump: library_calls DUMP
 * Over several dumps, those of list and summary for each: library_calls DUMP DUMP.. */
#define _POSIX_C_SOURCE 200809L
#include <mdmp.h>
#include <stdio.h>
#include <stdlib.h>
#include <time.h>

enum { TURNS = 9, BYTES = 64 };

static const mdmp_limits LIMITS = MDMP_LIMITS_DEFAULT;
static uint8_t *file, *text;
static size_t file_size, text_size;
static mdmp_module *modules;
static uint64_t modules_count;
static mdmp_range *ranges;
static uint64_t ranges_count, address;

static void check(void) {
    uint64_t size;
    mdmp_fault fault;
    mdmp_check(file, file_size, &LIMITS, text, text_size, &size, &fault);
}

static void list(void) {
    uint64_t size;
    mdmp_fault fault;
    mdmp_list(file, file_size, &LIMITS, false, text, text_size, &size, &fault);
}

static void summarize(void) {
    mdmp_summary_record record;
    mdmp_fault fault;
    mdmp_summary(file, file_size, &LIMITS, &record, &fault);
}

static void read_modules(void) {
    uint64_t count;
    mdmp_fault fault;
    mdmp_modules(file, file_size, &LIMITS, modules, (size_t)modules_count, &count, &fault);
}

static void read_memory(void) {
    uint8_t out[BYTES];
    bool known[BYTES];
    mdmp_fault fault;
    mdmp_memory(file, file_size, &LIMITS, address, out, BYTES, known, BYTES, &fault);
}

static void read_kept(void) {
    uint8_t out[BYTES];
    bool known[BYTES];
    mdmp_fault fault;
    mdmp_read(file, file_size, ranges, (size_t)ranges_count, address, out, BYTES, known, BYTES, &fault);
}

static double now(void) {
    struct timespec told;
    clock_gettime(CLOCK_MONOTONIC, &told);
    return (double)told.tv_sec + (double)told.tv_nsec / 1e9;
}

/* Microseconds of a call: the least of nine turns of about 50 ms. */
static double micros(void (*call)(void)) {
    call();
    double start = now();
    call();
    double once = now() - start;
    long times = once < 1e-9 ? 1000000 : (long)(0.05 / once) + 1;
    double best = 1e9;
    for (int turn = 0; turn < TURNS; turn++) {
        start = now();
        for (long i = 0; i < times; i++) {
            call();
        }
        double each = (now() - start) / (double)times;
        best = each < best ? each : best;
    }
    return best * 1e6;
}

/* Reads a dump and what the calls need of it. */
static bool open_dump(const char *path) {
    FILE *stream = fopen(path, "rb");
    if (stream == NULL) {
        return false;
    }
    fseek(stream, 0, SEEK_END);
    file_size = (size_t)ftell(stream);
    rewind(stream);
    file = malloc(file_size + 1);
    file_size = fread(file, 1, file_size, stream);
    fclose(stream);
    uint64_t size;
    mdmp_fault fault;
    mdmp_list(file, file_size, &LIMITS, false, NULL, 0, &size, &fault);
    text_size = (size_t)size;
    text = malloc(text_size + 1);
    mdmp_modules(file, file_size, &LIMITS, NULL, 0, &modules_count, &fault);
    modules = calloc((size_t)modules_count + 1, sizeof *modules);
    mdmp_ranges(file, file_size, &LIMITS, NULL, 0, &ranges_count, &fault);
    ranges = calloc((size_t)ranges_count + 1, sizeof *ranges);
    mdmp_ranges(file, file_size, &LIMITS, ranges, (size_t)ranges_count, &ranges_count, &fault);
    address = ranges_count == 0 ? 0 : ranges[ranges_count / 2].start;
    return true;
}

static void close_dump(void) {
    free(ranges);
    free(modules);
    free(text);
    free(file);
}

/* Microseconds of a call for each of several dumps, of which each is called once: the least sum of nine turns. */
static double micros_of_each(void (*call)(void), char **paths, int count) {
    double best = 1e9;
    for (int turn = 0; turn < TURNS; turn++) {
        double sum = 0;
        for (int i = 0; i < count && open_dump(paths[i]); i++) {
            double start = now();
            call();
            sum += now() - start;
            close_dump();
        }
        best = sum < best ? sum : best;
    }
    return best * 1e6 / count;
}

int main(int argc, char **argv) {
    if (argc > 2) {
        printf("%.3f %.3f\n", micros_of_each(list, argv + 1, argc - 1), micros_of_each(summarize, argv + 1, argc - 1));
        return 0;
    }
    if (argc < 2 || !open_dump(argv[1])) {
        return 2;
    }
    printf("%.3f %.3f %.3f %.3f %.3f %.3f\n", micros(check), micros(list), micros(summarize), micros(read_modules),
        micros(read_memory), micros(read_kept));
    close_dump();
    return 0;
}
