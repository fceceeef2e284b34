/* Each allocation refused in turn: the call reports that memory ran out, leaves the buffers as they were and keeps nothing.
 * Linked with heap.c: refused DUMP.. */
#include "fillers.h"
#include "heap.h"
#include "small.h"

#include <sys/resource.h>

static bool is_untouched(const uint8_t *out, size_t size) {
    for (size_t i = 0; i < size; i++) {
        if (out[i] != 0xaa) {
            return false;
        }
    }
    return true;
}

/* How many allocations the call asks for, each of which was refused once. */
static long test_filler(const filler *tried, blob file, uint8_t *out, size_t room) {
    for (long granted = 0;; granted++) {
        uint64_t count = 1;
        mdmp_fault fault;
        long kept = heap.live;
        memset(out, 0xaa, room * tried->item);
        heap.allowed = granted;
        heap.asked = 0;
        uint32_t status = tried->call(file, out, room, &count, &fault);
        heap.allowed = -1;
        ASSERT(heap.live == kept);
        if (status != MDMP_NO_MEMORY) {
            /* a part of the dump that was made lies outside: it is not copied, and its entry is bad */
            bool is_outside = fault.kind == MDMP_FAULT_PART_OUTSIDE || fault.kind == MDMP_FAULT_BAD_ENTRIES;
            ASSERT((status == MDMP_OK || is_outside) && heap.asked == granted);
            return granted;
        }
        ASSERT(fault.kind == MDMP_FAULT_NO_MEMORY && count == 0 && is_untouched(out, room * tried->item));
    }
}

static long test_memory(blob file) {
    for (long granted = 0;; granted++) {
        uint8_t out[16];
        bool known[16];
        mdmp_fault fault;
        long kept = heap.live;
        memset(out, 0xaa, sizeof out);
        memset(known, 0, sizeof known);
        heap.allowed = granted;
        uint32_t status = mdmp_memory(file.bytes, file.size, &LIMITS, 0x1000, out, 16, known, 16, &fault);
        heap.allowed = -1;
        ASSERT(heap.live == kept);
        if (status != MDMP_NO_MEMORY) {
            ASSERT(status == MDMP_OK);
            return granted;
        }
        ASSERT(fault.kind == MDMP_FAULT_NO_MEMORY && is_untouched(out, sizeof out) && !known[0]);
    }
}

static void test_fault_text(void) {
    mdmp_fault fault = {.kind = MDMP_FAULT_PART_OUTSIDE, .part = MDMP_PART_STACK};
    for (long granted = 0;; granted++) {
        uint8_t out[200];
        uint64_t size = 1;
        long kept = heap.live;
        memset(out, 0xaa, sizeof out);
        heap.allowed = granted;
        uint32_t status = mdmp_fault_text(&fault, out, sizeof out, &size);
        heap.allowed = -1;
        ASSERT(heap.live == kept);
        if (status != MDMP_NO_MEMORY) {
            ASSERT(status == MDMP_OK && size > 0);
            return;
        }
        ASSERT(size == 0 && is_untouched(out, sizeof out));
    }
}

/* The calls that take no memory ask for none. */
static void test_none(blob file) {
    mdmp_header_record header;
    mdmp_fault fault;
    mdmp_symbol_file symbols;
    const mdmp_place place = {24, 0, MDMP_EXTENT_INSIDE, 0};
    const mdmp_range range = {.start = 0, .size = 8, .offset = 0, .extent = MDMP_EXTENT_INSIDE};
    uint8_t out[16];
    bool known[16];
    uint64_t count;
    ASSERT(mdmp_ranges(file.bytes, file.size, &LIMITS, NULL, 0, &count, &fault) != MDMP_FAULT);
    mdmp_range *ranges = malloc(((size_t)count + 1) * sizeof *ranges);
    ASSERT(mdmp_ranges(file.bytes, file.size, &LIMITS, ranges, (size_t)count, &count, &fault) == MDMP_OK);
    const size_t room = 2 * (size_t)count;
    mdmp_slot *slots = malloc((room + 1) * sizeof *slots);
    const mdmp_module module = {.base_of_image = 8, .size_of_image = 8};
    mdmp_slot places[2];
    uint64_t indexed, owner;
    ASSERT(ranges != NULL && slots != NULL);
    heap.allowed = 0;
    heap.asked = 0;
    ASSERT(mdmp_header(file.bytes, file.size, &header, &fault) == MDMP_OK);
    ASSERT(mdmp_symbols(file.bytes, file.size, &LIMITS, &place, &symbols, &fault) == MDMP_OK);
    mdmp_module_ids ids;
    ASSERT(mdmp_ids(file.bytes, file.size, &module, &ids) == MDMP_OK);
    ASSERT(mdmp_read(file.bytes, file.size, &range, 1, 4, out, 16, known, 16, &fault) == MDMP_OK);
    ASSERT(known[3] && !known[4]);
    uint64_t start = count == 0 ? 0 : ranges[count / 2].start;
    ASSERT(mdmp_read(file.bytes, file.size, ranges, (size_t)count, start, out, 16, known, 16, &fault) == MDMP_OK);
    ASSERT(mdmp_index(file.bytes, file.size, ranges, (size_t)count, slots, room, &indexed, &fault) == MDMP_OK);
    ASSERT(mdmp_read_index(file.bytes, file.size, slots, (size_t)indexed, start, out, 16, known, 16, &fault) == MDMP_OK);
    ASSERT(mdmp_index_modules(&module, 1, places, 2, &indexed, &fault) == MDMP_OK && indexed == 1);
    ASSERT(mdmp_where(places, 1, 9, &owner) == MDMP_OK && owner == 0);
    heap.allowed = -1;
    ASSERT(heap.asked == 0);
    free(slots);
    free(ranges);
}

/* What a call that gives records takes it takes as the file is opened: a window, the directory, the ranges of memory and a
 * name, each once, and no byte more than these are said to hold. */
static void test_held(const filler *tried, blob file, uint8_t *out, size_t room) {
    mdmp_header_record header;
    mdmp_fault fault;
    uint64_t ranges, count;
    if (mdmp_header(file.bytes, file.size, &header, &fault) != MDMP_OK ||
        mdmp_ranges(file.bytes, file.size, &LIMITS, NULL, 0, &ranges, &fault) == MDMP_FAULT) {
        return;
    }
    heap.asked = 0;
    heap.total = 0;
    tried->call(file, out, room, &count, &fault);
    ASSERT(heap.asked <= 4);
    ASSERT(heap.total <= LIMITS.window + 12 * (uint64_t)header.number_of_streams + 24 * ranges + LIMITS.name);
}

/* A buffer of 1 GiB is taken whole, and of a file that is far smaller no more is touched than the file fills. */
static void assert_touched(blob file, const mdmp_limits *wide) {
    struct rusage before, after;
    mdmp_fault fault;
    uint64_t count;
    heap.largest = 0;
    ASSERT(getrusage(RUSAGE_SELF, &before) == 0);
    ASSERT(mdmp_modules(file.bytes, file.size, wide, NULL, 0, &count, &fault) != MDMP_BAD_ARGUMENT);
    ASSERT(getrusage(RUSAGE_SELF, &after) == 0);
    ASSERT(file.size == 32 || heap.largest == 1 << 30);
    /* of 1,048,576 KiB, an eighth of which may be touched by a sanitizer */
    ASSERT(after.ru_maxrss - before.ru_maxrss < 256 * 1024);
}

/* A window that is far larger than the file, and then the buffer of names. */
static void test_touched(blob file) {
    mdmp_limits wide = LIMITS;
    wide.window = 1 << 30;
    assert_touched(file, &wide);
    wide.window = LIMITS.window;
    wide.name = 1 << 30;
    assert_touched(file, &wide);
}

/* A list takes no memory for text that the buffer has no room for: what is held is the same, however long the text is. */
static void test_part(blob file) {
    uint8_t out[64];
    uint64_t size, left;
    mdmp_fault fault;
    heap.largest = 0;
    ASSERT(mdmp_list(file.bytes, file.size, &LIMITS, false, NULL, 0, &size, &fault) == MDMP_BUFFER_TOO_SHORT);
    ASSERT(size < 1 << 18 || heap.largest < size);
    heap.largest = 0;
    ASSERT(mdmp_list_json(file.bytes, file.size, &LIMITS, false, out, sizeof out, &left, &fault) == MDMP_BUFFER_TOO_SHORT);
    ASSERT(left < 1 << 18 || heap.largest < left);
    heap.largest = 0;
    ASSERT(
        mdmp_list_part(file.bytes, file.size, &LIMITS, false, 0, out, sizeof out, &left, &fault) == MDMP_BUFFER_TOO_SHORT);
    ASSERT(left == size && (size < 1 << 18 || heap.largest < size));
}

static uint32_t list_within(const mdmp_limits *limits, uint8_t *out, size_t room, uint64_t *size, mdmp_fault *fault) {
    return mdmp_list(FILE_OF(SYSTEM), limits, false, out, room, size, fault);
}

static uint32_t copy_within(const mdmp_limits *limits, uint8_t *out, size_t room, uint64_t *size, mdmp_fault *fault) {
    const uint32_t type = 7;
    return mdmp_copy(FILE_OF(SYSTEM), limits, &type, 1, out, room, size, fault);
}

/* A call within limits is refused each allocation, before and after which a limit may be reached: it says which, and in
 * both cases gives nothing and keeps nothing. */
static void test_limited(uint32_t (*call)(const mdmp_limits *, uint8_t *, size_t, uint64_t *, mdmp_fault *), mdmp_limits limits,
                         uint32_t kind) {
    for (long granted = 0;; granted++) {
        uint8_t out[512];
        uint64_t size = 1;
        mdmp_fault fault;
        long kept = heap.live;
        memset(out, 0xaa, sizeof out);
        heap.allowed = granted;
        heap.asked = 0;
        uint32_t status = call(&limits, out, sizeof out, &size, &fault);
        heap.allowed = -1;
        ASSERT(heap.live == kept && size == 0 && is_untouched(out, sizeof out));
        if (status == MDMP_LIMIT) {
            ASSERT(fault.kind == kind && heap.asked == granted);
            return;
        }
        ASSERT(status == MDMP_NO_MEMORY && fault.kind == MDMP_FAULT_NO_MEMORY && heap.asked == granted + 1);
    }
}

/* The dump has one entry: its lists take W + 12 + L bytes, and those of a copy 2W + 24. A copy of it needs over 168 bytes. */
static void test_limits(void) {
    mdmp_limits limits = LIMITS;
    limits.memory = LIMITS.window + LIMITS.name + 11;
    test_limited(list_within, limits, MDMP_FAULT_MEMORY_LIMIT);
    limits.memory = 2 * LIMITS.window + 23;
    test_limited(copy_within, limits, MDMP_FAULT_MEMORY_LIMIT);
    limits.memory = MDMP_NO_LIMIT;
    limits.budget = 43;
    test_limited(list_within, limits, MDMP_FAULT_BUDGET);
    test_limited(copy_within, limits, MDMP_FAULT_BUDGET);
    limits.budget = 168;
    test_limited(copy_within, limits, MDMP_FAULT_COPY_BUDGET);
}

int main(int argc, char **argv) {
    enum { ROOM = 1 << 20 };
    uint8_t *out = malloc(ROOM);
    ASSERT(out != NULL);
    for (int i = 1; i < argc; i++) {
        blob file = read_file(argv[i]);
        mdmp_module module;
        uint64_t count;
        mdmp_fault fault;
        uint32_t status = mdmp_modules(file.bytes, file.size, &LIMITS, &module, 1, &count, &fault);
        name_rva = status != MDMP_FAULT && count > 0 ? module.name.rva : 0;
        for (size_t k = 0; k < FILLERS_COUNT; k++) {
            const filler *tried = &FILLERS[k];
            long refused = test_filler(tried, file, out, ROOM / tried->item);
            /* so that the test is seen to refuse something: a name may be of a file that has none */
            ASSERT(tried->takes_memory ? refused > 0 || tried->item == 1 || file.size == 32 : refused == 0);
            if (tried->takes_memory && tried->item > 1) {
                test_held(tried, file, out, ROOM / tried->item);
            }
        }
        test_memory(file);
        test_touched(file);
        test_part(file);
        test_none(file);
        free(file.bytes);
    }
    test_fault_text();
    test_limits();
    free(out);
    ASSERT(heap.live == 0);
    return 0;
}
