/* Buffers: what a filler does with room for nothing, for one item less than there are, for just these, and for one more. */
#include "oracles.h"

enum { GUARD = 64, PATTERN = 0xaa, CAPACITY = MOST + (1 << 16) };

/* A buffer that ends where a page begins that can't be touched. It and the bytes before it have a pattern. */
void *guarded(size_t size) {
    static fenced pages;
    if (pages.start == NULL) {
        pages = fenced_new(CAPACITY);
    }
    uint8_t *out = fenced_last(&pages, size);
    memset(out - GUARD, PATTERN, GUARD + size);
    return out;
}

static bool is_pattern(const uint8_t *bytes, size_t size) {
    for (size_t i = 0; i < size; i++) {
        if (bytes[i] != PATTERN) {
            return false;
        }
    }
    return true;
}

/* Whether the bytes before a buffer of this size have their pattern still. */
bool is_guarded(const uint8_t *out, size_t size) {
    return size < CAPACITY && is_pattern(out - GUARD, GUARD);
}

/* One call with this room, which has to be as the whole is: its count, its error, its first items, and no byte more. */
static void test_room(const filler *tried, blob file, const filled *whole, size_t room) {
    uint8_t *out = guarded(room * tried->item);
    uint64_t count = 1;
    mdmp_fault fault;
    uint32_t status = tried->call(file, out, room, &count, &fault);
    size_t given = room < whole->count ? room : (size_t)whole->count;
    ASSERT(status == (whole->count > room ? (uint32_t)MDMP_BUFFER_TOO_SHORT : status_of(&whole->fault)));
    ASSERT(count == whole->count && is_same_fault(&fault, &whole->fault));
    ASSERT(given == 0 || memcmp(out, whole->bytes, given * tried->item) == 0);
    ASSERT(is_pattern(out + given * tried->item, (room - given) * tried->item));
    ASSERT(is_guarded(out, room * tried->item));
}

/* The whole, by two calls. */
filled fill_whole(const filler *tried, blob file) {
    filled whole = {NULL, 1, {.kind = 0}};
    uint32_t status = tried->call(file, guarded(0), 0, &whole.count, &whole.fault);
    ASSERT(status == (whole.count == 0 ? status_of(&whole.fault) : (uint32_t)MDMP_BUFFER_TOO_SHORT));
    if (whole.count > MOST / tried->item) {
        return whole;
    }
    size_t room = (size_t)whole.count;
    uint64_t again;
    mdmp_fault fault;
    whole.bytes = malloc(room * tried->item + 1);
    ASSERT(whole.bytes != NULL);
    status = tried->call(file, whole.bytes, room, &again, &fault);
    ASSERT(status == status_of(&whole.fault) && again == whole.count && is_same_fault(&fault, &whole.fault));
    return whole;
}

/* Rooms of n + 1, n and n - 1 give the same n, and two calls with one room give the same. */
void test_rooms(const filler *tried, blob file, filled *whole) {
    *whole = fill_whole(tried, file);
    test_fault(&whole->fault);
    if (whole->bytes == NULL) {
        return;
    }
    size_t room = (size_t)whole->count;
    test_room(tried, file, whole, room + 1);
    test_room(tried, file, whole, room);
    if (room != 0) {
        test_room(tried, file, whole, room - 1);
    }
}

bool is_same_fill(const filled *one, const filled *other, size_t item) {
    return one->count == other->count && is_same_fault(&one->fault, &other->fault) &&
           (one->bytes == NULL || other->bytes == NULL || memcmp(one->bytes, other->bytes, (size_t)one->count * item) == 0);
}
