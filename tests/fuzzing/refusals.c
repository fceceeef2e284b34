/* Memory that runs out: a call that is refused one allocation gives nothing, touches no buffer and keeps nothing.
 *
 * Linked with heap.c, so that what the library asks for is seen. */
#include "heap.h"
#include "oracles.h"

/* Each allocation of one filler is refused in turn, up to a number of them. With all of them it gives what it gave. */
void test_refused(const reading *given) {
    const size_t number = (size_t)below(FILLERS_COUNT);
    const filled *whole = &given->of[number];
    const filler *tried = &FILLERS[number];
    if (whole->bytes == NULL) {
        return;
    }
    for (long granted = 0; granted < 23; granted++) {
        const size_t size = (size_t)whole->count * tried->item;
        uint8_t *out = guarded(size);
        uint64_t count = 1;
        mdmp_fault fault;
        const long kept = heap.live;
        heap.allowed = granted;
        uint32_t status = tried->call(given->file, out, (size_t)whole->count, &count, &fault);
        heap.allowed = -1;
        ASSERT(heap.live == kept && is_guarded(out, size));
        if (status != MDMP_NO_MEMORY) {
            ASSERT(status == status_of(&whole->fault) && count == whole->count && is_same_fault(&fault, &whole->fault));
            ASSERT(size == 0 || memcmp(out, whole->bytes, size) == 0);
            return;
        }
        ASSERT(fault.kind == MDMP_FAULT_NO_MEMORY && count == 0);
        for (size_t i = 0; i < size; i++) {
            ASSERT(out[i] == 0xaa);
        }
    }
}
