/* Texts beside rows: the list has the items of the rows, the check has the verdicts, and a part is a part of the list. */
#define _GNU_SOURCE
#include "texts.h"
#include "oracles.h"

static uint32_t number_at(blob file, size_t offset) {
    uint32_t number;
    memcpy(&number, file.bytes + offset, sizeof number);
    return number;
}

/* The header is that of the first 32 bytes. */
void test_header(const reading *given) {
    blob file = given->file;
    mdmp_header_record *header = guarded(sizeof *header);
    mdmp_fault fault;
    uint32_t status = mdmp_header(file.bytes, file.size, header, &fault);
    ASSERT(status == status_of(&fault) && is_guarded((const uint8_t *)header, sizeof *header));
    ASSERT(is_same_fault(&fault, &given->of[FILL_STREAMS].fault));
    if (status != MDMP_OK) {
        ASSERT(header->version == 0xaaaaaaaa);
        return;
    }
    ASSERT(header->signature == number_at(file, 0) && header->version == number_at(file, 4));
    ASSERT(header->number_of_streams == number_at(file, 8) && header->stream_directory_rva == number_at(file, 12));
    ASSERT(header->checksum == number_at(file, 16) && header->time_date_stamp == number_at(file, 20));
    ASSERT(header->flags == (number_at(file, 24) | (uint64_t)number_at(file, 28) << 32));
    ASSERT(given->of[FILL_STREAMS].count == header->number_of_streams);
}

/* The entries are those of the directory. */
void test_streams(const reading *given) {
    const mdmp_stream *streams = ROWS_OF(given, FILL_STREAMS, mdmp_stream);
    for (uint64_t i = 0; streams != NULL && i < given->of[FILL_STREAMS].count; i++) {
        size_t at = number_at(given->file, 12) + 12 * (size_t)i;
        ASSERT(streams[i].entry == i && streams[i].stream_type == number_at(given->file, at));
        ASSERT(streams[i].size == number_at(given->file, at + 4) && streams[i].rva == number_at(given->file, at + 8));
    }
}

/* How many entries a list goes through: up to the first error, the entry of which is still listed. */
static uint32_t listed_entries(const filled *list, uint32_t streams) {
    return list->fault.kind == MDMP_FAULT_NONE ? streams : list->fault.entry + 1;
}

/* The list has the lines of the rows, up to its error, which is that of the first bad entry. */
static void test_list_of_rows(const reading *given, const filled *list, bool pdb) {
    size_t capacity = (size_t)list->count + 64;
    char *text = malloc(capacity);
    FILE *out = fmemopen(text, capacity, "w");
#define MEMBER(name, NAME, row) .name = ROWS_OF(given, FILL_##NAME, row),
    given_rows rows = {.streams = ROWS_OF(given, FILL_STREAMS, mdmp_stream), EACH_TABLE(MEMBER)};
    for (size_t i = 0; i < TABLES_COUNT; i++) {
        rows.counts[i] = given->of[FILL_TABLES + i].count;
    }
    mdmp_fault fault;
    ASSERT(out != NULL && mdmp_header(given->file.bytes, given->file.size, &rows.header, &fault) == MDMP_OK);
    print_rows(out, given->file, &rows, listed_entries(list, rows.header.number_of_streams), pdb);
    ASSERT(fflush(out) == 0 && ftell(out) == (long)list->count && memcmp(text, list->bytes, (size_t)list->count) == 0);
    fclose(out);
    free(text);
}

void test_list(const reading *given) {
    const filled *list = &given->of[FILL_LIST], *plain = &given->of[FILL_LIST_PART];
    ASSERT(is_same_fault(&list->fault, &plain->fault));
    for (size_t i = FILL_STREAMS; i < FILL_TABLES + TABLES_COUNT; i++) {
        if (given->of[i].bytes == NULL) {
            return;
        }
    }
    if (given->of[FILL_STREAMS].fault.kind != MDMP_FAULT_NONE || list->fault.kind == MDMP_FAULT_TOO_MANY_RANGES) {
        ASSERT(list->count == 0 && plain->count == 0);
        return;
    }
    test_list_of_rows(given, list, true);
    test_list_of_rows(given, plain, false);
}

/* The verdicts are the lines of the check; the first that is no good ends the list; each kind of rows ends with one of its own. */
void test_check(const reading *given) {
    const filled *check = &given->of[FILL_CHECK], *verdicts = &given->of[FILL_VERDICTS], *list = &given->of[FILL_LIST];
    const mdmp_fault *faults = ROWS_OF(given, FILL_VERDICTS, mdmp_fault), *first = NULL;
    ASSERT(is_same_fault(&check->fault, &verdicts->fault) && is_same_fault(&check->fault, &given->of[FILL_CHECK_JSON].fault));
    if (check->bytes == NULL || faults == NULL) {
        return;
    }
    size_t at = 0;
    uint64_t bad = 0;
    for (uint64_t i = 0; i < verdicts->count; i++) {
        char line[256];
        uint64_t size;
        ASSERT(faults[i].entry == i);
        if (faults[i].kind == MDMP_FAULT_NONE) {
            size = (uint64_t)snprintf(line, sizeof line, "entry %u: ok", faults[i].entry);
        } else {
            ASSERT(mdmp_fault_text(&faults[i], (uint8_t *)line, sizeof line - 1, &size) == MDMP_OK);
            first = bad++ == 0 ? &faults[i] : first;
        }
        line[size++] = '\n';
        ASSERT(at + size <= check->count && memcmp(check->bytes + at, line, (size_t)size) == 0);
        at += (size_t)size;
    }
    ASSERT(at == check->count && (check->fault.kind == MDMP_FAULT_BAD_ENTRIES) == (bad != 0));
    ASSERT(bad == 0 || (check->fault.size == bad && is_same_fault(first, &list->fault)));
    ASSERT(bad != 0 || is_same_fault(&check->fault, &list->fault));
}

/* A part of the list is that of the whole list, and says the same of the file. */
void test_part(const reading *given) {
    const filled *list = &given->of[FILL_LIST_PART];
    uint64_t left, skip = below(list->count + 8);
    size_t room = (size_t)below(1 + below((list->bytes == NULL ? MOST : list->count) + 8));
    uint8_t *out = guarded(room);
    mdmp_fault fault;
    uint32_t status = mdmp_list_part(given->file.bytes, given->file.size, &LIMITS, false, skip, out, room, &left, &fault);
    ASSERT(left == (skip < list->count ? list->count - skip : 0) && is_same_fault(&fault, &list->fault));
    ASSERT(status == (left > room ? (uint32_t)MDMP_BUFFER_TOO_SHORT : status_of(&fault)) && is_guarded(out, room));
    ASSERT(list->bytes == NULL || left == 0 || memcmp(out, list->bytes + skip, left < room ? (size_t)left : room) == 0);
}
