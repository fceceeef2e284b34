/* The records of a file by their members, a line each, as Debug of Rust prints them: what other languages compare. */
#include "tables.h"
#include "texts.h"
#include <inttypes.h>

static bool is_first; /* of the members of a structure */

static void show_key(const char *key) {
    if (key != NULL) {
        printf("%s%s: ", is_first ? " " : ", ", key);
        is_first = false;
    }
}

static void begin(const char *key, const char *structure) {
    show_key(key);
    printf("%s {", structure);
    is_first = true;
}

static void end(void) {
    printf(" }");
    is_first = false;
}

static void show_number(const char *key, uint64_t number) {
    show_key(key);
    printf("%" PRIu64, number);
}

static void show_wide(const char *key, uint64_t upper, uint64_t lower) {
    show_key(key);
    print_wide(stdout, upper, lower);
}

static void show_numbers(const char *key, const uint64_t *numbers, size_t count) {
    show_key(key);
    for (size_t i = 0; i < count; i++) {
        printf("%s%" PRIu64, i == 0 ? "[" : ", ", numbers[i]);
    }
    printf("]");
}

static void show_bytes(const char *key, const uint8_t *bytes, size_t count) {
    show_key(key);
    printf("[");
    for (size_t i = 0; i < count; i++) {
        printf("%s%u", i == 0 ? "" : ", ", (unsigned)bytes[i]);
    }
    printf("]");
}

/* A number of an enum, and its name. */
typedef struct {
    uint32_t number;
    const char *name;
} named;

static void show_named(const char *key, uint32_t number, const named *names, size_t count) {
    show_key(key);
    for (size_t i = 0; i < count; i++) {
        if (names[i].number == number) {
            printf("%s", names[i].name);
            return;
        }
    }
    printf("Unknown(%" PRIu32 ")", number);
}

#include "records.h"

/* A name in UTF-8. */
typedef struct {
    uint8_t text[8192];
    uint64_t size;
} given_name;

/* Whether there is a name, and the name. No name here is over the limit. */
static bool is_named(blob file, const mdmp_name_place *place, given_name *name) {
    if (place->state == MDMP_NAME_NONE) {
        return false;
    }
    ASSERT(place->state == MDMP_NAME_GIVEN);
    mdmp_fault fault;
    uint32_t status = mdmp_name(
        file.bytes, file.size, place->rva, LIMITS.name, name->text, sizeof name->text, &name->size, &fault);
    ASSERT(status == MDMP_OK);
    return true;
}

static void show_name(blob file, const mdmp_name_place *place) {
    given_name name;
    if (is_named(file, place, &name)) {
        printf("\nSome(");
        show_bytes(NULL, name.text, (size_t)name.size);
        printf(")");
    } else {
        printf("\nNone");
    }
}

/* The CodeView record of a module, if it is inside the file. */
static void show_symbols(blob file, const mdmp_place *place) {
    if (place->extent != MDMP_EXTENT_INSIDE) {
        return;
    }
    mdmp_fault fault;
    mdmp_symbol_file found;
    ASSERT(mdmp_symbols(file.bytes, file.size, &LIMITS, place, &found, &fault) == MDMP_OK);
    printf("\n");
    begin(NULL, "SymbolFile");
    show_mdmp_symbol_kind("kind", found.kind);
    show_bytes("guid", found.guid, sizeof found.guid);
    show_number("age", found.age);
    show_bytes("name", file.bytes + found.name_offset, found.name_size);
    show_key("name_ended");
    printf("%s", found.name_ended ? "true" : "false");
    show_bytes("signature", found.signature, sizeof found.signature);
    end();
}

/* What a record names: its names, and the symbol file of a module. */
#define SHOW_NAME(field) show_name(file, &at->field);
#define SHOW_PLACE(field, part)                 \
    if ((part) == MDMP_PART_CODEVIEW) {         \
        show_symbols(file, &at->field);         \
    }

/* The records of a table, each with what it names. */
#define SHOW_TABLE(name, NAME, row)                          \
    {                                                        \
        row *rows = all_##name(file, &count);                \
        for (const row *at = rows; count > 0; at++, count--) { \
            show_##row(NULL, at);                            \
            NAMES_OF_##NAME(SHOW_NAME)                       \
            PLACES_OF_##NAME(SHOW_PLACE)                     \
            printf("\n");                                    \
        }                                                    \
        free(rows);                                          \
    }

void print_records(blob file) {
    uint64_t count;
    mdmp_header_record header = header_of(file);
    show_mdmp_header_record(NULL, &header);
    printf("\n");
    mdmp_stream *streams = all_streams(file, &count);
    for (const mdmp_stream *at = streams; count > 0; at++, count--) {
        show_mdmp_stream(NULL, at);
        printf("\n");
    }
    free(streams);
    EACH_TABLE(SHOW_TABLE)
}
