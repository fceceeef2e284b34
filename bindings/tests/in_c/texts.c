#include "texts.h"
#include "tables.h"
#include <inttypes.h>

/* Reserved fields are 0. */
#define ASSERT_RESERVED(row)                                                       \
    for (size_t i = 0; i < sizeof(row)->reserved / sizeof *(row)->reserved; i++) { \
        ASSERT((row)->reserved[i] == 0);                                           \
    }

static const char *const EXTENTS[] = {"empty", "absent", "inside", "outside"};

static void print_place(FILE *out, const mdmp_place *place) {
    ASSERT(place->extent <= MDMP_EXTENT_OUTSIDE && place->reserved == 0);
    fprintf(out, "%s", EXTENTS[place->extent]);
    if (place->extent != MDMP_EXTENT_EMPTY) {
        fprintf(out, " %" PRIu32, place->size);
    }
    if (place->extent >= MDMP_EXTENT_INSIDE) {
        fprintf(out, "@%" PRIu32, place->rva);
    }
}

static void print_unit(FILE *out, unsigned unit) {
    if (unit >= 0x20 && unit <= 0x7e && unit != '\\') {
        fprintf(out, "%c", (char)unit);
    } else {
        fprintf(out, "\\u%04x", unit);
    }
}

/* The units of a name, as the file has them after its length. */
static void print_name(FILE *out, blob file, const mdmp_name_place *place) {
    ASSERT(place->state <= MDMP_NAME_LONG);
    if (place->state == MDMP_NAME_NONE) {
        fprintf(out, "none");
        return;
    }
    if (place->state == MDMP_NAME_LONG) {
        fprintf(out, "long %" PRIu32, place->size);
        return;
    }
    ASSERT(place->size % 2 == 0 && place->rva + 4 + place->size <= file.size);
    const uint8_t *units = file.bytes + place->rva + 4;
    fprintf(out, "\"");
    for (uint32_t at = 0; at < place->size; at += 2) {
        print_unit(out, units[at] | (unsigned)units[at + 1] << 8);
    }
    fprintf(out, "\"");
}

/* Where the records of a file are printed, and whether with their CodeView records. */
typedef struct {
    FILE *out;
    blob file;
    bool pdb;
} printing;

static void print_threads(const printing *to, const mdmp_thread *row) {
    FILE *out = to->out;
    ASSERT_RESERVED(row)
    fprintf(out, "thread %" PRIu64 " id %" PRIu32 " suspend %" PRIu32 " class %" PRIu32 " priority %" PRIu32, row->index,
        row->thread_id, row->suspend_count, row->priority_class, row->priority);
    fprintf(out, " teb 0x%016" PRIx64 " stack 0x%016" PRIx64 " ", row->teb, row->stack_start);
    print_place(out, &row->stack);
    fprintf(out, " context ");
    print_place(out, &row->context);
    fprintf(out, "\n");
}

/* The second line of a module whose CodeView record is inside the file. */
static void print_symbols(FILE *out, blob file, const mdmp_place *place) {
    mdmp_symbol_file symbols;
    mdmp_fault fault;
    if (place->extent != MDMP_EXTENT_INSIDE) {
        return;
    }
    ASSERT(mdmp_symbols(file.bytes, file.size, &LIMITS, place, &symbols, &fault) == MDMP_OK);
    ASSERT_RESERVED(&symbols)
    if (symbols.kind == MDMP_SYMBOLS_SHORT) {
        fprintf(out, "pdb short %" PRIu32 "\n", place->size);
        return;
    }
    if (symbols.kind == MDMP_SYMBOLS_OTHER) {
        const uint8_t *first = symbols.signature;
        fprintf(out, "pdb other %02x%02x%02x%02x size %" PRIu32 "\n", first[0], first[1], first[2], first[3], place->size);
        return;
    }
    fprintf(out, "pdb ");
    for (size_t i = 0; i < sizeof symbols.guid; i++) {
        fprintf(out, "%s%02x", i == 4 || i == 6 || i == 8 || i == 10 ? "-" : "", symbols.guid[i]);
    }
    fprintf(out, " age %" PRIu32 " name \"", symbols.age);
    ASSERT(symbols.name_offset + symbols.name_size <= (uint64_t)place->rva + place->size);
    for (uint32_t i = 0; i < symbols.name_size; i++) {
        uint8_t byte = file.bytes[symbols.name_offset + i];
        fprintf(out, byte >= 0x20 && byte <= 0x7e && byte != '\\' ? "%c" : "\\x%02x", byte);
    }
    fprintf(out, "\"%s\n", symbols.name_ended == 1 ? "" : " cut");
}

static void print_modules(const printing *to, const mdmp_module *row) {
    FILE *out = to->out;
    ASSERT_RESERVED(row)
    fprintf(out, "module %" PRIu64 " base 0x%016" PRIx64 " size %" PRIu32 " checksum %" PRIu32 " time %" PRIu32, row->index,
        row->base_of_image, row->size_of_image, row->checksum, row->time_date_stamp);
    fprintf(out, " version %" PRIu32 ".%" PRIu32 ".%" PRIu32 ".%" PRIu32 " cv ", row->file_version_ms >> 16,
        row->file_version_ms & 0xffff, row->file_version_ls >> 16, row->file_version_ls & 0xffff);
    print_place(out, &row->codeview);
    fprintf(out, " misc ");
    print_place(out, &row->misc);
    fprintf(out, " name ");
    print_name(out, to->file, &row->name);
    fprintf(out, "\n");
    if (to->pdb) {
        print_symbols(out, to->file, &row->codeview);
    }
}

static void print_unloaded(const printing *to, const mdmp_unloaded_module *row) {
    FILE *out = to->out;
    ASSERT_RESERVED(row)
    fprintf(out, "unloaded %" PRIu64 " base 0x%016" PRIx64 " size %" PRIu32 " checksum %" PRIu32 " time %" PRIu32 " name ",
        row->index, row->base_of_image, row->size_of_image, row->checksum, row->time_date_stamp);
    print_name(out, to->file, &row->name);
    fprintf(out, "\n");
}

static void print_exceptions(const printing *to, const mdmp_exception *row) {
    FILE *out = to->out;
    ASSERT_RESERVED(row)
    fprintf(out, "exception thread %" PRIu32 " code 0x%08" PRIx32 " flags %" PRIu32, row->thread_id, row->exception_code,
        row->exception_flags);
    fprintf(out, " record 0x%016" PRIx64 " address 0x%016" PRIx64 " parameters %" PRIu32, row->exception_record,
        row->exception_address, row->number_parameters);
    for (uint32_t i = 0; i < row->number_parameters && i < 15; i++) {
        fprintf(out, " 0x%016" PRIx64, row->information[i]);
    }
    fprintf(out, " context ");
    print_place(out, &row->context);
    fprintf(out, "\n");
}

static void print_systems(const printing *to, const mdmp_system *row) {
    FILE *out = to->out;
    ASSERT_RESERVED(row)
    fprintf(out, "system architecture %" PRIu32 " level %" PRIu32 " revision %" PRIu32 " processors %" PRIu32
           " product %" PRIu32,
        row->processor_architecture, row->processor_level, row->processor_revision, row->number_of_processors,
        row->product_type);
    fprintf(out, " version %" PRIu32 ".%" PRIu32 ".%" PRIu32 " platform %" PRIu32 " suite %" PRIu32 " csd ",
        row->major_version, row->minor_version, row->build_number, row->platform_id, row->suite_mask);
    print_name(out, to->file, &row->csd_version);
    fprintf(out, "\n");
}

static void print_regions(const printing *to, const mdmp_region *row) {
    FILE *out = to->out;
    ASSERT_RESERVED(row)
    fprintf(out, "region %" PRIu64 " base 0x%016" PRIx64 " allocation 0x%016" PRIx64 " initial %" PRIu32 " size %" PRIu64,
        row->index, row->base_address, row->allocation_base, row->allocation_protect, row->region_size);
    fprintf(out, " state %" PRIu32 " protect %" PRIu32 " type %" PRIu32 "\n", row->state, row->protect, row->memory_type);
}

static void print_thread_names(const printing *to, const mdmp_thread_name *row) {
    FILE *out = to->out;
    ASSERT_RESERVED(row)
    fprintf(out, "threadname %" PRIu64 " id %" PRIu32 " name ", row->index, row->thread_id);
    print_name(out, to->file, &row->name);
    fprintf(out, "\n");
}

void print_wide(FILE *out, uint64_t upper, uint64_t lower) {
    char digits[40], *at = digits + sizeof digits;
    *--at = '\0';
    do {
        /* Two divisions of 64 bits by halves of 32, from the top, give the last digit. */
        uint64_t parts[4] = {upper >> 32, upper & 0xffffffff, lower >> 32, lower & 0xffffffff}, rest = 0;
        for (int i = 0; i < 4; i++) {
            uint64_t part = rest << 32 | parts[i];
            parts[i] = part / 10;
            rest = part % 10;
        }
        upper = parts[0] << 32 | parts[1];
        lower = parts[2] << 32 | parts[3];
        *--at = (char)('0' + rest);
    } while (upper != 0 || lower != 0);
    fprintf(out, "%s", at);
}

static void print_ranges(const printing *to, const mdmp_range *row) {
    FILE *out = to->out;
    ASSERT_RESERVED(row)
    ASSERT(row->extent <= MDMP_EXTENT_OUTSIDE);
    fprintf(out, "range %" PRIu64 " start 0x%016" PRIx64 " %s", row->index, row->start, EXTENTS[row->extent]);
    if (row->extent != MDMP_EXTENT_EMPTY) {
        fprintf(out, " %" PRIu64, row->size);
    }
    if (row->extent >= MDMP_EXTENT_INSIDE) {
        fprintf(out, "@");
        print_wide(out, row->offset_high, row->offset);
    }
    fprintf(out, "\n");
}

/* Prints the rows of one entry, from the first that is not yet printed. */
#define PRINT(name, NAME, row)                                                                        \
    for (uint64_t *i = &at[TABLE_##NAME];                                                             \
         *i < given->counts[TABLE_##NAME] && given->name[*i].entry == entry; ++*i) {                  \
        print_##name(&to, &given->name[*i]);                                                          \
    }

static void print_header(FILE *out, const mdmp_header_record *header) {
    ASSERT_RESERVED(header)
    fprintf(out, "dump version 0x%04" PRIx32 " streams %" PRIu32 " directory %" PRIu32 " checksum %" PRIu32 " time %" PRIu32,
        header->version >> 16, header->number_of_streams, header->stream_directory_rva, header->checksum,
        header->time_date_stamp);
    fprintf(out, " flags 0x%016" PRIx64 "\n", header->flags);
}

void print_rows(FILE *out, blob file, const given_rows *given, uint32_t entries, bool pdb) {
    uint64_t at[TABLES_COUNT] = {0};
    const printing to = {out, file, pdb};
    print_header(out, &given->header);
    for (uint32_t entry = 0; entry < entries; entry++) {
        const mdmp_stream *stream = &given->streams[entry];
        ASSERT(stream->entry == entry);
        ASSERT_RESERVED(stream)
        fprintf(out, "stream %" PRIu32 " type %" PRIu32 " size %" PRIu32 " rva %" PRIu32 "\n", entry, stream->stream_type,
            stream->size, stream->rva);
        EACH_TABLE(PRINT)
    }
}

void print_fields(blob file) {
    uint64_t count;
    mdmp_stream *streams = all_streams(file, &count);
    given_rows rows = {.header = header_of(file), .streams = streams};
#define READ(name, NAME, row)                             \
    row *name = all_##name(file, &rows.counts[TABLE_##NAME]); \
    rows.name = name;
    EACH_TABLE(READ)
    print_rows(stdout, file, &rows, (uint32_t)count, false);
#define FREE(name, NAME, row) free(name);
    EACH_TABLE(FREE)
    free(streams);
}
