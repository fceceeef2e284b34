/* The calls that give records, one for each kind of stream, as macros over them. Made by bindings/generate from bindings/interface.toml. */

#ifndef EACH_TABLE_H
#define EACH_TABLE_H

/* Each table: X(name, NAME, row) for the call mdmp_name, which gives an array of `row`. */
#define EACH_TABLE(X) \
    X(threads, THREADS, mdmp_thread) \
    X(modules, MODULES, mdmp_module) \
    X(exceptions, EXCEPTIONS, mdmp_exception) \
    X(systems, SYSTEMS, mdmp_system) \
    X(unloaded, UNLOADED, mdmp_unloaded_module) \
    X(regions, REGIONS, mdmp_region) \
    X(thread_names, THREAD_NAMES, mdmp_thread_name) \
    X(ranges, RANGES, mdmp_range)

/* The number of each. */
#define TABLE_NUMBER(name, NAME, row) TABLE_##NAME,
enum { EACH_TABLE(TABLE_NUMBER) TABLES_COUNT };
#undef TABLE_NUMBER

/* The types of the streams that have these records. */
#define TYPES_OF_THREADS 3
#define TYPES_OF_MODULES 4
#define TYPES_OF_EXCEPTIONS 6
#define TYPES_OF_SYSTEMS 7
#define TYPES_OF_UNLOADED 14
#define TYPES_OF_REGIONS 16
#define TYPES_OF_THREAD_NAMES 24
#define TYPES_OF_RANGES 5, 9

/* The types of all of them. */
#define TYPES_OF_TABLES 3, 4, 5, 6, 7, 9, 14, 16, 24

/* The names of a record: X(field). */
#define NAMES_OF_THREADS(X)
#define NAMES_OF_MODULES(X) X(name)
#define NAMES_OF_EXCEPTIONS(X)
#define NAMES_OF_SYSTEMS(X) X(csd_version)
#define NAMES_OF_UNLOADED(X) X(name)
#define NAMES_OF_REGIONS(X)
#define NAMES_OF_THREAD_NAMES(X) X(name)
#define NAMES_OF_RANGES(X)

/* The parts of a record that stand at a place: X(field, part). */
#define PLACES_OF_THREADS(X) X(stack, MDMP_PART_STACK) X(context, MDMP_PART_CONTEXT)
#define PLACES_OF_MODULES(X) X(codeview, MDMP_PART_CODEVIEW) X(misc, MDMP_PART_MISC)
#define PLACES_OF_EXCEPTIONS(X) X(context, MDMP_PART_CONTEXT)
#define PLACES_OF_SYSTEMS(X)
#define PLACES_OF_UNLOADED(X)
#define PLACES_OF_REGIONS(X)
#define PLACES_OF_THREAD_NAMES(X)
#define PLACES_OF_RANGES(X)

/* The part that a record itself places, by its offset, size and extent: X(part). */
#define BYTES_OF_THREADS(X)
#define BYTES_OF_MODULES(X)
#define BYTES_OF_EXCEPTIONS(X)
#define BYTES_OF_SYSTEMS(X)
#define BYTES_OF_UNLOADED(X)
#define BYTES_OF_REGIONS(X)
#define BYTES_OF_THREAD_NAMES(X)
#define BYTES_OF_RANGES(X) X(MDMP_PART_MEMORY)

#endif
