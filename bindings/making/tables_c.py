"""What C needs of each table of records, for the tests: macros that hand all of them to another macro."""

from __future__ import annotations

from .interface import MADE, Interface



def define(name: str, rows: list[str]) -> str:
    """A macro that hands each row to another."""
    calls = [f"X({row})" for row in rows]
    return f"#define {name}(X)" + (" \\\n    ".join(["", *calls]) if len(calls) > 2 else "".join(f" {call}" for call in calls))


def tables_text(interface: Interface) -> str:
    every = [f"{table.name}, {table.name.upper()}, {structure.name}" for structure, table in interface.tables]
    names, places, extents, types = [], [], [], []
    for structure, table in interface.tables:
        word = table.name.upper()
        is_place = {field.name: field.base == "mdmp_place" for field in structure.fields}
        names.append(define(f"NAMES_OF_{word}", structure.names))
        places.append(define(f"PLACES_OF_{word}", [f"{field}, {part}" for field, part in table.parts if is_place[field]]))
        extents.append(define(f"BYTES_OF_{word}", [part for field, part in table.parts if not is_place[field]]))
        types.append(f"#define TYPES_OF_{word} {', '.join(map(str, table.types))}")
    known = ", ".join(map(str, sorted(number for _, table in interface.tables for number in table.types)))
    return "\n\n".join(
        [
            f"/* The calls that give records, one for each kind of stream, as macros over them. {MADE} */",
            "#ifndef EACH_TABLE_H\n#define EACH_TABLE_H",
            "/* Each table: X(name, NAME, row) for the call mdmp_name, which gives an array of `row`. */\n" + define("EACH_TABLE", every),
            "/* The number of each. */\n#define TABLE_NUMBER(name, NAME, row) TABLE_##NAME,\n"
            "enum { EACH_TABLE(TABLE_NUMBER) TABLES_COUNT };\n#undef TABLE_NUMBER",
            "/* The types of the streams that have these records. */\n" + "\n".join(types),
            f"/* The types of all of them. */\n#define TYPES_OF_TABLES {known}",
            "/* The names of a record: X(field). */\n" + "\n".join(names),
            "/* The parts of a record that stand at a place: X(field, part). */\n" + "\n".join(places),
            "/* The part that a record itself places, by its offset, size and extent: X(part). */\n" + "\n".join(extents),
            "#endif",
        ]
    ) + "\n"
