"""docs/reference/structures.md: a table for each structure, from crates/mdmp_wire and the kinds of streams."""

from __future__ import annotations

import re
from dataclasses import dataclass
from pathlib import Path

from lib.generated import Mistake

from .definitions import CRATES, definitions, found
from .sources import Structure, all_structures, offsets_in_code

WIRE = CRATES / "mdmp_wire"
FORMAT = CRATES / "mdmp_lister/specs/Format"
DECLARED = re.compile(r"specs\.declared\.(\w+)\.(\w+)\.\{\2\}$", re.M)
READER = r"^abbrev pub (\w+)_at : List ℕ → ℕ → ([A-Z]\w+)$"
FIELD = re.compile(r"(\w+) = (\w+_at) F (?:o|\(o \+ (\d+)\))(?: (\d+))?(?: (\d+))?(?=;| \}|\n)")


@dataclass(frozen=True)
class Row:
    name: str
    offset: int
    size: int
    kind: str


@dataclass(frozen=True)
class Layout:
    """A structure of the format, by its definition."""

    name: str  # of its definition, without `_at`
    specs: Path
    source: Structure
    rows: list[Row]
    size: int

    @property
    def title(self) -> str:
        return self.source.in_header[0]

    @property
    def anchor(self) -> str:
        return self.title.lower()


def row_of(made: dict[str, Layout], name: str, reader: str, offset: int, first: str, second: str) -> Row:
    """The row of a field, by what reads it."""
    if reader == "number_at":
        return Row(name, offset, int(first), f"u{8 * int(first)}")
    if reader == "array_at":
        return Row(name, offset, int(first), f"u8[{first}]")
    if reader == "numbers_at":
        return Row(name, offset, int(first) * int(second), f"u{8 * int(first)}[{second}]")
    inner = made.get(reader.removesuffix("_at"))
    if inner is None:
        raise Mistake(f"{name} is read by {reader}, which is no structure")
    return Row(name, offset, inner.size, f"[{inner.title}](#{inner.anchor})")


def checked(layout: Layout, in_code: dict[str, int]) -> Layout:
    """The layout, if its fields are those of the source, which has no overlap."""
    if [row.name for row in layout.rows] != list(layout.source.fields):
        raise Mistake(f"{layout.specs.name} and {layout.source.name} have other fields")
    if {row.name: row.offset for row in layout.rows} != in_code:
        raise Mistake(f"{layout.specs.name} has other offsets than the code")
    at = 0
    for row in layout.rows:
        if row.offset < at:
            raise Mistake(f"{layout.source.name}.{row.name} overlaps the field before it")
        at = row.offset + row.size
    if at > layout.size:
        raise Mistake(f"{layout.source.name} has {layout.size} bytes, and its fields end at {at}")
    return layout


def all_layouts() -> dict[str, Layout]:
    """The structures, by the names of their definitions. One that is in another comes before it."""
    sources = all_structures()
    made: dict[str, Layout] = {}
    pending = sorted(path for path in WIRE.glob("specs/*.antt") if re.search(READER, path.read_text(encoding="utf-8"), re.M))
    while pending:
        path = next((path for path in pending if not needed_by(path) - made.keys()), None)
        if path is None:
            raise Mistake(f"structures that stand inside each other: {', '.join(path.name for path in pending)}")
        pending.remove(path)
        text = path.read_text(encoding="utf-8")
        name = found(READER, text, f"reader in {path.name}")
        stem = next(stem for stem, kind in DECLARED.findall(text) if kind == name[2])
        code = WIRE / "src" / f"{stem}.rt"
        size = int(found(r"const SIZE: usize = (\d+);", code.read_text(encoding="utf-8"), f"SIZE in {code.name}")[1])
        body = definitions(path)[f"{name[1]}_at"].clauses[0].body
        rows = [row_of(made, field, reader, int(at or 0), one, two) for field, reader, at, one, two in FIELD.findall(body)]
        made[name[1]] = checked(Layout(name[1], path, sources[name[2]], rows, size), offsets_in_code(code))
    return made


def needed_by(path: Path) -> set[str]:
    """The structures that stand in one."""
    readers = set(re.findall(r"= (\w+)_at F", path.read_text(encoding="utf-8")))
    return readers - {"number", "array", "numbers"}


@dataclass(frozen=True)
class Kind:
    stream_type: int
    name: str
    record: Layout
    head: Layout | None  # None for a count alone, or for one record
    head_size: int
    has_names: bool
    lists_ranges: bool


def kinds(layouts: dict[str, Layout]) -> list[Kind]:
    """The streams whose records are read, by the rows of Kind.antt and the heads of Shape.antt."""
    words = (CRATES / "mdmp_words/specs/TypeNames.antt").read_text(encoding="utf-8")
    names = {int(number): word for word, number in re.findall(r'"(\w+Stream)"\) then Some (\d+)', words)}
    costs = definitions(FORMAT / "Shape.antt")["head_cost"].clauses
    heads = {clause.patterns.removeprefix("forms."): clause.body for clause in costs}
    made = []
    for clause in definitions(FORMAT / "Kind.antt")["kind_row"].clauses:
        fields = dict(re.findall(r"(\w+) = ([\w.]+)", clause.body))
        number = int(fields["stream_type"])
        cost = heads[fields["form"].removeprefix("forms.")]
        head = None if cost.isdigit() else layouts[cost.removesuffix("_size")]
        record = layouts[fields["record_size"].removesuffix("_size")]
        size = head.size if head else int(cost)
        is_named, is_memory = fields["name"] != "None", fields["lists_ranges"] == "true"
        made.append(Kind(number, names[number], record, head, size, is_named, is_memory))
    return made


def table(layout: Layout) -> str:
    lines = ["| offset | size | type | field | name here |", "|---|---|---|---|---|"]
    at = 0
    for row in [*layout.rows, Row("", layout.size, 0, "")]:
        if row.offset > at:
            lines.append(f"| {at} | {row.offset - at} | | (alignment) | ignored when read, written as 0 |")
        if row.name:
            field = layout.source.fields[row.name]
            lines.append(f"| {row.offset} | {row.size} | {row.kind} | {field.in_header} | `{row.name}` |")
        at = row.offset + row.size
    return "\n".join(lines)


def section(layout: Layout, used: list[str]) -> str:
    source = layout.source
    inside = "".join(f" The fields of {name} are in this table." for name in source.in_header[1:])
    code = source.path.relative_to(CRATES)
    where = f" It is {', '.join(used)}." if used else ""
    return (
        f"## {layout.title}\n\n{layout.size} bytes, `{source.name}` in Rattle.{where}{inside} "
        f"[Definition](../../crates/mdmp_wire/specs/{layout.specs.name}), [code](../../crates/{code}).\n\n{table(layout)}"
    )


def structures_text() -> str:
    layouts = all_layouts()
    streams = kinds(layouts)
    used: dict[str, list[str]] = {}
    for kind in streams:
        used.setdefault(kind.record.name, []).append(f"the record of stream type {kind.stream_type}")
        if kind.head:
            used.setdefault(kind.head.name, []).append(f"the head of stream type {kind.stream_type}")
    first = [layouts["header"], layouts["entry"]]
    ordered = [*first, *[kind.record for kind in streams], *[kind.head for kind in streams if kind.head]]
    ordered += [layout for layout in layouts.values() if layout not in ordered]
    rows = []
    for kind in streams:
        count = f"u32, {kind.head_size}" if kind.head_size else ""
        head = f"[{kind.head.title}](#{kind.head.anchor}), {kind.head_size}" if kind.head else count
        rows.append(
            f"| {kind.stream_type} | {kind.name} | {head} | [{kind.record.title}](#{kind.record.anchor}), {kind.record.size} "
            f"| {'yes' if kind.has_names else ''} | {'yes' if kind.lists_ranges else ''} |"
        )
    return (
        INTRO.strip("\n")
        + "\n"
        + "\n".join(rows)
        + "\n\n"
        + "\n\n".join(section(layout, used.get(layout.name, [])) for layout in ordered)
        + "\n"
    )


INTRO = """
# Structures

This page has every structure of fixed size that the library reads and writes.
`docs/generate` makes it from the definitions in [crates/mdmp_wire/specs](../../crates/mdmp_wire/specs).
[format.md](../format.md) has the rules, and also names and CodeView records.

All numbers are little-endian. Offsets and sizes are in bytes. Structures have no padding but the alignment fields below.
Fields have the names of `minidumpapiset.h`, and of `verrsrc.h` for VS_FIXEDFILEINFO.
The last column has the name of the field in the Rattle crates.

## Streams with records

| type | name | head, bytes | record, bytes | names | memory ranges |
|---|---|---|---|---|---|
"""
