"""The tables of records in Rattle: a plain structure for each record, its definition, the calls, and why these return their rows."""

from __future__ import annotations

import re

from lib.generated import Mistake, Stretches

from .interface import MADE, Field, Interface, Structure, Table
from .kinds.records import NUMBERS, field_at
from .lines import used, used_names
from .rust import sentence
from .spelling import camel

CRATE = "crates/mdmp_c"
TYPES = {"mdmp_place": "PartPlace", "mdmp_name_place": "NamePlace"}
# The choice of streams of one type, and of ranges of memory: in code, in a definition, and what a proof calls it.
MEMORY_LISTS = [5, 9]


def row_type(table: Table) -> str:
    return f"{camel(table.row)}Row"


def told(doc: str) -> str:
    """The comment of a field: names that the header has are code."""
    return sentence(re.sub(r"^([A-Z]\w*[a-z]\w*(?:\.\w+)*)(?=[,:]|$)|(?<=at )(\w*Rva\w*)", r"`\1\2`", doc))


def field_text(field: Field) -> str:
    base = TYPES.get(field.base, field.base)
    doc = "Zeros." if field.is_reserved else told(field.doc)
    return f"    /// {doc}\n    pub {field.name}: {f'[{base}; {field.count}]' if field.count else base},\n"


def values(structure: Structure, table: Table, field: Field) -> tuple[str, str]:
    """What a field is, in code and in the definition."""
    name = field.name.removesuffix("_high")
    path = table.of.get(name, name)
    if field.is_reserved:
        return f"[0; {field.count}]", f"replicate {field.count} 0"
    if name in ("index", "entry"):
        return f"item.{name}", f"x.{name}"
    if structure.is_halved(field) or field.name != name:
        sign = "/" if field.name != name else "%"
        return f"(item{path} {sign} (1 << 64)) as u64", f"x{path} {sign} 2 ^ 64"
    if field.enum:
        return f"extent_number(item{path})", f"extent_number x{path}"
    if path.startswith("."):
        return f"item{path}", f"x{path}"
    code, spec, there = f"item.fields.{path}", f"x.fields.{path}", field_at(f"{table.item}Record", path).type
    if (field.base == "mdmp_place") != (there == "Location"):
        raise Mistake(f"{structure.name}.{name} is {field.base}, and {path} of its record {there}")
    if field.base == "mdmp_place":
        return f"part_place({code}, item.{name})", f"part_place {spec} x.{name}"
    here = "u64" if field.base == "mdmp_name_place" else field.base
    if NUMBERS.get(there, 64) < NUMBERS[here]:
        code = f"{here}::from({code})"
    if field.base == "mdmp_name_place":
        return f"name_place({code}, &item.name)", f"name_place {spec} x.name"
    return code, spec


def structure_text(structure: Structure, table: Table) -> str:
    row, kind, alone = table.row, row_type(table), table.is_row_alone
    doc = re.sub(r"(MINIDUMP_\w+)", r"`\1`", structure.doc)
    text = f"/// {doc}\n#[repr(C)]\n#[derive(Clone, Copy)]\npub struct {kind} {{\n" + "".join(map(field_text, structure.fields))
    text += f"}}\n\nconst _: () = prove!(size_of::<{kind}>() == {structure.size});\n\n"
    indent = "        " if alone else "            "
    made = [f"{field.name}: {values(structure, table, field)[0]}" for field in structure.fields]
    body = f"{kind} {{\n" + "".join(f"{indent}{one},\n" for one in made) + f"{indent[4:]}}}"
    if alone:
        text += (
            f"/// The row of this item.\npub(crate) fn {row}_fields(item: &{table.item}Item) -> {kind}\n"
            f"    ensures {{ result ≡ {row}_fields item.now }}\n{{\n    {body}\n}}\n\n"
        )
        body = f"{row}_fields(item)"
    return text + (
        f"impl PlainRow for {kind} {{\n    ghost use Rattle.mdmp_c.specs.Rows.{{{row}_row}};\n\n    ghost row_of = {{ {row}_row }};\n\n"
        f"    fn of(item: &Item<'_>) -> Option<Self> {{\n        let Item::{table.item}(item) = item else {{\n            return None;\n"
        f"        }};\n        Some({body})\n    }}\n}}\n"
    )


def rows_text(interface: Interface) -> str:
    alone = [table for _, table in interface.tables if table.is_row_alone]
    fields = ", ".join(sorted(f"{table.row}_fields" for table in alone))
    items = ", ".join(sorted([*[f"{table.item}Item" for table in alone], "Item"]))
    return (
        f"//! Records as plain structures, of which a call gives an array. {MADE}\n"
        "ghost use Rattle.std.specs.Prelude.{◌≡◌};\n"
        f"ghost use Rattle.mdmp_c.specs.Rows.{{{fields}}};\n\n"
        "use crate::parts::{NamePlace, PartPlace, extent_number, name_place, part_place};\n"
        f"use mdmp_lister::{{{items}}};\nuse std::mem::size_of;\n\n{TRAIT}\n"
        + "\n".join(structure_text(structure, table) for structure, table in interface.listed)
    )


TRAIT = """\
/// A record of one kind as a plain structure.
pub(crate) trait PlainRow: Copy {
    ghost use Rattle.std.specs.Prelude.{◌≡◌, Option};
    ghost use Rattle.mdmp_lister.specs.declared.item.Item.{Item};
    ghost use Rattle.mdmp_lister.specs.Format.Item.{plain};

    // The row of an item, of the kinds that have one.
    ghost row_of: { Item → Option Self };

    /// The row of an item, or none where it is of another kind.
    fn of(item: &Item<'_>) -> Option<Self>
        ensures { result ≡ row_of (plain item.now) };
}
"""


def definition_text(structure: Structure, table: Table) -> str:
    row, kind = table.row, row_type(table)
    fields = "".join(f"  {field.name} = {values(structure, table, field)[1]};\n" for field in structure.fields)
    head = f"abbrev pub {row}_row : Item → Option {kind}\n{row}_row (items.{table.item} x) = Some "
    if not table.is_row_alone:
        return f"{head}(record {{\n{fields}}})\n{row}_row item = None\n"
    return (
        f"abbrev pub {row}_fields : {table.item}Item → {kind}\n{row}_fields x = record {{\n{fields}}}\n\n"
        f"{head}({row}_fields x)\n{row}_row item = None\n"
    )


def definitions_text(interface: Interface) -> str:
    ordered = interface.listed
    declared = "Rattle.mdmp_lister.specs.declared.item"
    alone = [f"use {declared}.{table.item}Item.{{{table.item}Item}}\n" for _, table in ordered if table.is_row_alone]
    return (
        f"-- Records as plain structures. {MADE}\n"
        "use Rattle.std.specs.Prelude.{◌/◌, ◌%◌, ◌^◌, Option, Some, None, replicate}\n"
        + "".join(alone)
        + f"use {declared}.Item.{{Item}}\nuse {declared}.Item.TheVariants as items\n"
        "use Rattle.mdmp_c.specs.Places.{extent_number, name_place, part_place}\n"
        + "".join(f"use Rattle.mdmp_c.specs.declared.rows.{row_type(table)}.{{{row_type(table)}}}\n" for _, table in ordered)
        + "\n"
        + "\n".join(definition_text(structure, table) for structure, table in ordered)
    )


# ---- calls


def choice(table: Table) -> tuple[str, str, str]:
    """The entries that a call lists: in code, in its contract, and the call that a proof names."""
    if len(table.types) == 1:
        return f"only({table.types[0]})", f"(Types ({table.types[0]} ∷ []))", "only"
    if table.types != MEMORY_LISTS:
        raise Mistake(f"{table.call}: no choice has the types {table.types}")
    return "Choice::memory_lists()", "memory_lists", "memory_lists"


def call_doc(table: Table) -> str:
    """The first sentence of the call's comment in the header, with the names of the header as code; and the others."""
    first, _, rest = table.doc.partition(". ")
    what, _, streams = first.removesuffix(".").partition(": ")
    streams = re.sub(r"(\w+Stream)", r"`\1`", streams)
    room = "as many as `out` has room for, and in `count` how many there are, up to the first error."
    return f"/// Gives {what[0].lower()}{what[1:]}, {streams}: {room}\n" + (f"/// {rest}\n" if rest else "")


def call_text(table: Table) -> str:
    code, spec, _ = choice(table)
    words = ["alloc", "file", "limits", code, "out", "count", "fault"]
    line = f"    give_rows({', '.join(words)})\n"
    if len(", ".join(words)) > 60:
        line = "    give_rows(\n" + "".join(f"        {word},\n" for word in words) + "    )\n"
    return (
        f"{call_doc(table)}#[unsafe(no_mangle)]\npub extern \"C\" fn {table.call}_(\n    alloc: Global,\n    file: &[u8],\n"
        f"    limits: &PlainLimits,\n    out: &mut [{row_type(table)}],\n    count: &mut u64,\n    fault: &mut PlainFault,\n) -> u32\n"
        f"    ensures {{ Ends (IsTable {table.row}_row file.now {spec} limits.now.name) (AreLimits limits.now) "
        f"(KeepsListing limits.now file.now {spec}) (EndsListing limits.now file.now {spec}) bad_limits result count.new fault.new out.old "
        f"out.new }}\n{{\n{line}}}\n"
    )


def records_text(interface: Interface) -> str:
    tables = [table for _, table in interface.tables]
    return (
        f"//! Calls that give an array of records. {MADE}\n"
        "ghost use Rattle.std.specs.Prelude.{◌∷◌, []};\n"
        "ghost use Rattle.mdmp_c.specs.Giving.{Ends, bad_limits};\n"
        "ghost use Rattle.mdmp_c.specs.Limits.{AreLimits, EndsListing, KeepsListing};\n"
        f"ghost use Rattle.mdmp_c.specs.Rows.{{{', '.join(sorted(f'{table.row}_row' for table in tables))}}};\n"
        "ghost use Rattle.mdmp_c.specs.Table.{IsTable};\n"
        "ghost use Rattle.mdmp_lister.specs.declared.choice.Choice.TheVariants.{Types};\n"
        "ghost use Rattle.mdmp_lister.specs.Format.Listing.{memory_lists};\n\n"
        "use crate::fault::PlainFault;\nuse crate::limits::PlainLimits;\n"
        + used("use crate::rows", sorted(map(row_type, tables)))
        + "use crate::table::{give_rows, only};\nuse mdmp_lister::Choice;\nuse std::alloc::Global;\n\n"
        + "\n".join(map(call_text, tables))
    )


def answer_text(table: Table) -> str:
    """Why a call returns its rows: give_rows does, for its choice."""
    limits, file = "c.args.limits.now", "c.args.file.now"
    return (
        "use Rattle.std.proofs.Common.{subst}\n"
        "use Rattle.mdmp_lister.specs.declared.choice.Choice.{Choice}\n"
        "use Rattle.mdmp_c.specs.Giving.{Ends, bad_limits}\n"
        "use Rattle.mdmp_c.specs.Limits.{AreLimits, EndsListing, KeepsListing}\n"
        f"use Rattle.mdmp_c.specs.Rows.{{{table.row}_row}}\n"
        "use Rattle.mdmp_c.specs.Table.{IsTable}\n"
        f"use Rattle.mdmp_c.proofs.records.{table.call}_.Goals as goal\n\n"
        "pub returns : goal.returns\nreturns c =\n    subst\n"
        f"    (λ (choice : Choice). Ends (IsTable {table.row}_row {file} choice {limits}.name) (AreLimits {limits}) "
        f"(KeepsListing {limits} {file} choice) (EndsListing {limits} {file} choice) bad_limits c.give_rows.result c.give_rows.new.count\n"
        "    c.give_rows.new.fault c.args.out.now c.give_rows.new.out)\n"
        f"    c.{choice(table)[2]}.ensures c.give_rows.ensures\n"
    )


def crate_files(interface: Interface) -> dict[str, str]:
    """The text of each file of the crate that is made."""
    answers = {f"{CRATE}/proofs/records/{table.call}_/Answers.antt": answer_text(table) for _, table in interface.tables}
    return {
        f"{CRATE}/src/rows.rt": rows_text(interface),
        f"{CRATE}/specs/Rows.antt": definitions_text(interface),
        f"{CRATE}/src/records.rt": records_text(interface),
        **answers,
    }


# ---- what the crate gives out


def put_exports(files: Stretches, interface: Interface) -> None:
    tables = [table for _, table in interface.tables]
    for module, names in (("records", [f"{table.call}_" for table in tables]), ("rows", list(map(row_type, tables)))):
        before = f"pub use crate::{module}"
        files.put(f"{CRATE}/src/lib.rt", f"{before}::", ";\n", used_names(before, sorted(names)))
