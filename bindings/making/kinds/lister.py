"""What mdmp_lister says of each kind: its row in the table of kinds, and what is made of its records."""

from __future__ import annotations

from lib.generated import Stretches

from .naming import WIRE, record_path
from .places import line_each, put_all_uses, put_arms, put_used
from .records import offset_at
from .table import Kind, Kinds

CRATE = "crates/mdmp_lister"
SOURCE, SPECS, LAWS = f"{CRATE}/src/kind.rt", f"{CRATE}/specs/Format/Kind.antt", f"{CRATE}/specs/Format/KindLaws.antt"
STEPS = 3  # of a proof, on one line


def put_lister(files: Stretches, kinds: Kinds) -> None:
    """All of it."""
    put_code(files, kinds)
    put_definitions(files, kinds)
    put_laws(files, kinds)


def name_field(kind: Kind) -> tuple[str, int] | None:
    """The variant of `NameField` of its records, and the offset of that field. None of a kind without names."""
    if not kind.names:
        return None
    return "Rva64" if kind.has_wide_name else "Rva", offset_at(kind.struct, kind.names[0].path)


def row_arm(kind: Kind) -> str:
    field = name_field(kind)
    fields = [
        f"stream_type: {kind.type}",
        f"form: Form::{kind.form}",
        f"record_size: {kind.struct}::SIZE as u32",
        f"name: Some(NameField::{field[0]}({field[1]}))" if field else "name: None",
        f"lists_ranges: {str(kind.is_range).lower()}",
    ]
    indent = " " * 12
    return f"{indent}StreamKind::{kind.stream} => KindRow {{\n" + "".join(f"{indent}    {one},\n" for one in fields) + f"{indent}}},"


def put_code(files: Stretches, kinds: Kinds) -> None:
    put_used(files, SOURCE, "use mdmp_wire", ["Record", *[kind.struct for kind in kinds.by_type]])
    variants = "".join(f"    /// `{kind.header}`, {kind.type}.\n    {kind.stream},\n" for kind in kinds.by_type)
    files.put(SOURCE, "pub enum StreamKind {\n", "}\n", variants)
    before = "result ≡ kind_row self }\n    {\n        match self "
    put_arms(files, SOURCE, before, " " * 8, [row_arm(kind) for kind in kinds.by_type])
    arms = "".join(f"            {kind.type} => Some(StreamKind::{kind.stream}),\n" for kind in kinds.by_type)
    files.put(SOURCE, "        match stream_type {\n", "            _ => None", arms)


def row_line(kind: Kind) -> str:
    field = name_field(kind)
    name, ranges = f"Some ({field[0]} {field[1]})" if field else "None", str(kind.is_range).lower()
    return (
        f"kind_row kinds.{kind.stream} = record {{ stream_type = {kind.type}; form = forms.{kind.form}; "
        f"record_size = {kind.module}_size; name = {name}; lists_ranges = {ranges} }}"
    )


def put_definitions(files: Stretches, kinds: Kinds) -> None:
    paths = sorted([f"{WIRE}.Number.{{number_at}}", *[record_path(kind, "size") for kind in kinds.by_type]])
    put_all_uses(files, SPECS, "◌==◌, if◌then◌else◌}\n", "use Rattle.mdmp_lister", paths)
    files.put(SPECS, "abbrev pub kind_row : StreamKind → KindRow\n", "\n--", line_each(kinds.by_type, row_line))
    tests = [f"if t == type_of_kind kinds.{kind.stream} then Some kinds.{kind.stream}\n" for kind in kinds.by_type]
    files.put(SPECS, "\nkind_of t =\n    ", "    else None", "    else ".join(tests))


def put_laws(files: Stretches, kinds: Kinds) -> None:
    """The proofs that the kind of a type has that type, and that the field of a name lies in its record."""
    *others, last = [kind.stream for kind in kinds.by_type]
    steps = [f"of_row t kinds.{stream} kind _ _ refl" for stream in others] + [f"of_row t kinds.{last} kind None _ refl"]
    lines = [" (".join(steps[start : start + STEPS]) for start in range(0, len(steps), STEPS)]
    text = "\n    (".join([*lines, "λ none. absurd (cc none)" + ")" * len(steps)])
    files.put(LAWS, "\ntype_of-kind t kind =\n    ", "\n\n", text)
    named = [kind for kind in kinds.by_type if kind.names]
    fields = line_each(named, lambda kind: f"field_within kinds.{kind.stream} = omega arith")
    files.put(LAWS, "(λ field. field_end field ≤ record_size kind)\n", "field_within _ = tt", fields)
