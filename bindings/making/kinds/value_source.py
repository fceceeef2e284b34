"""The source file of a kind in mdmp_dump: the value of a record, how it is read, and how a view gives it."""

from __future__ import annotations

from string import Template

from ..lines import comment, listed, literal, used, used_definitions
from .members import Member, Shape
from .naming import DUMP, WIRE, generic, is_name, seen_name, value_type
from .records import structure
from .table import MADE, PLACES, of_three

VALUE = Template("""\
$doc#[derive(Drop)]
#[derive_where(Debug, PartialEq, Eq)]
pub struct $value<A: Allocator> {
$members}
""")

ROW = Template("""\
impl<A: Allocator + Copy> Row<A> for $value {
    ghost kind = { kinds.$stream };

    ghost IsAt = { $is_at };

    fn of(wire: AnyRecord, parts: &mut RecordParts<A>) -> Option<Self> {
        let AnyRecord::$record($local) = wire else {
            return None;
        };
$arrays        Some($made)
    }
}
""")

GIVEN = Template("""\
impl$generic Given for $value {
    ghost see = { ${name}_seen };

    fn fields(&self) -> Fields {
        Fields {
            wire: AnyRecord::$record($wire),
            parts: $sizes,
        }
    }

    fn part(&self, $which: usize) -> &[u8] {
$bytes    }
}
""")


def code_type(member: Member) -> str:
    if not member.slot:
        return member.type
    return "Option<Units<A>>" if member.is_name else "Part<A>"


def value_text(shape: Shape) -> str:
    """The structure that a record is read into. A kind without one has its record as its value."""
    members = "".join(f"{comment(one.doc, '    ')}    pub {one.name}: {code_type(one)},\n" for one in shape.members)
    return VALUE.substitute(doc=comment(f"{shape.kind.value_doc}: {shape.kind.structures}."), value=shape.value, members=members)


# ---- read from a record, and given as one


def read_member(shape: Shape, member: Member) -> str:
    """A member of the value, as it is read."""
    if member.is_name:
        return f"{member.name}: parts.name.take()"
    if member.is_part:
        return f"{member.name}: take_part(&mut parts.{PLACES[shape.slots.index(member)]}, parts.alloc)"
    return member.name if member.array else f"{member.name}: {shape.kind.local}.{member.path}"


def row_text(shape: Shape) -> str:
    kind = shape.kind
    made, is_at = kind.local, f"λ file at k o row. {shape.at} file o ≡ row"
    if kind.value:
        made = literal(kind.value, [read_member(shape, one) for one in shape.members], "        ")
        is_at = f"λ file at k. {is_name(kind)} file"
    arrays = [f"        let {one.name} = {kind.local}.{one.path};\n" for one in shape.arrays if kind.value]
    return ROW.substitute(vars(kind), value=value_type(kind), is_at=is_at, arrays="".join(arrays), made=made)


def wire_text(shape: Shape, struct: str, before: str, indent: str) -> str:
    """A structure of the record, with no place in it."""
    members = {one.path: one for one in shape.members}
    fields = []
    for field in structure(struct).fields:
        member = members.get(before + field.name)
        if member is None:
            text = wire_text(shape, field.type, f"{before}{field.name}.", indent + "    ")
        elif member.slot:
            text = "0" if member.is_name else "nowhere()"
        else:
            text = f"self.{member.name}"
        fields.append(f"{field.name}: {text}")
    return literal(struct, fields, indent)


def bytes_text(shape: Shape) -> str:
    """The bytes of what is asked for."""
    if not shape.slots:
        return "        &[]\n"
    calls = [f"{one.bytes_function}(&self.{one.name})" for one in shape.slots]
    arms = [f"{at} => {call}" for at, call in enumerate(calls)] + ["_ => &[]"]
    return "        match which {\n" + "".join(f"            {arm},\n" for arm in arms) + "        }\n"


def given_text(shape: Shape) -> str:
    kind = shape.kind
    sizes = [f"{one.size_function}(&self.{one.name})" for one in shape.slots]
    return GIVEN.substitute(
        generic=generic(shape.kind),
        value=value_type(kind),
        name=shape.name,
        record=kind.record,
        wire=wire_text(shape, kind.struct, "", "            ") if kind.value else "*self",
        sizes=listed("[", of_three(sizes, "PartSize::NoPart"), "]", "            "),
        which="which" if shape.slots else "_which",
        bytes=bytes_text(shape),
    )


# ---- the file


def ghost_uses(shape: Shape) -> str:
    kind, value = shape.kind, bool(shape.kind.value)
    uses: dict[str, list[str]] = {
        "std.specs.Prelude": ["◌≡◌"] * (not value),
        "mdmp_lister.specs.declared.kind.StreamKind.TheVariants as kinds": [],
        f"{WIRE}.{kind.record_file}": [shape.at] * (not value),
        f"{DUMP}.{kind.value_file}": sorted([seen_name(kind)] + [is_name(kind)] * value),
    }
    return "".join(f"ghost {line};\n" for line in used_definitions(uses).splitlines())


def uses_text(shape: Shape) -> str:
    names, parts = bool(shape.names), bool(shape.parts)
    wire = {"AnyRecord", shape.kind.struct, *shape.opened, *["Units"] * names}
    if shape.kind.value:
        wire |= {one.type for one in shape.nested}
    uses = {
        "crate::given": sorted(["Given"] + ["name_size", "unit_bytes"] * names + ["bytes_of", "nowhere", "size_of"] * parts),
        "crate::part": ["Part"] * parts,
        "crate::record_parts": ["RecordParts"] + ["take_part"] * parts,
        "crate::row": ["Row"],
        "crate::view": ["Fields"] + ["PartSize"] * (len(shape.slots) < 3),
        "mdmp_wire": sorted(wire),
        "std::alloc": ["Allocator"],
    }
    return "".join(used(f"use {path}", names) for path, names in uses.items() if names)


def source_text(shape: Shape) -> str:
    """The whole file."""
    title = shape.kind.of_a_dump + ("" if shape.kind.value else ", which is the record itself")
    head = f"//! {title}.\n//! {MADE}\n{ghost_uses(shape)}\n{uses_text(shape)}"
    value = [value_text(shape)] if shape.kind.value else []
    return "\n".join([head, *value, row_text(shape), given_text(shape)])
