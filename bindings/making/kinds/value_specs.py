"""The definitions of a kind in mdmp_dump: when a value is that of a record, how a view gives it, and when its numbers fit."""

from __future__ import annotations

from string import Template
from textwrap import indent

from ..lines import used_definitions
from ..spelling import joined, marked
from .members import Member, Shape, fields_in_specs, nested_fits, nested_members
from .naming import DUMP, WIRE, fits_name, struct_file, struct_uses, value_in_specs
from .records import NUMBERS
from .table import MADE, of_three

RECORD = Template("""\
-- its record in a file, with $places
abbrev pub ${name}_record : $value Z → $types → $struct
${name}_record x $slots = record {
$fields}

-- x is the $called of the record at o: its $whats $stand where that record says
pub record Is$camel (F : List ℕ) (o : ℕ) (x : $value Z) : Type 0 where
  pub fields : $at F o ≡ ${name}_record x $stands
$are
""")

SEEN = Template("""\
-- as a view gives it
abbrev pub ${name}_seen : $value → Seen
${name}_seen x =
    seen (any.$record $bare) ($sizes ∷ [])
    ($bytes ∷ [])

""")

FITS = Template("""\
-- $comment
pub record $name (x : $value) : Type 0 where
$members""")


# ---- when its numbers fit


def fits_lines(shape: Shape, member: Member) -> dict[str, str]:
    """What has to hold of a member, by the names of the proofs."""
    name = f"x.{member.name}"
    if member.slot:
        return {member.name: f"{'NameFits' if member.is_name else 'PartFits'} {name}"}
    if member.array:
        return array_fits(shape, member, *member.array)
    return {member.name: f"{name} < 2 ^ {member.bits}" if member.bits else f"{nested_fits(member.type)} {name}"}


def array_fits(shape: Shape, member: Member, element: str, count: int) -> dict[str, str]:
    """Bytes are as many as the type says. Other numbers also fit, each of them."""
    length = f"length x.{member.name} ≡ {count}"
    if element == "u8":
        return {member.name: length}
    counted = f"{member.name.removeprefix(f'{shape.name}_')}_count"
    return {member.name: f"(i : ℕ) → slice_index x.{member.name} i < 2 ^ {NUMBERS[element]}", counted: length}


def fits_text(comment: str, name: str, value: str, lines: dict[str, str]) -> str:
    members = "".join(f"  pub {marked(one)} : {what}\n" for one, what in lines.items())
    return FITS.substitute(comment=comment, name=name, value=value, members=members)


def nested_texts(shape: Shape) -> list[str]:
    """The same of the structures inside the record."""
    return [
        fits_text(
            f"the numbers of its {name.replace('_', ' ')} fit their fields",
            nested_fits(struct),
            struct,
            {inner: what for one in nested_members(struct) for inner, what in fits_lines(shape, one).items()},
        )
        for struct, name in shape.own_nested.items()
    ]


# ---- a value, its record and what a view gives


def record_field(member: Member) -> str:
    """A field of the record: that of the value, or the place that is given."""
    return marked(member.name) if member.slot else f"x.{member.name}"


def called(member: Member) -> str:
    """What a comment calls what the record points at."""
    return member.slot.called if member.slot else member.name


def places(shape: Shape) -> str:
    locations = joined([f"its {called(one)}" for one in shape.parts])
    what = f"the location{'s' if shape.parts[1:] else ''} of {locations}"
    return " and ".join([*(f"the RVA of its {called(one)}" for one in shape.names), *([what] if shape.parts else [])])


def record_text(shape: Shape) -> str:
    stands = {one.name: f"({shape.at} F o).{one.path}" for one in shape.slots}
    are = {one.name: f"{one.stands_definition} F {stands[one.name]} x.{one.name}" for one in shape.slots}
    return RECORD.substitute(
        vars(shape.kind) | vars(shape),
        places=places(shape),
        types=" → ".join("ℕ" if one.is_name else "Location" for one in shape.slots),
        slots=" ".join(marked(one.name) for one in shape.slots),
        fields="".join(f"  {field};\n" for field in fields_in_specs(shape, record_field)),
        whats=joined([called(one) for one in shape.slots]),
        stand="are" if shape.slots[1:] or called(shape.slots[0]).endswith("s") else "is",
        stands=" ".join(stands.values()),
        are="".join(f"  pub {marked(name)} : {what}\n" for name, what in are.items()),
    )


def seen_text(shape: Shape) -> str:
    sizes = [f"{one.size_function} x.{one.name}" for one in shape.slots]
    bytes_ = [f"{one.bytes_function} x.{one.name}" for one in shape.slots]
    nowhere = " ".join("0" if one.is_name else "nowhere" for one in shape.slots)
    return SEEN.substitute(
        name=shape.name,
        value=value_in_specs(shape.kind),
        record=shape.kind.record,
        bare=f"({shape.name}_record x {nowhere})" if shape.slots else "x",
        sizes=" ∷ ".join(of_three(sizes, "NoPart")),
        bytes=" ∷ ".join(of_three(bytes_, "[]")),
    )


# ---- the file


def prelude(shape: Shape) -> list[str]:
    elements, arrays = shape.has_elements, bool(shape.arrays)
    general = ["◌≡◌", "ℕ", "List"] if shape.kind.value else ["◌≡◌"] * arrays + ["ℕ"] * elements
    return [*general, "◌<◌", "◌^◌", "[]", "◌∷◌"] + ["slice_index"] * elements + ["length"] * arrays


def uses_text(shape: Shape) -> str:
    kind, names, parts, value = shape.kind, bool(shape.names), bool(shape.parts), bool(shape.kind.value)
    uses: dict[str, list[str]] = {
        "std.specs.Prelude": prelude(shape),
        "mdmp_source.specs.declared.location.Location": ["Location"] * parts,
        **struct_uses(kind.struct, *["at"] * value),
        f"{DUMP}.declared.{shape.name}.{kind.value}": [kind.value] * value,
        f"{DUMP}.Name": ["IsName", "NameFits"] * names,
        f"{DUMP}.Part": ["IsPart", "PartFits"] * parts,
        f"{WIRE}.declared.any_record.AnyRecord.TheVariants as any": [],
        f"{DUMP}.Seen": ["Seen", "seen"] + ["nowhere", "size_of", "bytes_of"] * parts + ["name_size", "unit_bytes"] * names,
        f"{DUMP}.declared.view.PartSize.TheVariants": ["NoPart"] * (len(shape.slots) < 3),
    }
    uses |= {struct_file(struct): [struct] for struct in shape.own_nested}
    uses |= {f"{DUMP}.{owner}": [nested_fits(struct)] for struct, owner in shape.borrowed.items()}
    return used_definitions(uses)


def definitions_text(shape: Shape) -> str:
    """The whole file."""
    structure = shape.kind.structures.replace("`", "")
    head = f"-- {shape.kind.of_a_dump}: {structure}.\n-- {MADE}\n{uses_text(shape)}"
    lines = {name: what for one in shape.members for name, what in fits_lines(shape, one).items()}
    own = (record_text(shape) if shape.kind.value else "") + seen_text(shape)
    own += fits_text("its numbers fit their fields", fits_name(shape.kind), value_in_specs(shape.kind), lines)
    if shape.kind.value:
        own = "module _ {Z : Type 0} where\n" + indent(own, "  ")
    return "\n".join([head, *nested_texts(shape), own])
