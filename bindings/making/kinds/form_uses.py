"""What the proof of a kind in mdmp_writer takes from other files."""

from __future__ import annotations

from ..lines import used_definitions
from .members import Shape, nested_fits
from .naming import DUMP, WIRE, fits_name, is_name, seen_name, struct_uses

# The structure that precedes the records, by the form of a list: its name, its size, and the bytes of its last field.
HEADS = {"Counted": ("", 4, 4), "Sized32": ("UnloadedList", 12, 4), "Sized64": ("MemoryInfoList", 16, 8)}


def common_words(shape: Shape) -> list[str]:
    """The words of the standard library that are of use."""
    value, is_sized = bool(shape.kind.value), shape.kind.form != "Counted"
    bounds = ["◌<◌", "◌^◌", "ℕ"] * bool(shape.names or is_sized)
    words = ["◌≡◌", *bounds, "◌+◌", "◌*◌", "[]"] + ["◌++◌"] * is_sized + ["List", "length", "map", "refl"]
    return words + ["ap"] * (value or is_sized) + ["sym", "subst", "◌∙◌"] * value + ["arith"]


def format_uses(shape: Shape) -> dict[str, list[str]]:
    """The words of the format."""
    head, is_sized = HEADS[shape.kind.form][0], shape.kind.form != "Counted"
    uses = struct_uses(shape.kind.struct, "at", "at-part", "bytes")
    for struct in {one.type: None for one in shape.nested}:
        uses |= struct_uses(struct, "at", "bytes")
    return {
        "mdmp_source.specs.declared.location.Location": ["Location"] * bool(shape.parts),
        f"{WIRE}.Number": ["number_at", "le"],
        f"{WIRE}.NumberLaws": ["number_at-le"] + ["length-le"] * (not is_sized),
        **uses,
        **(struct_uses(head, "at", "at-part", "bytes") if is_sized else {}),
        "mdmp_lister.specs.declared.kind.StreamKind.TheVariants as kinds": [],
        "mdmp_lister.specs.Format.Shape": ["shape_of"],
    }


def dump_uses(shape: Shape) -> dict[str, list[str]]:
    """The words of mdmp_dump."""
    names, parts, value = bool(shape.names), bool(shape.parts), bool(shape.kind.value)
    own = [fits_name(shape.kind), seen_name(shape.kind)] + [is_name(shape.kind), f"{shape.name}_record"] * value
    rooms = ["name_room"] * (names and parts) + ["part_room"] * bool(shape.parts[1:])
    return {
        f"{DUMP}.declared.{shape.name}.{shape.value}": [shape.value] * value,
        f"{DUMP}.{shape.camel}": sorted(own + [nested_fits(struct) for struct in shape.own_nested]),
        **{f"{DUMP}.{owner}": [nested_fits(struct)] for struct, owner in shape.borrowed.items()},
        f"{DUMP}.Name": ["IsName"] * names,
        f"{DUMP}.Part": ["IsPart"] * parts,
        f"{DUMP}.Placed": ["address_of"] * names + ["location_of"] * parts + rooms,
        f"{DUMP}.Seen": ["name_size"] * names + ["size_of"] * parts,
        f"{DUMP}.declared.dump.Stream.TheVariants as streams": [],
        f"{DUMP}.ShapeLaws": ["name_sized"] * names + ["part_sized"] * parts + ["three_sized"],
    }


def writer_uses(shape: Shape) -> dict[str, list[str]]:
    """The words of mdmp_writer."""
    names, parts, is_sized = bool(shape.names), bool(shape.parts), shape.kind.form != "Counted"
    placing = ["IsForm", "length-parts", "sized_room"] + ["stands_part"] * bool(shape.slots)
    placing += ["address_fits", "is_name"] * names + ["behind_name"] * (names and parts)
    placing += ["is_part", "location_fits"] * parts + ["behind_part"] * bool(shape.parts[1:])
    return {
        "mdmp_writer.proofs.Standing": ["stands_record"] + ["Stands", "stands_first"] * is_sized,
        "mdmp_writer.proofs.Back": ["LocationFits", "location_back"] * parts,
        "mdmp_writer.proofs.Placing": sorted(placing),
        "mdmp_writer.specs.Written": ["rows"],
        "mdmp_writer.proofs.ReadBack": ["IsReadBack", "length-listed", "records_stand"],
        "mdmp_writer.proofs.Heads": ["shape_from", "sized_shape"] if is_sized else ["counted_shape"],
    }


def uses_text(shape: Shape) -> str:
    """All of it."""
    prelude = ["All"] + ["Ok"] * (shape.kind.form != "Counted")
    uses = {"std.proofs.Common": common_words(shape), "std.specs.Prelude": prelude}
    return used_definitions(uses | format_uses(shape) | dump_uses(shape) | writer_uses(shape))
