"""What the definitions of mdmp_dump say of the streams of each kind."""

from __future__ import annotations

from lib.generated import Stretches

from ..spelling import marked
from .members import members_of
from .naming import (
    each_item,
    fits_name,
    in_name,
    initial,
    is_name,
    part_names,
    ranges_together,
    record_path,
    records_in_specs,
    seen_name,
    sizes_told,
    stream_of,
    value_at,
    value_in_specs,
    value_paths,
    value_type_paths,
)
from .places import OF_DUMP, USE, line_each, put_modules, put_uses
from .table import Kind, Kinds, Slot

SPECS = "crates/mdmp_dump/specs"
WIDTH = 140  # of a record on one line


def put_specs(files: Stretches, kinds: Kinds) -> None:
    """All of it."""
    put_view(files, kinds)
    put_fits(files, kinds)
    put_types(files, kinds)
    put_limits(files, kinds)
    put_places(files, kinds)
    put_in_file(files, kinds)
    put_steps(files, kinds)
    put_shape_laws(files, kinds)
    put_modules(files, f"{SPECS}/Lib.antt", kinds.by_type)


# ---- streams of each kind


def put_view(files: Stretches, kinds: Kinds) -> None:
    """Their records, as a view gives them."""

    def seen(kind: Kind) -> str:
        see = seen_name(kind)
        return f"  records_seen {stream_of(kind)} = {f'map {see} xs' if kind.is_list else f'{see} x ∷ []'}"

    name = f"{SPECS}/View.antt"
    files.put(name, "  records_seen streams.Unused = []\n", "  records_seen (streams.Raw", line_each(kinds.by_type, seen))
    put_uses(files, name, f"{OF_DUMP}.Seen.{{Seen}}", "\n-- ", value_paths(kinds.by_type, seen_name))


def put_fits(files: Stretches, kinds: Kinds) -> None:
    """When their numbers fit."""

    def fits(kind: Kind) -> str:
        return f"  StreamFits {stream_of(kind)} = {f'All {fits_name(kind)} xs' if kind.is_list else f'{fits_name(kind)} x'}"

    name = f"{SPECS}/Fits.antt"
    files.put(name, "  StreamFits streams.Unused = Unit {0}\n", "  StreamFits (streams.Raw", line_each(kinds.by_type, fits))
    last = f"{OF_DUMP}.declared.dump.Stream.TheVariants as streams"
    put_uses(files, name, last, "\nmodule _", value_paths(kinds.by_type, fits_name))


def put_types(files: Stretches, kinds: Kinds) -> None:
    """Their types."""

    def type_of(kind: Kind) -> str:
        return f"  type_of (streams.{kind.stream} {records_in_specs(kind)}) = type_of_kind list.{kind.stream}"

    files.put(f"{SPECS}/Value.antt", "  type_of streams.Unused = 0\n", "  type_of (streams.Raw", line_each(kinds.by_type, type_of))


def put_limits(files: Stretches, kinds: Kinds) -> None:
    """What counts to a limit: names, the bytes of parts, and ranges."""

    def names(kind: Kind) -> str:
        within = "All (λ x. IsNameWithin limit x.name) xs" if kind.is_list else "IsNameWithin limit x.name"
        return f"  NamesWithin limit {stream_of(kind)} = {within}"

    def part_bytes(kind: Kind) -> str:
        sizes = [f"length x.{slot.value}" if slot.behind else f"part_size x.{slot.value}" for slot in kind.slots if not slot.name]
        size = " + ".join(sizes)
        return f"  part_bytes {stream_of(kind)} = {f'sum_by (λ x. {size}) xs' if kind.is_list else size}"

    def ranges(kind: Kind) -> str:
        return f"  memory_ranges {stream_of(kind)} = {'length xs' if kind.is_list else '1'}"

    name = f"{SPECS}/Within.antt"
    named = [kind for kind in kinds.by_type if kind.names]
    files.put(name, "NamesWithin : ℕ → Stream Z → Type 0\n", "  NamesWithin limit s =", line_each(named, names))
    with_bytes = [kind for kind in kinds.by_type if kind.has_bytes]
    files.put(name, "part_bytes : Stream Z → ℕ\n", "  part_bytes (streams.Raw", line_each(with_bytes, part_bytes))
    files.put(name, "memory_ranges : Stream Z → ℕ\n", "  memory_ranges s =", line_each(kinds.ranges, ranges))


def put_places(files: Stretches, kinds: Kinds) -> None:
    """When they stand at a place of a file."""

    def stands(kind: Kind) -> str:
        values = "xs" if kind.is_list else "(x ∷ [])"
        return f"  StandsAt F at {stream_of(kind)} = HasRecords F at kinds.{kind.stream} {value_at(kind)} {values}"

    name = f"{SPECS}/LaysOut.antt"
    files.put(name, "  StandsAt F at streams.Unused = Unit {0}\n", "  StandsAt F at (streams.Raw", line_each(kinds.by_type, stands))
    put_uses(files, name, f"{OF_DUMP}.declared.dump.Dump.{{Dump}}", "\n-- ", value_paths(kinds.with_values, is_name))
    records = [record_path(kind, "at") for kind in kinds.without_values]
    put_uses(files, name, f"{USE}mdmp_wire.specs.HeaderFault.{{HasHeader}}", f"{USE}mdmp_lister.", records)


# ---- the dump that a file lays out


def value_in(kind: Kind) -> str:
    """The value of a record at a place: on one line, or on two, or by a line for each field."""
    takes, given = ("List ℕ → ℕ → ℕ → ℕ", "F at k o") if kind.is_behind else ("List ℕ → ℕ", "F o")
    note = "  -- range k of the list at a place\n" if kind.is_behind else ""
    head = f"{note}  abbrev pub {in_name(kind)} : {takes} → {value_in_specs(kind)}\n"
    fields = field_lines(kind, f"({kind.module}_at F o)")
    short, whole = f"record {{ {'; '.join(fields)} }}", f"  {in_name(kind)} {given} ="
    if len(f"{whole} {short}") <= WIDTH:
        return f"{head}{whole} {short}\n"
    if len(fields) == 2:
        return f"{head}{whole}\n      {short}\n"
    rows = "".join(f"        {row};\n" for row in field_lines(kind, "r"))
    return f"{head}{whole}\n      let r = {kind.module}_at F o in\n      record {{\n{rows}      }}\n"


def field_lines(kind: Kind, record: str) -> list[str]:
    """What each field of a value is, of a record."""
    return [f"{marked(one.name)} = {told_in(one.slot, f'{record}.{one.path}')}" for one in members_of(kind)]


def told_in(slot: Slot | None, field: str) -> str:
    """What a field of a record names in the file."""
    if slot and slot.behind:
        return f"array_at F (range_offset F at k) {field}"
    return f"{'name_in' if slot.name else 'part_named'} F {field}" if slot else field


def put_in_file(files: Stretches, kinds: Kinds) -> None:
    """The values and the streams that a file lays out."""

    def shaped(kind: Kind) -> str:
        first = f"{in_name(kind)} F" if kind.value else f"{kind.module}_at F"
        each = f"({first} rva)" if kind.is_behind else f"(λ k o. {first} o)"
        held = f"list_in {each} rva shape" if kind.is_list else f"{first} (rva + shape.first)"
        return f"  shaped_in F rva kinds.{kind.stream} shape = streams.{kind.stream} ({held})"

    name = f"{SPECS}/InFile.antt"
    values = [kind for kind in ranges_together(kinds) if kind.value]
    files.put(name, "  -- ---- records, each at a place\n\n", "  -- ---- streams", line_each(values, value_in))
    start = "shaped_in : List ℕ → ℕ → StreamKind → Shape → Stream Z\n"
    files.put(name, start, "\n  abbrev pub known_in", line_each(kinds.by_type, shaped))
    records = [record_path(kind, "at") for kind in kinds.by_type]
    put_uses(files, name, f"{USE}mdmp_wire.specs.Number.{{array_at}}", f"{USE}mdmp_lister.", records)
    last = f"{OF_DUMP}.declared.dump.Stream.TheVariants as streams"
    put_uses(files, name, last, f"{OF_DUMP}.Name.", value_type_paths(values))


# ---- what an item asks, and the laws of shapes


def put_steps(files: Stretches, kinds: Kinds) -> None:
    """What the item of a record asks of a reader. That of a range is written by hand."""

    def step(slot: Slot) -> str:
        if slot.name:
            return "name_steps x.entry x.index x.name"
        return f"location_steps x.entry x.index {slot.part} x.fields.{slot.at} x.{slot.value}"

    def steps(kind: Kind) -> str:
        asked = [step(slot) for slot in kind.slots] or ["[]"]
        text = f" {asked[0]}" if len(asked) == 1 else "\n    " + "\n    ++ ".join(asked)
        return f"item_steps size (items.{kind.item} x) ={text}"

    name = f"{SPECS}/Refusal.antt"
    before = "item_steps size (items.Stream x) = stream_steps size x.entry x.stream_type x.location\n"
    with_items = [kind for kind in each_item(kinds) if not kind.is_range]
    files.put(name, before, "item_steps size (items.Range x)", line_each(with_items, steps))
    files.put(name, f"{USE}mdmp_wire.specs.declared.slot.PartName.TheVariants.{{", "}", part_names(kinds))


def put_shape_laws(files: Stretches, kinds: Kinds) -> None:
    """That their records are of their kinds."""

    def of_kind(kind: Kind) -> str:
        see, one = seen_name(kind), initial(kind.value or kind.local)
        three = f"three_of ({see} {one}).fields.wire _ _ _ _ _ _ {sizes_told(kind, one)}"
        told = f"each_of _ {see} (λ {one}. {three}) {one}s" if kind.is_list else f"({three}, tt)"
        return f"  stream_kinds {stream_of(kind, f'{one}s', one)} = {told}"

    name = f"{SPECS}/ShapeLaws.antt"
    files.put(name, "  stream_kinds streams.Unused = tt\n", "  stream_kinds (streams.Raw", line_each(kinds.by_type, of_kind))
    last = f"{OF_DUMP}.declared.view.ViewFault.{{ViewFault}}"
    put_uses(files, name, last, "\n-- ", value_paths(kinds.by_type, seen_name))
