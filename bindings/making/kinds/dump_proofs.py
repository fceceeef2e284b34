"""What the proofs of mdmp_dump say of the streams of each kind, beside those that a file lays out its dump."""

from __future__ import annotations

from lib.generated import Stretches

from ..spelling import marked
from .members import members_of
from .naming import in_name, is_name, proof_paths, record_path, seen_name, stream_of, value_at, value_paths, value_type_paths
from .places import OF_DUMP, USE, line_each, put_modules, put_names, put_uses
from .table import Kind, Kinds

PROOFS = "crates/mdmp_dump/proofs"


def put_proofs(files: Stretches, kinds: Kinds) -> None:
    """All of it."""
    put_told(files, kinds)
    put_slots(files, kinds)
    put_viewed(files, kinds)
    put_unique(files, kinds)
    put_within(files, kinds)


# ---- items


def record_told(kind: Kind) -> str:
    """The record that an item tells: of a range it has the numbers alone."""
    if not kind.is_range:
        return "x.fields"
    told = []
    for one in members_of(kind):
        part = "record { size = x.size; rva = x.offset }" if one.slot and one.slot.part else "x.size"
        told.append(f"{marked(one.path)} = {part if one.slot else f'x.{one.name}'}")
    return f"(record {{ {'; '.join(told)} }})"


def put_told(files: Stretches, kinds: Kinds) -> None:
    """What an item tells of its record."""

    def told(kind: Kind) -> str:
        offset, name = "x.offset" if kind.is_behind else "0", "x.name" if kind.names else "names.None"
        head = f"told_back kinds.{kind.stream} (items.{kind.item} x)"
        return f"{head} = told_of x.entry x.index {offset} (any.{kind.record} {record_told(kind)}) {name}"

    start = "told_back : StreamKind → Item → Told\n"
    files.put(f"{PROOFS}/RecordItems.antt", start, "told_back kind item", line_each(kinds.by_type, told))


def put_slots(files: Stretches, kinds: Kinds) -> None:
    """That a place below 2^32 fits where the name is told, which in some records has 64 bits."""
    wide = [kind for kind in kinds.by_type if kind.has_wide_name]
    start = "low : (w : AnyRecord) (n : ℕ) → n < 2 ^ 32 → n < name_bound w\n"
    told = line_each(wide, lambda kind: f"low (any.{kind.record} r) n few = omega (arith, few)")
    files.put(f"{PROOFS}/SlotsPlaced.antt", start, "low _ n few", told)


# ---- a view


def put_viewed(files: Stretches, kinds: Kinds) -> None:
    """That a view gives of a single record what is found: lists have a line for all."""

    def row(kind: Kind) -> str:
        one = f"only_by (one_single F x lists.{kind.stream} refl shape shaped)"
        record = f"{in_name(kind)} {{Z = Z}} F o" if kind.value else f"{kind.module}_at F o"
        alike = " ∙ search alike" if kind.parts else ""
        return f"      shaped_row lists.{kind.stream} shaped = {one} (λ o. {seen_name(kind)} ({record})){alike}"

    name, singles = f"{PROOFS}/Viewed.antt", kinds.singles
    start = " ≡ seen_in kind F x.entry.location.rva k (row_place k)\n"
    files.put(name, start, "      shaped_row _ shaped", line_each(singles, row))
    last = f"{OF_DUMP}.EntryWalk.{{FindsRow, kind_by, raw_part, raw_size}}"
    put_uses(files, name, last, f"{USE}mdmp_dump.proofs.", value_paths(singles, seen_name))
    put_names(files, name, f"{OF_DUMP}.InFile.{{", [in_name(kind) for kind in singles if kind.value])


# ---- one dump


def unique_name(kind: Kind) -> str:
    """The proof that one value stands at a place."""
    return f"{kind.value_module}_unique"


def unique(kind: Kind) -> str:
    """That one stream of the kind stands at a place."""
    call, start = "records_unique" if kind.is_list else "record_unique", " l.rva" if kind.is_behind else ""
    told = f"({unique_name(kind)} F{start})" if kind.value else "(λ k o x y a b. sym a ∙ b)"
    both = "xs ys" if kind.is_list else "x y"
    streams = f"{stream_of(kind)} {stream_of(kind, 'ys', 'y')}"
    same = f"ap streams.{kind.stream} ({call} {value_at(kind, 'l.rva')} {told} {both} p q)"
    return f"  stands_unique F l {streams} p q same raw = {same}"


def put_unique(files: Stretches, kinds: Kinds) -> None:
    """That a file lays out one dump."""
    name, values = f"{PROOFS}/Unique/Dump.antt", kinds.with_values
    start = "  stands_unique F l streams.Unused streams.Unused p q same raw = refl\n"
    files.put(name, start, "  stands_unique F l (streams.Raw", line_each(kinds.by_type, unique))
    records = [record_path(kind, "at") for kind in kinds.without_values]
    put_uses(files, name, f"{USE}mdmp_wire.specs.declared.entry.Entry.{{Entry}}", f"{USE}mdmp_lister.", records)
    put_uses(files, name, f"{OF_DUMP}.declared.dump.Dump.{{Dump}}", f"{OF_DUMP}.LaysOut.", value_paths(values, is_name))
    last = f"{OF_DUMP}.LaysOut.{{StandsAt, NamesStream, AreStreams, LaysOut}}"
    put_uses(files, name, last, "\n-- a stream", proof_paths(values, "mdmp_dump.proofs.Unique", unique_name))
    put_modules(files, f"{PROOFS}/Unique.antt", values)


# ---- a dump within limits


def taken_name(kind: Kind) -> str:
    """The proof that what an item asks for is taken."""
    return f"{kind.value_module}_taken"


def taken(kind: Kind) -> str:
    """That what a stream of the kind asks for is taken."""
    head = f"  stands_taken limit e at {stream_of(kind)} has names ="
    of_kind = f"F at kinds.{kind.stream} _ {'xs' if kind.is_list else '(x ∷ [])'} has _ refl limit e"
    if not kind.slots:
        return f"{head} entry_unasked {of_kind} (λ k o. record {{ item = _; given = refl; steps = none_taken }})"
    return f"{head} entry_taken {of_kind} _ _ ({taken_name(kind)} F limit e at.rva) {names_within(kind)} _ {bytes_summed(kind)}"


def names_within(kind: Kind) -> str:
    """That each of its names is within the limit."""
    if not kind.names:
        return "(λ k d lt. tt)"
    none = "(λ k d lt. absurd (omega (arith, lt)))"
    return "names" if kind.is_list else f"(All-cons (λ (y : {kind.value} Z). IsNameWithin limit y.name) x [] names {none})"


def bytes_summed(kind: Kind) -> str:
    """That the bytes of its records are those of the stream."""
    if kind.is_list:
        return "refl" if kind.has_bytes else "(sum_by-none xs)"
    return "(omega arith)" if kind.has_bytes else "refl"


def put_within(files: Stretches, kinds: Kinds) -> None:
    """That the file of a dump within limits is not refused."""

    def ranged(kind: Kind) -> str:
        counted = f"records_counted F at kinds.{kind.stream} _ xs has (type_of_kind kinds.{kind.stream}) refl"
        return f"  stands_ranged at {stream_of(kind)} has = ap good_count ({counted})"

    name, values = f"{PROOFS}/Within/Dump.antt", kinds.with_values
    start = "  stands_taken limit e at streams.Unused has names = item_taken none_taken nothing_taken\n"
    files.put(name, start, "  stands_taken limit e at (streams.Raw", line_each(kinds.by_type, taken))
    start = " → ranges_in F (entry_of_stream at s) (kind_of (type_of s)) ≡ memory_ranges s\n"
    files.put(name, start, "  stands_ranged at (streams.Raw", line_each(kinds.ranges, ranged))
    types = value_type_paths(kind for kind in kinds.singles if kind.names)
    put_uses(files, name, f"{OF_DUMP}.Refusal.{{opened_refusal, read_refusal, run_refusal}}", f"{OF_DUMP}.Value.", types)
    last = f"{OF_DUMP}.Within.{{IsNameWithin, IsWithinLimits, NamesWithin, memory_ranges, part_bytes}}"
    put_uses(files, name, last, "\n-- a run", proof_paths(values, "mdmp_dump.proofs.Within", taken_name))
    put_modules(files, f"{PROOFS}/Within.antt", values)
