"""What mdmp_dump proves of each kind, so that a file which is not refused lays out its dump."""

from __future__ import annotations

from lib.generated import Stretches

from ..spelling import marked
from .dump_proofs import PROOFS
from .naming import in_name, is_name, part_names, record_path, value_at, value_paths
from .places import OF_DUMP, USE, line_each, put_names, put_uses
from .table import Kind, Kinds, Slot


def put_laid(files: Stretches, kinds: Kinds) -> None:
    """All of it."""
    put_records(files, kinds)
    put_streams(files, kinds)


# ---- records


def told_name(kind: Kind) -> str:
    """The proof that a record is what stands there."""
    return f"{kind.value_module}_is"


def is_told(kind: Kind) -> str:
    """That a record is what stands there, if its names and parts are good."""
    name, record = told_name(kind), f"({kind.module}_at F o)"
    needs = "".join(f"{'HasName' if slot.name else 'IsNamed'} F {record}.{slot.path} → " for slot in kind.slots)
    fields = ["fields = refl"]
    for slot in kind.slots:
        value = marked(slot.value)
        fields.append(f"{value} = {'name' if slot.name else 'part'}_is F {record}.{slot.path} {value}")
    rows = "".join(f"    {field};\n" for field in fields)
    whole = f" {'; '.join(fields)} " if len(fields) < 4 else f"\n{rows}  "
    given = "".join(f" {marked(slot.value)}" for slot in kind.slots)
    return (
        f"  pub {name} : (F : List ℕ) (o : ℕ) → {needs}{is_name(kind)} F o ({in_name(kind)} {{Z = Z}} F o)\n"
        f"  {name} F o{given} = record {{{whole}}}\n"
    )


def put_records(files: Stretches, kinds: Kinds) -> None:
    """That what a file lays out is what stands in it."""
    near = [kind for kind in kinds.with_values if not kind.is_behind]
    name, start = f"{PROOFS}/InFiles.antt", "  part_is F at named = part_of F at (extent_of at (length F)) named\n\n"
    files.put(name, start, "-- each record in its place", line_each(near, is_told))
    last = f"{USE}mdmp_source.specs.declared.location.Extent.TheVariants as classes"
    put_uses(files, name, last, f"{USE}mdmp_lister.", [record_path(kind, "at") for kind in near])
    put_uses(files, name, f"{USE}mdmp_lister.specs.Format.Name.{{name_at}}", "\n-- a part", value_paths(near, is_name))
    put_names(files, name, f"{OF_DUMP}.InFile.{{", map(in_name, near))


# ---- items and streams


def steps_of(slot: Slot) -> str:
    """What a slot asks of a reader."""
    return "name_steps e k n" if slot.name else f"location_steps e k {slot.part} _ _"


def slot_given(kind: Kind, slot: Slot, told: str) -> str:
    """That what a slot names is good, as a proof of no refusal tells."""
    field = f"({kind.module}_at F o).{slot.path}"
    if slot.name:
        return f"(name_given F limit e k {field} n name {told})"
    if slot.behind:
        return f"(range_inside (range_offset F at k) {field} (length F) (part_given e k Memory _ _ _ {told}))"
    return f"(part_given e k {slot.part} _ _ _ {told})"


def laid(kind: Kind) -> str:
    """That a record stands there, if its item is not refused."""
    name, at = f"{kind.value_module}_laid", "F at k o" if kind.is_behind else "F o"
    slots, steps = kind.slots, [steps_of(slot) for slot in kind.slots]
    told = [["all"], ["all"], ["both.0", "both.1"], ["front.0", "front.1", "both.1"]][len(slots)]
    lets = ""
    if len(slots) > 1:
        lets += f"        let both = told_both ({' ++ '.join(steps[:-1])}) ({steps[-1]}) None all in\n"
    if len(slots) > 2:
        lets += f"        let front = told_both ({steps[0]}) ({steps[1]}) None both.0 in\n"
    given = " ".join([f"{told_name(kind)} {at}", *(slot_given(kind, slot, one) for slot, one in zip(slots, told))])
    start = f"\n{lets}        " if lets else " "
    return (
        f"    {name} : item_at F limit e k at o kinds.{kind.stream} ≡ Ok item → IsQuiet (item_steps (length F) item)"
        f" → {is_name(kind)} {at} ({in_name(kind)} {{Z = Z}} {at})\n"
        f"    {name} is quiet = item_given kinds.{kind.stream} F limit e k at o item is quiet (λ n name all.{start}{given})\n"
    )


def stands(kind: Kind) -> str:
    """That its records stand in a stream of its shape."""
    form = "list" if kind.is_list else "single"
    first = f"{in_name(kind)} F" if kind.value else f"{kind.module}_at F"
    each = f"({first} at_x)" if kind.is_behind else f"(λ k o. {first} o)"
    laid_by = f"(λ k o item. {kind.value_module}_laid F limit x.number at_x k o item)"
    told = laid_by if kind.value else "(λ k o item given quiet. refl)"
    one = "" if kind.is_list else f" (one_single F x kinds.{kind.stream} refl shape is)"
    place = value_at(kind, "at_x", "y")
    return (
        f"    shaped_stands kinds.{kind.stream} shape inside is none =\n"
        f"        {form}_laid kinds.{kind.stream} {place} {each} F limit x shape inside is none {told}{one}"
    )


def put_streams(files: Stretches, kinds: Kinds) -> None:
    """That a stream which is not refused stands in the file."""
    name, values = f"{PROOFS}/Laid.antt", kinds.with_values
    start = "  module _ (F : List ℕ) (limit e at k o : ℕ) (item : Item) where\n"
    files.put(name, start, "\n-- ---- the records of a stream", "\n".join(map(laid, values)))
    start = "        → StandsAt F x.entry.location (shaped_in {Z = Z} F x.entry.location.rva kind shape)\n"
    files.put(name, start, "\n    -- a stream whose records are known", line_each(kinds.by_type, stands))
    parts = f"{USE}mdmp_wire.specs.declared.slot.PartName.TheVariants.{{"
    files.put(name, parts, "}", part_names(kinds))
    put_uses(files, name, f"{parts}{part_names(kinds)}}}", f"{USE}mdmp_dump.proofs.", value_paths(values, is_name))
    records = [record_path(kind, "at") for kind in kinds.by_type if kind.names or kind.is_behind or not kind.value]
    put_uses(files, name, f"{USE}mdmp_wire.specs.Number.{{array_at}}", f"{USE}mdmp_lister.", records)
    put_names(files, name, f"{OF_DUMP}.InFile.{{", map(in_name, values))
    near = [told_name(kind) for kind in values if not kind.is_behind]
    put_names(files, name, f"{USE}mdmp_dump.proofs.InFiles.{{", near)
