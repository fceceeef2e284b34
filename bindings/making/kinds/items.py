"""What mdmp_lister says of the items of each kind, and how they are made of records."""

from __future__ import annotations

from lib.generated import Stretches, filled

from ..lines import comment, nested_call
from ..spelling import joined, uncapitalized, with_article
from .lister import CRATE
from .naming import alike_together, each_item, initial, item_function, item_paths, printed, record_path, struct_path
from .places import put_all_uses, put_arms, put_used
from .table import Kind, Kinds

SOURCE, HELD, LIB = f"{CRATE}/src/item.rt", f"{CRATE}/src/held_step.rt", f"{CRATE}/src/lib.rt"
SPECS, SUMMARY = f"{CRATE}/specs/Format/Item.antt", f"{CRATE}/specs/Format/Summary.antt"
COSTS, PROOFS = f"{CRATE}/specs/RequestedLaws.antt", f"{CRATE}/proofs/Summary.antt"
COMMENT = 135  # letters of a comment's line in definitions
LENT = "<'a>"  # of an item with a name


def put_items(files: Stretches, kinds: Kinds) -> None:
    """All of it."""
    put_variants(files, kinds)
    put_held(files, kinds)
    put_spec_uses(files, kinds)
    put_definitions(files, kinds)
    put_plain(files, kinds)
    put_summary(files, kinds)
    put_ranges(files, kinds)


# ---- code


def item_structures(kinds: Kinds) -> list[str]:
    return ["Item", "StreamItem", *[f"{kind.item}Item" for kind in kinds.by_item]]


def put_variants(files: Stretches, kinds: Kinds) -> None:
    """The variants of `Item`, and what is asked of an item whatever its kind."""
    put_used(files, SOURCE, "use mdmp_wire", [kind.struct for kind in kinds.by_item])
    put_used(files, LIB, "pub use crate::item", [*item_structures(kinds), "range_extent"])
    variants, arms = "", ["            Item::Stream(x) => (x.entry, 0, &NO_NAME),"]
    for kind in each_item(kinds):
        what = kind.one if kind.is_list else with_article("The", kind.one)
        variants += comment(f"{what}.", "    ") + f"    {kind.item}({kind.item}Item{LENT if kind.names else ''}),\n"
        arms.append(f"            Item::{kind.item}(x) => (x.entry, x.index, {'&x.name' if kind.names else '&NO_NAME'}),")
    files.put(SOURCE, "    Stream(StreamItem),\n", "}\n", variants)
    files.put(SOURCE, "        let (entry, index, name) = match self {\n", "\n        };", "\n".join(arms))


def item_call(kind: Kind, before: str, record: str, indent: str) -> str:
    """The item of a record without a name. What it is of is in variables, or in a structure whose name precedes these."""
    words = [f"{record}entry", f"{record}index", "get_at(bytes, 0)"]
    if kind.is_behind:
        words.append(f"{record or 'held.'}offset")
    made = f"{kind.item}Item::{'at' if kind.is_behind else 'new'}"
    return indent + nested_call(f"StreamKind::{kind.stream} => {before}", made, [*words, "size"], ",", indent)


def item_structure(kind: Kind, fields: list[str], indent: str) -> str:
    lines = "".join(f"{indent}    {field},\n" for field in ["entry", "index", *fields])
    return f"Item::{kind.item}({kind.item}Item {{\n{lines}{indent}}})"


def item_arm(kind: Kind) -> str:
    """The item of a record: a structure, if it has a name or nothing that it points at."""
    indent, inner, arm = " " * 8, " " * 12, f"StreamKind::{kind.stream} =>"
    name = ["name: lent_name(buffer, held.name)"] if kind.names else []
    parts = [f"{slot.value}: fields.{slot.at}.classify(size)" for slot in kind.parts]
    if kind.slots and not name:
        return item_call(kind, f"Item::{kind.item}", "", indent)
    if not parts:
        return f"{indent}{arm} {item_structure(kind, ['fields: get_at(bytes, 0)', *name], indent)},"
    made = item_structure(kind, ["fields", *parts, *name], inner)
    return f"{indent}{arm} {{\n{inner}let fields: {kind.struct} = get_at(bytes, 0);\n{inner}{made}\n{indent}}}"


def put_held(files: Stretches, kinds: Kinds) -> None:
    """How records and items are made of bytes."""
    put_used(files, HELD, "use crate::item", item_structures(kinds))
    named = [kind.struct for kind in kinds.by_type if kind.is_behind or (kind.names and kind.parts)]
    put_used(files, HELD, "use mdmp_wire", ["AnyRecord", "UnitsRef", "get_at", *named])
    arms = [f"        StreamKind::{kind.stream} => AnyRecord::{kind.record}(get_at(bytes, 0))," for kind in kinds.by_type]
    put_arms(files, HELD, "record_at kind bytes.now 0 }\n{\n    match kind ", "    ", arms)
    put_arms(files, HELD, "    match held.kind ", "    ", [item_arm(kind) for kind in kinds.by_type])
    ranges = [item_call(kind, "Some", "record.", " " * 12) for kind in kinds.ranges]
    before = "ensures { TellsRange size (step_told bytes.now held.now) result }\n{\n    match held {\n"
    before += "        HeldStep::Record(record) => match record.kind {\n"
    files.put(HELD, before, "            _ => None", "".join(f"{line}\n" for line in ranges))


# ---- definitions


def put_spec_uses(files: Stretches, kinds: Kinds) -> None:
    """Where the records and the items are."""
    ordered = alike_together(kinds)
    paths = [path for kind in ordered for path in (record_path(kind, "at"), struct_path(kind.struct))]
    put_all_uses(files, SPECS, "use Rattle.mdmp_wire.specs.Number.{number_at}\n", "use Rattle.mdmp_lister", paths)
    before, after = "declared.item.Item.{Item}\n", "use Rattle.mdmp_lister.specs.declared.item.Item.TheVariants"
    put_all_uses(files, SPECS, before, after, item_paths(ordered))


def item_made(kind: Kind, has_name: bool) -> str:
    """The item of a record, `fields`: what it points at is in a file of `z` bytes."""
    size, offset = "z " if kind.parts or kind.is_behind else "", " offset" if kind.is_behind else ""
    return f"{item_function(kind)} {size}e k fields{offset}{' name' if has_name else ''}"


def put_definitions(files: Stretches, kinds: Kinds) -> None:
    """The records and the items of each kind, by type."""
    records = told = items = ""
    for kind in kinds.by_type:
        fields = f"(any.{kind.record} fields)"
        records += f"record_at kinds.{kind.stream} F o = any.{kind.record} ({kind.module}_at F o)\n"
        told += f"kind_told {fields} = kinds.{kind.stream}\n"
        items += f"item_of z e k offset {fields} name = items.{kind.item} ({item_made(kind, bool(kind.names))})\n"
    files.put(SPECS, "abbrev pub record_at : StreamKind → List ℕ → ℕ → AnyRecord\n", "\n--", records)
    files.put(SPECS, "abbrev pub kind_told : AnyRecord → StreamKind\n", "\n--", told)
    files.put(SPECS, "abbrev pub item_of : ℕ → ℕ → ℕ → ℕ → AnyRecord → Name → Item\n", "\n--", items)


def put_plain(files: Stretches, kinds: Kinds) -> None:
    """The items that have names, which may be lent from any place."""
    named = [kind for kind in each_item(kinds) if kind.names]
    whats = [kind.of_a_dump.removesuffix(" of a dump") for kind in named]
    head = "an item, whatever place its units are lent from"
    text = f"{head}: only {joined([uncapitalized(what) for what in whats])} have one"
    lines = "\n".join(filled(text.split(" "), " ", COMMENT, "-- "))
    files.put(SPECS, f"-- {head}", "\nabbrev pub plain", lines.removeprefix(f"-- {head}"))
    lines = costs = ""
    for kind in named:
        item = initial(printed(kind))
        lines += f"plain (items.{kind.item} {item}) = items.{kind.item} (record {item} {{ name = plain_name {item}.name }})\n"
        costs += f"cost_plain (items.{kind.item} x) = name_plain x.name\n"
    files.put(SPECS, "abbrev pub plain : Item → Item\n", "plain x = x", lines)
    files.put(COSTS, "\ncost_plain : (x : Item) → item_cost (plain x) ≡ item_cost x\n", "cost_plain _ = refl", costs)


def put_summary(files: Stretches, kinds: Kinds) -> None:
    lines = ""
    for kind in each_item(kinds):
        name, told = "x.name" if kind.names else "names.None", "(Some x)" if kind.is_range else "None"
        lines += f"summary_of (items.{kind.item} x) = summary_by x.entry x.index kinds.{kind.stream} {name} {told}\n"
    files.put(SUMMARY, "stream = Some x; kind = None; name = names.None; range = None }\n", "\n--", lines)


def put_ranges(files: Stretches, kinds: Kinds) -> None:
    """The range of memory that a record of each kind tells, in the proofs of summaries."""
    names = sorted({"item_of", "kind_told", "plain", *[item_function(kind) for kind in kinds.ranges]})
    files.put(PROOFS, "use Rattle.mdmp_lister.specs.Format.Item.{", "}", ", ".join(names))
    told = given = ""
    for kind in kinds.ranges:
        fields, made = f"(any.{kind.record} fields)", item_made(kind, False)
        told += f"range_told z e k offset {fields} = Some ({made})\n"
        given += f"ranges_of-told z e k offset {fields} = let r = {made} in one_given r r.extent\n"
    files.put(PROOFS, "→ Option RangeItem\n", "range_told z e k offset fields = None", told)
    files.put(PROOFS, "≤ ranges_by (kind_told fields) 1\n", "ranges_of-told z e k offset _", given)
