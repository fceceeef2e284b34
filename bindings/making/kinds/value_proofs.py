"""The proofs of a kind in mdmp_dump: one value stands at a place, its item is taken, and its record is read."""

from __future__ import annotations

from string import Template

from ..lines import used_definitions
from ..spelling import marked, snake, uncapitalized, with_article
from .members import Member, Shape
from .naming import DUMP, is_name
from .table import MADE, PLACES

UNIQUE = Template("""\
-- $one stands at a place.
-- $made
use Rattle.std.proofs.Common.{ℕ, List, sym, ◌∙◌}
use Rattle.mdmp_wire.specs.$wire.{$at}
use Rattle.mdmp_dump.specs.$camel.{Is$camel}
${uses}use Rattle.mdmp_dump.proofs.Unique.Records.{IsUnique}

pub ${name}_unique : {Z : Type 0} (F : List ℕ) → IsUnique (λ k o. Is$camel {Z = Z} F o)
${name}_unique F k o x y p q =
    let fields = sym p.fields ∙ q.fields in
$slots    λ i. record {
$members    }
""")

WITHIN = Template("""\
-- The item of $one is given, and what it asks for is taken.
-- $made
use Rattle.std.proofs.Common.{$common}
use Rattle.mdmp_wire.specs.$wire.{$at}
use Rattle.mdmp_lister.specs.declared.item.Item.TheVariants as items
use Rattle.mdmp_lister.specs.declared.kind.StreamKind.TheVariants as kinds
use Rattle.mdmp_lister.specs.Format.Item.{${item_name}_item}
${uses}
pub ${name}_taken : {Z : Type 0} (F : List ℕ) (limit e at : ℕ)
    → AreTaken F limit e at kinds.$stream (λ k o. Is$camel {Z = Z} F o) (λ x. $within) (λ x. $bytes)
${name}_taken F limit e at k o x is fits =
${short}    record {
      item = items.$item (${item_name}_item $item_of);
      given = $given;
      steps = $steps;
    }
""")

ANSWERS = Template("""\
-- The fields of $one, and what it points at.
-- $made
use Rattle.std.proofs.Common.{ℕ, ◌≡◌, List, refl, subst}
use Rattle.mdmp_wire.specs.$wire.{$at}
use Rattle.mdmp_wire.specs.declared.$module.$struct.{$struct}
${uses}use Rattle.mdmp_dump.specs.declared.$name.$value.{$value}
use Rattle.mdmp_dump.specs.$camel.{Is$camel, ${name}_record}
use Rattle.mdmp_dump.proofs.$name.${value}Row.of.Goals as goal

${name}_of : {Z : Type 0} (F : List ℕ) (o : ℕ) (x : $value Z) (r : $struct) → r ≡ $at F o → r ≡ ${name}_record x $places
    → $are → Is$camel F o x
${name}_of F o x r same is $slots = record {
$members}

pub returns : goal.returns
returns g c = λ file at k o found.
    let read = rw c.in-$record.is at found in
    let same : c.in-$record.$local ≡ $at file o = let is = read.is.fields in cc is in
$taken    ${name}_of file o _ c.in-$record.$local same refl $read
""")


def words(shape: Shape) -> dict[str, object]:
    """What the templates name."""
    kind = shape.kind
    return vars(kind) | vars(shape) | {"made": MADE, "wire": kind.record_file, "one": uncapitalized(kind.one)}


# ---- one value stands at a place


def unique_text(shape: Shape) -> str:
    at = f"({shape.at} F o)"
    slots, members = "", [f"{marked(one.name)} = (fields i).{one.path}" for one in shape.plain]
    for one in shape.slots:
        law, name = "name_unique" if one.is_name else "part_unique", one.name
        slots += f"    let {marked(name)} = {law} F {at}.{one.path} x.{name} y.{name} p.{name} q.{name} in\n"
        members.append(f"{marked(name)} = {marked(name)} i")
    uses = {
        "mdmp_dump.proofs.Unique.Name": ["name_unique"] * bool(shape.names),
        "mdmp_dump.proofs.Unique.Part": ["part_unique"] * bool(shape.parts),
    }
    named = words(shape) | {"one": with_article("One", shape.kind.one)}
    lines = "".join(f"      {one};\n" for one in members)
    return UNIQUE.substitute(named, uses=used_definitions(uses), slots=slots, members=lines)


# ---- what an item asks for


def steps_text(shape: Shape, parts: list[Member]) -> str:
    """The steps of some parts, one behind the other."""
    if not parts:
        return "none_taken"
    one = parts[0]
    first = f"location_taken F ({shape.at} F o).{one.path} e k names.{one.slot.part if one.slot else ''} x.{one.name} is.{one.name}"
    if not parts[1:]:
        return first
    return f"both_taken\n          ({first})\n          ({steps_text(shape, parts[1:])})"


def bytes_text(parts: list[Member]) -> str:
    """How many bytes some parts have together, as both_taken adds them up."""
    sizes = [f"part_size x.{one.name}" for one in parts]
    return f"{sizes[0]} + ({bytes_text(parts[1:])})" if sizes[2:] else " + ".join(sizes or ["0"])


def within_text(shape: Shape) -> str:
    names, parts, at = bool(shape.names), bool(shape.parts), f"({shape.at} F o)"
    both, steps = len(shape.parts) > 1, steps_text(shape, shape.parts)
    uses: dict[str, list[str]] = {"mdmp_wire.specs.declared.slot.PartName.TheVariants as names": []} if parts else {}
    uses |= {
        f"{DUMP}.{shape.camel}": [is_name(shape.kind)],
        f"{DUMP}.Within": ["IsNameWithin"] * names + ["part_size"] * parts,
        "mdmp_dump.proofs.Within.Name": ["name_short"] * names,
        "mdmp_dump.proofs.Within.Part": ["location_taken"] * parts,
        "mdmp_dump.proofs.Within.Records": ["AreTaken"],
        "mdmp_dump.proofs.Within.Steps": ["both_taken"] * both + ["none_taken"] * (not parts),
    }
    short = "".join(f"    let short = name_short F {at}.{one.path} limit x.name is.name fits in\n" for one in shape.names)
    return WITHIN.substitute(
        words(shape),
        common=", ".join(["ℕ"] + ["◌+◌"] * both + ["List"] + ["length"] * parts + ["refl"]),
        item_name=snake(shape.kind.item),
        uses=used_definitions(uses),
        within="IsNameWithin limit x.name" if names else "Unit {0}",
        bytes=bytes_text(shape.parts),
        short=short,
        item_of=" ".join(["(length F)"] * parts + ["e", "k", at] + ["short.name"] * names),
        given="rw short.given refl" if names else "refl",
        steps=f"rw (short.asked e k) {f'({steps})' if parts else steps}" if names else steps,
    )


# ---- read from a record


def answers_text(shape: Shape) -> str:
    is_one = {one.name: f"{one.stands_definition} F {{}}.{one.path} x.{one.name}" for one in shape.slots}
    record = f"{shape.name}_record x {' '.join(f'{{}}.{one.path}' for one in shape.slots)}"
    stands = {"fields": (f"{{}} ≡ {record}", "is")} | {name: (text, marked(name)) for name, text in is_one.items()}
    calls = ["c.take_part"] + [f"c.take_part-{at}" for at in range(2, 4)]
    read = ["(rw taken read.name)" for _ in shape.names]
    read += [f"(rw {call}.ensures read.parts.{PLACES[shape.slots.index(one)]})" for call, one in zip(calls, shape.parts)]
    members = [
        f"  {marked(name)} = subst (λ (s : {shape.kind.struct}). {text.replace('{}', 's')}) same {given};\n"
        for name, (text, given) in stands.items()
    ]
    return ANSWERS.substitute(
        words(shape),
        uses=used_definitions({f"{DUMP}.Name": ["IsName"] * bool(shape.names), f"{DUMP}.Part": ["IsPart"] * bool(shape.parts)}),
        places=" ".join(f"r.{one.path}" for one in shape.slots),
        are=" → ".join(text.replace("{}", "r") for text in is_one.values()),
        slots=" ".join(marked(one.name) for one in shape.slots),
        members="".join(members),
        taken="    let taken : c.take.result ≡ c.args.parts.now.name = cc in\n" * bool(shape.names),
        read=" ".join(read),
    )
