"""What mdmp_wire says of each kind: the records of any kind, and what they point at."""

from __future__ import annotations

import re

from lib.generated import Stretches
from lib.needs import TOP

from ..lines import comment, listed, used
from ..spelling import marked
from .naming import local_in_specs, part_names, places_first, record_path
from .places import line_each, put_all_uses, put_arms
from .records import RECORDS, field_at, structure
from .table import PLACES, Kind, Kinds, Slot, of_three

CRATE = "crates/mdmp_wire"
SOURCE, LIB, SPECS = f"{CRATE}/src/any_record.rt", f"{CRATE}/src/lib.rt", f"{CRATE}/specs/AnyRecord.antt"
EMPTY = "Empty"
USE = re.compile(r"^(pub use crate::(\w+)::[^;]+;\n)", re.M)
USES = re.compile(rf"(?:{USE.pattern})+", re.M)
Puts = list[tuple[str, str]]  # the place of a field in a record, and what is put there


def put_wire(files: Stretches, kinds: Kinds) -> None:
    """All of it."""
    put_code_uses(files, kinds)
    put_code(files, kinds)
    put_definitions(files, kinds)
    put_new_slots(files, kinds)
    put_crate(files, kinds)


# ---- code


def structures_put(kind: Kind) -> list[str]:
    """The structures that `put_slots` names of a record: its own, and those of its fields in which a part has its place."""
    paths = [slot.path for slot in kind.slots]
    ends = [path[: found.start()] for path in paths for found in re.finditer(r"\.", path)]
    return [kind.struct, *[field_at(kind.struct, end).type for end in ends]]


def put_code_uses(files: Stretches, kinds: Kinds) -> None:
    names = {"record": {"Record"}, "slot": {"PartName", "Slot"}}
    for kind in kinds.by_type:
        for struct in structures_put(kind):
            names.setdefault(structure(struct).module, set()).add(struct)
    lines = [used(f"use crate::{module}", sorted(names[module])) for module in sorted(names)]
    files.put(SOURCE, "Prelude.{◌≡◌, ◌≤◌, length, take};\n\n", "\n/// A record of a stream", "".join(lines))


def slot_code(kind: Kind, slot: Slot) -> str:
    field = f"{kind.local}.{slot.path}"
    if slot.part:
        return f"Slot::Part(PartName::{slot.part}, {field})"
    return f"Slot::{'Name' if slot.name else 'Behind'}({field if kind.is_wide(slot) else f'u64::from({field})'})"


def slots_arm(kind: Kind) -> str:
    indent, before = " " * 12, f"AnyRecord::{kind.record}"
    if not kind.slots:
        return f"{indent}{before}(_) => [Slot::Empty; 3],"
    slots = of_three([slot_code(kind, slot) for slot in kind.slots], f"Slot::{EMPTY}")
    return indent + listed(f"{before}({kind.local}) => [", slots, "],", indent)


def put_code_of(kind: Kind, slot: Slot, place: str) -> str:
    """What is put into the field of a slot."""
    if slot.part:
        return f"{place}.location()"
    return f"{place}.{'rva' if slot.name else 'behind'}(){'' if kind.is_wide(slot) else ' as u32'}"


def by_field(puts: Puts) -> dict[str, Puts]:
    """What is put into each field, by places inside it; a field that is put as a whole has no place."""
    found: dict[str, Puts] = {}
    for path, made in puts:
        first, _, rest = path.partition(".")
        found.setdefault(first, []).append((rest, made))
    return found


def structure_put(struct: str, base: str, puts: Puts, indent: str) -> str:
    """A structure with other fields than those of `base`."""
    text, inner = f"{struct} {{\n", indent + "    "
    for name, inside in by_field(puts).items():
        is_whole = not inside[0][0]
        made = inside[0][1] if is_whole else structure_put(field_at(struct, name).type, f"{base}.{name}", inside, inner)
        text += f"{inner}{name}: {made},\n"
    return f"{text}{inner}..{base}\n{indent}}}"


def put_slots_arm(kind: Kind) -> str:
    indent, before, name = " " * 12, f"AnyRecord::{kind.record}", kind.local
    if not kind.slots:
        return f"{indent}{before}(_) => *self,"
    puts = [(slot.path, put_code_of(kind, slot, place)) for slot, place in zip(kind.slots, PLACES)]
    return f"{indent}{before}({name}) => {before}({structure_put(kind.struct, name, puts, indent)}),"


def put_code(files: Stretches, kinds: Kinds) -> None:
    variants = ""
    for kind in kinds.by_type:
        described = f"{kind.one}: {kind.structures.split(',')[0]}."
        variants += comment(described, "    ") + f"    {kind.record}({kind.struct}),\n"
    files.put(SOURCE, "pub enum AnyRecord {\n", "}\n", variants)
    indent, places = " " * 8, places_first(kinds)
    put_arms(files, SOURCE, "result ≡ slots_of self.now }\n    {\n        match self ", indent, [slots_arm(kind) for kind in places])
    put_arms(files, SOURCE, "        match *self ", indent, [put_slots_arm(kind) for kind in places])
    arms = [f"            AnyRecord::{kind.record}({kind.local}) => put_first(buffer, {kind.local})," for kind in kinds.by_type]
    put_arms(files, SOURCE, "≡ any_bytes self.now }\n    {\n        match self ", indent, arms)


# ---- definitions


def slot_spec(kind: Kind, slot: Slot) -> str:
    field = f"{local_in_specs(kind)}.{slot.path}"
    return f"Part {slot.part} {field}" if slot.part else f"{'Name' if slot.name else 'Behind'} {field}"


def fields_put(base: str, puts: Puts) -> list[str]:
    """The fields of a record that are other than those of `base`."""
    lines = []
    for name, inside in by_field(puts).items():
        inner = f"{base}.{name}"
        made = inside[0][1] if not inside[0][0] else f"record {inner} {{ {'; '.join(fields_put(inner, inside))} }}"
        lines.append(f"{marked(name)} = {made}")
    return lines


def with_slots(kind: Kind) -> str:
    puts = []
    for number, slot in enumerate(kind.slots):
        taken = "location" if slot.part else "rva" if slot.name else "behind"
        puts.append((slot.path, f"slot_{taken} (get_or s {number} {EMPTY})"))
    fields = fields_put("r", puts)
    inside = f" {fields[0]} " if len(fields) == 1 else "\n" + "".join(f"  {field};\n" for field in fields)
    return f"with_slots (any.{kind.record} r) s = any.{kind.record} (record r {{{inside}}})"


def put_definitions(files: Stretches, kinds: Kinds) -> None:
    slots = bytes_of = sizes = ""
    for kind in kinds.by_type:
        record = f"(any.{kind.record} {local_in_specs(kind)})"
        spec = " ∷ ".join(of_three([slot_spec(kind, slot) for slot in kind.slots], EMPTY))
        slots += f"slots_of {record} = {spec} ∷ []\n"
        bytes_of += f"any_bytes {record} = {kind.module}_bytes {local_in_specs(kind)}\n"
        sizes += f"any_size {record} = {kind.module}_size\n"
    files.put(SPECS, "slot.PartName.TheVariants.{", "}", part_names(kinds))
    before = "use Rattle.mdmp_source.specs.declared.location.Location.{Location}\n"
    paths = [record_path(kind, "bytes", "size") for kind in kinds.by_type]
    put_all_uses(files, SPECS, before, "\n-- what", sorted(paths))
    files.put(SPECS, "abbrev pub slots_of : AnyRecord → List Slot\n", "\n--", slots)
    files.put(SPECS, "abbrev pub any_bytes : AnyRecord → List ℕ\n", "\n--", bytes_of)
    files.put(SPECS, "abbrev pub any_size : AnyRecord → ℕ\n", "\n--", sizes)


def put_new_slots(files: Stretches, kinds: Kinds) -> None:
    """The definitions of other slots in place of a record's own, and that a slot without a place can be put there."""
    lines = line_each([kind for kind in places_first(kinds) if kind.slots], with_slots)
    files.put(SPECS, "abbrev pub with_slots : AnyRecord → List Slot → AnyRecord\n", "with_slots w s = w", lines)
    wide = [kind for kind in kinds.by_type if kind.has_wide_name]
    lines = line_each(wide, lambda kind: f"name_bound (any.{kind.record} r) = 2 ^ 64")
    files.put(SPECS, "abbrev pub name_bound : AnyRecord → ℕ\n", "name_bound w = 2 ^ 32", lines)
    lines = line_each(wide, lambda kind: f"bare_one (any.{kind.record} r) (Name rva) = omega arith")
    files.put(f"{CRATE}/proofs/Slots.antt", "bare_one w Empty = refl\n", "bare_one w (Name rva)", lines)


# ---- what the crate consists of


def modules(folder: str, ending: str, but: str) -> list[str]:
    """The names of the files of a folder, except one."""
    return sorted(path.stem for path in (TOP / folder).glob(f"*{ending}") if path.stem != but)


def put_crate(files: Stretches, kinds: Kinds) -> None:
    """A line for each file in src/ and in specs/, and what the crate gives out of the files of records."""
    sources, specs = modules(RECORDS, ".rt", "lib"), f"{CRATE}/specs"
    files.put(LIB, "#![tactic(auto)]\n\n", "\npub use", "".join(f"mod {module};\n" for module in sources))
    files.texts[f"{specs}/Lib.antt"] = "".join(f"pub mod {module}\n" for module in modules(specs, ".antt", "Lib"))
    text = files.text(LIB)
    lines = {module: line for line, module in USE.findall(text) if module in sources}
    for kind in kinds.by_type:
        lines.setdefault(kind.module, used(f"pub use crate::{kind.module}", [kind.struct]))
    ordered = sorted(lines, key=lambda module: str(module).replace("_", " "))
    files.texts[LIB] = USES.sub("".join(lines[module] for module in ordered), text, count=1)
