"""The proof of a kind in mdmp_writer: a list of its records is written, and read again. It is made where the records have no arrays."""

from __future__ import annotations

from string import Template
from textwrap import indent

from ..spelling import marked, snake
from .form_uses import HEADS, uses_text
from .members import Member, Shape, fields_in_specs, nested_fits, nested_members
from .naming import is_name, sizes_told, value_in_specs
from .records import NUMBERS, structure
from .table import MADE
from .writer import read_name

STANDS_AT = ["at", "place", "next"]  # where what a record points at stands

HEAD = Template("""\
abbrev head : ℕ → $list
head c = record { size_of_header = $first; size_of_entry = $size; number_of_entries = c }

length-head : (c : ℕ) → length (${head}_bytes (head c)) ≡ $first
unfolding le
length-head c = refl

head_shape : (F : List ℕ) (at c : ℕ) (rest : List ℕ) → c < 2 ^ $bits → Stands F at (${head}_bytes (head c) ++ rest)
    → shape_of F at ($first + c * $size) kinds.$stream ≡ Ok (shape_from $first $size c)
unfolding shape_of number_at le
head_shape F at c rest low s =
    let back : ${head}_at (${head}_bytes (head c)) 0 ≡ head c = λ i. record {
      size_of_header = number_at-le 4 $first [] (omega arith) i;
      size_of_entry = number_at-le 4 $size [] (omega arith) i;
      number_of_entries = number_at-le $width c [] low i;
    } in
    let read : ${head}_at F at ≡ head c = stands_record ${head}_at $first ${head}_at-part F at (${head}_bytes (head c)) (head c) refl back \
(stands_first F at (${head}_bytes (head c)) rest s) in
    sized_shape at $first $size c _ _ _ _ (ap (λ h. h.size_of_header) read) (ap (λ h. h.size_of_entry) read) \
(ap (λ h. h.number_of_entries) read)

""")

NESTED = Template("""\
${name}_back : (v : $struct) → $fits v → ${name}_at (${name}_bytes v) 0 ≡ v
unfolding number_at le
${name}_back v f = λ i. record {
$fields}

""")

FORM = Template("""\
${name}_back : (x : $value)$places → ${camel}Fits x$low
    → $at (${wire}_bytes $in_file) 0 ≡ $record
unfolding number_at le
${name}_back x$slots f$low_names = λ i. record {
$fields}

length-$name : (x : $value)$places → length (${wire}_bytes $in_file) ≡ $size
unfolding le
length-$name x$slots = refl

${name}_form : IsForm $of$size ${name}_seen ${camel}Fits $is_at
${name}_form = record {
  length_is = λ x at f. length-$name x$blanks;
  room_is = λ x. sized_room (${name}_seen x) (three_sized (${name}_seen x).fields.wire _ _ _ _ _ _ $sized);
  reads = λ F o at x f pos low row parts.$reads;
}

pub $read : $free(xs : List $values) → All ${camel}Fits xs → IsReadBack $free_is(streams.$stream xs)
$unfolding$read xs fits =
    let c = length (map ${name}_seen xs) in
$let_text    record {
      type_is = refl;
      type_fits = omega arith;
      body = λ at far. length-listed ${name}_form at $first $text xs ($length c) fits;
      behind = length-parts ${name}_form xs;
      memory = refl;
      stands = λ F at place far named pos e low near there behind beyond.
          let shape = $shape (omega (arith, low, e)) there in
          records_stand ${name}_form F kinds.$stream at $first ($first + c * $size) place $text xs ($length c) refl (omega arith) \
shape fits (omega (arith, pos, e)) low there behind;
    }
""")

READS = Template("""
$lets      let back = ${name}_back x $slots f $fits in
      let read : $at F o ≡ ${name}_record x $slots = stands_record $at $size $at-part F o _ _ (length-$name x $slots) back row in
${behind}      record {
        fields = read ∙ ap (λ (r : $struct). ${name}_record x $places) (sym read);
$members      }""")


def is_made(shape: Shape) -> bool:
    """Whether the proof follows from the table. That of a single record, or of a record with an array, is written by hand."""
    return shape.kind.form in HEADS and not shape.arrays


# ---- a record


def number_back(member: Member, of: str) -> str:
    return f"number_at-le {member.bits // 8} {of}.{member.name} [] f.{member.name} i"


def field_back(member: Member) -> str:
    """Why a field is read as it was written."""
    if member.bits:
        return number_back(member, "x")
    if not member.slot:
        return f"{structure(member.type).module}_back x.{member.name} f.{member.name} i"
    if member.is_name:
        return f"number_at-le {NUMBERS[member.type] // 8} {marked(member.name)} [] {member.name}_fits i"
    return f"location_back {marked(member.name)} {member.name}_fits i"


def nested_text(struct: str) -> str:
    """The same of a structure inside the record."""
    fields = "".join(f"  {marked(one.name)} = {number_back(one, 'v')};\n" for one in nested_members(struct))
    return NESTED.substitute(name=structure(struct).module, struct=struct, fits=nested_fits(struct), fields=fields)


def fits_text(shape: Shape, at: int, member: Member) -> str:
    """Why the place of a name or a part fits its field."""
    if member.is_part:
        return f"(location_fits {STANDS_AT[at]} x.{member.name} f.{member.name} (omega (arith, low)))"
    return "fits" if shape.kind.has_wide_name else "(address_fits at x.name (omega (arith, low)))"


def room(member: Member) -> str:
    """How many bytes a name or a part takes."""
    return f"{'name' if member.is_name else 'part'}_room ({member.size_function} x.{member.name})"


def lets_text(shape: Shape) -> str:
    """Where the parts stand, and what the record says of that."""
    lines = [f"{STANDS_AT[at + 1]} = {STANDS_AT[at]} + {room(one)}" for at, one in enumerate(shape.slots[:-1])]
    for at, one in enumerate(shape.slots):
        call = "address_of" if one.is_name else "location_of"
        lines.append(f"{marked(one.name)} = {call} ({one.size_function} x.{one.name}) {STANDS_AT[at]}")
    text = "".join(f"      let {line} in\n" for line in lines)
    if shape.kind.has_wide_name:
        text += "      -- an address of 32 bits fits a field of 64\n"
        text += "      let fits : name < 2 ^ 64 = omega (arith, address_fits at x.name (omega (arith, low))) in\n"
    return text


def behind(shape: Shape, at: int) -> str:
    """That the parts from this one on stand behind those before it."""
    if at == 0:
        return "parts"
    before = "behind" if at == 2 else "parts"
    one = shape.slots[at - 1]
    return f"behind_{'name' if one.is_name else 'part'} F {STANDS_AT[at - 1]} x.{one.name} _ {before}"


def member_text(shape: Shape, at: int, member: Member) -> str:
    """Why a name or a part stands where the record says."""
    place, call = STANDS_AT[at], behind(shape, at)
    if at == 1 and shape.slots[2:]:
        call = "behind"
    stands = f"(stands_part F {place} _ _ {f'({call})' if ' ' in call else call})"
    positive = "pos" if at == 0 else "(omega (arith, pos))"
    low = " (omega (arith, low))" if member.is_name else ""
    is_there = f"(is_{'name' if member.is_name else 'part'} F {place} x.{member.name} f.{member.name} {positive}{low} {stands})"
    stands_at = f"(λ (r : {shape.kind.struct}). {member.stands_definition} F r.{member.path} x.{member.name})"
    line = f"{marked(member.name)} = subst {stands_at} (sym read)"
    return f"        {line}{' ' if at == 0 else chr(10) + ' ' * 12}{is_there};\n"


def reads_text(shape: Shape, size: int) -> str:
    if not shape.kind.value:
        return f" stands_record {shape.at} {size} {shape.at}-part F o _ _ (length-{shape.name} x) ({shape.name}_back x f) row"
    return READS.substitute(
        vars(shape) | {"struct": shape.kind.struct, "size": size},
        lets=lets_text(shape),
        slots=" ".join(marked(one.name) for one in shape.slots),
        fits=" ".join(fits_text(shape, at, one) for at, one in enumerate(shape.slots)),
        behind=f"      let behind = {behind(shape, 1)} in\n" if shape.slots[2:] else "",
        places=" ".join(f"r.{one.path}" for one in shape.slots),
        members="".join(member_text(shape, at, one) for at, one in enumerate(shape.slots)),
    )


def form_text(shape: Shape, size: int) -> str:
    """A record of the kind, and a list of them."""
    kind, name, has_value = shape.kind, shape.name, bool(shape.kind.value)
    slots = "".join(f" {marked(one.name)}" for one in shape.slots)
    locations = " ".join(marked(one.name) for one in shape.parts)
    bits = 64 if kind.has_wide_name else 32
    low = [f" → name < 2 ^ {bits}"] * bool(shape.names) + [f" → LocationFits {marked(one.name)}" for one in shape.parts]
    record = f"{name}_record x{slots}" if has_value else "x"
    _, first, _ = HEADS[kind.form]
    is_counted, value = kind.form == "Counted", value_in_specs(kind)
    rows = f"(rows place (map {name}_seen xs))"
    head = snake(HEADS[kind.form][0])
    return FORM.substitute(
        vars(shape) | {"stream": kind.stream, "wire": kind.module, "size": size, "first": first, "record": record, "slots": slots},
        value=value,
        values=f"({value})" if has_value else value,
        places=" (name : ℕ)" * bool(shape.names) + f" ({locations} : Location)" * bool(shape.parts),
        low="".join(low),
        low_names="".join(f" {one.name}_fits" for one in shape.slots),
        in_file=f"({record})" if has_value else record,
        fields="".join(f"  {line};\n" for line in fields_in_specs(shape, field_back)),
        of=f"{{X = {value}}} " if has_value else "",
        is_at=is_name(kind) if has_value else f"(λ F o x. {shape.at} F o ≡ x)",
        blanks=" _" * len(shape.slots),
        sized=sizes_told(kind, "x"),
        reads=reads_text(shape, size),
        read=read_name(kind),
        free="" if has_value else "{Z : Type 0} ",
        free_is="" if has_value else "{Z = Z} ",
        unfolding="unfolding shape_of\n" * is_counted,
        let_text="" if is_counted else f"    let text = {head}_bytes (head c) in\n",
        text="(le 4 c)" if is_counted else "text",
        length="length-le 4" if is_counted else "length-head",
        shape=f"counted_shape F at {size} c {rows} _" if is_counted else f"head_shape F at c {rows}",
    )


# ---- the file


def proof_text(shape: Shape) -> str:
    """The whole file."""
    kind, size = shape.kind, structure(shape.kind.struct).size
    before, first, width = HEADS[kind.form]
    head = snake(before)
    words = {"list": before, "head": head, "first": first, "size": size, "width": width, "bits": width * 8, "stream": kind.stream}
    text = f"-- A list of {kind.structures.replace('`', '')} is written, and read again.\n-- {MADE}\n{uses_text(shape)}\n"
    text += HEAD.substitute(words) if head else ""
    text += "".join(nested_text(struct) for struct in {one.type: None for one in shape.nested})
    form = form_text(shape, size)
    return text + ("module _ {Z : Type 0} where\n" + indent(form, "  ") if kind.value else form)
