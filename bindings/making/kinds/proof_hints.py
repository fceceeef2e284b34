"""The hints of mdmp_dump for the prover: functions that do nothing, by which the numbers of each kind's values are known to fit."""

from __future__ import annotations

from string import Template

from lib.generated import Mistake

from ..lines import used, used_definitions
from .members import Member, Shape, nested_fits, nested_members
from .naming import DUMP, fits_name, generic, value_type
from .records import NUMBERS
from .table import MADE

ELEMENTS = Template("""\
/// Each value has $bits bits.
fn values_fit(values: &[$type])
    ensures { (i : ℕ) → slice_index values.now i < 2 ^ $bits }
{}
""")

COUNT = Template("""\
/// An array has as many $what as its type says.
fn ${what}_are_$count($what: &[$type; $count])
    ensures { length $what.now ≡ $count }
{}
""")

FITTING = Template("""\
impl$generic Fitting for $value {
    ghost Fit = { $fits };

    fn fits(&self) {
$lines    }
}
""")


def array_functions(member: Member) -> dict[str, str]:
    """The functions that an array is given to, by name: the elements of an array that is not of bytes fit too."""
    element, count = member.array or ("", 0)
    if element == "u8":
        return {f"bytes_are_{count}": COUNT.substitute(what="bytes", type=element, count=count)}
    return {
        "values_fit": ELEMENTS.substitute(type=element, bits=NUMBERS[element]),
        f"values_are_{count}": COUNT.substitute(what="values", type=element, count=count),
    }


def array_texts(shapes: list[Shape]) -> list[str]:
    """The functions that the arrays of all kinds are given to, each once."""
    made: dict[str, str] = {}
    for shape in shapes:
        for name, text in [pair for member in shape.arrays for pair in array_functions(member).items()]:
            if made.setdefault(name, text) != text:
                raise Mistake(f"{shape.kind.struct} has an array of another type of numbers: {name} can't be of both")
    return list(made.values())


def fitting_text(generic: str, value: str, fits: str, members: list[Member], calls: list[str]) -> str:
    lines = [f"self.{one.name}.fits()" for one in members if one.bits] + calls
    return FITTING.substitute(generic=generic, value=value, fits=fits, lines="".join(f"        {line};\n" for line in lines))


def fittings(shape: Shape) -> list[str]:
    """Why the numbers of the value fit, and of each structure inside it."""
    nested = [fitting_text("", struct, nested_fits(struct), nested_members(struct), []) for struct in shape.own_nested]
    calls = [f"{name}(&self.{one.name})" for one in shape.arrays for name in array_functions(one)]
    calls += [f"name_fits(&self.{one.name})" for one in shape.names]
    calls += [f"self.{one.name}.fits()" for one in shape.nested + shape.parts]
    return [*nested, fitting_text(generic(shape.kind), value_type(shape.kind), fits_name(shape.kind), shape.members, calls)]


# ---- the file


def ghost_uses(shapes: list[Shape]) -> str:
    """The definitions that the contracts name."""
    elements = any(shape.has_elements for shape in shapes)
    prelude = ["◌≡◌"] + ["◌<◌", "◌^◌", "ℕ"] * elements + ["length"] + ["slice_index"] * elements
    uses: dict[str, list[str]] = {"std.specs.Prelude": prelude if any(shape.arrays for shape in shapes) else []}
    for shape in shapes:
        uses[f"{DUMP}.{shape.camel}"] = sorted([fits_name(shape.kind), *map(nested_fits, shape.own_nested)])
    return "".join(f"ghost {line};\n" for line in used_definitions(uses).splitlines())


def uses_text(shapes: list[Shape]) -> str:
    """The values and the structures of records, and the hints that are written by hand."""
    wire = {struct for shape in shapes for struct in shape.own_nested}
    wire |= {shape.kind.struct for shape in shapes if not shape.kind.value}
    uses = {f"crate::{shape.name}": [shape.kind.value] for shape in shapes if shape.kind.value}
    uses["crate::proof_hints"] = ["Fitting"] + ["name_fits"] * any(shape.names for shape in shapes)
    uses |= {"mdmp_wire": sorted(wire), "std::alloc": ["Allocator"]}
    return "".join(used(f"use {path}", names) for path, names in sorted(uses.items()) if names)


def hints_text(shapes: list[Shape]) -> str:
    """The whole file, for all kinds."""
    head = f"//! The numbers of values fit the places that a file has for them: the hints of each kind.\n//! {MADE}\n"
    texts = [text for shape in shapes for text in fittings(shape)]
    return "\n".join([f"{head}{ghost_uses(shapes)}\n{uses_text(shapes)}", *array_texts(shapes), *texts])
