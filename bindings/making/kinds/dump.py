"""What mdmp_dump says of the streams of each kind. Here is its code."""

from __future__ import annotations

from collections.abc import Iterable

from lib.generated import Stretches, filled

from . import dump_answers, dump_cases, dump_laid, dump_proofs, dump_specs
from .naming import records_name, value_type
from .places import line_each, put_among, put_used
from .table import Kind, Kinds

SOURCES = "crates/mdmp_dump/src"


def put_dump(files: Stretches, kinds: Kinds) -> None:
    """All of it."""
    put_sources(files, kinds)
    dump_specs.put_specs(files, kinds)
    dump_proofs.put_proofs(files, kinds)
    dump_laid.put_laid(files, kinds)
    dump_answers.put_answers(files, kinds)
    dump_cases.put_cases(files, kinds)


def variant_of(kind: Kind) -> str:
    value = value_type(kind)
    held = f"Records<{value}, A>" if kind.is_list else value
    return f"    /// `{kind.header}`, {kind.type}.\n    {kind.stream}({held}),"


def kinds_in_brackets(kinds: Iterable[Kind]) -> str:
    """Their names, between brackets that stand 12 letters from the left."""
    names = ", ".join(kind.stream for kind in kinds).split(" ")
    return "\n".join(filled(names, " ", 99, " " * 20)).strip()


def arm_of(kind: Kind) -> str:
    """The arm that reads a stream of the kind."""
    records, call = records_name(kind), "rows" if kind.is_list else "single"
    stream = f"Some(Stream::{kind.stream}({records}))" if kind.is_list else f"{records}.map(|x| Stream::{kind.stream}(x))"
    return (
        f"        {kind.type} => {{\n"
        f"            let ({records}, next) = reader.{call}::<{value_type(kind)}>()?;\n"
        f"            Ok(({stream}, next))\n"
        "        }"
    )


def put_value_uses(files: Stretches, name: str, before: str, kinds: Kinds) -> None:
    """The `use` lines of the values, behind what stands before them, and of the records that are their own values."""
    put_among(files, name, before, "\n/// ", [f"use crate::{kind.value_module}::{kind.value};\n" for kind in kinds.with_values])
    put_used(files, name, "use mdmp_wire", [kind.struct for kind in kinds.without_values])


def put_sources(files: Stretches, kinds: Kinds) -> None:
    """The variants of a stream, how each is read, and the names that the crate has and hands out."""
    dump, reading, crate = f"{SOURCES}/dump.rt", f"{SOURCES}/read.rt", f"{SOURCES}/lib.rt"
    files.put(dump, "    Unused,\n", "    /// A stream of another type", line_each(kinds.by_type, variant_of))
    lists, singles = kinds_in_brackets(kinds.lists), kinds_in_brackets(kinds.singles)
    files.put(dump, " " * 12 + "@kinds [", "]\n            $stream", f"{lists}]\n            [{singles}")
    put_value_uses(files, dump, "//! A dump, and its streams.\n\n", kinds)
    files.put(reading, "Ok((Some(Stream::Unused), next))\n        }\n", "        _ =>", line_each(kinds.by_type, arm_of))
    put_value_uses(files, reading, "read_refusal, refusal_of, stream_steps};\n\n", kinds)
    put_among(files, crate, "\n#![tactic(auto)]\n\n", "\npub use", [f"mod {kind.value_module};\n" for kind in kinds.by_type])
    values = [f"pub use crate::{kind.value_module}::{kind.value};\n" for kind in kinds.with_values]
    put_among(files, crate, "pub use crate::bytes::Bytes;\n", "", values)
