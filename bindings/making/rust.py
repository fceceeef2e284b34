"""Rust's declarations: the plain structures and externs, and the records that programs see."""

from __future__ import annotations

from lib.generated import Stretches

from .interface import MADE, Argument, Call, Enum, Field, Interface, Structure
from .lines import used_names



def type_of(interface: Interface, base: str) -> str:
    return interface.structures[base].face if base in interface.structures else base


def field_type(interface: Interface, field: Field) -> str:
    base = type_of(interface, field.base)
    return f"[{base}; {field.count}]" if field.count else base


def structure_text(interface: Interface, structure: Structure) -> str:
    fields = "".join(f"    pub {field.name}: {field_type(interface, field)},\n" for field in structure.fields)
    return (
        f"/// `{structure.name}`\n#[repr(C)]\n#[derive(Clone, Copy, Debug, Default, PartialEq, Eq)]\n"
        f"pub struct {structure.face} {{\n{fields}}}"
    )


def asserts_text(structure: Structure) -> str:
    lines = [f"    assert!(size_of::<{structure.face}>() == {structure.size});"]
    for field in structure.fields:
        lines.append(f"    assert!(offset_of!({structure.face}, {field.name}) == {field.offset});")
    return "\n".join(lines)


def extern_parameters(interface: Interface, argument: Argument) -> list[str]:
    base = type_of(interface, argument.base)
    if not argument.is_pointer:
        return [f"{argument.name}: {base}"]
    pointer = f"{argument.name}: *{'mut' if argument.is_written else 'const'} {base}"
    return [pointer, f"{argument.length}: usize"] if argument.length else [pointer]


def safe_parameter(interface: Interface, argument: Argument) -> str:
    base = type_of(interface, argument.base)
    base = f"[{base}]" if argument.length else base
    return f"{argument.name}: {'&mut ' if argument.is_written else '&' if argument.is_pointer else ''}{base}"


def passed(argument: Argument) -> list[str]:
    if not argument.length:
        return [argument.name]
    pointer = "as_mut_ptr" if argument.is_written else "as_ptr"
    return [f"{argument.name}.{pointer}()", f"{argument.name}.len()"]


def spread(before: str, words: list[str], after: str, indent: str, most: int = 100) -> str:
    """Words in parentheses, as rustfmt sets them: on one line where they have at most so many letters."""
    text = ", ".join(words)
    line = f"{indent}{before}({text}){after}"
    if len(line) <= 100 and len(text) <= most:
        return line
    return f"{indent}{before}(\n" + "".join(f"{indent}    {word},\n" for word in words) + f"{indent}){after}"


def extern_text(interface: Interface, call: Call) -> str:
    words = [word for argument in call.arguments for word in extern_parameters(interface, argument)]
    return spread(f"pub fn {call.symbol}", words, " -> u32;", "        ")


def safe_text(interface: Interface, call: Call) -> str:
    """The call over slices and references: what Rust says of these is all that the library asks of its pointers."""
    parameters = [safe_parameter(interface, argument) for argument in call.arguments]
    head = spread(f"pub fn {call.name}", parameters, " -> u32 {", "")
    words = [word for argument in call.arguments for word in passed(argument)]
    body = spread(f"symbols::{call.symbol}", words, "", "        ", 60)
    line = f"    unsafe {{ {body.strip()} }}"
    body = line if "\n" not in body and len(line) <= 100 else f"    unsafe {{\n{body}\n    }}"
    return f"/// `{call.name}` of mdmp.h\n{head}\n    // SAFETY: as `symbols` says.\n{body}\n}}"


def ffi_text(interface: Interface) -> str:
    structures = interface.structures.values()
    return (
        f"//! The plain structures of mdmp.h, and its calls over slices. {MADE}\n\n"
        "use std::mem::{offset_of, size_of};\n\n"
        "/// What `mdmp_abi` returns for the library of this crate.\n"
        f"pub const ABI: u32 = {interface.abi};\n\n"
        "/// The window and the longest name of `MDMP_LIMITS_DEFAULT`.\n"
        f"pub const WINDOW: u32 = {interface.limits['window']};\n"
        f"pub const NAME: u32 = {interface.limits['name']};\n"
        "/// Each limit of `MDMP_LIMITS_UNTRUSTED`.\n"
        f"pub const UNTRUSTED: u64 = {interface.limits['untrusted']:_};\n"
        "/// As a limit: no limit.\n"
        "pub const NO_LIMIT: u64 = u64::MAX;\n\n"
        + "\n\n".join(structure_text(interface, structure) for structure in structures)
        + "\n\n// The layout of the library: no padding, and each field at its offset.\nconst _: () = {\n"
        + "\n".join(asserts_text(structure) for structure in structures)
        + "\n};\n\n"
        "/// What the library exports. The pointers of a call must be of live values, aligned and not NULL. A\n"
        "/// length must be that of its pointer. What is written to must not overlap anything else. Slices and\n"
        "/// references are so, also empty ones. Their content may be anything.\n"
        'mod symbols {\n    use super::*;\n\n    extern "C" {\n'
        + "\n".join(extern_text(interface, call) for call in interface.calls)
        + "\n    }\n}\n\n"
        + "\n\n".join(safe_text(interface, call) for call in interface.calls)
        + "\n"
    )


# ---- records


def sentence(text: str) -> str:
    """A doc comment's text: a word with an underscore is code."""
    words = [f"`{word}`" if "_" in word and word.replace("_", "").isalnum() else word for word in text.split(" ")]
    text = " ".join(words)
    text = text[0].upper() + text[1:]
    return text if text.endswith(".") else text + "."


def variant(enum: Enum, name: str) -> str:
    return "".join(word.capitalize() for word in enum.short(name).split("_"))


def enum_text(enum: Enum) -> str:
    values = [(variant(enum, name), number, doc) for name, number, doc in enum.values]
    return (
        f"/// {enum.doc}\n#[derive(Clone, Copy, Debug, PartialEq, Eq, Hash)]\n"
        f"#[non_exhaustive]\npub enum {enum.face} {{\n"
        + "".join(f"    /// {sentence(doc)}\n    {name},\n" for name, _, doc in values)
        + "    /// A number that this crate has no name for.\n    Unknown(u32),\n}\n\n"
        + f"impl From<u32> for {enum.face} {{\n    fn from(number: u32) -> Self {{\n        match number {{\n"
        + "".join(f"            {number} => {enum.face}::{name},\n" for name, number, _ in values)
        + f"            other => {enum.face}::Unknown(other),\n        }}\n    }}\n}}"
    )


def members(interface: Interface, structure: Structure) -> list[tuple[str, str, str, str]]:
    """Of each member of a record: its name, its type, how it comes of the plain structure, and its doc."""
    made = []
    for field in structure.shown:
        name, raw = field.name, f"raw.{field.name}"
        if field.base in interface.structures:
            made.append((name, interface.structures[field.base].face, f"{raw}.into()", field.doc))
        elif field.enum:
            made.append((name, field.enum.face, f"{raw}.into()", field.doc))
        elif structure.is_halved(field):
            value = f"u128::from({raw}) | u128::from(raw.{name}_high) << 64"
            made.append((name, "u128", value, field.doc.split(":")[0]))
        else:
            made.append((name, field_type(interface, field), raw, field.doc))
    return made


def record_text(interface: Interface, structure: Structure) -> str:
    found = members(interface, structure)
    return (
        f"/// {structure.doc}\n#[derive(Clone, Copy, Debug, PartialEq, Eq)]\n"
        f"#[non_exhaustive]\npub struct {structure.face} {{\n"
        + "".join(f"    /// {sentence(doc)}\n    pub {name}: {kind},\n" for name, kind, _, doc in found)
        + f"}}\n\nimpl From<ffi::{structure.face}> for {structure.face} {{\n"
        + f"    fn from(raw: ffi::{structure.face}) -> Self {{\n        {structure.face} {{\n"
        + "".join(f"            {name}: {value},\n" for name, _, value, _ in found)
        + "        }\n    }\n}"
    )


def records_text(interface: Interface) -> str:
    return (
        f"//! Records and numbers as programs see them. {MADE}\n\nuse crate::ffi;\n\n"
        + "\n\n".join(enum_text(enum) for enum in interface.enums.values())
        + "\n\n"
        + "\n\n".join(record_text(interface, structure) for structure in interface.records)
        + "\n"
    )


# ---- stretches of files that are written by hand, and what tests know of each table


def put_crate(files: Stretches, interface: Interface) -> None:
    """What the crate uses and gives out, and the methods of `Dump` that give records."""
    faces = {structure.face for structure, _ in interface.tables}
    others = {"Extent", "FaultKind", "Header", "NamePlace", "NameState", "Place", "Stream", "SymbolKind"}
    files.put("bindings/rust/src/dump.rs", "\nuse crate::records::", ";\n", used_names("use crate::records", sorted(faces | others)))
    rows = [f"    /// {table.face_doc}\n    {table.name}: {table.call} gives {structure.face};\n" for structure, table in interface.listed]
    files.put("bindings/rust/src/dump.rs", "\ntables! {\n", "}", "".join(rows))
    shown = {enum.face for enum in interface.enums.values()} | {structure.face for structure in interface.records}
    files.put("bindings/rust/src/lib.rs", "\npub use records::", ";\n", used_names("pub use records", sorted(shown - {"Status"})))


def put_page(files: Stretches, interface: Interface) -> None:
    """The methods, in a list of what there is."""
    names = ", ".join(f"`{table.name}()`" for _, table in interface.listed)
    files.put("docs/rust.md", "\n| records | ", " |", names)


def tables_text(interface: Interface) -> str:
    """A macro for the tests."""
    rows = []
    for structure, table in interface.tables:
        symbols = [field for field, part in table.parts if part == "MDMP_PART_CODEVIEW"]
        rows.append(f"        $put!($($given)*, {table.name}, [{' '.join(structure.names)}], [{' '.join(symbols)}]);\n")
    return (
        f"// {MADE}\n\n"
        "// Hands each table to a macro: its method, the members of its records that are names, and those that are CodeView records.\n"
        "macro_rules! each_table {\n    ($put:ident, $($given:tt)*) => {\n" + "".join(rows) + "    };\n}\n"
    )
