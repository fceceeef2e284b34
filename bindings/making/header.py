"""The C header."""

from __future__ import annotations

import textwrap

from lib.generated import Stretches, filled

from .interface import MADE, Argument, Call, Enum, Interface, Structure
from .lines import WIDTH, wrapped

TYPES = {"bool": "bool", "u8": "uint8_t", "u32": "uint32_t", "u64": "uint64_t"}


def type_of(base: str) -> str:
    return TYPES.get(base, base)


def comment(text: str) -> str:
    """A comment of its own lines."""
    lines = textwrap.wrap(text, WIDTH - 6)
    return "/* " + "\n * ".join(lines) + " */"


def columns(rows: list[tuple[str, str]]) -> str:
    """Lines of code, each with a comment behind it, all in one column."""
    width = max(len(code) for code, _ in rows)
    return "\n".join(f"    {code:<{width}} /* {doc} */" for code, doc in rows)


def enum_text(enum: Enum) -> str:
    last = enum.values[-1][0]
    rows = [(f"{name} = {number}{'' if name == last else ','}", doc) for name, number, doc in enum.values]
    return f"{comment(enum.doc)}\ntypedef enum {enum.name} {{\n{columns(rows)}\n}} {enum.name};"


def structure_text(structure: Structure) -> str:
    rows = []
    for field in structure.fields:
        array = f"[{field.count}]" if field.count else ""
        doc = f"{field.enum.name}: {field.doc}" if field.enum else field.doc
        rows.append((f"{type_of(field.base)} {field.name}{array};", doc))
    return f"{comment(structure.doc)}\ntypedef struct {structure.name} {{\n{columns(rows)}\n}} {structure.name};"


def asserts_text(structure: Structure) -> str:
    name = structure.name
    lines = [f'MDMP_ASSERT_(sizeof({name}) == {structure.size}, "{name}");']
    for field in structure.fields:
        lines.append(f'MDMP_ASSERT_(offsetof({name}, {field.name}) == {field.offset}, "{name}.{field.name}");')
    return "\n".join(lines)


def parameters(argument: Argument) -> list[str]:
    if not argument.is_pointer:
        return [f"{type_of(argument.base)} {argument.name}"]
    const = "" if argument.is_written else "const "
    pointer = f"{const}{type_of(argument.base)} *{argument.name}"
    return [pointer, f"size_t {argument.length}"] if argument.length else [pointer]


def declaration(call: Call, name: str, after: str) -> str:
    words = [word for argument in call.arguments for word in parameters(argument)] or ["void"]
    return wrapped(f"{'' if after == ';' else 'static inline '}uint32_t {name}", words, after)


def inline_text(call: Call) -> str:
    """The function of the plain name: beside a length of 0 the library gets an address of its own."""
    lines, words = [], []
    for argument in call.arguments:
        if argument.length is None:
            words.append(argument.name)
            continue
        lines.append(f"    static {type_of(argument.base)} no_{argument.name};")
        words += [f"{argument.length} != 0 ? {argument.name} : &no_{argument.name}", argument.length]
    lines.append(wrapped(f"return {call.symbol}", words, ";", "    "))
    return f"{comment(call.doc)}\n{declaration(call, call.name, ' {')}\n" + "\n".join(lines) + "\n}"


def limits_text(interface: Interface) -> str:
    """The limits that a caller begins with."""
    sizes = f"{interface.limits['window']}, {interface.limits['name']}"
    none, most = ["MDMP_NO_LIMIT"] * 3, [str(interface.limits["untrusted"])] * 3
    return (
        "/* As a limit: no limit. */\n#define MDMP_NO_LIMIT UINT64_MAX\n\n"
        "/* The window and the longest name of the command, and no other limit. */\n"
        f"#define MDMP_LIMITS_DEFAULT {{ {sizes}, {', '.join(none)} }}\n\n"
        "/* This window and this longest name, and limits for a file from a stranger. */\n"
        f"#define MDMP_LIMITS_UNTRUSTED {{ {sizes}, {', '.join(most)} }}"
    )


def header_text(interface: Interface) -> str:
    page = "\n".join(f" * {line}".rstrip() for line in interface.page.splitlines())
    plain = [call for call in interface.calls if call.name == call.symbol]
    others = [call for call in interface.calls if call.name != call.symbol]
    parts = [
        f"/*{page[2:]}\n */",
        f"/* {MADE} */\n#ifndef MDMP_H\n#define MDMP_H",
        "#include <stdbool.h>\n#include <stddef.h>\n#include <stdint.h>",
        '#ifdef __cplusplus\nextern "C" {\n#endif',
        f"/* What mdmp_abi() returns for the library of this header. */\n#define MDMP_ABI {interface.abi}",
        "/* The version of this header, as mdmp_version() returns it: major << 16 | minor << 8 | patch. */\n"
        f"#define MDMP_VERSION 0x{interface.version_number:06x}",
        *[enum_text(enum) for enum in interface.enums.values()],
        *[structure_text(structure) for structure in interface.structures.values()],
        limits_text(interface),
        *[f"{comment(call.doc)}\n{declaration(call, call.name, ';')}" for call in plain],
        "/* What the library exports. These take no NULL, not even with a length of 0: call the functions below. */\n"
        + "\n".join(declaration(call, call.symbol, ";") for call in others),
        *[inline_text(call) for call in others],
        "/* The layout of the library: no padding, and each field at its offset. */\n"
        "#ifdef __cplusplus\n"
        "#define MDMP_ASSERT_(condition, words) static_assert(condition, words)\n"
        "#else\n"
        "#define MDMP_ASSERT_(condition, words) _Static_assert(condition, words)\n"
        "#endif\n"
        'MDMP_ASSERT_(sizeof(bool) == 1, "bool");\n'
        + "\n".join(asserts_text(structure) for structure in interface.structures.values())
        + "\n#undef MDMP_ASSERT_",
        "#ifdef __cplusplus\n}\n#endif",
        "#endif",
    ]
    return "\n\n".join(parts) + "\n"


def put_page(files: Stretches, interface: Interface) -> None:
    """The calls that give records, in a list of what there is, and among the calls whose surroundings fail in tests."""
    names = ", ".join(f"`{table.call}`" for _, table in interface.tables)
    files.put("docs/c.md", "| records, as an array | ", " |", names)
    symbols = filled([f'"{table.call}_",' for _, table in interface.tables], " ", 120, "    ")
    text = "".join(f"{line}\n" for line in symbols)
    files.put("docs/reference/surroundings.toml", '"mdmp_list_part_", "mdmp_copy_",\n', '    "mdmp_name_", "mdmp_memory_"', text)


def map_text(interface: Interface) -> str:
    """The names that the shared library exports."""
    names = "".join(f"    {call.symbol};\n" for call in interface.calls)
    return (
        f"# {MADE}\n"
        f"MDMP_{interface.abi} {{\nglobal:\n{names}local:\n    *;\n}};\n"
    )
