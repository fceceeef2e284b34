"""docs/reference/names.md, of names.toml."""

from __future__ import annotations

from .names import Codes, Group, Names

INTRO = """
# Names of numbers

This page has the numbers of a dump that have names, and the headers that name them.
`bindings/generate` makes it from [names.toml](../../bindings/names.toml).
`mdmp.names` of the [Python package](../python.md) has them as types, and [HTML pages](../pages.md) show them.
A number that has no name here is printed as it is.

The PlatformId of MINIDUMP_SYSTEM_INFO says which names the code of an exception has:
"""

TEXTS = """
`exception_name` of `mdmp.names` makes one text of the code and the flags of an exception:

- On Windows it is the name of the code: `STATUS_ACCESS_VIOLATION`.
- On the other platforms of the table, the name of the flags follows, or their number: `SIGSEGV / SEGV_MAPERR`.
- Flags of 0 are left out, since 0 is also written if the flags are not known.
"""


def table(heads: list[str], rows: list[list[str]]) -> str:
    lines = ["| " + " | ".join(heads) + " |", "|" + "---|" * len(heads)]
    return "\n".join(lines + ["| " + " | ".join(row) + " |" for row in rows])


def cell(name: str) -> str:
    return f"`{name}`" if name else ""


def group_text(group: Group, names: Names) -> str:
    shows_words, shows_also = group.also == "words", group.also == "constant"
    kind = "IntFlag" if group.flags else "IntEnum"
    parts = [f"## {group.title}", f"{group.doc} In Python: `{group.face}`, an {kind}."]
    parts += [group.note] if group.note else []
    for part in group.parts:
        has_also = shows_words or (shows_also and any(row.also for row in part.rows))
        heads = ["number", "name"] + (["in a text" if shows_words else group.also_source] if has_also else [])
        rows = [
            [part.told(row.number), cell(row.name)]
            + ([row.also if shows_words else cell(row.also)] if has_also else [])
            for row in part.rows
        ]
        parts += [f"From {part.source}{'. ' + part.note if part.note else ':'}", table(heads, rows)]
    return "\n\n".join(parts + [codes_text(codes) for codes in names.codes_of(group)])


def codes_text(codes: Codes) -> str:
    rows = [[cell(code), codes.told(flags), cell(name)] for code, flags, name in codes.rows]
    return f"### {codes.title}\n\nFrom {codes.source}:\n\n" + table(["code", "flags", "name"], rows)


def platforms_text(names: Names) -> str:
    """For each platform, where its exception codes are."""
    rows = [
        [row.also, part.told(row.number), cell(row.name), link(group)]
        for group in names.groups
        for row, part in names.group("platforms").rows
        if row.name in group.platforms
    ]
    return table(["platform", "platform id", "name", "exception codes"], rows)


def link(group: Group) -> str:
    return f"[{group.title}](#{group.title.lower().replace(' ', '-')})"


def page_text(names: Names) -> str:
    groups = [group_text(group, names) for group in names.groups]
    parts = [INTRO.strip("\n"), platforms_text(names), TEXTS.strip("\n"), *groups]
    return "\n\n".join(parts) + "\n"
