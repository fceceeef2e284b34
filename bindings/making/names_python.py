"""Python's types and tables of names.toml."""

from __future__ import annotations

from .names import MADE, Codes, Group, Names



def group_text(group: Group) -> str:
    lines = [f"class {group.face}({'IntFlag' if group.flags else 'Numbers'}):", f'    """{group.doc}"""', ""]
    for row, part in group.rows:
        lines.append(f"    {row.name} = {part.told(row.number)}")
        if row.also and group.also == "constant":
            lines.append(f"    {row.also} = {row.name}")
    return "\n".join(lines)


def words_text(group: Group) -> str:
    lines = [f"{group.name.upper()}: dict[int, str] = {{"]
    lines += [f'    {part.told(row.number)}: "{row.also}",' for row, part in group.rows]
    return "\n".join([*lines, "}"])


def codes_text(codes: Codes) -> str:
    lines = [f"{codes.name.upper()}: dict[tuple[int, int], str] = {{"]
    for code, flags, name in codes.rows:
        lines.append(f'    ({codes.group.face}.{code}, {codes.told(flags)}): "{name}",')
    return "\n".join([*lines, "}"])


def exceptions_text(names: Names) -> str:
    """Which type a platform's exception codes have, and which table has the names of a record's flags."""
    groups = [group for group in names.groups if group.platforms]
    platform, architecture = names.group("platforms").face, names.group("architectures").face
    lines = ["ExceptionCode = " + " | ".join(group.face for group in groups), ""]
    lines += ["# The type of a platform's exception codes.", "EXCEPTIONS: dict[int, type[ExceptionCode]] = {"]
    lines += [f"    {platform}.{name}: {group.face}," for group in groups for name in group.platforms]
    lines += ["}", ""]
    lines.append("# The names of flags, by the type of the code and the architecture. None is any architecture.")
    lines.append("FLAGS: dict[tuple[type[ExceptionCode], int | None], dict[tuple[int, int], str]] = {")
    for codes in names.codes:
        keys = [f"{architecture}.{name}" for name in codes.architectures] or ["None"]
        lines += [f"    ({codes.group.face}, {key}): {codes.name.upper()}," for key in keys]
    return "\n".join([*lines, "}"])


def names_text(names: Names) -> str:
    faces = sorted(group.face for group in names.groups)
    return (
        f'"""Numbers of a dump that have names in headers. {MADE}"""\n\n'
        "from __future__ import annotations\n\n"
        "from enum import IntFlag\n\n"
        "from ._parts import Numbers\n\n"
        "__all__ = [\n" + "".join(f'    "{face}",\n' for face in faces) + "]\n\n\n"
        + "\n\n\n".join(group_text(group) for group in names.groups)
        + "\n\n\n# What the numbers are called in a text.\n"
        + "\n".join(words_text(group) for group in names.groups if group.also == "words")
        + "\n\n# The names of the flags of an exception record, by its code and its flags.\n"
        + "\n".join(codes_text(codes) for codes in names.codes)
        + f"\n\n{exceptions_text(names)}\n"
    )
