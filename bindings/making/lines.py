"""Long lines of code, broken between their words. What `rt fmt` sets is laid out as it does."""

from __future__ import annotations

from collections.abc import Iterable

from lib.generated import filled

WIDTH = 110  # letters of a line that `rt fmt` does not set
LINE, LIST = 100, 60  # letters of a line that it sets, and of a list on one line


def wrapped(before: str, words: list[str], after: str, indent: str = "") -> str:
    """Words in parentheses behind `before`, over as many lines as it takes."""
    text, line = "", indent + before + "("
    for at, word in enumerate(words):
        piece = word + ("," if at + 1 < len(words) else ")" + after)
        if len(line) + 1 + len(piece) > WIDTH and not line.endswith("("):
            text += line + "\n"
            line = indent + "    " + piece
        else:
            line += piece if line.endswith("(") else " " + piece
    return text + line + ("" if words else ")" + after)


def comment(text: str, indent: str = "") -> str:
    """The comment of what follows, over as many lines as it takes."""
    return "".join(f"{line}\n" for line in filled(text.split(" "), " ", LINE, f"{indent}/// "))


def used(before: str, names: list[str]) -> str:
    """A `use` of names."""
    if len(names) == 1:
        return f"{before}::{names[0]};\n"
    line = f"{before}::{{{', '.join(names)}}};"
    if len(line) <= LINE:
        return f"{line}\n"
    lines = [""]
    for name in names:
        if lines[-1] and len(lines[-1]) + len(name) + 6 < LINE:
            lines[-1] += f" {name},"
        else:
            lines.append(f"{name},")
    return f"{before}::{{\n" + "".join(f"    {line}\n" for line in lines if line) + "};\n"


def used_names(before: str, names: list[str]) -> str:
    """What follows `before::` in a `use` of these names, up to its end."""
    return used(before, names).removeprefix(f"{before}::").removesuffix(";\n")


def use_lines(paths: Iterable[str]) -> list[str]:
    """The lines that bring in definitions of these paths, each path once."""
    return [f"use Rattle.{path}\n" for path in dict.fromkeys(paths)]


def used_definitions(uses: dict[str, list[str]]) -> str:
    """The lines that bring in definitions, by their files. A file without names has a name of its own behind `as`, or no line."""
    return "".join(
        use_lines(f"{path}.{{{', '.join(names)}}}" if names else path for path, names in uses.items() if names or " as " in path)
    )


def listed(before: str, words: list[str], after: str, indent: str, most: int = LIST) -> str:
    """A list, behind the indent of its line: on that line if it has few letters, else with a line for each word."""
    text = ", ".join(words)
    line = before + text + after
    if len(text) <= most and len(indent + line) <= LINE and "\n" not in text:
        return line
    return f"{before}\n" + "".join(f"{indent}    {word},\n" for word in words) + f"{indent}{after}"


def nested_call(before: str, call: str, words: list[str], after: str, indent: str) -> str:
    """A call with these words, whose value is all that another takes."""
    return listed(f"{before}({call}(", words, f")){after}", indent, LIST - len(f"{call}()"))


def literal(name: str, fields: list[str], indent: str) -> str:
    """A structure with its fields."""
    line = ", ".join(fields)
    if len(line) <= 18:
        return f"{name} {{ {line} }}"
    return listed(f"{name} {{", fields, "}", indent, 0)
