"""Lines of the kinds, put into files that have others too."""

from __future__ import annotations

import re
from collections.abc import Callable, Iterable

from lib.generated import Mistake, Stretches

from ..lines import use_lines, used_names
from .table import Kind

USE = "use Rattle."
OF_DUMP = f"{USE}mdmp_dump.specs"
# A statement, which may go on over further lines.
STATEMENT = re.compile(r"^[^ }\n].*\n(?:[ }].*\n)*", re.M)


def line_each(kinds: Iterable[Kind], line: Callable[[Kind], str]) -> str:
    """A line for each kind."""
    return "".join(f"{line(kind)}\n" for kind in kinds)


# ---- stretches that are made as a whole


def put_arms(files: Stretches, name: str, before: str, indent: str, arms: list[str]) -> None:
    """Puts all arms of a match, whose first line ends a text that the file has once, and begins with this indent."""
    files.put(name, f"{before}{{\n", f"\n{indent}}}\n", "\n".join(arms))


def put_used(files: Stretches, name: str, before: str, names: Iterable[str]) -> None:
    """Puts the names of a `use`."""
    files.put(name, f"{before}::", ";\n", used_names(before, sorted(set(names))))


def put_all_uses(files: Stretches, name: str, before: str, after: str, paths: Iterable[str]) -> None:
    """Puts the lines that bring in definitions of these paths, between two texts."""
    files.put(name, before, after, "".join(use_lines(paths)))


# ---- lines among those that are written by hand


def put_among(files: Stretches, name: str, before: str, after: str, made: Iterable[str]) -> None:
    """Puts lines among those between two texts, where the alphabet has them.

    Every other line stays. So the lines of a kind that left the table stay too: they are taken out by hand.
    """
    behind = files.text(name).partition(before)[2]
    text = behind.partition(after)[0] if after else behind
    standing = STATEMENT.findall(text)
    if "".join(standing) != text:
        raise Mistake(f"{name} has more than lines behind {before!r}")
    files.put(name, before, after, "".join(among(standing, made, r"\w+")))


def put_uses(files: Stretches, name: str, before: str, after: str, paths: Iterable[str]) -> None:
    """Puts the lines that bring in definitions of these paths among others, behind a line."""
    put_among(files, name, f"{before}\n", after, use_lines(paths))


def put_modules(files: Stretches, name: str, kinds: Iterable[Kind]) -> None:
    """Puts the file of each kind among the modules of its folder, behind the first line."""
    first = files.text(name).partition("\n")[0]
    put_among(files, name, f"{first}\n", "", [f"pub mod {kind.value_file}\n" for kind in kinds])


def put_names(files: Stretches, name: str, before: str, made: Iterable[str]) -> None:
    """Puts names among those of one line, between a text and a brace. Every other name stays, as the lines of `put_among` do."""
    standing = files.text(name).partition(before)[2].partition("}")[0]
    files.put(name, before, "}", ", ".join(among(standing.split(", "), made, r"[^\W_]+")))


def among(standing: list[str], made: Iterable[str], words: str) -> list[str]:
    """What stands there in its order, and what is made among it. Words that this pattern finds say the order."""
    made = set(made)
    found = [one for one in standing if one not in made]
    for one in sorted(made, key=lambda text: re.findall(words, text)):
        later = (at for at, other in enumerate(found) if re.findall(words, other) > re.findall(words, one))
        found.insert(next(later, len(found)), one)
    return found
