"""The lines of `check --parts`: those of `check`, and before that of an entry one for each of its parts outside the file."""

from __future__ import annotations

import json
from collections import defaultdict
from typing import Callable, Iterable

from ._fault import Fault

SHORTEST = 50  # the characters that each line of a part has at least


def text_line(part: Fault) -> str:
    """The line of a part."""
    return f"{part}\n"


def json_line(part: Fault) -> str:
    """The object of a part."""
    assert part.part is not None
    item, kind = str(part.index), part.part.name.lower()
    told = {"line": "part", "entry": part.entry, "item": item, "part": kind, "offset": str(part.offset), "size": str(part.size)}
    return json.dumps(told, separators=(",", ":")) + "\n"


def with_parts(text: str, parts: Iterable[Fault], line: Callable[[Fault], str]) -> str:
    """The text of a check, which has a line for each entry, with the lines of these parts."""
    lost: dict[int | None, list[str]] = defaultdict(list)
    for part in parts:
        lost[part.entry].append(line(part))
    given: list[str] = []
    for entry, own in enumerate(text.splitlines(keepends=True)):
        given += [*lost.pop(entry, ()), own]
    # If a limit ends the check in an entry, the entry has parts and no line of its own.
    return "".join(given + [each for left in lost.values() for each in left])


def first_lines(text: str, most: int) -> str:
    """The lines of a text that together have at most so many characters."""
    return text if len(text) <= most else text[: text.rfind("\n", 0, most) + 1]
