"""docs/reference/surroundings.md: what fails in the tests of each call, by the names of the tests and surroundings.toml."""

from __future__ import annotations

import re
import textwrap
import tomllib
from dataclasses import dataclass
from typing import Any

from lib.generated import Mistake

from .definitions import CRATES, ROOT

TABLE = ROOT / "docs/reference/surroundings.toml"

# What a test makes fail, by its name: the first of these that fits its module and its own words.
SHOWN = [
    ("the bytes of a heap", r"heaps::"),
    ("the memory limit", r"memory_limit::"),
    ("the read limit", r"budget"),
    ("no allocation", r"for_no_memory|takes_no_memory"),
    ("an allocation", r"growth|name_was_refused|want_of_memory|memory::memory_is"),
    ("a truncated file", r"prefixes::"),
    ("a sink that stops", r"sinks::|sink_stops"),
    ("success", r"succeed|are_read$|_read_and_written$|is_read_back|copy_stands|by_no_fetch"),
    ("a call of the system", r"system_calls::"),
    ("a write", r"output|an_escape|line_outs::"),
    ("a read", r"store|_may_fail|read_failed|small_reads|windows::window_is_as_it_was"),
]
MOST = 300  # how many characters of calls or of tests a row has


@dataclass(frozen=True)
class Line:
    """A row of the page."""

    calls: list[str]
    shown: str
    tests: list[str]

    def text(self) -> str:
        return f"| {quoted(self.calls)} | {self.shown} | {quoted(self.tests)} |"


def quoted(words: list[str]) -> str:
    return ", ".join(f"`{word}`" for word in words)


def path_of(crate: str, test: str) -> tuple[str, str]:
    """The file of a test, and its function there."""
    crate, _, name = test.rpartition(" ") if " " in test else (crate, "", test)
    module, _, function = name.rpartition("::")
    return f"{crate}/src/{module.replace('::', '/')}.rt", function


def shown_by(files: dict[str, str], crate: str, test: str) -> str:
    """What a test shows. A test that is not there is a mistake."""
    if "/" in test:
        if test not in files or not (ROOT / test).exists():
            raise Mistake(f"docs/reference/surroundings.toml: no file {test}, or no word on it")
        return files[test]
    path, function = path_of(crate, test)
    if not (CRATES / path).exists() or f"fn {function}(" not in (CRATES / path).read_text(encoding="utf-8"):
        raise Mistake(f"docs/reference/surroundings.toml: no test {function} in crates/{path}")
    for words, pattern in SHOWN:
        if re.search(pattern, test):
            return words
    raise Mistake(f"docs/making/surroundings.py: what does {test} make fail?")


def pieces(words: list[str]) -> list[list[str]]:
    """A list in as many parts as keep the lines of the page short."""
    made: list[list[str]] = [[]]
    for word in words:
        if made[-1] and len(quoted([*made[-1], word])) > MOST:
            made.append([])
        made[-1].append(word)
    return made


def rows(files: dict[str, str], crate: str, row: dict[str, Any]) -> list[Line]:
    """The rows of some calls: one for each thing that their tests make fail."""
    calls, tests = row["calls"], row.get("tests", [])
    if "nothing" in row:
        first = [Line(part, "nothing" if at == 0 else "", []) for at, part in enumerate(pieces(calls))]
        return [*first, *[Line([], shown_by(files, crate, test), [test]) for test in tests]]
    by: dict[str, list[str]] = {}
    for test in tests:
        shown = shown_by(files, crate, test)
        by.setdefault(row.get("shows", shown), []).append(test)
    made = [Line([], shown, part) for shown, found in by.items() for part in pieces(found)]
    heads = pieces(calls)
    made += [Line([], "", []) for _ in range(len(heads) - len(made))]
    return [Line(heads[at] if at < len(heads) else [], line.shown, line.tests) for at, line in enumerate(made)]


def group_text(files: dict[str, str], group: dict[str, Any]) -> str:
    crate = group["crate"]
    source = group.get("tests", f"crates/{crate}/src")
    lines = ["| calls | what the tests make fail | tests |", "|---|---|---|"]
    notes = []
    for row in group["row"]:
        lines += [line.text() for line in rows(files, crate, row)]
        said = row.get("nothing") or row.get("note")
        if said:
            more = f" and {len(row['calls']) - 1} more" if len(row["calls"]) > 1 else ""
            notes.append(f"- `{row['calls'][0]}`{more}: {said}")
    return f"## {group['title']}: `{crate}`\n\nTests: [{source}](../../{source}).\n\n" + "\n".join(lines) + "\n\n" + "\n".join(notes)


def surroundings_text() -> str:
    with open(TABLE, "rb") as file:
        data = tomllib.load(file)
    groups = [group_text(data["files"], group) for group in data["group"]]
    return INTRO.strip("\n") + "\n\n" + "\n\n".join(groups) + "\n"


INTRO = """
# Bad surroundings

This page has each public call, what its tests make fail, and the tests.
`docs/generate` makes it from the names of the tests and from [surroundings.toml](surroundings.toml).
The test [tests/surroundings](../../tests/surroundings) compares the calls with the public calls of the crates, and looks up each test.
What calls return when something fails is [proved](../promises.md). These tests show that each failure is reached.

| the tests make fail | how |
|---|---|
| an allocation | Allocation number k fails, for k from 0 on, until the call succeeds. The call gives back what it took. |
| no allocation | A heap that counts sees no allocation after opening. |
| the bytes of a heap | For a large file, a heap that counts sees the bytes that [promises.md](../promises.md#limits) states, each once. With a limit that is one byte too small, it sees only those before the test of the limit. |
| a read | The source gives one byte per call, and call number k fails. |
| a write | The output takes one byte per call, and call number k fails. |
| a call of the system | For files on disk, call number k fails. |
| a sink that stops | The sink stops at item or row number k. |
| the read limit, the memory limit | The limit is one byte too small, or is reached later. |
| a truncated file | Every first part of a small dump is read. |
| success | The call succeeds with ample memory. |
| nothing | Nothing can fail. A note below the table says why. |

A row without calls continues the row above it.

A run that fails returns its own error. It has given or written a first part, and hands its source back if the call does.
"""
