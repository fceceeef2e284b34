"""docs/reference/summary.md and summary.schema.json: the object that `summary --json` prints."""

from __future__ import annotations

import re
import tomllib
from dataclasses import dataclass
from typing import Any

from lib.generated import Mistake

from .definitions import CRATES, ROOT, definitions, text_of
from .lines import plain, pretty
from .objects import BUILD_ID, DIGITS, NUMBER, SPECS, STAMP_ID, STREAM_NAME, WORDS, constant, hexadecimal, number, wide

TABLE = ROOT / "docs/reference/summary.toml"
SUMMARY_SPECS = CRATES / "mdmp_summary_lines/specs"
Schema = dict[str, Any]


# ---- types


def text(pattern: str) -> Schema:
    return {"type": "string", "pattern": f"^{pattern}$"}


def inside(schema: Schema) -> str:
    """The pattern of a schema, without its ends."""
    return str(schema["pattern"])[1:-1]


def points(bits: int, count: int) -> Schema:
    """So many numbers with points between them."""
    return text("\\.".join([NUMBER % DIGITS[bits]] * count))


def words_of(name: str) -> list[str]:
    """The texts of a definition that has some."""
    return [text_of(clause.expression) for clause in definitions(SPECS / WORDS[name])[name].clauses if clause.body != "[]"]


def place_line(item: str, kinds: list[str]) -> str:
    """The line of an error of one of these kinds."""
    return f"entry {NUMBER % DIGITS[32]}{item}: ({'|'.join(kinds)}): offset {NUMBER % DIGITS[64]} size {NUMBER % DIGITS[64]}"


def error_line() -> str:
    """The first error of an entry: of its stream, or of the name of a record."""
    of_streams, of_names = [[kind for kind in words_of("kind_words") if ("name" in kind) == is_name] for is_name in (False, True)]
    return f"({place_line('', of_streams)}|{place_line(ITEM, of_names)})"


def platforms() -> list[str]:
    """The texts of the platforms."""
    groups = tomllib.loads((ROOT / "bindings/names.toml").read_text(encoding="utf-8"))["group"]
    parts = next(group["part"] for group in groups if group["name"] == "platforms")
    return [row[2] for part in parts for row in part["rows"]]


ITEM = f" item {NUMBER % DIGITS[64]}"
NAME = inside(STREAM_NAME)
TYPES: dict[str, Schema] = {
    "string": {"type": "string"},
    "name": {"type": "string"},
    "0": {"const": 0},
    "constant": STREAM_NAME,
    "platform": {"enum": platforms()},
    "processor": {"enum": ["x86", "amd64", "arm", "arm64"]},
    "access": {"enum": ["read", "write", "execute"]},
    "version": points(16, 4),
    "version of a system": points(32, 3),
    "code id": text(f"({inside(BUILD_ID)}|{inside(STAMP_ID)})"),
    "debug id": text(f"([0-9A-F]{{32}}(0|[1-9a-f][0-9a-f]{{0,7}})|{inside(STAMP_ID)})"),
    "error line": text(error_line()),
    "part line": text(place_line(ITEM, [f"{part} outside the file" for part in words_of("part_words")])),
    "type of a crash": text(f"({NAME}|{inside(hexadecimal(8)[1])})( / {NAME})?"),
    **dict([*map(number, (8, 16, 32, 64)), *map(wide, (64, 128)), *map(hexadecimal, (8, 16))]),
    **dict(map(constant, ("summary", "OK", "context"))),
}


# ---- the table


@dataclass(frozen=True)
class Row:
    """What summary.toml says of a key."""

    path: str
    type: str
    says: str

    @property
    def name(self) -> str:
        return self.path.rpartition(".")[2]

    @property
    def base(self) -> str:
        """The type, if the key is not null."""
        return self.type.removesuffix(" or null")


@dataclass(frozen=True)
class Section:
    title: str
    rows: list[Row]


class Table:
    """summary.toml, compared with the definitions."""

    def __init__(self) -> None:
        with open(TABLE, "rb") as file:
            data = tomllib.load(file)
        self.sections = [Section(one.get("title", ""), [Row(*row) for row in one["rows"]]) for one in data["section"]]
        self.types = {one["name"]: one["says"] for one in data["type"]}
        self.rows = {row.path: row for section in self.sections for row in section.rows}
        here, there = {row.name for row in self.rows.values()}, keys_of_definitions()
        if here != there:
            raise Mistake(f"docs/reference/summary.toml: {sorted(there - here)} are not there, and {sorted(here - there)} are in no definition")

    def object(self, path: str) -> Schema:
        """The object of a key, or the whole one of none."""
        rows = [row for row in self.rows.values() if row.path.rpartition(".")[0] == path]
        if not rows:
            raise Mistake(f"docs/reference/summary.toml: {path} has no keys")
        return {
            "type": "object",
            "properties": {row.name: self.schema(row) for row in rows},
            "required": [row.name for row in rows],
            "additionalProperties": False,
        }

    def schema(self, row: Row) -> Schema:
        made = self.type_of(row)
        if row.type != row.base:
            made = {"oneOf": [{"type": "null"}, made]}
        return {**made, "description": plain(row.says).replace(": see below", "")} if row.says else made

    def type_of(self, row: Row) -> Schema:
        if row.base == "object":
            return self.object(row.path)
        if row.base.startswith("array"):
            made = {"type": "array", "items": self.object(f"{row.path}[]")}
            return {**made, "maxItems": 1} if row.base == "array of at most 1" else made
        if row.base.startswith("like "):
            return self.type_of(self.rows[row.base.removeprefix("like ")])
        if row.base not in TYPES:
            raise Mistake(f"docs/reference/summary.toml: {row.path} has no type that is known: {row.type}")
        return TYPES[row.base]


def keys_of_definitions() -> set[str]:
    """The keys that the definitions have, in their texts."""
    found = set[str]()
    for path in SUMMARY_SPECS.glob("Json*.antt"):
        for one in definitions(path).values():
            found.update(re.findall(r'\\"(\w+)\\":', " ".join(clause.body for clause in one.clauses)))
    return found


def summary_schema_text() -> str:
    schema = {
        "$schema": "https://json-schema.org/draft/2020-12/schema",
        "title": "The object of `mdmp summary --json`",
        "$comment": "Made by docs/generate. A later version may have more keys.",
        **Table().object(""),
    }
    return pretty(schema, "") + "\n"


# ---- the page


def key_table(rows: list[Row]) -> str:
    made = ["| key | type | is |", "|---|---|---|"]
    for row in rows:
        words = re.sub(r"^like (.+)", r"as `\1`", row.base) + (", or null" if row.type != row.base else "")
        made.append(f"| `{row.path}` | {words} | {row.says} |")
    return "\n".join(made)


def summary_text() -> str:
    table = Table()
    parts = [INTRO.strip("\n")]
    for section in table.sections:
        parts += [f"## {section.title}"] if section.title else []
        parts += [key_table(section.rows), *([AFTER[section.title]] if section.title in AFTER else [])]
    listed = ["| type | is |", "|---|---|", *(f"| {name} | {says} |" for name, says in table.types.items())]
    return "\n\n".join([*parts, "## Types", "\n".join(listed)]) + "\n"


INTRO = """
# The object of a summary

`summary --json` prints one object of JSON for each FILE, on one line. Facts that minidump-stackwalk prints too have its keys.
`docs/generate` makes this page of [summary.toml](summary.toml). The definitions are [`JsonHead.antt`](../../crates/mdmp_summary_lines/specs/JsonHead.antt), `JsonCrash`, `JsonSystem`, `JsonModules`, `JsonIds`, `JsonThreads` and `JsonEnd` in the same folder.
[summary.schema.json](summary.schema.json) is a JSON Schema (draft 2020-12) of the object, and [tests/schema](../../tests/schema) compares the program with it.

- What the dump does not have is null. No other key changes its type, except that arrays may be empty.
- Later versions may add keys: ignore those that you do not know. The schema is strict, and describes this version only.
- A number that may have more than 32 bits is a string of decimal digits, except `parts_outside` and the index of a thread.
- If a file cannot be opened or summarized, a name cannot be read, or memory runs out, nothing is printed.
  If a read fails or `--budget` is reached later, at the modules or threads, a first part of the object remains.
- Modules and threads are those of all entries, each entry up to its own first error. They are in the order of the listing.
"""

# What follows the table of a section.
AFTER = {
    "The system": "`system` has the numbers of [MINIDUMP_SYSTEM_INFO](structures.md#minidump_system_info), except `Cpu`.",
    "Modules": "The CodeView record is read if it is inside the file: 24 bytes, and at most `--name` bytes of a symbol file's name.",
    "Threads": "At most 272 bytes of each context are read. Stacks are not walked.",
}
