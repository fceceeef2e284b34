"""The names of numbers, read from names.toml and checked."""

from __future__ import annotations

import os
import tomllib
from dataclasses import dataclass
from typing import Any

from lib.generated import Mistake

from .interface import HERE

MADE = "Made by bindings/generate from bindings/names.toml."


def number_text(number: int, digits: int) -> str:
    """A number with so many hexadecimal digits, or a small one that is decimal."""
    return str(number) if number < 256 and not digits else f"0x{number:0{digits}X}"


@dataclass(frozen=True)
class Row:
    number: int
    name: str
    also: str  # a second constant, or words; or empty


@dataclass(frozen=True)
class Part:
    """The rows that one header has, by number."""

    source: str
    note: str
    digits: int  # hexadecimal digits, or 0
    rows: list[Row]

    def told(self, number: int) -> str:
        return number_text(number, self.digits)


@dataclass(frozen=True)
class Group:
    """The names of one kind of number."""

    name: str
    face: str  # the type in Python
    title: str
    doc: str
    note: str
    flags: bool
    platforms: list[str]  # on which it has the names of exception codes
    also: str  # what the third word of a row is: "constant", "words" or nothing
    also_source: str
    parts: list[Part]

    @property
    def rows(self) -> list[tuple[Row, Part]]:
        """All rows, by number."""
        return sorted(((row, part) for part in self.parts for row in part.rows), key=lambda one: one[0].number)

    def name_of(self, number: int) -> str:
        found = [row.name for row, _ in self.rows if row.number == number]
        if not found:
            raise Mistake(f"{self.name} has no {number}")
        return found[0]

    def number_of(self, name: str) -> int:
        found = [row.number for row, _ in self.rows if row.name == name]
        if not found:
            raise Mistake(f"{self.name} has no {name}")
        return found[0]


@dataclass(frozen=True)
class Codes:
    """The names of the flags of exception records, for the codes of a group."""

    name: str
    title: str
    group: Group
    architectures: list[str]  # none: all of them
    source: str
    digits: int
    rows: list[tuple[str, int, str]]  # the name of the code, the flags, and their name

    def told(self, flags: int) -> str:
        return number_text(flags, self.digits)

    @property
    def keys(self) -> list[tuple[int, int]]:
        """The numbers of each row: the code and the flags."""
        return [(self.group.number_of(code), flags) for code, flags, _ in self.rows]


class Names:
    """All of names.toml."""

    def __init__(self) -> None:
        with open(os.path.join(HERE, "names.toml"), "rb") as file:
            data = tomllib.load(file)
        self.groups = [self._group(entry) for entry in data["group"]]
        self.copied: list[tuple[int, str, str]] = [(number, word, how) for number, word, how in data["copied"]]
        check_rises("the types that are copied", [number for number, _, _ in self.copied])
        by_name = {group.name: group for group in self.groups}
        self.codes = [
            Codes(
                entry["name"],
                entry["title"],
                by_name[entry["of"]],
                entry.get("architectures", []),
                entry["source"],
                entry.get("digits", 0),
                [(code, flags, name) for code, flags, name in entry["rows"]],
            )
            for entry in data["codes"]
        ]
        for group in self.groups:
            check_group(group)
        for codes in self.codes:
            check_codes(codes, self.codes)
        numbers = [by_name["platforms"].number_of(name) for group in self.groups for name in group.platforms]
        check_rises("the platforms of exception codes", sorted(numbers))
        for codes in self.codes:
            for name in codes.architectures:
                by_name["architectures"].number_of(name)

    def _group(self, entry: dict[str, Any]) -> Group:
        parts = []
        for part in entry["part"]:
            rows = [Row(*row, *[""] * (3 - len(row))) for row in part["rows"]]
            parts.append(Part(part["source"], part.get("note", ""), part.get("digits", 0), rows))
        return Group(
            entry["name"],
            entry["face"],
            entry["title"],
            entry["doc"],
            entry.get("note", "").strip("\n"),
            entry.get("flags", False),
            entry.get("platforms", []),
            entry.get("also", ""),
            entry.get("also_source", ""),
            parts,
        )

    def group(self, name: str) -> Group:
        return next(group for group in self.groups if group.name == name)

    def codes_of(self, group: Group) -> list[Codes]:
        return [codes for codes in self.codes if codes.group is group]


def check_number(what: str, number: int, digits: int) -> None:
    if not 0 <= number < 1 << min(32, 4 * digits or 32):
        raise Mistake(f"{what}: {number:#x} does not fit")


def check_rises(what: str, numbers: list[int]) -> None:
    """Each number is greater than the one before."""
    for before, after in zip(numbers, numbers[1:]):
        if not before < after:
            raise Mistake(f"{what}: {after:#x} follows {before:#x}, and is not greater")


def check_group(group: Group) -> None:
    """Numbers fit and are sorted, and no number or name is there twice."""
    for part in group.parts:
        check_rises(f"{group.name}, {part.source}", [row.number for row in part.rows])
        for row in part.rows:
            check_number(f"{group.name}, {row.name}", row.number, part.digits)
            if group.flags and row.number & (row.number - 1):
                raise Mistake(f"{group.name}: {row.name} is not one bit")
            if (row.also and not group.also) or (group.also == "words" and not row.also):
                raise Mistake(f"{group.name}: {row.name} has no third word, or one too many")
    check_rises(group.name, [row.number for row, _ in group.rows])
    constants = [row.name for row, _ in group.rows]
    if group.also == "constant":
        constants += [row.also for row, _ in group.rows if row.also]
    for name in constants:
        if constants.count(name) > 1 or not name.isidentifier():
            raise Mistake(f"{group.name}: {name!r} is there twice, or is no name")


def check_codes(codes: Codes, others: list[Codes]) -> None:
    """The rows are sorted, and no other table for the same architecture has one of them."""
    check_rises(codes.name, [code << 32 | flags for code, flags in codes.keys])
    for _, flags, name in codes.rows:
        check_number(f"{codes.name}, {name}", flags, codes.digits)
    for other in others:
        all_of_them = not codes.architectures or not other.architectures
        is_met = all_of_them or set(codes.architectures) & set(other.architectures)
        if other is not codes and other.group is codes.group and is_met and set(codes.keys) & set(other.keys):
            raise Mistake(f"{codes.name} and {other.name} name the same flags")
