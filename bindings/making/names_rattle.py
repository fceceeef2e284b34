"""The tables of names.toml that the command prints, as statics of Rattle and as the definitions that these meet."""

from __future__ import annotations

from dataclasses import dataclass

from .names import MADE, Codes, Group, Names, number_text

CRATE = "crates/mdmp_names"
# How long the words of a row are at most that `rt fmt` leaves on one line.
ROW_WIDTH = 60


def row_text(words: list[str]) -> str:
    """A row as `rt fmt` lays it out."""
    line = ", ".join(words)
    if len(line) <= ROW_WIDTH:
        return f"    ({line}),\n"
    return "    (\n" + "".join(f"        {word},\n" for word in words) + "    ),\n"


@dataclass(frozen=True)
class Table:
    """A table that has its own source file and its own definitions, and the function that searches in it."""

    file: str  # also what its rows are called, as a static and as a definition
    title: str
    function: str
    doc: str
    is_public: bool
    keys: dict[str, str]  # what a row is found by: the function's parameters, and the type of each
    rows: list[tuple[list[str], str]]  # the keys of each row as they are written, and its name

    @property
    def stem(self) -> str:
        return "".join(word.capitalize() for word in self.file.split("_"))

    @property
    def search(self) -> tuple[str, str, str]:
        """The function that searches in such tables, its definition, and what a row is there."""
        return ("flags_in", "flags_among", "NamedFlags") if len(self.keys) == 2 else ("name_in", "name_among", "NamedNumber")

    def source_text(self) -> str:
        keys = [key if kind == "u32" else f"u32::from({key})" for key, kind in self.keys.items()]
        kinds = ", ".join(["u32"] * len(keys) + ["&str"])
        row = "A number, and its name." if len(keys) == 1 else "The code of an exception, its flags, and their name."
        return (
            f"//! {self.title}. {MADE}\n"
            "ghost use Rattle.std.specs.Prelude.{◌≡◌, ◌≤◌, IfSome, length};\n"
            "ghost use Rattle.std.specs.Option.{option_map};\n"
            f"ghost use Rattle.mdmp_names.specs.{self.stem}.{{{self.function}}};\n\n"
            f"use crate::table::{self.search[0]};\n\n"
            f"/// {row}\nstatic {self.file.upper()}: [({kinds}); {len(self.rows)}] = [\n"
            + "".join(row_text([*keys, f'"{name}"']) for keys, name in self.rows)
            + "];\n\n"
            f"/// {self.doc}\n"
            f"pub{'' if self.is_public else '(crate)'} fn {self.function}"
            f"({', '.join(f'{key}: {kind}' for key, kind in self.keys.items())}) -> Option<&'static str>\n"
            f"    ensures named {{ option_map (λ name. name.now) result ≡ {self.function} {' '.join(self.keys)} }}\n"
            "    ensures short { IfSome result (λ name. length name.now ≤ 64) }\n"
            f"{{\n    {self.search[0]}(&{self.file.upper()}, {', '.join(keys)})\n}}\n"
        )

    def specs_text(self) -> str:
        _, among, row = self.search
        rows = [f'({", ".join(keys)}, codes "{name}")' for keys, name in self.rows]
        kinds = "ℕ" if len(self.keys) == 1 else f"({' '.join(self.keys)} : ℕ)"
        return (
            f"-- {self.title}. {MADE}\n"
            "use Rattle.std.specs.Prelude.{ℕ, List, [], ◌∷◌, Option, codes}\n"
            f"use Rattle.mdmp_names.specs.Table.{{{row}, {among}}}\n\n"
            f"abbrev pub {self.file} : List {row}\n"
            f"{self.file} =\n    " + "\n    ∷ ".join([*rows, "[]"]) + "\n\n"
            f"abbrev pub {self.function} : {kinds} → Option (List ℕ)\n"
            f"{self.function} = {among} {self.file}\n"
        )


def group_table(group: Group, function: str, doc: str, kind: str = "u32", is_public: bool = False) -> Table:
    """The names of a group, or, if it has words, what its numbers are called in a text."""
    rows = [([part.told(row.number)], row.also if group.also == "words" else row.name) for row, part in group.rows]
    return Table(group.name, group.title, function, doc, is_public, {"number": kind}, rows)


def codes_table(codes: Codes, function: str) -> Table:
    """The names of flags, by the code and the flags."""
    rows = [
        ([number_text(codes.group.number_of(code), 0), codes.told(flags)], name) for code, flags, name in codes.rows
    ]
    doc = "The name of the flags of an exception with this code."
    return Table(codes.name, codes.title, function, doc, False, {"code": "u32", "flags": "u32"}, rows)


def tables(names: Names) -> list[Table]:
    group, codes = names.group, {entry.name: entry for entry in names.codes}
    return [
        group_table(group("windows_exceptions"), "windows_exception", "The name of an exception code of Windows."),
        group_table(group("linux_signals"), "linux_signal", "The name of a signal of Linux."),
        group_table(group("si_codes"), "signal_code", "The name of a code of any signal."),
        group_table(group("mach_exceptions"), "mach_exception", "The name of a Mach exception."),
        codes_table(codes["linux_codes"], "linux_code"),
        codes_table(codes["mach_codes"], "mach_code"),
        codes_table(codes["mach_x86_codes"], "mach_x86_code"),
        codes_table(codes["mach_arm_codes"], "mach_arm_code"),
        group_table(group("platforms"), "platform_words", "What a platform is called.", is_public=True),
        group_table(group("architectures"), "architecture_words", "What a processor architecture is called.", "u16", True),
        group_table(group("stream_types"), "stream_name", "The name of a type of streams.", is_public=True),
    ]


def crate_files(names: Names) -> dict[str, str]:
    """The text of each file of the crate that is made."""
    files = {}
    for table in tables(names):
        files[f"{CRATE}/src/{table.file}.rt"] = table.source_text()
        files[f"{CRATE}/specs/{table.stem}.antt"] = table.specs_text()
    return files
