"""The parts of records in Rattle: their numbers in mdmp_c, their words in lines, and that these words are plain."""

from __future__ import annotations

import re

from lib.generated import Mistake, Stretches, read

from .interface import Interface

NAMES = "crates/mdmp_wire/src/slot.rt"
C, PRINT, ENGINES = "crates/mdmp_c", "crates/mdmp_print", "crates/mdmp_engines"
LONGEST = 8  # letters of a word: `most` of PartWords
Parts = list[tuple[str, str, int]]  # a variant of PartName, its word, and its number


def parts_of(interface: Interface) -> Parts:
    found = re.search(r"pub enum PartName \{\n(.*?)\n\}", read(NAMES), re.S)
    variants = re.findall(r"^    (\w+),$", found[1], re.M) if found else []
    numbers = {name.removeprefix("MDMP_PART_").lower(): number for name, number, _ in interface.enums["mdmp_part"].values}
    if sorted(variant.lower() for variant in variants) != sorted(numbers) or max(map(len, variants)) > LONGEST:
        raise Mistake(f"mdmp_part has {sorted(numbers)}, and PartName {variants}, or a word is too long")
    return sorted(((one, one.lower(), numbers[one.lower()]) for one in variants), key=lambda part: part[2])


def put_numbers(files: Stretches, parts: Parts) -> None:
    """The numbers of parts, in mdmp_c."""
    match = "\n{\n    match part {\n"
    arms = "".join(f"        PartName::{name} => kinds::PART_{word.upper()},\n" for name, word, _ in parts)
    files.put(f"{C}/src/tool_fault.rt", f"result ≡ part_number part }}{match}", "    }", arms)
    arms = "".join(f"        kinds::PART_{word.upper()} => Some(PartName::{name}),\n" for name, word, _ in parts)
    files.put(f"{C}/src/told_fault.rt", f"result ≡ part_by_number part }}{match}", "        _ =>", arms)
    lines = [f"part_number parts.{name} = {number}" for name, _, number in parts]
    files.put(f"{C}/specs/ToolFault.antt", "abbrev pub part_number : PartName → ℕ\n", "\n\n", "\n".join(lines))
    tests = "    else ".join(f"if part == {number} then Some parts.{name}\n" for name, _, number in parts)
    files.put(f"{C}/specs/FaultText.antt", "\npart_by_number part =\n    ", "    else None", tests)
    outside = "reading.PartOutside e k"
    lines = [
        f"part_words e k parts.{name} offset size = ap (λ n. Some (fault_text (tool.Reading ({outside} parts.{name} n size)))) "
        "(whole_number offset)"
        for name, _, _ in parts
    ]
    told_whole = f"≡ Some (fault_text (tool.Reading ({outside} part offset size)))\n"
    files.put(f"{C}/proofs/Worded.antt", told_whole, "\n\n", "\n".join(lines))


def put_words(files: Stretches, parts: Parts) -> None:
    """The words of parts, in lines and errors."""
    arms = "".join(f'            PartName::{name} => b"{word}".write_at(buffer, at),\n' for name, word, _ in parts)
    files.put(f"{PRINT}/src/part_outside.rt", "buffer: &mut [u8], at: usize) -> usize {\n        match self.0 {\n", "        }", arms)
    lines = [f'part_words parts.{name} = codes "{word}"' for name, word, _ in parts]
    files.put(f"{PRINT}/specs/PartLines.antt", "abbrev pub part_words : PartName → List ℕ\n", "\n\n", "\n".join(lines))
    lines = [f"escape-part parts.{name} = refl" for name, _, _ in parts]
    files.put(f"{PRINT}/specs/PartLaws.antt", "≡ part_words part\nunfolding escape_byte\n", "", "\n".join([*lines, ""]))
    lines = [f"part-plain kinds.{name} = refl" for name, _, _ in parts]
    files.put(f"{ENGINES}/proofs/JsonParts.antt", "are_plain (part_words part) ≡ true\n", "\n\n", "\n".join(lines))


def put_parts(files: Stretches, interface: Interface) -> None:
    """All of them."""
    parts = parts_of(interface)
    put_numbers(files, parts)
    put_words(files, parts)
