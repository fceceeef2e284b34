"""What pages say of the kinds of streams that have records, by the table of kinds in crates/mdmp_lister/src/kind.rt."""

from __future__ import annotations

import re
from dataclasses import dataclass

from lib.generated import Mistake, Stretches, read

KINDS = "crates/mdmp_lister/src/kind.rt"
ROW = re.compile(r"StreamKind::(\w+) => KindRow \{\s+stream_type: (\d+),\s+form: Form::(\w+),")
NUMBERS = "no one two three four five six seven eight nine ten eleven twelve thirteen fourteen fifteen sixteen".split()
# What a page calls a kind, if it is not the words of its variant.
CALLED = {"System": "system info", "Memory64": "64-bit memory", "Unloaded": "unloaded modules", "MemoryInfo": "memory regions"}
# The heads of streams, by what follows the types in their row of docs/format.md.
HEADS = {
    "Counted": "| 4 | u32 at 0 | 4, or 8 | size of the record |",
    "Single": "| 0 | 1 | 0 | |",
    "Ranges64": "| 16 | u64 at 0 | 16 | 16 |",
    "Sized32": "| 12 | u32 at 8 | SizeOfHeader, u32 at 0 | SizeOfEntry, u32 at 4 |",
    "Sized64": "| 16 | u64 at 8 | SizeOfHeader, u32 at 0 | SizeOfEntry, u32 at 4 |",
}


@dataclass(frozen=True)
class Kind:
    variant: str
    number: int
    form: str

    @property
    def called(self) -> str:
        return CALLED.get(self.variant) or " ".join(re.findall("[A-Z][a-z]*", self.variant)).lower()


def kinds() -> list[Kind]:
    found = sorted((Kind(name, int(number), form) for name, number, form in ROW.findall(read(KINDS))), key=lambda kind: kind.number)
    unknown = {kind.form for kind in found} - {*HEADS}
    if not found or unknown or len(found) >= len(NUMBERS):
        raise Mistake(f"{KINDS} has {len(found)} rows, and forms that no page has: {unknown}")
    return found


def numbers(of: list[Kind], last: str) -> str:
    """The types of some kinds, in a list."""
    *others, end = [str(kind.number) for kind in of]
    return f"{', '.join(others)}{last}{end}" if others else end


def put_kinds(files: Stretches) -> None:
    every = kinds()
    count = NUMBERS[len(every)]
    listed = ", ".join(f"{kind.called} ({kind.number})" for kind in every)
    files.put("README.md", "\n## What it reads\n\n[", " stream types]", count.capitalize())
    files.put("README.md", " stream types](docs/reference/structures.md): ", ". Any other", listed)
    files.put("docs/cli.md", "and each record of the [", " types]", count)
    files.put("docs/format.md", "\n## Streams with records\n\n", " types of streams", count.capitalize())
    by_form = {form: [kind for kind in every if kind.form == form] for form in HEADS}
    rows = [f"| {numbers(of, ', ')} {HEADS[form]}\n" for form, of in by_form.items() if of]
    head = "| types | bytes of the head | count of records | first record at | distance of records |\n|---|---|---|---|---|\n"
    files.put("docs/format.md", head, "\nFour deviations", "".join(rows))
    files.put("docs/format.md", "- **Padding.** If a stream of type ", " has exactly", numbers(by_form["Counted"], " or "))
