"""A second `mdmp summary`, with every option of it: `run_summary(words)` does what the command does.

It is written from docs/cli.md, docs/format.md, docs/reference and docs/DECISIONS.md alone, as lib/second_reader.py is. The names of
numbers and the places of registers are those of the tables of docs/reference/names.md and docs/format.md, so these tables are
compared with the command too. `tests/reference` does that.
"""

from __future__ import annotations

import re
from collections.abc import Iterator, Sequence
from pathlib import Path
from struct import iter_unpack, unpack_from
from typing import Any

from .second_reader import FORMS, HEADS, LIMITS, UNIT, Dump, Entry, Name, Record, Stop, escaped, hexadecimal, lost, opened

DOCS = Path(__file__).resolve().parent.parent.parent / "docs"
UNTRUSTED = 1 << 26  # bytes: `--budget` and `--memory` for files from strangers
BREAKPOINTS = (0x80000003, 0x80000004)
STOPS = (*range(17, 24), 28, 0xFFFFFFFF)  # signals that stop a thread, and a dump that was requested
ADDRESSED = (4, 5, 7, 8, 11)  # signals that have an address
WINDOWS, LINUX, APPLE = (0, 1, 2, 3), (0x8201, 0x8203), (0x8101, 0x8102)  # platforms
# The title of the table of exception codes of each platform, and of the table of Mach exceptions that each processor has besides.
CODES = dict.fromkeys(WINDOWS, "Exception codes of Windows") | dict.fromkeys(LINUX, "Signals of Linux")
CODES |= dict.fromkeys(APPLE, "Mach exceptions")
MACH = "Codes of one Mach exception"
MACHS = {**dict.fromkeys((0, 9), f"{MACH}, on x86 and x64"), **dict.fromkeys((5, 12, 0x8003), f"{MACH}, on ARM and ARM64")}
ACCESSES = {0: " by a read", 1: " by a write", 8: " by execution"}


def tables(page: str) -> dict[str, list[list[str]]]:
    """The rows of the tables of a page whose first cell is a number or a code, by the title above them."""
    found, title = dict[str, list[list[str]]](), ""
    for text in (DOCS / page).read_text().splitlines():
        if text.startswith("#"):
            title = text.lstrip("# ")
        elif re.match(r"\| (`|\d)", text):
            found.setdefault(title, []).append([cell.strip(" `") for cell in text.strip("|").split("|")])
    return found


NAMES = tables("reference/names.md")
REGISTERS = tables("format.md")["Registers"]


def name_of(title: str, number: int, column: int = 1) -> str | None:
    """The name of a number in a table of names.md."""
    return next((row[column] for row in NAMES[title] if int(row[0], 0) == number), None)


class MeteredDump(Dump):
    """A file that can be opened, and read within `--budget`."""

    def __init__(self, data: bytes, limits: dict[str, int]) -> None:
        self.left, self.end = limits["--budget"], 0
        if len(data) >= 32:
            self.data = data
            self.fetch(0, 32)
        super().__init__(data, *(limits[one] for one in LIMITS))
        size = 12 * len(self.entries)
        self.take(self.window + size + 4 * self.longest)
        at = 0
        while at < size:
            count = min(self.window - at % 12, size - at)
            self.fetch(self.header[3] + at, count)
            at += count

    def fetch(self, offset: int, size: int) -> None:
        if size > self.left:
            raise Stop(f"fetch budget reached: offset {offset} size {size}", 3)
        self.left -= size

    def need(self, entry: Entry, start: int, size: int) -> None:
        """Fetches so many bytes of a stream from here on, if the window does not have them, and as many more as it takes."""
        if start + size > self.end:
            begin = max(start, self.end)
            count = min(self.window - (begin - start), entry.size - begin)
            self.fetch(entry.rva + begin, count)
            self.end = begin + count

    def records_but(self, entry: Entry, passed: Sequence[int]) -> Iterator[Record]:
        """The records of an entry. Those of these kinds are passed over: they are not fetched."""
        self.end = 0
        head = HEADS.get(entry.kind, (0,))[0]
        if head and self.has(entry.rva, entry.size) and entry.size >= head:
            self.need(entry, 0, head)
        count, first, apart = self.shape(entry)
        found = self.records(entry)
        for index in range(count):
            if entry.kind not in passed:
                self.need(entry, first + index * apart, FORMS[entry.kind].size)
            yield next(found)

    def name(self, entry: int, index: int, rva: int) -> bytes | int:
        if self.has(rva, 4):
            self.fetch(rva, 4)
        name = super().name(entry, index, rva)
        if isinstance(name, bytes):
            self.fetch(rva + 4, len(name))
        return name


def flags_of(title: str, code: str, flags: int) -> str | None:
    """The name of the flags of an exception code."""
    return next((row[2] for row in NAMES[title] if row[0] == code and int(row[1], 0) == flags), None)


def file_name(name: Name) -> str:
    """What follows the last slash or backslash of a path."""
    if not isinstance(name, bytes):
        return "(no name)" if name is None else f"(name of {name} bytes)"
    units = [unit for (unit,) in iter_unpack("<H", name)]
    first = max((at + 1 for at, unit in enumerate(units) if unit in (0x2F, 0x5C)), default=0)
    return escaped(units[first:], UNIT)[1:-1]


def read(dump: MeteredDump, *passed: int) -> tuple[list[Record], list[Stop]]:
    """The records of all entries, each up to its error, and these errors. Records of these kinds are passed over."""
    records, errors = list[Record](), list[Stop]()
    for entry in dump.entries:
        try:
            for record in dump.records_but(entry, passed):
                records.append(record)
        except Stop as error:
            if error.fault is None:
                raise
            errors.append(error)
    return records, errors


class Summary:
    """The summary of a file, and its lines."""

    def __init__(self, dump: MeteredDump) -> None:
        self.dump, (self.records, self.errors) = dump, read(dump, 16)
        self.system = next(iter(self.of(7)), None)
        self.platform = self.system.values["platform"] if self.system else None
        self.processor = self.system.values["architecture"] if self.system else None
        self.crash = self.crashed()
        if self.crash:
            read(dump, 3, 5, 6, 9, 16)

    def of(self, *kinds: int) -> list[Record]:
        return [record for record in self.records if record.entry.kind in kinds]

    def crashed(self) -> Record | None:
        """The exception that is the crash."""
        found = self.of(6)
        if self.platform in LINUX:
            found = [one for one in found if one.values["code"] not in STOPS]
        elif self.platform in WINDOWS:
            found = [one for one in found if one.values["code"] not in BREAKPOINTS] + found
        return found[0] if found else None

    def flags_name(self, code: str, flags: int) -> str | None:
        if flags and self.platform in LINUX and not code.startswith("0x"):
            return flags_of("Codes of one signal", code, flags) or name_of("Codes of any signal", flags)
        if flags and self.platform in APPLE:
            return flags_of(MACH, code, flags) or flags_of(MACHS.get(self.processor or 0, MACH), code, flags)
        return None

    def reached(self, values: dict[str, Any]) -> str | None:
        """The address that the thread tried to reach."""
        code = values["code"]
        if self.platform in WINDOWS and code in (0xC0000005, 0xC0000006) and values["parameters"] >= 2:
            access, address = unpack_from("<QQ", values["information"])
            return hexadecimal(address) + ACCESSES.get(access, "")
        if self.platform in LINUX and code in ADDRESSED or self.platform in APPLE and code == 1:
            return hexadecimal(values["address"])
        return None

    def registers(self, crash: Record) -> list[int] | None:
        """The instruction, the stack and the frame of a thread."""
        part = crash.parts["context"]
        for processors, _, _, size, *cells in REGISTERS:
            places = [int(cell) for cell in cells]
            is_known = part.fits == "inside" and part.size >= max(places) + int(size)
            if is_known and self.processor in [int(one, 0) for one in processors.split(", ")]:
                return [self.dump.number("<I" if size == "4" else "<Q", part.offset + place) for place in places]
        return None

    def place(self, address: int) -> str:
        """The module of an address, or the address and the nearest module below it."""
        modules = [one for one in self.of(4) if one.values["base"] <= address]
        for one in modules:
            if address < one.values["base"] + one.values["size"]:
                return f"{file_name(one.name)}+{hexadecimal(address - one.values['base'], 0)}"
        if not modules:
            return hexadecimal(address)
        near = max(modules, key=lambda one: int(one.values["base"]))
        return f"{hexadecimal(address)} near {file_name(near.name)}+{hexadecimal(address - near.values['base'], 0)}"

    def crash_lines(self, crash: Record) -> Iterator[str]:
        values, registers = crash.values, self.registers(crash)
        code = hexadecimal(values["code"], 8)
        title = CODES.get(self.platform)
        name = (name_of(title, values["code"]) if title else None) or code
        thread = str(values["thread"])
        names = [one.name for one in self.of(24) if one.values["id"] == values["thread"]]
        if names and names[0] and isinstance(names[0], bytes):
            thread += f" {escaped([unit for (unit,) in iter_unpack('<H', names[0])], UNIT)}"
        ran = registers[0] if registers and self.platform not in WINDOWS else values["address"]
        yield f"{name} at {self.place(ran)}, thread {thread}"
        flags = self.flags_name(name, values["flags"])
        yield f"  code {code} flags {hexadecimal(values['flags'], 8)}" + (f" {flags}" if flags else "")
        if reached := self.reached(values):
            yield f"  reached {reached}"
        words = zip(("instruction", "stack", "frame"), registers or ())
        yield " ".join([f"  address {hexadecimal(values['address'])}", *(f"{word} {hexadecimal(one)}" for word, one in words)])

    def lines(self) -> Iterator[str]:
        yield from self.crash_lines(self.crash) if self.crash else ["no crash"]
        modules = self.of(4)
        if modules:
            yield f"  program {file_name(modules[0].name)}"
        if self.system:
            values = self.system.values
            platform = name_of("Platforms", values["platform"], -1) or f"platform {values['platform']}"
            processor = name_of("Processor architectures", values["architecture"], -1) or f"architecture {values['architecture']}"
            version = f"{values['major']}.{values['minor']}.{values['build']}"
            yield f"  system {platform} {version}, {processor}, processors {values['processors']}"
        time = self.dump.header[5]
        yield f"  written {time} seconds after 1970 in UTC" if time else "  written not set"
        ranges = self.of(5, 9)
        memory = sum(one.parts["memory"].size for one in ranges if one.parts["memory"].fits == "inside")
        counts = f"modules {len(modules)} exceptions {len(self.of(6))} ranges {len(ranges)} memory {memory}"
        yield f"  streams {len(self.dump.entries)} threads {len(self.of(3))} {counts}"
        parts = [error for record in self.records for _, error in lost(record)]
        if self.errors:
            yield f"  file damaged, {len(self.errors)} bad {'entry' if len(self.errors) == 1 else 'entries'}: {self.errors[0].line}"
        elif parts:
            yield f"  file readable, {len(parts)} part{'s' * (len(parts) > 1)} outside the file: {parts[0].line}"
        else:
            yield "  file good"


def run_summary(words: Sequence[str]) -> tuple[int, bytes, bytes]:
    """The exit status of a command line, and what it prints to both outputs."""
    after = dict(zip(words, words[1:]))
    path = next(word for before, word in zip(words, words[1:]) if not before.startswith("--") and not word.startswith("--"))
    most = UNTRUSTED if "--untrusted" in words else (1 << 64) - 1
    limits = {option: int(after.get(option, least)) for option, least in {**LIMITS, "--memory": most, "--budget": most}.items()}
    name = ""
    try:
        with opened(path, "rb", "open") as file:
            data = file.read()
        name = f"{path}: "
        summary = Summary(MeteredDump(data, limits))
    except Stop as error:
        return error.status, b"", f"mdmp: {name}{error.line}\n".encode()
    return 1 if summary.errors else 0, (name + "".join(f"{line}\n" for line in summary.lines())).encode(), b""
