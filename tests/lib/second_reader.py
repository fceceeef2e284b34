#!/usr/bin/env python3
"""A second reader of minidumps. It does what the command `mdmp` does: second_reader.py COMMAND WORD..

It is written from docs/format.md, docs/cli.md and docs/reference alone, by somebody who had seen neither code nor definitions of
the library. So a rule that a page and a definition state differently shows. It is slow and plain. `tests/reference` compares it
with the command. It has every option but `--budget` and `--untrusted`, and expects words that the command accepts.
"""

from __future__ import annotations

import json
import re
import sys
from collections.abc import Collection, Iterator, Sequence
from contextlib import suppress
from pathlib import Path
from struct import Struct, iter_unpack, pack, unpack_from
from typing import IO, Any, NamedTuple

Bytes = bytes | bytearray | memoryview
Members = dict[str, Any]

LIMITS = {"--window": 65536, "--name": 4096, "--memory": 1 << 64, "--aside": 1 << 64}
HEADER = Struct("<4s5IQ")
ENTRY = Struct("<3I")
UNIT, BYTE = "\\u%04x", "\\x%02x"

# The fields of each record, each with its format for `struct`. A part has two, `.size` and `.rva`; a name has `name.rva`.
# A field without a name is alignment.
RECORDS = {
    3: "id:I suspend:I class:I priority:I teb:Q start:Q stack.size:I stack.rva:I context.size:I context.rva:I",
    4: "base:Q size:I checksum:I time:I name.rva:I structure:Q ms:I ls:I pms:I pls:I rest:28s cv.size:I cv.rva:I misc.size:I misc.rva:I "
    "reserved:16s",
    5: "start:Q memory.size:I memory.rva:I",
    6: "thread:I :4x code:I flags:I record:Q address:Q parameters:I :4x information:120s context.size:I context.rva:I",
    7: "architecture:H level:H revision:H processors:B product:B major:I minor:I build:I platform:I name.rva:I suite:H rest:26s",
    9: "start:Q memory.size:Q",
    14: "base:Q size:I checksum:I time:I name.rva:I",
    16: "base:Q allocation:Q initial:I :4x size:Q state:I protect:I type:I :4x",
    24: "id:I name.rva:Q",
}
FIELDS = {kind: [one.split(":")[0] for one in text.split() if one[0] != ":"] for kind, text in RECORDS.items()}
FORMS = {kind: Struct("<" + "".join(one.split(":")[1] for one in text.split())) for kind, text in RECORDS.items()}
# The head of a stream: its bytes, and the format and the place of the count in it.
HEADS = {**dict.fromkeys((3, 4, 5, 24), (4, "<I", 0)), 9: (16, "<Q", 0), 14: (12, "<I", 8), 16: (16, "<Q", 8)}
# The line of each record: its keys, and after a colon how the value is shown if it is no number of JSON.
LINES = {
    3: "thread id suspend class priority teb:address stack:stack context:part",
    4: "module base:address size checksum time version:halves cv:part misc:part name:name",
    5: "range start:address memory:range",
    6: "exception thread code:code flags record:address address:address parameters:parameters context:part",
    7: "system architecture level revision processors product version:version platform suite csd:name",
    9: "range start:address memory:range",
    14: "unloaded base:address size checksum time name:name",
    16: "region base:address allocation:address initial size:wide state protect type",
    24: "threadname id name:name",
}
# The names of types of streams, as a page has them.
PAGE = (Path(__file__).resolve().parent.parent.parent / "docs/reference/names.md").read_text(encoding="utf-8")
STREAM_PART = PAGE.partition("## Types of streams")[2].partition("\n## ")[0]
STREAMS = {int(number, 0): name for number, name in re.findall(r"^\| (\w+) \| `(\w+)` \|$", STREAM_PART, re.M)}
COPIED = (0, 3, 4, 5, 6, 7, 9, 10, 11, 14, 15, 16, 24)  # and from 65,536


class Stop(Exception):
    """An error: its line, the exit status of a command that it ends, and what `check --json` has of it."""

    def __init__(self, line: str, status: int = 1, fault: Members | None = None) -> None:
        super().__init__(line)
        self.line, self.status, self.fault = line, status, fault


def bad(entry: int, kind: str, offset: int, size: int, item: int | None = None) -> Stop:
    """An error of an entry, or of the name or a part of an item."""
    place, index = ("", {}) if item is None else (f" item {item}", {"item": str(item)})
    fault = {"kind": kind, **index, "offset": str(offset), "size": str(size)}
    return Stop(f"entry {entry}{place}: {kind}: offset {offset} size {size}", 1, fault)


Entry = NamedTuple("Entry", [("number", int), ("kind", int), ("size", int), ("rva", int)])
# The bytes of a part of a record, and its class.
Part = NamedTuple("Part", [("size", int), ("offset", int), ("fits", str)])
Name = bytes | int | None  # the units of a name, or its length if that is over the limit
Record = NamedTuple("Record", [("entry", Entry), ("item", int), ("values", Members), ("name", Name), ("parts", dict[str, Part])])


class Dump:
    """A file that can be opened, with the limits `--window`, `--name`, `--memory` and `--aside`."""

    def __init__(self, data: bytes, window: int, longest: int, memory: int, aside: int) -> None:
        self.data, self.window, self.longest, self.memory, self.aside = data, window, longest, memory, aside
        if len(data) < HEADER.size:
            raise Stop(f"file of {len(data)} bytes is too short")
        self.header = HEADER.unpack_from(data)
        signature, version, count, directory, *_ = self.header
        if signature != b"MDMP":
            raise Stop("bad signature")
        if version & 0xFFFF != 0xA793:
            raise Stop(f"bad version 0x{version & 0xFFFF:04x}")
        if not self.has(directory, 12 * count):
            raise Stop(f"directory outside the file: offset {directory} size {12 * count}")
        found = ENTRY.iter_unpack(data[directory : directory + 12 * count])
        self.entries = [Entry(number, *numbers) for number, numbers in enumerate(found)]

    def has(self, offset: int, size: int) -> bool:
        """Whether these bytes are inside the file."""
        return size == 0 or offset + size <= len(self.data)

    def number(self, form: str, offset: int) -> int:
        return int(unpack_from(form, self.data, offset)[0])

    def take(self, size: int) -> None:
        if size > self.memory:
            raise Stop(f"memory limit reached: {size}", 3)

    def listed(self, kinds: Collection[int] | None = None, more: int = 0) -> list[Entry]:
        """Opens a lister of these types, or of all, with so many bytes more. It gives their entries."""
        size = self.window + 12 * len(self.entries) + self.longest + more
        self.take(size)
        entries = [entry for entry in self.entries if kinds is None or entry.kind in kinds]
        ranges = 0
        for entry in entries:
            with suppress(Stop):
                ranges += self.shape(entry)[0] if entry.kind in (5, 9) else 0
        if ranges > 1 << 28:
            raise Stop(f"too many memory ranges: {ranges}")
        self.take(size + 24 * ranges)
        return entries

    def shape(self, entry: Entry) -> tuple[int, int, int]:
        """The count of a stream's records, where the first is in the stream, and how far apart they are."""
        number, kind, size, rva = entry
        if kind and not self.has(rva, size):
            raise bad(number, "stream outside the file", rva, size)
        if kind not in RECORDS:
            return 0, 0, 0
        record = FORMS[kind].size
        head, form, place = HEADS.get(kind, (0, "", 0))
        if size < (head or record):
            raise bad(number, "stream too short", rva, size)
        if not head:
            return 1, 0, record
        count, first, apart = self.number(form, rva + place), head, record
        if kind in (14, 16):
            first, apart = self.number("<I", rva), self.number("<I", rva + 4)
            if not head <= first <= size:
                raise bad(number, "bad header size", rva, first)
            if count and apart < record:
                raise bad(number, "bad entry size", rva + 4, apart)
        elif head == 4 and size == 8 + count * record:
            first = 8
        if first + count * apart > size:
            raise bad(number, "bad count", rva + place, count)
        return count, first, apart

    def records(self, entry: Entry) -> Iterator[Record]:
        """The records of an entry, up to the first error."""
        count, first, apart = self.shape(entry)
        base = self.number("<Q", entry.rva + 8) if entry.kind == 9 else None
        for index in range(count):
            values = dict(zip(FIELDS[entry.kind], FORMS[entry.kind].unpack_from(self.data, entry.rva + first + index * apart)))
            name = self.name(entry.number, index, values["name.rva"]) if values.get("name.rva") else None
            parts = {}
            for key in [key.removesuffix(".size") for key in values if key.endswith(".size")]:
                size, rva = values[f"{key}.size"], values[f"{key}.rva"] if base is None else base
                place = "absent" if rva == 0 and base is None else "inside" if self.has(rva, size) else "outside"
                parts[key] = Part(size, rva, place if size else "empty")
            yield Record(entry, index, values, name, parts)
            base = None if base is None else base + values["memory.size"]

    def name(self, entry: int, index: int, rva: int) -> bytes | int:
        """The units of a name, or its length if that is over the limit."""
        if not self.has(rva, 4):
            raise bad(entry, "name length outside the file", rva, 4, index)
        length = self.number("<I", rva)
        if length % 2:
            raise bad(entry, "odd name length", rva, length, index)
        if not self.has(rva + 4, length):
            raise bad(entry, "name outside the file", rva + 4, length, index)
        return length if length > self.longest else self.data[rva + 4 : rva + 4 + length]


def hexadecimal(value: int, digits: int = 16) -> str:
    return f"0x{value:0{digits}x}"


def escaped(units: Sequence[int], other: str) -> str:
    inner = "".join(chr(unit) if 0x20 <= unit <= 0x7E and unit != 0x5C else other % unit for unit in units)
    return f'"{inner}"'


def named(key: str, name: Name) -> tuple[str, Members]:
    if not isinstance(name, bytes):
        return ("none", {key: None}) if name is None else (f"long {name}", {key: {"long": name}})
    read = name.decode("utf-16-le", "surrogatepass")
    valid = re.sub("[\ud800-\udfff]", "\ufffd", read)
    units = [unit for (unit,) in iter_unpack("<H", name)]
    return escaped(units, UNIT), {key: valid, **({} if valid == read else {"lossy": True})}


def located(part: Part, number: type = int) -> tuple[str, Members]:
    kept = {"empty": 1, "absent": 2}.get(part.fits, 3)
    words = [part.fits, f" {part.size}", f"@{part.offset}"]
    members = [("class", part.fits), ("size", number(part.size)), ("offset", number(part.offset))]
    return "".join(words[:kept]), dict(members[:kept])


def halves(values: Members, *keys: str) -> str:
    """The high and the low half of each number, with points between them."""
    return ".".join(str(half) for key in keys for half in divmod(values[key], 65536))


def stamped(time: int, number: int) -> str:
    return f"{time:08X}{number:x}"


def shown(record: Record, key: str, form: str) -> tuple[str, Members]:
    values, value = record.values, record.values.get(key)
    if form in ("part", "stack"):
        text, members = located(record.parts[key])
        start = [hexadecimal(values["start"])] if form == "stack" else []
        return " ".join([*start, text]), {key: {**{"start": one for one in start}, **members}}
    if form == "range":
        return located(record.parts[key], str)
    if form == "name":
        return named(key, record.name)
    if form == "parameters":
        given = [hexadecimal(one) for (one,) in iter_unpack("<Q", values["information"])][:value]
        return " ".join([str(value), *given]), {key: value, "information": given}
    if form == "halves":
        value = halves(values, "ms", "ls")
    elif form == "version":
        value = f"{values['major']}.{values['minor']}.{values['build']}"
    elif form:
        value = str(value) if form == "wide" else hexadecimal(values[key], 8 if form == "code" else 16)
    return str(value), {key: value}


def line(is_json: bool, text: str, members: Members) -> bytes:
    return ((json.dumps(members, ensure_ascii=False, separators=(",", ":")) if is_json else text) + "\n").encode()


def record_line(is_json: bool, record: Record) -> bytes:
    first, *keys = LINES[record.entry.kind].split()
    index = {} if first in ("exception", "system") else {"index": record.item}
    words, members = [first, *map(str, index.values())], {"line": first, "entry": record.entry.number, **index}
    for key, _, form in (one.partition(":") for one in keys):
        text, more = shown(record, key, form)
        words.append(text if form == "range" else f"{key} {text}")
        members |= more
    if first == "module":
        time, size = record.values["time"], record.values["size"]
        members |= {"code_id": stamped(time, size) if time else None, "product_version": halves(record.values, "pms", "pls")}
    return line(is_json, " ".join(words), members)


def guid_of(data: bytes) -> str:
    one, two, three, four = unpack_from("<IHH8s", data)
    return f"{one:08x}-{two:04x}-{three:04x}-{four[:2].hex()}-{four[2:].hex()}"


def codeview_line(is_json: bool, record: Record, data: bytes, longest: int) -> bytes:
    members: Members = {"line": "pdb", "entry": record.entry.number, "index": record.item}
    begin, size = data[:4], len(data)
    if size < 4 or begin == b"RSDS" and size < 24:
        return line(is_json, f"pdb short {size}", {**members, "kind": "short", "size": size})
    if begin != b"RSDS":
        members |= {"kind": "other", "signature": begin.hex(), "size": size}
        if begin == b"LEpB":
            built = guid_of(data[4:20].ljust(16, b"\0")).replace("-", "").upper() + "0"
            members |= {"build_id": data[4:24].hex(), "build_id_cut": size > 24, "debug_id": built}
        elif begin == b"NB10" and size >= 16:
            members["debug_id"] = stamped(*unpack_from("<II", data, 8))
        return line(is_json, f"pdb other {begin.hex()} size {size}", members)
    guid, (age,) = guid_of(data[4:20]), unpack_from("<I", data, 20)
    debug_id = f"{guid.replace('-', '')}{age:x}".upper()
    name, end, _ = data[24 : 24 + longest].partition(b"\0")
    read = name.decode("utf-8", "replace")
    members |= {"kind": "rsds", "guid": guid, "age": age, "debug_id": debug_id, "name": read}
    members |= {**({} if read.encode() == name else {"lossy": True}), "cut": not end}
    return line(is_json, f"pdb {guid} age {age} name {escaped(name, BYTE)}" + ("" if end else " cut"), members)


def run_list(dump: Dump, options: Collection[str], operands: Sequence[str]) -> Iterator[bytes]:
    entries, is_json = dump.listed(), "--json" in options
    _, version, *numbers, flags = dump.header
    values = [hexadecimal(version >> 16, 4), *numbers, hexadecimal(flags)]
    members = dict(zip("version streams directory checksum time flags".split(), values))
    yield line(is_json, " ".join(["dump", *(f"{key} {value}" for key, value in members.items())]), {"line": "dump", **members})
    for entry in entries:
        number, kind, size, rva = entry
        members = {"line": "stream", "entry": number, "type": kind, "size": size, "rva": rva, "name": STREAMS.get(kind)}
        yield line(is_json, f"stream {number} type {kind} size {size} rva {rva}", members)
        for record in dump.records(entry):
            yield record_line(is_json, record)
            cv = record.parts.get("cv")
            if "--pdb" in options and cv and cv.fits == "inside":
                data, most = dump.data[cv.offset : cv.offset + cv.size], min(cv.size, 24 + dump.longest)
                if most > dump.aside:
                    raise Stop(f"aside limit reached: offset {cv.offset} size {most}", 3)
                dump.aside -= most if data[:4] == b"RSDS" else min(cv.size, 24)
                yield codeview_line(is_json, record, data, dump.longest)


def lost(record: Record) -> Iterator[tuple[str, Stop]]:
    """The parts of a record that are outside the file, each by its name and with its error."""
    for key, part in record.parts.items():
        if part.fits == "outside":
            what = "codeview" if key == "cv" else key
            yield what, bad(record.entry.number, f"{what} outside the file", part.offset, part.size, record.item)


def part_line(is_json: bool, entry: int, what: str, error: Stop) -> bytes:
    fault = error.fault or {}
    members = {"entry": entry, "item": fault["item"], "part": what, "offset": fault["offset"], "size": fault["size"]}
    return line(is_json, error.line, {"line": "part", **members})


def run_check(dump: Dump, options: Collection[str], operands: Sequence[str]) -> Iterator[bytes]:
    errors, is_json = 0, "--json" in options
    for entry in dump.listed():
        text, fault, is_bad = f"entry {entry.number}: ok", None, False
        try:
            for record in dump.records(entry):
                for what, error in lost(record) if "--parts" in options else ():
                    yield part_line(is_json, entry.number, what, error)
                    is_bad = True
        except Stop as error:
            text, fault, is_bad = error.line, error.fault, True
        yield line(is_json, text, {"line": "entry", "entry": entry.number, "fault": fault})
        errors += is_bad
    if errors:
        raise Stop(f"{errors} bad entries")


def run_hex(dump: Dump, options: Collection[str], operands: Sequence[str]) -> Iterator[bytes]:
    address, length = int(operands[0], 16 if operands[0].startswith("0x") else 10), int(operands[1])
    end, found = address + length, dict[int, int]()
    for entry in dump.listed((5, 9), 2 * length):
        for record in dump.records(entry):
            start, part = record.values["start"], record.parts["memory"]
            if part.fits == "inside":
                for at in range(max(start, address), min(start + part.size, end)):
                    found.setdefault(at, dump.data[part.offset + at - start])
    for first in range(address, end, 16):
        row = [f"{found[at]:02x}" if at in found else "??" for at in range(first, min(first + 16, end))]
        yield f"{hexadecimal(first)}: {' '.join(row)}\n".encode()


def readable(dump: Dump, entry: Entry) -> Iterator[Record]:
    """The records of an entry, up to the first that cannot be copied."""
    for record in dump.records(entry):
        if isinstance(record.name, int):
            raise Stop(f"entry {entry.number} item {record.item}: name too long: {record.name}")
        for _, error in lost(record):
            raise error
        yield record


def copied(dump: Dump, kinds: Collection[int]) -> list[Bytes]:
    """The pieces of a copy."""
    dump.take(2 * dump.window + 24 * len(dump.entries))
    chosen = [(entry, list(readable(dump, entry))) for entry in dump.entries if entry.kind in kinds]
    data, end = memoryview(dump.data), 32 + 12 * len(chosen)
    pieces, directory = list[Bytes](), b""
    wide = list[tuple[bytearray, list[Bytes]]]()  # the body of each list of 64-bit memory, and its bytes

    def put(size: int, added: Sequence[Bytes], most: int = (1 << 32) - 1) -> int:
        """Adds pieces of so many bytes, and zeros after them. It gives their place."""
        nonlocal end
        place, end = end, end + size + -size % 4
        if end > most:
            raise Stop("the copy is too large")
        pieces.extend([*added, bytes(-size % 4)])
        return place

    for (_, kind, size, rva), records in chosen:
        count = len(records)
        heads = {9: pack("<QQ", count, 0), 14: pack("<3I", 12, 24, count), 16: pack("<IIQ", 16, 48, count)}
        head = heads.get(kind, pack("<I", count)) if kind in HEADS else b""
        body = bytearray(head if kind in RECORDS or not kind else data[rva : rva + size])
        size = len(body) + sum(FORMS[kind].size for _ in records)
        directory += ENTRY.pack(kind, size, put(size, [body]) if size else 0)
        for record in records:
            values, name = record.values, record.name
            if isinstance(name, bytes):
                values["name.rva"] = put(len(name) + 6, [pack("<I", len(name)), name, bytes(2)])
            for key, part in record.parts.items() if kind != 9 else ():
                kept = [data[part.offset : part.offset + part.size]]
                values[f"{key}.rva"] = put(part.size, kept) if part.fits == "inside" else 0
            body += FORMS[kind].pack(*values.values())
        if kind == 9:
            wide.append((body, [data[one.offset : one.offset + one.size] for record in records for one in record.parts.values()]))
    for body, ranges in wide:
        body[8:16] = pack("<Q", put(sum(map(len, ranges)), ranges, (1 << 64) - 1))
    signature, version, _, _, *rest = dump.header
    return [HEADER.pack(signature, version, len(chosen), 32, *rest), directory, *pieces]


def opened(path: str, mode: str, what: str) -> IO[bytes]:
    try:
        return open(path, mode)
    except OSError:
        raise Stop(f"cannot {what} {path}", 3) from None


def printed(words: Sequence[str]) -> Iterator[bytes]:
    """What a command line prints."""
    after = dict(zip(words, words[1:]))
    limits = [int(after.get(option, most)) for option, most in LIMITS.items()]
    rest = [word for before, word in zip(["", *words], words) if before not in LIMITS]
    command, path, *operands = [word for word in rest if not word.startswith("--")]
    kinds = [int(word) for word in operands[1:]] if command == "copy" else []
    refused = [kind for kind in kinds if kind < 65536 and kind not in COPIED]
    if refused:
        raise Stop(f"type {refused[0]} is not copied", 2)
    with opened(path, "rb", "open") as file:
        data = file.read()
    if command == "copy":
        with opened(operands[0], "xb", "create") as made:
            made.writelines(copied(Dump(data, *limits), kinds))
    else:
        commands = {"list": run_list, "check": run_check, "hex": run_hex}
        yield from commands[command](Dump(data, *limits), rest, operands)


def run(words: Sequence[str]) -> tuple[int, bytes, bytes]:
    """The exit status of a command line, and what it prints to both outputs."""
    out: list[bytes] = []
    try:
        for text in printed(words):
            out.append(text)
    except Stop as error:
        return error.status, b"".join(out), f"mdmp: {error.line}\n".encode()
    return 0, b"".join(out), b""


if __name__ == "__main__":
    status, *outputs = run(sys.argv[1:])
    sys.stdout.buffer.write(outputs[0])
    sys.stderr.buffer.write(outputs[1])
    sys.exit(status)
