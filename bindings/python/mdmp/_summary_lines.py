"""A summary as `summary` prints it: lines for people, or an object of JSON."""

from __future__ import annotations

import json
from dataclasses import fields
from typing import TYPE_CHECKING, Any, NamedTuple

from . import _structures, names
from ._listed import all_modules, all_threads
from ._records import Access, Extent, Module, NamePlace, NameState, SummaryModule, SymbolKind, Thread
from ._summary import Crash, PlaceInModule, Reached, Summary, SummarySystem

if TYPE_CHECKING:
    from ._dump import Dump

_ACCESS = {Access.READ: "read", Access.WRITE: "write", Access.EXECUTE: "execute"}
_BY = {Access.READ: " by a read", Access.WRITE: " by a write", Access.EXECUTE: " by execution"}


def file_part(path: str) -> str:
    """What follows the last slash or backslash of a path."""
    return path.replace("\\", "/").rpartition("/")[2]


def _escaped(text: str) -> str:
    """A name as `list` prints it: other units of UTF-16 than those of plain ASCII by their numbers."""
    units = memoryview(text.encode("utf-16-le", "surrogatepass")).cast("H")
    return "".join(chr(unit) if 0x20 <= unit < 0x7F and unit != 0x5C else f"\\u{unit:04x}" for unit in units)


def _units(dump: Dump, place: NamePlace | _structures.NamePlace) -> str:
    """The name at a place as the file has it, also with lone surrogates; an empty one if there is none within the limit."""
    if place.state != NameState.GIVEN:
        return ""
    return dump._bytes(place.rva + 4, place.size).decode("utf-16-le", "surrogatepass")


def _file_of(dump: Dump, module: SummaryModule) -> str:
    if module.name is None:
        size = module.name_place.size
        return f"(name of {size} bytes)" if size else "(no name)"
    return _escaped(file_part(_units(dump, module.name_place)))


def _place(dump: Dump, crash: Crash) -> str:
    if crash.module:
        return f"{_file_of(dump, crash.module.module)}+{crash.module.offset:#x}"
    near = crash.near
    return f"{crash.address:#018x}" + (f" near {_file_of(dump, near.module)}+{near.offset:#x}" if near else "")


def _named(number: int, name: str | None) -> str:
    return name or f"{number:#010x}"


def _code_name(crash: Crash, system: SummarySystem | None) -> str | None:
    """The name of the code alone."""
    return names.exception_name(system.platform_id, crash.exception.exception_code) if system else None


def _flags_name(crash: Crash) -> str | None:
    """The name of the flags alone, if they have one."""
    _, behind, name = (crash.reason or "").partition(" / ")
    return name if behind and not name.startswith("0x") else None


def _crash_lines(crash: Crash, system: SummarySystem | None) -> list[str]:
    record, name = crash.exception, _flags_name(crash)
    named = f" {name}" if name else ""
    lines = [f"code {record.exception_code:#010x} flags {record.exception_flags:#010x}{named}"]
    if crash.reached:
        lines.append(f"reached {crash.reached.address:#018x}{_BY.get(crash.reached.access, '')}")
    registers = ""
    if crash.registers:
        parts = ("instruction", "stack", "frame")
        registers = "".join(f" {part} {getattr(crash.registers, part):#018x}" for part in parts)
    return [*lines, f"address {record.exception_address:#018x}{registers}"]


def _system_line(system: SummarySystem) -> str:
    platform = names.platform_name(system.platform_id) or f"platform {int(system.platform_id)}"
    processor = names.architecture_name(system.processor_architecture)
    version = f"{system.major_version}.{system.minor_version}.{system.build_number}"
    architecture = processor or f"architecture {int(system.processor_architecture)}"
    return f"system {platform} {version}, {architecture}, processors {system.number_of_processors}"


def _health(summary: Summary) -> str:
    if summary.first_error:
        entries = "1 bad entry" if summary.bad_entries == 1 else f"{summary.bad_entries} bad entries"
        return f"file damaged, {entries}: {summary.first_error}"
    if summary.first_outside:
        parts = "1 part" if summary.parts_outside == 1 else f"{summary.parts_outside} parts"
        return f"file readable, {parts} outside the file: {summary.first_outside}"
    return "file good"


def lines(dump: Dump, file: str) -> str:
    """At most ten lines, of which the first begins with the name of the file."""
    summary = dump.summary
    crash, system, counts = summary.crash, summary.system, summary.counts
    first, more = "no crash", []
    if crash:
        name = _escaped(_units(dump, dump._raw_summary.crash.thread_name))
        thread = f"{crash.thread_id}" + (f' "{name}"' if name else "")
        code = _named(crash.exception.exception_code, _code_name(crash, system))
        first, more = f"{code} at {_place(dump, crash)}, thread {thread}", _crash_lines(crash, system)
    if summary.program:
        more.append(f"program {_file_of(dump, summary.program)}")
    if system:
        more.append(_system_line(system))
    time = summary.header.time_date_stamp
    more.append(f"written {time} seconds after 1970 in UTC" if time else "written not set")
    kinds = ("streams", "threads", "modules", "exceptions", "ranges", "memory")
    more.append(" ".join(f"{kind} {getattr(counts, kind)}" for kind in kinds))
    return "\n  ".join([f"{file}: {first}", *more, _health(summary)]) + "\n"


# ---- JSON

# Of a ProcessorArchitecture: what minidump-stackwalk calls it.
_CPUS = {0: "x86", 10: "x86", 9: "amd64", 5: "arm", 12: "arm64", 0x8003: "arm64"}


class _Context(NamedTuple):
    """Where a context has its instruction pointer, and where the registers end that a summary reads."""

    at: int
    width: int
    end: int


# The offsets are those of crates/mdmp_summary/src/context.rt.
_CONTEXTS = {"x86": _Context(184, 4, 200), "amd64": _Context(248, 8, 256), "arm": _Context(64, 4, 68), "arm64": _Context(264, 8, 272)}


def _fields(record: Any) -> dict[str, Any]:
    """The fields of a record."""
    return {field.name: getattr(record, field.name) for field in fields(record)}


def _hex(number: int, digits: int = 16) -> str:
    return f"{number:#0{digits + 2}x}"


def _module_object(module: SummaryModule | None) -> dict[str, Any] | None:
    if module is None:
        return None
    file = None if module.name is None else file_part(module.name)
    return {"name": module.name, "file": file, "version": str(module.file_version)}


def _place_object(place: PlaceInModule | None) -> dict[str, Any] | None:
    found = _module_object(place.module) if place else None
    return {**found, "offset": str(place.offset)} if found and place else None


def _reached_object(reached: Reached | None) -> dict[str, Any] | None:
    return {"address": _hex(reached.address), "access": _ACCESS.get(reached.access)} if reached else None


def _crash_object(crash: Crash | None, system: SummarySystem | None) -> dict[str, Any] | None:
    if crash is None:
        return None
    registers = crash.registers
    return {
        "code": _hex(crash.exception.exception_code, 8),
        "code_name": _code_name(crash, system),
        "flags": _hex(crash.exception.exception_flags, 8),
        "flags_name": _flags_name(crash),
        "thread": crash.thread_id,
        "thread_name": crash.thread_name,
        "address": _hex(crash.address),
        "exception_address": _hex(crash.exception.exception_address),
        "registers": registers and {part: _hex(number) for part, number in _fields(registers).items()},
        "reached": _reached_object(crash.reached),
        "module": _place_object(crash.module),
        "near": _place_object(crash.near),
    }


def _system_info(system: SummarySystem | None) -> dict[str, Any] | None:
    if system is None:
        return None
    return {
        "os": names.platform_name(system.platform_id),
        "os_ver": f"{system.major_version}.{system.minor_version}.{system.build_number}",
        "cpu_arch": _CPUS.get(system.processor_architecture),
        "cpu_count": system.number_of_processors,
    }


def _system_object(system: SummarySystem | None) -> dict[str, Any] | None:
    if system is None:
        return None
    # Its numbers, each as an int that is no IntEnum.
    return {part: int(value) for part, value in _fields(system).items() if isinstance(value, int)}


def _symbols_most(dump: Dump) -> int:
    """How many bytes of the name of a symbol file are told: the share of each module in the limit, behind the 24 bytes that
    begin its CodeView record."""
    limits = dump.limits
    if limits.aside is None:
        return limits.name
    return min(limits.name, max(limits.aside // max(dump.summary.counts.modules, 1) - 24, 0))


def _listed_module(module: Module, most: int) -> dict[str, Any]:
    symbols = module.symbols if module.symbols and module.symbols.kind == SymbolKind.RSDS else None
    return {
        "filename": module.name,
        "base_addr": _hex(module.base_of_image),
        "end_addr": _hex(min(module.base_of_image + module.size_of_image, (1 << 64) - 1)),
        "version": str(module.file_version),
        "code_id": module.ids.code_id,
        "debug_file": symbols and symbols.name[:most].decode("utf-8", "replace"),
        "debug_id": module.ids.debug_id,
    }


def _frames(dump: Dump, thread: Thread, system: SummarySystem | None) -> list[dict[str, Any]]:
    """The frame that the context of a thread says."""
    context = _CONTEXTS.get(_CPUS.get(system.processor_architecture, "")) if system else None
    if context is None or thread.context.extent != Extent.INSIDE or thread.context.size < context.end:
        return []
    instruction = int.from_bytes(dump._bytes(thread.context.rva + context.at, context.width), "little")
    return [{"frame": 0, "offset": _hex(instruction), "trust": "context"}]


def _thread_object(dump: Dump, thread: Thread, summary: Summary) -> dict[str, Any]:
    crash = summary.crash
    name = crash.thread_name if crash and crash.thread_id == thread.thread_id else None
    return {"thread_id": thread.thread_id, "thread_name": name, "frames": _frames(dump, thread, summary.system)}


def _crash_info(crash: Crash | None, system: SummarySystem | None, threads: tuple[Thread, ...]) -> dict[str, Any] | None:
    if crash is None:
        return None
    flags = _flags_name(crash)
    code = _named(crash.exception.exception_code, _code_name(crash, system))
    address = crash.reached.address if crash.reached else crash.exception.exception_address
    index = (at for at, thread in enumerate(threads) if thread.thread_id == crash.thread_id)
    return {"type": f"{code} / {flags}" if flags else code, "address": _hex(address), "crashing_thread": next(index, None)}


def line(dump: Dump, file: str) -> str:
    """An object of JSON on one line. Numbers that may have more than 32 bits are strings."""
    summary, threads, most = dump.summary, all_threads(dump), _symbols_most(dump)
    made = {
        "line": "summary",
        "file": file,
        "status": "OK",
        "time": summary.header.time_date_stamp,
        "system_info": _system_info(summary.system),
        "system": _system_object(summary.system),
        "crash": _crash_object(summary.crash, summary.system),
        "program": _module_object(summary.program),
        "counts": {kind: str(number) for kind, number in _fields(summary.counts).items()},
        "bad_entries": summary.bad_entries,
        "first_error": str(summary.first_error) if summary.first_error else None,
        "parts_outside": summary.parts_outside,
        "first_outside": str(summary.first_outside) if summary.first_outside else None,
        "main_module": 0 if summary.program else None,
        "modules": [_listed_module(module, most) for module in all_modules(dump)],
        "threads": [_thread_object(dump, thread, summary) for thread in threads],
        "crash_info": _crash_info(summary.crash, summary.system, threads),
    }
    return json.dumps(made, ensure_ascii=False, separators=(",", ":")) + "\n"
