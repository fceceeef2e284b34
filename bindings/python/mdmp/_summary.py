"""What a dump says of a crash and of itself."""

from __future__ import annotations

from dataclasses import dataclass
from typing import NamedTuple

from . import _structures, names
from ._fault import Fault, fault_of
from ._parts import Numbers, Reader
from ._records import Access, Counts, ExceptionRecord, Header, Registers, SummaryModule


class PlaceInModule(NamedTuple):
    """The place of an address: a module, and how many bytes the address is above its base."""

    module: SummaryModule
    offset: int

    def __str__(self) -> str:
        return f"{self.module.name}+{self.offset:#x}"


@dataclass(frozen=True, slots=True)
class Reached:
    """The address that a thread tried to reach when it crashed."""

    address: int
    """An address of the dumped process."""
    access: Access
    """What the thread tried to do there. It is never NONE."""


@dataclass(frozen=True, slots=True)
class SummarySystem:
    """The system of a summary: MINIDUMP_SYSTEM_INFO."""

    platform_id: names.Platform | int
    """PlatformId: a member of `names.Platform` if the number has a name."""
    processor_architecture: names.Architecture | int
    """ProcessorArchitecture: a member of `names.Architecture` if the number has a name."""
    processor_level: int
    """ProcessorLevel"""
    processor_revision: int
    """ProcessorRevision"""
    number_of_processors: int
    """NumberOfProcessors"""
    product_type: int
    """ProductType"""
    major_version: int
    """MajorVersion"""
    minor_version: int
    """MinorVersion"""
    build_number: int
    """BuildNumber"""
    suite_mask: int
    """SuiteMask"""
    cpu: bytes
    """Cpu: 24 bytes"""
    csd_version: str | None
    """The service pack; None if there is none within the limit."""


@dataclass(frozen=True, slots=True)
class Crash:
    """The crash of a dump: the first exception that is one."""

    exception: ExceptionRecord
    """The whole record."""
    thread_id: int
    """The thread that crashed."""
    thread_name: str | None
    """The first name that the file has for the thread; None if there is none within the limit."""
    code: names.ExceptionCode | int
    """ExceptionCode, as the platform of the dump has it: a member of `names.WindowsException`, `names.LinuxSignal` or
    `names.MachException` if the number has a name there."""
    flags: names.SignalCode | int
    """ExceptionFlags: on Linux and Android a member of `names.SignalCode` if the number has a name."""
    reason: str | None
    """The names of code and flags, as `names.exception_name` has them. None if the code has no name."""
    parameters: tuple[int, ...]
    """The parameters of the record that are in use, at most 15."""
    address: int
    """The address that ran: on Windows ExceptionAddress; on other systems the instruction pointer, or ExceptionAddress if
    there are no registers."""
    registers: Registers | None
    """The registers of the thread. None if the context is not inside the file, or if its layout is not known."""
    module: PlaceInModule | None
    """The first module that has the address."""
    near: PlaceInModule | None
    """If no module has the address: the module with the greatest base at or below it."""
    reached: Reached | None
    """The address that the thread tried to reach, if the code says it."""


@dataclass(frozen=True, slots=True)
class Summary:
    """What a dump says of a crash and of itself. It covers all entries, each up to its own error."""

    header: Header
    """The header."""
    system: SummarySystem | None
    """The first system."""
    program: SummaryModule | None
    """The first module: the program."""
    crash: Crash | None
    """The crash. None if no exception is one."""
    counts: Counts
    """How many records of each kind there are."""
    bad_entries: int
    """How many entries have an error: those that `check` calls bad."""
    first_error: Fault | None
    """The first of these errors, in the order of the directory."""
    parts_outside: int
    """How many parts of records are not inside the file."""
    first_outside: Fault | None
    """The first of these parts: entry, index, part, offset and size of a `Fault` of the kind PART_OUTSIDE."""


def _named(number: Numbers) -> int:
    """The member, if the number has a name; else the number."""
    return number if number.is_named else int(number)


def _system(raw: _structures.SummarySystem, read: Reader) -> SummarySystem:
    return SummarySystem(
        _named(names.Platform(raw.platform_id)),
        _named(names.Architecture(raw.processor_architecture)),
        raw.processor_level,
        raw.processor_revision,
        raw.number_of_processors,
        raw.product_type,
        raw.major_version,
        raw.minor_version,
        raw.build_number,
        raw.suite_mask,
        bytes(raw.cpu),
        read._name_at(raw.csd_version),
    )


def _place(raw: _structures.PlaceInModule, read: Reader) -> PlaceInModule:
    return PlaceInModule(SummaryModule._of(raw.module, read), raw.offset)


def _crash(raw: _structures.Crash, system: SummarySystem | None, read: Reader) -> Crash:
    record = ExceptionRecord._of(raw.exception, read)
    code: names.ExceptionCode | int = record.exception_code
    flags: names.SignalCode | int = record.exception_flags
    reason = None
    if system is not None:
        found = names.exception_code(system.platform_id, code)
        reason = names.exception_name(system.platform_id, code, flags, system.processor_architecture)
        code = code if found is None else found
    if isinstance(code, names.LinuxSignal):
        flags = _named(names.SignalCode(flags))
    return Crash(
        record,
        record.thread_id,
        read._name_at(raw.thread_name),
        code,
        flags,
        reason,
        record.information[: record.number_parameters],
        raw.address,
        Registers._of(raw.registers, read) if raw.has_registers else None,
        _place(raw.module, read) if raw.has_module else None,
        _place(raw.near, read) if raw.has_near else None,
        Reached(raw.reached, Access(raw.access)) if raw.access != Access.NONE else None,
    )


def summary_of(raw: _structures.Summary, read: Reader) -> Summary:
    """The summary that the library returned."""
    system = _system(raw.system, read) if raw.has_system else None
    return Summary(
        Header._of(raw.header, read),
        system,
        SummaryModule._of(raw.program, read) if raw.has_program else None,
        _crash(raw.crash, system, read) if raw.has_crash else None,
        Counts._of(raw.counts, read),
        raw.bad_entries,
        fault_of(raw.first_error) if raw.first_error.kind else None,
        raw.parts_outside,
        fault_of(raw.first_outside) if raw.first_outside.kind else None,
    )
