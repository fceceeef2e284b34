"""What a page says first: the crash, and the health of the file. And facts about the file, in words."""

from __future__ import annotations

from dataclasses import dataclass, field
from typing import NamedTuple

from .._records import Access, IdKind, Registers, SummaryModule
from .._summary import Crash, PlaceInModule, Reached, Summary, SummarySystem
from .._summary_lines import file_part
from . import names, tables, text, texts
from .reading import Reading

# The most characters of a name in the card.
_LONGEST = 100
_ACCESS = {Access.READ: "reading ", Access.WRITE: "writing ", Access.EXECUTE: "executing "}


class Fact(NamedTuple):
    """A term, and what the dump says about it."""

    term: str
    words: str


class Badge(NamedTuple):
    """The health of the file in a sentence, and its kind: good, outside (parts lie outside the file), bad or long (more
    than the limits allow)."""

    words: str
    kind: str


@dataclass
class Card:
    """The crash, or why none is shown: a title and facts. `more` are facts that few readers need."""

    title: str
    facts: list[Fact] = field(default_factory=list)
    more: list[Fact] = field(default_factory=list)
    fault: str = ""

    def kept(self) -> Card:
        """The card without facts that have no words."""
        self.facts = [fact for fact in self.facts if fact.words]
        self.more = [fact for fact in self.more if fact.words]
        return self


def nearest(crash: Crash) -> PlaceInModule | None:
    """The module that has the address of a crash, or the one below it, if the address is near enough."""
    if crash.module or not crash.near or crash.near.offset > names.MOST_OF_IMAGE:
        return crash.module
    return crash.near


def file_name(name: str | None) -> str:
    """The name of a module without folders."""
    return text.shortened(file_part(name), _LONGEST) if name else "a module without a name"


def place(crash: Crash) -> str:
    """At which offset of a module a crash was, or near which module it was."""
    found = nearest(crash)
    if found is None:
        return f"at {crash.address:#x}, in no module"
    return f"{'at' if crash.module else 'near'} {file_name(found.module.name)}+{found.offset:#x}"


def _where(reading: Reading, crash: Crash) -> str:
    """The module with its folders, the offset and the address."""
    found, address = nearest(crash), text.address(crash.address)
    ends = " before the error in their list" if reading.modules.fault else ""
    if found is None:
        return f"{address}, which no module{ends} has"
    known = text.name(found.module.name, _LONGEST) if found.module.name else "a module without a name"
    words = f"{known}+{found.offset:#x} ({address})"
    return words if crash.module else f"near {words}: no module{ends} has the address"


def _thread(reading: Reading, crash: Crash) -> str:
    """The name and the id of the thread."""
    name, number = crash.thread_name, crash.thread_id
    words = f"{text.shortened(name, _LONGEST)} ({number})" if name else str(number)
    return words if number in reading.thread_ids else f"{words}, which the list of threads does not have"


def _reached(reached: Reached | None) -> str:
    """The address that the thread tried to reach."""
    return f"{_ACCESS.get(reached.access, '')}{text.address(reached.address)}" if reached else ""


def _registers(registers: Registers | None) -> str:
    if registers is None:
        return ""
    numbers = [("instruction", registers.instruction), ("stack", registers.stack), ("frame", registers.frame)]
    return ", ".join(f"{name} {number:#x}" for name, number in numbers)


def _parameters(crash: Crash) -> str:
    given, record = crash.parameters, crash.exception
    over = f" (it says {text.grouped(record.number_parameters)})" if record.number_parameters > len(given) else ""
    return ", ".join(f"{number:#x}" for number in given) + over if given else ""


def code_id(module: SummaryModule) -> str:
    """The code id, or nothing if it is made of a time or a size that cannot be true."""
    if module.ids.kind != IdKind.ELF:
        is_beyond = module.base_of_image + module.size_of_image > tables.ADDRESSES
        if names.is_ones(module.time_date_stamp) or is_beyond:
            return ""
    return module.ids.code_id or ""


def _build(module: SummaryModule, term: str) -> list[Fact]:
    """A module and its build."""
    return [
        Fact(term, text.name(module.name, _LONGEST)),
        Fact("Version", names.version(module.file_version)),
        Fact("Debug id", module.ids.debug_id or ""),
        Fact("Code id", code_id(module)),
    ]


def _builds(summary: Summary) -> list[Fact]:
    """The build of the module that crashed, or of the program."""
    crash, program = summary.crash, summary.program
    found = nearest(crash) if crash else None
    if found and program and found.module.base_of_image != program.base_of_image:
        return [*_build(found.module, "Module"), Fact("Program", text.name(program.name, _LONGEST))]
    return _build(program, "Program") if program else []


def _system(system: SummarySystem | None) -> list[Fact]:
    if system is None:
        return []
    version = names.system_version(system.major_version, system.minor_version, system.build_number)
    platform = " ".join(filter(None, [names.platform(system.platform_id), version]))
    processors = [names.architecture(system.processor_architecture), names.processors(system.number_of_processors)]
    return [
        Fact("System", ", ".join(filter(None, [platform, *processors]))),
        Fact(names.csd_term(system.platform_id), text.shortened(system.csd_version, _LONGEST) if system.csd_version else ""),
    ]


def _no_crash(reading: Reading, summary: Summary) -> Card:
    """The card of a dump that has no exception that is a crash, as far as it was read."""
    if reading.exceptions.fault:
        return Card("A crash may be missing", fault=f"The list of exceptions ends early: {reading.exceptions.fault}.")
    count = summary.counts.exceptions
    if count:
        words = f"{text.grouped(count)}, of threads that stopped or of a dump that somebody asked for"
        return Card("No crash in the file", [Fact("Exceptions", words)])
    return Card("No exception in the file")


def _crashed(reading: Reading, summary: Summary, crash: Crash) -> Card:
    """The card of a crash, without its build and its system."""
    platform = int(summary.system.platform_id) if summary.system else None
    record, code = crash.exception, f"{crash.exception.exception_code:#010x}"
    facts = [
        Fact("What", f"{code} {crash.reason}" if crash.reason else code),
        Fact("Where", _where(reading, crash)),
        Fact("Thread", _thread(reading, crash)),
        Fact("Reached", _reached(crash.reached)),
        Fact("Registers", _registers(crash.registers)),
    ]
    more = [
        Fact("Flags", names.exception_flags(record.exception_flags, platform)),
        Fact("Parameters", _parameters(crash)),
        Fact("Address of the exception", text.address(record.exception_address)),
        Fact("Registers in the file", tables.place(record.context)),
        Fact("Exception before it at", text.address(record.exception_record) if record.exception_record else ""),
    ]
    return Card(f"{crash.reason or code} {place(crash)}", facts, more)


def card(reading: Reading) -> Card:
    """The crash: what, where, the thread, what was reached, registers, build, system and time."""
    summary = reading.summary
    if summary is None:
        return Card("A crash may be missing", fault=f"The file was not searched to its end: {reading.summary_fault}.")
    shown = _crashed(reading, summary, summary.crash) if summary.crash else _no_crash(reading, summary)
    shown.facts += [
        *_builds(summary),
        *_system(summary.system),
        Fact("Command line", texts.command_line(reading, _LONGEST)),
        Fact("When", names.time(summary.header.time_date_stamp)),
    ]
    return shown.kept()


def about_file(reading: Reading) -> list[Fact]:
    """The file itself."""
    facts = [Fact("Size", text.in_units(reading.size))]
    if reading.header:
        facts += [
            Fact("Entries", text.grouped(reading.header.number_of_streams)),
            Fact("Flags", names.dump_flags(reading.header.flags)),
        ]
    return facts


def badge(reading: Reading) -> Badge:
    """The health of the file."""
    if reading.is_too_long and reading.header:
        listed = text.of(reading.header.number_of_streams, "entry", "entries")
        words = f"The directory has {listed}, more than the limits of a page allow: nothing of them is read."
        return Badge(words, "long")
    if reading.reached:
        words = f"The file has more than the limits of a page allow, and a first part is shown: {reading.reached}."
        return Badge(words, "long")
    if reading.fault:
        return Badge(f"The file can't be read as a dump: {reading.fault}.", "bad")
    count = len(reading.streams)
    lost = reading.summary.parts_outside if reading.summary else 0
    outside = f"{text.of(lost, 'part')} {'lies' if lost == 1 else 'lie'} outside the file" if lost else ""
    if reading.bad_count:
        verb = "has" if reading.bad_count == 1 else "have"
        words = f"{text.grouped(reading.bad_count)} of {text.of(count, 'entry', 'entries')} {verb} an error"
        return Badge(f"{words}, and {outside}." if outside else f"{words}.", "bad")
    if outside:
        return Badge(f"Readable, but {outside}.", "outside")
    if count == 0:
        return Badge("Readable, and its directory is empty.", "good")
    return Badge(f"Readable: {text.of(count, 'entry', 'entries')}, none with an error.", "good")
