"""A minidump over the bytes of a file."""

from __future__ import annotations

import io
import mmap
import os
from ctypes import POINTER, byref, c_uint8, c_uint32, c_uint64, cast, sizeof
from typing import IO, NamedTuple

from . import _structures
from ._buffer import Bytes, Lent
from ._calls import Calls, some_records, some_text
from ._fault import Fault, expect_good
from ._images import Images
from ._library import Filled, array_of, library
from ._limits import UNTRUSTED, Left, Limits, limits_of, number
from ._memory import Memory
from ._part_lines import json_line, text_line
from ._records import (
    ExceptionRecord,
    Header,
    Module,
    Range,
    Region,
    Status,
    Stream,
    System,
    Thread,
    ThreadName,
    UnloadedModule,
)
from ._summary import Crash, Summary, summary_of

_PART = 64 << 20
_WRITTEN = 1 << 20
_BYTES = POINTER(c_uint8)


class Where(NamedTuple):
    """The place of an address: a module, and the offset from the base of the module."""

    module: Module
    offset: int

    def __str__(self) -> str:
        return f"{self.module.name}+{self.offset:#x}"


class Dump(Calls):
    """A minidump over the bytes of a file: `bytes`, or another buffer in one piece. The bytes are not copied, and must
    not change.

    `limits` limits what is read and kept. If it is left out, it is `Limits.untrusted()`; None is no limit at all.
    `window`, `name` and `budget` replace these numbers of `limits`. A call that reaches a limit raises `LimitReached`.
    Records and texts remain valid after `close`; `memory` does not. Any number of threads may use one dump.

    >>> import mdmp
    >>> with mdmp.open("llvm-all-kinds.dmp") as dump:
    ...     for module in dump.modules:
    ...         print(hex(module.base_of_image), module.name)
    0x140000000 C:\\dir\\one.exe
    0x180000000 été 😀.dll
    0x190000000 
    """

    def __init__(
        self,
        data: Bytes,
        *,
        limits: Limits | None = UNTRUSTED,
        window: int | Left = Left.OUT,
        name: int | Left = Left.OUT,
        budget: int | None | Left = Left.OUT,
    ) -> None:
        super().__init__(data, limits_of(limits, window=window, name=name, budget=budget))
        self._mapping: mmap.mmap | None = None

    def close(self) -> None:
        """Closes the dump: each later use raises ValueError. If another thread reads the file that `open` mapped,
        BufferError is raised, and nothing is closed."""
        if self._mapping is not None:
            self._mapping.close()
        self._data = None
        self._kept = {}

    def __enter__(self) -> Dump:
        return self

    def __exit__(self, *_: object) -> None:
        self.close()

    # ---- what a dump has

    def _thread_name(self, thread_id: int) -> str | None:
        """The first name that the file has for a thread, before an error in the names, or None."""

        def make() -> dict[int, str | None]:
            try:
                rows = self.thread_names
            except Fault as fault:
                rows = fault.partial or ()
            return {row.thread_id: row.name for row in reversed(rows)}

        return self._keep("names by threads", make).get(thread_id)

    @property
    def header(self) -> Header:
        """The header."""

        def make() -> Header:
            raw, fault = _structures.Header(), _structures.Fault()
            with self._lent() as (file, size):
                status = library.mdmp_header_(file, size, byref(raw), byref(fault))
            expect_good(status, fault)
            return Header._of(raw, self)

        return self._keep("header", make)

    @property
    def streams(self) -> tuple[Stream, ...]:
        """The entries of the directory. The streams that they name are not checked."""

        rows: tuple[Stream, ...] = self._rows(library.mdmp_streams_, Stream, has_limits=False)
        return rows

    @property
    def verdicts(self) -> tuple[Fault | None, ...]:
        """The result of checking each entry of the directory: its first error, or None if the entry is good.

        >>> import mdmp
        >>> import pathlib
        >>> cut = mdmp.Dump(pathlib.Path("llvm-all-kinds.dmp").read_bytes()[:1334])
        >>> for entry, fault in enumerate(cut.verdicts):
        ...     if fault is not None:
        ...         print(entry, fault.kind.name, fault)
        7 STREAM_OUTSIDE entry 7: stream outside the file: offset 1321 size 14
        8 STREAM_OUTSIDE entry 8: stream outside the file: offset 1335 size 10
        9 STREAM_OUTSIDE entry 9: stream outside the file: offset 1345 size 8
        10 STREAM_OUTSIDE entry 10: stream outside the file: offset 1353 size 6
        """

        return self._keep("verdicts", lambda: self._judged(library.mdmp_verdicts_))

    @property
    def parts_outside(self) -> tuple[Fault, ...]:
        """The parts of records, such as stacks, that are not inside the file, as `mdmp check --parts` prints them. Each entry is
        read up to its own error, so an error in an entry raises no `Fault`.

        >>> import mdmp
        >>> import pathlib
        >>> cut = mdmp.Dump(pathlib.Path("crashpad-one.dmp").read_bytes()[:4708])
        >>> for part in cut.parts_outside:
        ...     print(part.part.name, part)
        STACK entry 2 item 0: stack outside the file: offset 4720 size 7264
        MEMORY entry 7 item 0: memory outside the file: offset 4720 size 7264
        """

        def make() -> tuple[Fault, ...]:
            return tuple(part for part in self._judged(library.mdmp_parts_outside_) if part is not None)

        return self._keep("parts_outside", make)

    @property
    def summary(self) -> Summary:
        """What the dump says of a crash and of itself. It covers all entries, each up to its own error, so an error in an entry
        hides nothing of the others, and raises no `Fault`. If a limit is reached, there is no summary.

        >>> import mdmp
        >>> with mdmp.open("crashpad-one.dmp") as dump:
        ...     summary = dump.summary
        >>> print(summary.system.platform_id.name, summary.program.name, summary.counts.modules)
        MD_OS_LINUX /usr/sample/cpad 4
        """

        return self._keep("summary", lambda: summary_of(self._raw_summary, self))

    @property
    def _raw_summary(self) -> _structures.Summary:
        """The summary as the library returned it, with the places of its names."""

        def make() -> _structures.Summary:
            raw, fault = _structures.Summary(), _structures.Fault()
            with self._lent() as (file, size):
                status = library.mdmp_summary_(file, size, byref(self._plain), byref(raw), byref(fault))
            expect_good(status, fault)
            return raw

        return self._keep("raw summary", make)

    @property
    def crash(self) -> Crash | None:
        """The crash: the first exception that is one. None if no exception is one.

        >>> import mdmp
        >>> with mdmp.open("crashpad-one.dmp") as dump:
        ...     crash = dump.crash
        >>> print(crash.reason, "in thread", crash.thread_id, crash.thread_name, "at", crash.module)
        SIGSEGV / SEGV_MAPERR in thread 22570 cpad at /usr/sample/cpad+0x14d8
        """
        return self.summary.crash

    @property
    def threads(self) -> tuple[Thread, ...]:
        """The threads, each with its name. Only `thread_names` raises an error in the names."""
        rows: tuple[Thread, ...] = self._rows(library.mdmp_threads_, Thread)
        return rows

    @property
    def modules(self) -> tuple[Module, ...]:
        """The modules, each with its name and its symbol file.

        >>> import mdmp
        >>> with mdmp.open("llvm-all-kinds.dmp") as dump:
        ...     first = dump.modules[0]
        >>> print(first.file_version, first.symbols.guid, first.symbols.name)
        1.2.3.4 33221100-5544-7766-8899-aabbccddeeff b'one.pdb'
        """
        rows: tuple[Module, ...] = self._rows(library.mdmp_modules_, Module)
        return rows

    @property
    def exceptions(self) -> tuple[ExceptionRecord, ...]:
        """The exceptions. Most dumps of a crash have one."""
        rows: tuple[ExceptionRecord, ...] = self._rows(library.mdmp_exceptions_, ExceptionRecord)
        return rows

    @property
    def systems(self) -> tuple[System, ...]:
        """The systems. Most dumps have one."""
        rows: tuple[System, ...] = self._rows(library.mdmp_systems_, System)
        return rows

    @property
    def system(self) -> System | None:
        """The first system, or None."""
        return next(iter(self.systems), None)

    @property
    def thread_names(self) -> tuple[ThreadName, ...]:
        """The names of threads, each with the id of its thread. A thread has its own name in `name`.

        >>> import mdmp
        >>> with mdmp.open("crashpad-one.dmp") as dump:
        ...     print([(row.thread_id, row.name) for row in dump.thread_names], dump.threads[0].name)
        [(22570, 'cpad')] cpad
        """
        rows: tuple[ThreadName, ...] = self._rows(library.mdmp_thread_names_, ThreadName)
        return rows

    # ---- records of other kinds

    @property
    def unloaded(self) -> tuple[UnloadedModule, ...]:
        """The unloaded modules."""
        rows: tuple[UnloadedModule, ...] = self._rows(library.mdmp_unloaded_, UnloadedModule)
        return rows

    @property
    def regions(self) -> tuple[Region, ...]:
        """The regions of memory."""
        rows: tuple[Region, ...] = self._rows(library.mdmp_regions_, Region)
        return rows

    @property
    def ranges(self) -> tuple[Range, ...]:
        """The ranges of memory whose bytes the file may have."""
        rows: tuple[Range, ...] = self._rows(library.mdmp_ranges_, Range)
        return rows

    # ---- memory

    @property
    def memory(self) -> Memory:
        """Memory of the dumped process, by address. If `output` is reached, `partial` of the `OutputLimit` is None."""

        def make() -> Memory:
            kept = 2 * sizeof(_structures.Slot)  # of a range, in the index
            filled = self._fill(
                library.mdmp_ranges_, _structures.Range, some_records, byref(self._plain), most=self._most(kept)
            )
            self._expect_whole(filled, None)
            return Memory(self, filled.items, filled.given)

        return self._keep("memory", make)

    def where(self, address: int) -> Where | None:
        """The first module that has an address, and the offset from its base; None if no module has the address.

        >>> import mdmp
        >>> with mdmp.open("crashpad-one.dmp") as dump:
        ...     print(dump.where(0x7FCAA7954010))
        ...     print(dump.where(0x10))
        linux-vdso.so.1+0x10
        None
        """
        at = self._images.first(address)
        if at is None:
            return None
        module = self.modules[at]
        return Where(module, address - module.base_of_image)

    @property
    def _images(self) -> Images:
        """An index of the modules' images."""

        def make() -> Images:
            modules = self.modules
            rows = array_of(_structures.Module, len(modules))()
            for row, module in zip(rows, modules):
                row.base_of_image, row.size_of_image = module.base_of_image, module.size_of_image
            return Images(rows, len(modules))

        return self._keep("images", make)

    # ---- texts, and copies

    def check(self, *, parts: bool = False) -> str:
        """The text of `mdmp check`, or with `parts` of `mdmp check --parts`: a line for each entry. If an entry is bad,
        `partial` of the `Fault` is the text.

        >>> import mdmp
        >>> with mdmp.open("llvm-x86.dmp") as dump:
        ...     print(dump.check(), end="")
        entry 0: ok
        entry 1: ok
        entry 2: ok
        """
        return self._text_with_parts(library.mdmp_check_, text_line) if parts else self._text(library.mdmp_check_)

    def list(self, *, pdb: bool = False) -> str:
        """The text of `mdmp list`, or with `pdb` of `mdmp list --pdb`. `partial` of a `Fault` is the text before it."""
        return self._text(library.mdmp_list_, pdb)

    def check_json(self, *, parts: bool = False) -> str:
        """The text of `mdmp check --json`, or with `parts` of `mdmp check --json --parts`: an object in place of each line
        of `check`.

        >>> import json, mdmp
        >>> with mdmp.open("llvm-x86.dmp") as dump:
        ...     [json.loads(line)["fault"] for line in dump.check_json().splitlines()]
        [None, None, None]
        """
        call = library.mdmp_check_json_
        return self._text_with_parts(call, json_line) if parts else self._text(call)

    def list_json(self, *, pdb: bool = False) -> str:
        """The text of `mdmp list --json`, or with `pdb` of `mdmp list --json --pdb`: an object in place of each line.

        A line feed ends each object, and is nowhere else. A name may have U+2028: use `split("\\n")` rather than
        `splitlines()`. `partial` of a `Fault` is the text before it.
        """
        return self._text(library.mdmp_list_json_, pdb)

    def write_list(self, stream: IO[str], *, pdb: bool = False) -> None:
        """Writes the text of `list`, of any length. The file is listed once for each 64 MiB of the text, mostly once. At
        most 64 MiB of the text are in memory. If there is an error, the text before it is written."""
        skip = 0
        # This memory takes no space until it is written to.
        with self._lent() as (file, size), mmap.mmap(-1, _PART, flags=mmap.MAP_PRIVATE) as part:
            left, fault = c_uint64(), _structures.Fault()
            status = int(Status.BUFFER_TOO_SHORT)
            while status == Status.BUFFER_TOO_SHORT:
                with Lent(part) as (out, room):
                    status = library.mdmp_list_part_(
                        file, size, byref(self._plain), pdb, skip, cast(out, _BYTES), room, byref(left), byref(fault)
                    )
                given = min(left.value, _PART)
                for at in range(0, given, _WRITTEN):
                    stream.write(part[at : min(at + _WRITTEN, given)].decode("ascii"))
                skip += given
        expect_good(status, fault)

    def copy(self, *types: int) -> bytes:
        """The bytes of a new file: the streams of 1 to 16 types, and all that their records name.

        >>> import mdmp
        >>> with mdmp.open("crashpad-one.dmp") as dump:
        ...     small = mdmp.Dump(dump.copy(3, 7))
        >>> [stream.stream_type for stream in small.streams]
        [7, 3]
        """
        return self._copied(types, self._plain).bytes()

    def write_copy(self, path: str | os.PathLike[str], *types: int, limits: Limits | None = None) -> None:
        """Writes what `copy` returns to a new file. If no `limits` are given, only `window` and `name` of the dump limit
        the copy. If the file exists, FileExistsError is raised. If the copy raises an error, no file is made."""
        lifted = limits or Limits(self._limits.window, self._limits.name)
        filled = self._copied(types, lifted._plain())
        with io.open(path, "xb", buffering=0) as stream:
            left = memoryview(filled.items)[: filled.given].cast("B")
            while len(left):
                left = left[stream.write(left[:_PART]) or 0 :]

    def _copied(self, types: tuple[int, ...], limits: _structures.Limits) -> Filled:
        chosen = (c_uint32 * max(len(types), 1))(*(number("type", given, 32) for given in types))
        filled = self._fill(library.mdmp_copy_, c_uint8, some_text, byref(limits), chosen, len(types))
        expect_good(filled.status, filled.fault)
        return filled


def open(
    path: str | os.PathLike[str],
    *,
    limits: Limits | None = UNTRUSTED,
    window: int | Left = Left.OUT,
    name: int | Left = Left.OUT,
    budget: int | None | Left = Left.OUT,
) -> Dump:
    """A dump over a file, which is mapped and not copied. The limits are those of `Dump`.

    >>> import mdmp
    >>> with mdmp.open("crashpad-one.dmp") as dump:
    ...     print(len(dump.threads), "thread", dump.system.csd_version)
    1 thread -fc-v595 #1 SMP PREEMPT_DYNAMIC @0 x86_64
    """
    given = limits_of(limits, window=window, name=name, budget=budget)
    with io.open(path, "rb") as stream:
        if os.fstat(stream.fileno()).st_size == 0:
            return Dump(b"", limits=given)  # nothing can be mapped
        mapping = mmap.mmap(stream.fileno(), 0, access=mmap.ACCESS_READ)
    dump = Dump(mapping, limits=given)
    dump._mapping = mapping
    return dump
