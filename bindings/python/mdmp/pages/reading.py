"""Reads a dump for a page: each list up to its first error. Only the records that are shown are made."""

from __future__ import annotations

import struct
from ctypes import Structure, byref, sizeof
from dataclasses import replace
from functools import cached_property, lru_cache
from itertools import islice
from typing import Any, Iterator

from .. import _records, _structures
from .._buffer import bytes_at
from .._dump import Dump
from .._fault import Fault, LimitReached, OutputLimit, expect_good, fault_of, output_limit
from .._images import Images
from .._library import Filled, array_of, library
from .._limits import UNTRUSTED, Limits
from .._records import FaultKind, Header, Status, Stream
from .._summary import Crash, Summary
from ..names import StreamType

# The most bytes of the file that are read for one list. The lists of 200,000 modules need half of them.
BUDGET = _structures.UNTRUSTED

# The types of streams that have records, and the least bytes of a record. They give the most rows of a list, so that the
# first buffer is not too short.
_LEAST = _structures.RECORD_SIZES


def page_limits(budget: int) -> Limits:
    """The limits for files from strangers, with this `budget`."""
    return replace(UNTRUSTED, budget=budget)


@lru_cache(maxsize=None)
def _unpacker(raw: type[Structure], names: tuple[str, ...]) -> struct.Struct:
    """Gives these members of a plain structure, in the order in which they are in it."""
    form, given = "=", 0

    def place(name: str) -> tuple[int, int]:
        kind: Any = raw
        at = 0
        for part in name.split("."):
            at += getattr(kind, part).offset
            kind = dict(kind._fields_)[part]
        return at, at + sizeof(kind)

    for name in names:
        first, _, last = name.partition(":")
        (start, end), form_of = place(first), {4: "I", 8: "Q"}
        if last:
            end = place(last)[1]
        form += f"{start - given}x{f'{end - start}s' if last else form_of[end - start]}"
        given = end
    return struct.Struct(f"{form}{sizeof(raw) - given}x")


class Listing:
    """The records of one kind, as the library returned them: the first `count` of `items`. `raw` and `members` go over
    them, and `record` makes one."""

    def __init__(self, reading: Reading, call: Any, record: Any, *types: int) -> None:
        """The records of the streams of these types, or the entries of the directory if no type is given."""
        self._reading, self._record = reading, record
        self.fault: Fault | None = None
        self._raw = getattr(_structures, record.__name__)
        self.items, self.count = array_of(self._raw, 0)(), 0
        reading.lists.append(self)
        if reading.is_too_long or not reading.may_have(types):
            return
        limits = [byref(reading.dump._plain)] if types else []
        filled = reading.fill(call, self._raw, reading.most_rows(types), *limits)
        self.items, self.count = filled.items, filled.given
        try:
            reading.expect_whole(filled)
        except Fault as fault:
            self.fault = fault

    def __len__(self) -> int:
        return self.count

    def raw(self, most: int | None = None) -> Iterator[Any]:
        """The first records, or all if no number is given."""
        for at in range(self.count if most is None else min(most, self.count)):
            yield self.items[at]

    def members(self, *names: str, most: int | None = None) -> Iterator[tuple[Any, ...]]:
        """These members of the first records, or of all if no number is given, in far less time than by `raw`. The names
        come in the order of the structure. A member of a member is written `stack.size`. `state:protect` gives the bytes from
        one member to the end of another."""
        count = self.count if most is None else min(most, self.count)
        return islice(_unpacker(self._raw, names).iter_unpack(self.items), count)

    def record(self, at: int) -> Any:
        """The record at a place of the list, with its names."""
        return self._record._of(self.items[at], self._reading)

    def records(self, most: int) -> Iterator[Any]:
        """The first records, with their names."""
        for at in range(min(most, self.count)):
            yield self.record(at)


class Reading:
    """A dump that is read for a page."""

    def __init__(self, dump: Dump, size: int, most: int) -> None:
        """`size` is the size of the file, and `most` the most rows that a table shows. All lists together keep at most as
        many bytes as `output` of the dump's limits. If an address is looked for, an index takes at most 64 bytes more for
        each module."""
        self.dump, self.size, self.most = dump, size, most
        self._room = dump.limits.output
        self.lists: list[Listing] = []
        self.header: Header | None = None
        self.fault: Fault | None = None
        self.is_too_long = False
        self._names: dict[int, str | None] = {}
        try:
            self.header = dump.header
        except Fault as fault:
            self.fault = fault
        # If the directory passes a limit, nothing is listed: the call that returns its entries has no limits.
        self.is_too_long = self.header is not None and self._passes(self.header.number_of_streams)
        self._rows: dict[int, int] = {}
        self.streams = Listing(self, library.mdmp_streams_, Stream)
        self._count_rows()
        self.tables: dict[str, Listing] = {}
        self.modules = self._table("modules")
        self._images: Images | None = None
        self.exceptions = self._table("exceptions")
        self._verdicts: Any = ()
        self.verdict_count = self.bad_count = 0
        if not self.is_too_long:
            self._read_verdicts()
        self.threads = self._table("threads")
        self.systems = self._table("systems")
        self.unloaded = self._table("unloaded")
        self.regions = self._table("regions")
        self.thread_names = self._table("thread_names")
        self.ranges = self._table("ranges")
        for name in _structures.TABLES:
            if name not in self.tables:
                self._table(name)
        self._name_threads()

    def _table(self, name: str) -> Listing:
        """Reads the records of one kind, by the name of the call."""
        table = _structures.TABLES[name]
        record = getattr(_records, table.row.__name__)
        self.tables[name] = Listing(self, getattr(library, f"mdmp_{name}_"), record, *table.types)
        return self.tables[name]

    def _count_rows(self) -> None:
        """The most records that the streams of each type have, by their sizes. A stream outside the file has none."""
        rows = dict.fromkeys((stream_type for (stream_type,) in self.streams.members("stream_type")), 0)
        least = {kind: size for kind, size in _LEAST.items() if kind in rows}
        for stream_type, size, rva in self.streams.members("stream_type", "size", "rva"):
            if stream_type in least and rva + size <= self.size:
                rows[stream_type] += size // least[stream_type]
        self._rows = rows

    def may_have(self, types: tuple[int, ...]) -> bool:
        """Whether a list of these types may have a record or an error: not if the directory names no such stream."""
        return not types or self.streams.fault is not None or any(kind in self._rows for kind in types)

    def most_rows(self, types: tuple[int, ...]) -> int:
        """The most rows that a list of streams of these types has, or of the directory if there are none."""
        if not types:
            return min(self.header.number_of_streams, self.size // 12) if self.header else 0
        budget = self.dump.limits.budget
        rows = sum(self._rows.get(kind, 0) for kind in types)
        return rows if budget is None else min(rows, budget // min(_LEAST[kind] for kind in types) + 1)

    def _passes(self, entries: int) -> bool:
        """Whether a directory of so many entries passes the limit on reading or on memory."""
        limits = self.dump.limits
        held = limits.window + limits.name + 12 * entries
        is_long = limits.budget is not None and 32 + 12 * entries > limits.budget
        return is_long or (limits.memory is not None and held > limits.memory)

    def fill(self, call: Any, item: Any, rows: int, *arguments: Any) -> Filled:
        """What a call returns, as far as `output` allows. It has at most about so many rows."""
        most = None if self._room is None else self._room // sizeof(item)
        if most == 0 and rows > 0:  # the call would only count them
            return Filled(Status.BUFFER_TOO_SHORT, array_of(item, 0)(), 0, _structures.Fault(), is_cut=True)
        rows = min(rows, BUDGET // sizeof(item))
        filled = self.dump._fill(call, item, lambda _: rows, *arguments, most=most)
        if self._room is not None:
            self._room -= filled.given * sizeof(item)
        return filled

    def expect_whole(self, filled: Filled) -> None:
        """Raises the error that ended a list, unless the list is whole."""
        if filled.is_cut:
            raise output_limit(self.dump.limits.output or 0, None)
        expect_good(filled.status, filled.fault)

    def _read_verdicts(self) -> None:
        limits = byref(self.dump._plain)
        filled = self.fill(library.mdmp_verdicts_, _structures.Fault, len(self.streams), limits)
        self._verdicts, self.verdict_count = filled.items, filled.given
        if filled.fault.kind == FaultKind.BAD_ENTRIES:
            self.bad_count = filled.fault.size
            if not filled.is_cut:
                return
        try:
            self.expect_whole(filled)
        except Fault as fault:
            self.fault = self.fault or fault
            self.bad_count = sum(1 for _ in self.bad_entries())

    @cached_property
    def _summary(self) -> Summary | Fault:
        if self.fault is not None and self._passes_limits(self.fault):
            return self.fault  # a summary reads all that verdicts read
        try:
            return self.dump.summary
        except Fault as fault:
            return fault

    def _passes_limits(self, fault: Fault) -> bool:
        """Whether this error of the verdicts says that all entries together pass the limits."""
        if fault.kind == FaultKind.TOO_MANY_RANGES:
            budget = self.dump.limits.budget
            return budget is not None and fault.size * _LEAST[StreamType.MemoryListStream] > budget
        return isinstance(fault, LimitReached) and not isinstance(fault, OutputLimit)

    @property
    def summary(self) -> Summary | None:
        """The summary; None if the file is no dump, or if a limit is reached."""
        return self._summary if isinstance(self._summary, Summary) else None

    @property
    def summary_fault(self) -> Fault | None:
        """The error that there is in place of the summary."""
        return self._summary if isinstance(self._summary, Fault) else None

    @property
    def crash(self) -> Crash | None:
        """The crash."""
        return self.summary.crash if self.summary else None

    @property
    def reached(self) -> LimitReached | None:
        """The error of the first limit that was reached, or None."""
        faults = [self.fault, *(listing.fault for listing in self.lists), self.summary_fault]
        return next((fault for fault in faults if isinstance(fault, LimitReached)), None)

    def _name_threads(self) -> None:
        """The first name of each thread that is shown or crashed, and of no other."""
        wanted = {row.thread_id for listing in (self.threads, self.exceptions) for row in listing.raw(self.most)}
        for at, (thread_id,) in enumerate(self.thread_names.members("thread_id")):
            if thread_id in wanted:
                self._names[thread_id] = self.thread_names.record(at).name
                wanted.remove(thread_id)
                if not wanted:
                    return

    @cached_property
    def thread_ids(self) -> set[int]:
        """The threads that the file lists."""
        return {thread_id for (thread_id,) in self.threads.members("thread_id")}

    def bytes_at(self, rva: int, size: int) -> bytes:
        """Bytes of the file, as far as they are in it."""
        with self.dump._lent() as (file, file_size):
            return bytes_at(file + rva, min(size, file_size - rva)) if rva < file_size else b""

    def verdict(self, entry: int) -> Fault | None:
        """The first error of an entry, or None."""
        raw = self._verdicts[entry]
        return fault_of(raw) if raw.kind else None

    def bad_entries(self) -> Iterator[int]:
        """The entries with an error, in order."""
        kinds = _unpacker(_structures.Fault, ("kind",)).iter_unpack(self._verdicts)
        return (entry for entry, (kind,) in enumerate(islice(kinds, self.verdict_count)) if kind)

    def holder(self, address: int) -> int | None:
        """The number in `modules` of the first module that has an address."""
        if self._images is None:
            self._images = Images(self.modules.items, len(self.modules))
        return self._images.first(address)

    # ---- for making records

    def _name_at(self, place: Any) -> str | None:
        return self.dump._name_at(place)

    def _symbols_at(self, place: Any) -> Any:
        return self.dump._symbols_at(place)

    def _ids_of(self, raw: Any, name: str | None, symbols: Any) -> Any:
        return self.dump._ids_of(raw, name, symbols)

    def _thread_name(self, thread_id: int) -> str | None:
        return self._names.get(thread_id)
