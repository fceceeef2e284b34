"""Errors in a file, as exceptions."""

from __future__ import annotations

from typing import Any

from . import _structures
from ._library import fault_text
from ._records import FaultKind, Part, Status


class Fault(Exception):
    """An error in a file: the message of the command, and numbers. If a limit is reached, it is a `LimitReached`.

    >>> import mdmp
    >>> try:
    ...     mdmp.Dump(b"MDMP").header
    ... except mdmp.Fault as fault:
    ...     print(fault, fault.kind.name, fault.size)
    file of 4 bytes is too short FILE_TOO_SHORT 4
    """

    kind: FaultKind
    """Which error it is."""
    entry: int | None
    """The number of the directory entry, from 0; None if the error is not in an entry."""
    index: int | None
    """The number of the record in its stream, from 0; None if the error is not in one record."""
    offset: int
    """An offset from the start of the file; 0 if the kind has none."""
    size: int
    """A number of bytes, or what the kind says."""
    part: Part | None
    """Which part of the record has the error; None if the error is not in a part."""
    partial: Any
    """What precedes the error: the records, or the text."""

    def __init__(self, text: str, kind: FaultKind, entry: int | None = None, index: int | None = None, offset: int = 0,
                 size: int = 0, part: Part | None = None, partial: Any = None) -> None:
        # All are arguments of the exception, so that it can be pickled and sent to another process.
        super().__init__(text, kind, entry, index, offset, size, part, partial)
        self.kind, self.entry, self.index = kind, entry, index
        self.offset, self.size, self.part, self.partial = offset, size, part, partial

    def __str__(self) -> str:
        return str(self.args[0])

    def __repr__(self) -> str:
        return f"{type(self).__name__}({self.args[0]!r})"


class LimitReached(Fault):
    """A limit of the dump is reached (`Limits`), and `partial` has what precedes it. `kind` says which limit:

    BUDGET        the `size` bytes at `offset` would pass `budget`, and were not read
    MEMORY_LIMIT  the lists would take `size` bytes, which is over `memory`
    ASIDE_LIMIT   the CodeView record at `offset`, of which `size` bytes are read, would pass `aside`
    COPY_BUDGET   the copy needs `size` bytes, which is over `budget`

    If `output` is reached, it is an `OutputLimit`.
    """


class OutputLimit(LimitReached):
    """The next row of a property, or the next line of a text, would pass `output` of the dump's limits. `partial` has
    the rows or the lines before it, and `size` is the limit. `kind` is `FaultKind.NONE`: the library has no such error.

    >>> import mdmp
    >>> try:
    ...     mdmp.open("crashpad-one.dmp", limits=mdmp.Limits(output=8)).list()
    ... except mdmp.OutputLimit as reached:
    ...     print(reached, repr(reached.partial))
    output limit of 8 bytes reached: limits=None lifts all limits ''
    """


_LIMITS = (FaultKind.BUDGET, FaultKind.MEMORY_LIMIT, FaultKind.ASIDE_LIMIT, FaultKind.COPY_BUDGET)
_WIDE = (FaultKind.TOO_MANY_RANGES, FaultKind.MEMORY_LIMIT, FaultKind.COPY_BUDGET)


def output_limit(most: int, partial: Any) -> OutputLimit:
    """The next row or line would pass so many bytes."""
    words = f"output limit of {most} bytes reached: limits=None lifts all limits"
    return OutputLimit(words, FaultKind.NONE, size=most, partial=partial)


def fault_of(raw: _structures.Fault, partial: Any = None) -> Fault:
    """The exception for a plain fault."""
    kind = FaultKind(raw.kind)
    is_of_entry = FaultKind.STREAM_OUTSIDE <= kind <= FaultKind.NAME_TOO_LONG
    made = LimitReached if kind in _LIMITS else Fault
    return made(
        fault_text(raw),
        kind,
        raw.entry if is_of_entry else None,
        raw.index if raw.has_index else None,
        raw.offset | (raw.high << 64 if kind == FaultKind.PART_OUTSIDE else 0),
        raw.size | (raw.high << 64 if kind in _WIDE else 0),
        Part(raw.part) if raw.part else None,
        partial,
    )


def expect_good(status: int, raw: _structures.Fault, partial: Any = None) -> None:
    """Raises the exception for a status, unless the status is OK."""
    if status == Status.OK:
        return
    if status == Status.NO_MEMORY:
        raise MemoryError(fault_text(raw))
    if status == Status.BAD_ARGUMENT:
        raise ValueError(fault_text(raw))
    raise fault_of(raw, partial)
