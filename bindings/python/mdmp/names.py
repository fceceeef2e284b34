"""Names of the numbers of a dump, as headers have them (docs/reference/names.md).

>>> import mdmp
>>> from mdmp import names
>>> with mdmp.open("crashpad-one.dmp") as dump:
...     for exception in dump.exceptions:
...         platform = dump.system.platform_id
...         print(names.exception_name(platform, exception.exception_code, exception.exception_flags))
SIGSEGV / SEGV_MAPERR
>>> names.StreamType(9).name, names.stream_type_name(9), names.stream_type_name(8192)
('Memory64ListStream', 'Memory64ListStream', None)
>>> names.flag_names(names.Protection, 0x104)
'PAGE_READWRITE | PAGE_GUARD'

A function returns None for a number without a name. As a member of an IntEnum, such a number has the name `NUMBER_..`.
"""

from __future__ import annotations

from enum import IntFlag

from ._names import (
    ARCHITECTURES,
    EXCEPTIONS,
    FLAGS,
    PLATFORMS,
    Architecture,
    DumpFlags,
    ExceptionCode,
    ExceptionFlags,
    LinuxSignal,
    MachException,
    MemoryState,
    MemoryType,
    Platform,
    Protection,
    SignalCode,
    StreamType,
    WindowsException,
)
from ._parts import Numbers

__all__ = [
    "Architecture",
    "DumpFlags",
    "ExceptionCode",
    "ExceptionFlags",
    "LinuxSignal",
    "MachException",
    "MemoryState",
    "MemoryType",
    "Platform",
    "Protection",
    "SignalCode",
    "StreamType",
    "WindowsException",
    "architecture_name",
    "exception_code",
    "exception_name",
    "flag_names",
    "platform_name",
    "stream_type_name",
]


def _name(number: Numbers) -> str | None:
    return number.name if number.is_named else None


def exception_code(platform_id: int, code: int) -> ExceptionCode | None:
    """The code of an exception as the platform has it, or None if it has no name there."""
    kind = EXCEPTIONS.get(platform_id)
    found = kind(code) if kind else None
    return found if found is not None and found.is_named else None


def _flags_name(code: ExceptionCode, flags: int, architecture: int | None) -> str | None:
    for key in (None, architecture):
        name = FLAGS.get((type(code), key), {}).get((code, flags))
        if name:
            return name
    return _name(SignalCode(flags)) if isinstance(code, LinuxSignal) else None


def exception_name(platform_id: int, code: int, flags: int = 0, architecture: int | None = None) -> str | None:
    """The name of an exception's code, or None if the platform has no name for it.

    On Linux, Android, macOS and iOS, the name or the number of the flags follows, if they are not 0. Some names of flags
    depend on the processor architecture.

    >>> exception_name(Platform.MD_OS_LINUX, 11, 2), exception_name(Platform.MD_OS_LINUX, 6, 0xFFFFFFFA)
    ('SIGSEGV / SEGV_ACCERR', 'SIGABRT / SI_TKILL')
    >>> exception_name(Platform.MD_OS_LINUX, 11, 77), exception_name(Platform.MD_OS_LINUX, 11, 0)
    ('SIGSEGV / 0x0000004d', 'SIGSEGV')
    >>> exception_name(Platform.MD_OS_MAC_OS_X, 6, 1, architecture=Architecture.PROCESSOR_ARCHITECTURE_ARM64)
    'EXC_BREAKPOINT / EXC_ARM_BREAKPOINT'
    >>> exception_name(Platform.VER_PLATFORM_WIN32_NT, 0xC0000005, 1)
    'STATUS_ACCESS_VIOLATION'
    """
    found = exception_code(platform_id, code)
    if found is None or flags == 0 or isinstance(found, WindowsException):
        return found.name if found is not None else None
    return f"{found.name} / {_flags_name(found, flags, architecture) or f'{flags:#010x}'}"


def stream_type_name(stream_type: int) -> str | None:
    """The name of a type of stream, or None."""
    return _name(StreamType(stream_type))


def platform_name(platform_id: int) -> str | None:
    """What a platform is called, or None.

    >>> platform_name(0x8201), architecture_name(9)
    ('Linux', 'x64')
    """
    return PLATFORMS.get(platform_id)


def architecture_name(processor_architecture: int) -> str | None:
    """What a processor architecture is called, or None."""
    return ARCHITECTURES.get(processor_architecture)


def flag_names(kind: type[IntFlag], number: int) -> str:
    """The names of the flags in a number. Flags without a name are one number.

    >>> flag_names(MemoryState, 0x1000), flag_names(DumpFlags, 3), flag_names(DumpFlags, 0)
    ('MEM_COMMIT', 'MiniDumpWithDataSegs | MiniDumpWithFullMemory', 'MiniDumpNormal')
    >>> flag_names(Protection, 0x80000002), flag_names(Protection, 0)
    ('PAGE_READONLY | 0x80000000', '0x0')
    """
    found, left = [], number
    for name, flag in kind.__members__.items():
        if flag.value & number or flag.value == number:
            found.append(name)
            left &= ~flag.value
    return " | ".join(found + ([f"{left:#x}"] if left or not found else []))
