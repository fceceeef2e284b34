"""Numbers of a dump in words: the name of the number, or the number itself. A number that its own value shows to be no
fact, such as one whose bits are all set, gets no words."""

from __future__ import annotations

import datetime
from enum import IntFlag

from .._parts import Version
from ..names import (
    DumpFlags,
    ExceptionFlags,
    MemoryState,
    MemoryType,
    Platform,
    Protection,
    architecture_name,
    exception_name,
    flag_names,
    platform_name,
    stream_type_name,
)
from . import text

NOT_SET = "not set"
# The platforms of Windows, whose exceptions have flags and whose system has a service pack.
WINDOWS = (Platform.VER_PLATFORM_WIN32s, Platform.VER_PLATFORM_WIN32_WINDOWS, Platform.VER_PLATFORM_WIN32_NT)
# The greatest numbers of a system's version that a system has.
_MOST_MAJOR, _MOST_BUILD = 255, 0xFFFF
_MOST_PROCESSORS = 254
# 1990: no system wrote dumps before.
_FIRST_TIME = 631_152_000
# An address that is farther above the base of a module is in no part of it, whatever size the file says.
MOST_OF_IMAGE = (1 << 32) - 1


def is_ones(number: int, bits: int = 32) -> bool:
    """Whether all bits of a number are set, as in memory that was never written."""
    return number == (1 << bits) - 1


def told(number: int, bits: int = 32) -> str:
    """A number in decimal, or nothing if it is 0 or all of its bits are set."""
    return "" if number == 0 or is_ones(number, bits) else f"{number:,}"


def stream_type(number: int) -> str:
    """The name of a type of stream, or its number."""
    return stream_type_name(number) or f"{number:#x}"


def exception(number: int, flags: int = 0, platform: int | None = None, architecture: int | None = None) -> str:
    """The name of an exception's code, or its number. None is taken for Windows."""
    known = Platform.VER_PLATFORM_WIN32_NT if platform is None else platform
    return exception_name(known, number, flags, architecture) or f"{number:#010x}"


def exception_code(number: int, platform: int | None = None) -> str:
    """The number of an exception's code, and its name if the platform has one. None is taken for Windows."""
    name = exception_name(Platform.VER_PLATFORM_WIN32_NT if platform is None else platform, number)
    return f"{number:#010x} {name}" if name else f"{number:#010x}"


def exception_flags(number: int, platform: int | None = None) -> str:
    """The flags of an exception, with their names on Windows. Nothing if there are none."""
    if number == 0:
        return ""
    return _flags(ExceptionFlags, number) if platform is None or platform in WINDOWS else f"{number:#x}"


def dump_flags(number: int) -> str:
    """The flags of a header, or their number if some of them have no names."""
    every = sum(DumpFlags.__members__.values())
    return flag_names(DumpFlags, number) if number & ~every == 0 else f"{number:#x}, which has bits without a name"


def architecture(number: int) -> str:
    """The name of a processor architecture."""
    return architecture_name(number) or f"architecture {number}"


def platform(number: int) -> str:
    """The name of a platform."""
    return platform_name(number) or f"platform {number:#x}"


def csd_term(platform: int) -> str:
    """What CSDVersion is on a platform."""
    if platform in WINDOWS:
        return "Service pack"
    return "Kernel" if platform in (Platform.MD_OS_LINUX, Platform.MD_OS_ANDROID) else "Build of the system"


def processors(number: int) -> str:
    """How many processors there are, or nothing if the number is not set."""
    if not 0 < number <= _MOST_PROCESSORS:
        return ""
    return f"{number} processor{'' if number == 1 else 's'}"


def system_version(major: int, minor: int, build: int) -> str:
    """The version of a system, or nothing if no system has such a version."""
    is_known = (major or minor or build) and max(major, minor) <= _MOST_MAJOR and build <= _MOST_BUILD
    return f"{major}.{minor}.{build}" if is_known else ""


def version(number: Version) -> str:
    """The version of a module, or nothing if it is not set."""
    return "" if set(number) in ({0}, {0xFFFF}) else str(number)


def is_time(seconds: int) -> bool:
    """Whether a time in seconds since 1970 can be that of a dump."""
    return seconds >= _FIRST_TIME and not is_ones(seconds)


def time(seconds: int) -> str:
    """A time in seconds since 1970."""
    if seconds == 0 or is_ones(seconds):
        return NOT_SET
    if not is_time(seconds):
        return f"{text.of(seconds, 'second')} after 1970 began"
    moment = datetime.datetime.fromtimestamp(seconds, datetime.timezone.utc)
    return f"{moment:%Y-%m-%d %H:%M:%S} UTC"


def _flags(kind: type[IntFlag], number: int) -> str:
    return f"{number:#x}" if is_ones(number) else flag_names(kind, number)


def protection(number: int) -> str:
    """The protection of memory. A free or reserved region has none."""
    return _flags(Protection, number) if number else "none"


def state(number: int) -> str:
    """The state of memory."""
    return _flags(MemoryState, number)


def memory_type(number: int) -> str:
    """The type of memory."""
    return _flags(MemoryType, number) if number else "none"
