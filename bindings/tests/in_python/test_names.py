"""Names of numbers: how the tables are sorted, what some names are, and what the samples' exceptions are called."""

from __future__ import annotations

import os
import pathlib
import unittest
from enum import IntEnum, IntFlag
from typing import Mapping

import mdmp
from mdmp import _names, names
from mdmp.names import (
    Architecture,
    DumpFlags,
    ExceptionFlags,
    LinuxSignal,
    MachException,
    MemoryState,
    MemoryType,
    Platform,
    Protection,
    SignalCode,
    StreamType,
    WindowsException,
    exception_code,
    exception_name,
)

FOLDER = pathlib.Path(os.environ["MDMP_STORED"])
# The first type of streams that has no name.
FIRST_UNNAMED = next(number for number in range(0x8000) if names.stream_type_name(number) is None)
WINDOWS, LINUX, ANDROID = Platform.VER_PLATFORM_WIN32_NT, Platform.MD_OS_LINUX, Platform.MD_OS_ANDROID
MACOS, IOS = Platform.MD_OS_MAC_OS_X, Platform.MD_OS_IOS
X64, ARM64 = Architecture.PROCESSOR_ARCHITECTURE_AMD64, Architecture.PROCESSOR_ARCHITECTURE_ARM64
NUMBERS: list[type[IntEnum]] = [
    Architecture,
    LinuxSignal,
    MachException,
    Platform,
    SignalCode,
    StreamType,
    WindowsException,
]
FLAGS: list[type[IntFlag]] = [DumpFlags, ExceptionFlags, MemoryState, MemoryType, Protection]


class Sorted(unittest.TestCase):
    """The tables are sorted by number, and have each number once."""

    def assert_rises(self, what: str, found: list[int] | list[tuple[int, int]]) -> None:
        self.assertEqual(list(found), sorted(set(found)), what)
        self.assertTrue(found, what)

    def test_all_types_are_here(self) -> None:
        self.assertEqual(sorted(kind.__name__ for kind in [*NUMBERS, *FLAGS]), _names.__all__)

    def test_numbers(self) -> None:
        for kind in NUMBERS:
            # A second name of a number follows its first.
            self.assert_rises(kind.__name__, [int(member) for member in kind])
            every = [int(member) for member in kind.__members__.values()]
            self.assertEqual(every, sorted(every))
            self.assertTrue(all(0 <= number < 1 << 32 for number in every))

    def test_flags(self) -> None:
        for kind in FLAGS:
            found = [flag.value for flag in kind.__members__.values()]
            self.assert_rises(kind.__name__, found)
            self.assertTrue(all(number & (number - 1) == 0 for number in found))

    def test_flags_of_records(self) -> None:
        tables = [_names.LINUX_CODES, _names.MACH_CODES, _names.MACH_X86_CODES, _names.MACH_ARM_CODES]
        for table in tables:
            self.assert_rises(str(table)[:40], [(int(code), flags) for code, flags in table])
            self.assertIn(table, _names.FLAGS.values())
        for table in tables[2:]:
            self.assertFalse(_names.MACH_CODES.keys() & table.keys())

    def test_words(self) -> None:
        kinds: list[tuple[type[IntEnum], Mapping[int, str]]] = [
            (Platform, _names.PLATFORMS),
            (Architecture, _names.ARCHITECTURES),
        ]
        for kind, words in kinds:
            self.assertEqual(list(words), [int(member) for member in kind])


class Exceptions(unittest.TestCase):
    """What exceptions are called on each platform."""

    def test_windows(self) -> None:
        known = {
            0x40010006: "DBG_PRINTEXCEPTION_C",
            0x80000003: "STATUS_BREAKPOINT",
            0x80000004: "STATUS_SINGLE_STEP",
            0xC0000005: "STATUS_ACCESS_VIOLATION",
            0xC000001D: "STATUS_ILLEGAL_INSTRUCTION",
            0xC0000094: "STATUS_INTEGER_DIVIDE_BY_ZERO",
            0xC00000FD: "STATUS_STACK_OVERFLOW",
            0xC0000374: "STATUS_HEAP_CORRUPTION",
            0xC0000409: "STATUS_STACK_BUFFER_OVERRUN",
            0xC0000602: "STATUS_FAIL_FAST_EXCEPTION",
            0xE0434352: "EXCEPTION_COMPLUS",
            0xE06D7363: "EXCEPTION_MSVC",
            0x0517A7ED: "MD_EXCEPTION_CODE_WIN_SIMULATED",
        }
        for number, name in known.items():
            self.assertEqual(exception_name(WINDOWS, number), name)
            self.assertEqual(exception_name(WINDOWS, number, 1, X64), name)
        self.assertIs(exception_code(WINDOWS, 0xC0000005), WindowsException.EXCEPTION_ACCESS_VIOLATION)
        self.assertEqual(WindowsException.EXCEPTION_FLT_DIVIDE_BY_ZERO, 0xC000008E)

    def test_linux(self) -> None:
        for platform in (LINUX, ANDROID):
            self.assertEqual(exception_name(platform, 11, 1), "SIGSEGV / SEGV_MAPERR")
            self.assertEqual(exception_name(platform, 11, 2), "SIGSEGV / SEGV_ACCERR")
            self.assertEqual(exception_name(platform, 11, 0x80), "SIGSEGV / SI_KERNEL")
            self.assertEqual(exception_name(platform, 7, 2), "SIGBUS / BUS_ADRERR")
            self.assertEqual(exception_name(platform, 8, 1), "SIGFPE / FPE_INTDIV")
            self.assertEqual(exception_name(platform, 4, 2), "SIGILL / ILL_ILLOPN")
            self.assertEqual(exception_name(platform, 5, 1), "SIGTRAP / TRAP_BRKPT")
            self.assertEqual(exception_name(platform, 31, 1), "SIGSYS / SYS_SECCOMP")
            self.assertEqual(exception_name(platform, 6, 0xFFFFFFFA), "SIGABRT / SI_TKILL")
            self.assertEqual(exception_name(platform, 6, 1), "SIGABRT / 0x00000001")
            self.assertEqual(exception_name(platform, 11), "SIGSEGV")
            self.assertEqual(exception_name(platform, 0xFFFFFFFF), "MD_EXCEPTION_CODE_LIN_DUMP_REQUESTED")
        stops = [LinuxSignal(number).name for number in (*range(17, 24), 28)]
        self.assertEqual(
            stops, ["SIGCHLD", "SIGCONT", "SIGSTOP", "SIGTSTP", "SIGTTIN", "SIGTTOU", "SIGURG", "SIGWINCH"]
        )

    def test_apple(self) -> None:
        for platform in (MACOS, IOS):
            self.assertEqual(exception_name(platform, 1, 1), "EXC_BAD_ACCESS / KERN_INVALID_ADDRESS")
            self.assertEqual(exception_name(platform, 1, 2, ARM64), "EXC_BAD_ACCESS / KERN_PROTECTION_FAILURE")
            self.assertEqual(exception_name(platform, 1, 13, X64), "EXC_BAD_ACCESS / EXC_I386_GPFLT")
            self.assertEqual(exception_name(platform, 1, 13, ARM64), "EXC_BAD_ACCESS / 0x0000000d")
            self.assertEqual(exception_name(platform, 2, 1, X64), "EXC_BAD_INSTRUCTION / EXC_I386_INVOP")
            self.assertEqual(exception_name(platform, 2, 1, ARM64), "EXC_BAD_INSTRUCTION / EXC_ARM_UNDEFINED")
            self.assertEqual(exception_name(platform, 6, 1), "EXC_BREAKPOINT / 0x00000001")
            self.assertEqual(exception_name(platform, 5, 0x10002), "EXC_SOFTWARE / EXC_UNIX_ABORT")
            self.assertEqual(exception_name(platform, 10), "EXC_CRASH")

    def test_a_code_is_one_of_its_platform(self) -> None:
        found = [exception_name(one, 11) for one in (WINDOWS, LINUX, MACOS)]
        self.assertEqual(found, [None, "SIGSEGV", "EXC_RESOURCE"])
        self.assertEqual([exception_name(one, 0xC0000005) for one in (LINUX, MACOS, 0x8202, 77)], [None] * 4)
        self.assertIs(exception_code(LINUX, 3), LinuxSignal.SIGQUIT)
        self.assertIs(exception_code(MACOS, 3), MachException.EXC_ARITHMETIC)
        self.assertEqual(exception_name(Platform.VER_PLATFORM_WIN32s, 0x80000003), "STATUS_BREAKPOINT")

    def test_samples(self) -> None:
        known = {
            "crashpad-one.dmp": ["SIGSEGV / SEGV_MAPERR"],
            "lldb19-crash-stack.dmp": ["SIGSEGV"],
            "llvm-all-kinds.dmp": ["STATUS_ACCESS_VIOLATION"],
            "llvm-x86.dmp": [None],  # a breakpoint of Windows in a dump of Linux
            "llvm-empty.dmp": [],
            "wine8-child-normal.dmp": [],
        }
        for file, wanted in known.items():
            with self.subTest(file), mdmp.open(FOLDER / file) as dump:
                found = [
                    exception_name(
                        system.platform_id,
                        one.exception_code,
                        one.exception_flags,
                        system.processor_architecture,
                    )
                    for system in dump.systems[:1]
                    for one in dump.exceptions
                ]
                self.assertEqual(found, wanted)


class Others(unittest.TestCase):
    """Names of other numbers."""

    def test_streams(self) -> None:
        known = {
            0: "UnusedStream",
            3: "ThreadListStream",
            9: "Memory64ListStream",
            24: "ThreadNamesStream",
            0x43500001: "MD_CRASHPAD_INFO_STREAM",
            0x47670001: "MD_BREAKPAD_INFO_STREAM",
            0x47670009: "MD_LINUX_MAPS",
            0x4767000D: "LinuxProcFD",
        }
        for number, name in known.items():
            self.assertEqual((names.stream_type_name(number), StreamType(number).name), (name, name))
        self.assertGreater(FIRST_UNNAMED, 24)
        self.assertEqual([number for number in range(0x47670001, 0x4767000E) if number not in list(StreamType)], [])

    def test_a_number_without_a_name(self) -> None:
        number = StreamType(FIRST_UNNAMED)
        self.assertEqual((number, number.name, number.is_named), (FIRST_UNNAMED, f"NUMBER_{FIRST_UNNAMED}", False))
        self.assertTrue(StreamType.ThreadListStream.is_named)
        self.assertIsNone(exception_code(WINDOWS, 77))
        self.assertEqual([names.platform_name(77), names.architecture_name(77)], [None, None])

    def test_systems(self) -> None:
        words = [names.platform_name(number) for number in (2, 0x8101, 0x8102, 0x8201, 0x8203)]
        self.assertEqual(words, ["Windows", "macOS", "iOS", "Linux", "Android"])
        words = [names.architecture_name(number) for number in (0, 5, 6, 9, 12, 0x8003)]
        self.assertEqual(words, ["x86", "ARM", "IA-64", "x64", "ARM64", "ARM64"])

    def test_flags(self) -> None:
        self.assertEqual(names.flag_names(DumpFlags, 0), "MiniDumpNormal")
        self.assertEqual(names.flag_names(DumpFlags, 0x1002), "MiniDumpWithFullMemory | MiniDumpWithThreadInfo")
        self.assertEqual(names.flag_names(DumpFlags, 1 << 63 | 1), "MiniDumpWithDataSegs | 0x8000000000000000")
        self.assertEqual(names.flag_names(ExceptionFlags, 0x81), "EXCEPTION_NONCONTINUABLE | EXCEPTION_SOFTWARE_ORIGINATE")
        self.assertEqual(names.flag_names(Protection, 0x140), "PAGE_EXECUTE_READWRITE | PAGE_GUARD")
        self.assertEqual(names.flag_names(MemoryState, 0x10000), "MEM_FREE")
        self.assertEqual(names.flag_names(MemoryType, 0x1000000), "MEM_IMAGE")
        self.assertEqual(names.flag_names(MemoryType, 0), "0x0")
        self.assertEqual(DumpFlags(0x3) & DumpFlags.MiniDumpWithFullMemory, DumpFlags.MiniDumpWithFullMemory)
