"""Summaries, crashes and the ids of modules."""

from __future__ import annotations

import os
import pathlib
import struct
import unittest

import mdmp
from lib import strange_dumps
from lib.minidumps import File, counted
from mdmp import names

FOLDER = pathlib.Path(os.environ["MDMP_STORED"])
CRASHPAD = FOLDER / "crashpad-one.dmp"


class OfSample(unittest.TestCase):
    """The crash of a program on Linux."""

    def assert_crash(self, crash: mdmp.Crash) -> None:
        self.assertIs(crash.code, names.LinuxSignal.SIGSEGV)
        self.assertEqual(crash.flags, 1)
        self.assertEqual(crash.reason, "SIGSEGV / SEGV_MAPERR")
        self.assertEqual((crash.thread_id, crash.thread_name), (22570, "cpad"))
        self.assertEqual(crash.address, 0x55C6E269E4D8)
        self.assertEqual(str(crash.module), "/usr/sample/cpad+0x14d8")
        assert crash.registers is not None and crash.module is not None and crash.reached is not None
        self.assertEqual(crash.registers.instruction, crash.address)
        self.assertEqual(crash.module.module.base_of_image, 0x55C6E269D000)
        self.assertEqual(crash.reached, mdmp.Reached(crash.exception.exception_address, mdmp.Access.NOT_SAID))
        self.assertIsNone(crash.near)
        self.assertEqual(crash.parameters, ())

    def test_whole(self) -> None:
        with mdmp.open(CRASHPAD) as dump:
            summary = dump.summary
            self.assertIs(summary, dump.summary)
            self.assertIs(dump.crash, summary.crash)
            records, header, system, modules = dump.exceptions, dump.header, dump.system, dump.modules
            counts = [len(rows) for rows in (dump.streams, dump.threads, dump.modules, dump.exceptions, dump.ranges)]
            memory = sum(row.size for row in dump.ranges if row.extent == mdmp.Extent.INSIDE)
        crash, told, program = summary.crash, summary.system, summary.program
        assert crash is not None and told is not None and program is not None and system is not None
        self.assert_crash(crash)
        self.assertEqual((crash.exception, summary.header), (records[0], header))
        self.assertIs(told.platform_id, names.Platform.MD_OS_LINUX)
        self.assertIs(told.processor_architecture, names.Architecture.PROCESSOR_ARCHITECTURE_AMD64)
        for name in ("csd_version", "cpu", "build_number", "number_of_processors", "suite_mask", "product_type"):
            self.assertEqual(getattr(told, name), getattr(system, name))
        for name in ("name", "name_place", "base_of_image", "size_of_image", "codeview", "symbols", "ids", "file_version"):
            self.assertEqual(getattr(program, name), getattr(modules[0], name))
        given = summary.counts
        self.assertEqual([given.streams, given.threads, given.modules, given.exceptions, given.ranges], counts)
        self.assertEqual(given.memory, memory)
        self.assertEqual((summary.bad_entries, summary.first_error), (0, None))
        self.assertEqual((summary.parts_outside, summary.first_outside), (0, None))
        assert crash.module is not None
        self.assertEqual(crash.module.module, program)

    def test_cut(self) -> None:
        summary = mdmp.Dump(CRASHPAD.read_bytes()[:4708]).summary
        assert summary.crash is not None and summary.first_outside is not None
        self.assert_crash(summary.crash)
        found = summary.first_outside
        self.assertEqual((found.entry, found.index, found.part), (2, 0, mdmp.Part.STACK))
        self.assertEqual((found.kind, found.offset, found.size), (mdmp.FaultKind.PART_OUTSIDE, 4720, 7264))
        self.assertIn("stack outside the file", str(found))
        self.assertGreater(summary.parts_outside, 0)

    def test_parts(self) -> None:
        whole = CRASHPAD.read_bytes()
        self.assertEqual(mdmp.Dump(whole).parts_outside, ())
        cut = mdmp.Dump(whole[:4708])
        ends = "outside the file: offset 4720 size 7264"
        self.assertEqual([str(part) for part in cut.parts_outside], [f"entry 2 item 0: stack {ends}", f"entry 7 item 0: memory {ends}"])
        self.assertEqual([part.part for part in cut.parts_outside], [mdmp.Part.STACK, mdmp.Part.MEMORY])
        self.assertEqual((cut.summary.parts_outside, str(cut.summary.first_outside)), (2, str(cut.parts_outside[0])))
        self.assertEqual(cut.verdicts, (None,) * 9)
        with self.assertRaises(mdmp.Fault) as raised:
            mdmp.Dump(whole[:40]).parts_outside
        self.assertEqual((raised.exception.kind, raised.exception.partial), (mdmp.FaultKind.DIRECTORY_OUTSIDE, ()))

    def test_limits(self) -> None:
        with self.assertRaises(mdmp.LimitReached) as raised:
            mdmp.open(CRASHPAD, budget=31).summary
        self.assertEqual((raised.exception.kind, raised.exception.partial), (mdmp.FaultKind.BUDGET, None))
        with self.assertRaises(mdmp.LimitReached) as raised:
            mdmp.open(CRASHPAD, limits=mdmp.Limits(memory=0)).summary
        self.assertEqual(raised.exception.kind, mdmp.FaultKind.MEMORY_LIMIT)
        with self.assertRaises(mdmp.Fault) as found:
            mdmp.Dump(b"MDMP").crash
        self.assertEqual(found.exception.kind, mdmp.FaultKind.FILE_TOO_SHORT)
        with mdmp.open(CRASHPAD) as dump:
            pass
        with self.assertRaises(ValueError):
            dump.summary


class OfMade(unittest.TestCase):
    """Small dumps, and those that mean harm."""

    def test_windows(self) -> None:
        crash = mdmp.Dump(strange_dumps.named("C:\\a\\b.dll")).crash
        assert crash is not None
        self.assertIs(crash.code, names.WindowsException.STATUS_ACCESS_VIOLATION)
        self.assertEqual((crash.reason, crash.flags), ("STATUS_ACCESS_VIOLATION", 0))
        self.assertEqual(crash.parameters, (1, 0x10))
        self.assertEqual(crash.reached, mdmp.Reached(0x10, mdmp.Access.WRITE))
        self.assertEqual((crash.address, str(crash.module)), (0x140001234, "C:\\a\\b.dll+0x1234"))
        self.assertEqual((crash.thread_id, crash.thread_name, crash.registers), (7, "C:\\a\\b.dll", None))

    def test_module_below(self) -> None:
        data = strange_dumps.crowded([(0x1000, 16), (0x3000, 16), (0x2000, 16)], [0x2800])
        crash = mdmp.Dump(data).crash
        assert crash is not None
        self.assertIsNone(crash.module)
        self.assertEqual(str(crash.near), "module_2.dll+0x800")
        # without a system no platform has a name for the code
        self.assertIs(type(crash.code), int)
        self.assertEqual((crash.code, crash.reason, crash.reached), (0xC0000005, None, None))

    def test_no_crash(self) -> None:
        dump = mdmp.Dump(strange_dumps.many_modules(3))
        self.assertIsNone(dump.crash)
        summary = dump.summary
        assert summary.program is not None
        self.assertEqual((summary.program.name, summary.counts.modules), ("C:\\programs\\part_000000.dll", 3))
        self.assertEqual((summary.system, summary.counts.exceptions), (None, 0))

    def test_hostile(self) -> None:
        for name, data in strange_dumps.hostile():
            with self.subTest(name):
                dump = mdmp.Dump(data, limits=None)
                try:
                    summary = dump.summary
                except mdmp.Fault as fault:
                    with self.assertRaises(mdmp.Fault) as raised:
                        dump.verdicts
                    # the last argument is the rows before the error, of a property that has rows
                    self.assertEqual(raised.exception.args[:-1], fault.args[:-1])
                    continue
                bad = [verdict for verdict in dump.verdicts if verdict is not None]
                self.assertEqual(summary.bad_entries, len(bad))
                self.assertEqual(summary.first_error and summary.first_error.args, bad[0].args if bad else None)
                parts = dump.parts_outside
                self.assertEqual(summary.parts_outside, len(parts))
                self.assertEqual(summary.first_outside and summary.first_outside.args, parts[0].args if parts else None)


def with_records(*records: tuple[bytes, int, int, str]) -> tuple[mdmp.Module, ...]:
    """Modules with these CodeView records, times, sizes and names."""
    file = File(1)
    rows = []
    for record, time, size, name in records:
        rows.append(
            struct.pack("<QIIII", 0x10000, size, 0, time, file.name(name))
            + bytes(52)
            + struct.pack("<IIII", len(record), file.part(record), 0, 0)
            + bytes(16)
        )
    file.stream(4, counted(rows))
    return mdmp.Dump(file.bytes()).modules


class Ids(unittest.TestCase):
    """The ids of modules, by records of each kind."""

    def test_kinds(self) -> None:
        guid = bytes(range(16))
        rsds = b"RSDS" + guid + struct.pack("<I", 26)
        nb10 = b"NB10" + struct.pack("<III", 0, 0x3B7D84B0, 26) + b"b.pdb\0"
        elf = b"LEpB"
        digits = "03020100050407060809" + guid[10:].hex().upper()
        rows = [
            ((rsds + b"D:\\out/a.pdb\0", 0x5F3759DF, 0x1A000, "C:\\a.exe"), mdmp.IdKind.RSDS, f"{digits}1a", "5F3759DF1a000"),
            ((rsds + b"a.pdb", 0, 0x1A000, "a"), mdmp.IdKind.RSDS, f"{digits}1a", None),
            ((rsds[:23], 1, 2, "a"), mdmp.IdKind.NONE, None, "000000012"),
            ((nb10, 0, 0, "a"), mdmp.IdKind.PDB20, "3B7D84B01a", None),
            ((elf + guid + b"\xaa\xbb\xcc\xdd", 7, 8, "libc.so.6"), mdmp.IdKind.ELF, f"{digits}0", guid.hex() + "aabbccdd"),
            ((elf + b"\x01\x02\x03", 0, 0, "a"), mdmp.IdKind.ELF, "00030201" + "0" * 24 + "0", "010203"),
            ((b"else", 0, 0, "a"), mdmp.IdKind.OTHER, None, None),
            ((b"", 0xFFFFFFFF, 0xFFFFFFFF, "a"), mdmp.IdKind.NONE, None, "FFFFFFFFffffffff"),
        ]
        for module, (_, kind, debug_id, code_id) in zip(with_records(*[row[0] for row in rows]), rows):
            with self.subTest(kind.name):
                ids = module.ids
                self.assertEqual((ids.kind, ids.debug_id, ids.code_id), (kind, debug_id, code_id))
                self.assertEqual(ids.build_id is not None, kind == mdmp.IdKind.ELF)
                self.assertFalse(ids.build_id_cut)

    def test_long_build_id(self) -> None:
        ids = with_records((b"LEpB" + bytes(range(32)), 0, 0, "a"))[0].ids
        self.assertEqual((ids.build_id, ids.build_id_cut), (bytes(range(20)), True))
        self.assertEqual(ids.code_id, bytes(range(20)).hex())

    def test_paths(self) -> None:
        rsds = b"RSDS" + bytes(16) + struct.pack("<I", 1)
        key = "0" * 32 + "1"
        for record, name, symbol, image in [
            (rsds + b"D:\\out/a.pdb\0", "C:\\x\\a.exe", f"a.pdb/{key}/a.pdb", "a.exe/000000FF10/a.exe"),
            (rsds + "\u00e9.pdb".encode() + b"\0", "/x/\u00e9", f"\u00e9.pdb/{key}/\u00e9.pdb", "\u00e9/000000FF10/\u00e9"),
            (rsds + b"\xe9.pdb\0", "", None, None),
            (rsds + b"..\0", "C:\\..", None, None),
            (rsds + b".\0", "/", None, None),
            (rsds + b"a\nb\0", "a\x00b", None, None),
            (rsds + b"\0", "a\x1bb", None, None),
            (b"LEpB" + bytes(20), "/lib/libc.so.6", None, None),
        ]:
            with self.subTest(name=name):
                ids = with_records((record, 255, 16, name))[0].ids
                self.assertEqual((ids.symbol_path, ids.image_path), (symbol, image))


if __name__ == "__main__":
    unittest.main()
