"""What goes wrong, and how it is told; and what stands behind a dump that was closed."""

from __future__ import annotations

import array
import ctypes
import dataclasses
import hashlib
import io
import json
import mmap
import os
import pathlib
import pickle
import subprocess
import sys
import tempfile
import threading
import unittest
from typing import Any, Callable
from unittest import mock

import mdmp
from lib import strange_dumps
from lib.minidumps import File, counted, numbers
from lib.small_dumps import SYSTEM
from mdmp import _buffer, _dump, _fault, _structures, _summary_lines
from mdmp._library import library

FOLDER = pathlib.Path(os.environ["MDMP_STORED"])
KINDS = FOLDER / "llvm-all-kinds.dmp"
CRASHPAD = FOLDER / "crashpad-one.dmp"
# What the command prints, beside the folder of these tests.
SUMMARIES = pathlib.Path(__file__).resolve().parent.parent / "summaries"


class Layout(unittest.TestCase):
    """The structures have the layout of mdmp.h."""

    def test_sizes_and_offsets(self) -> None:
        self.assertGreater(len(_structures.LAYOUT), 12)
        for structure, (size, offsets) in _structures.LAYOUT.items():
            self.assertEqual(ctypes.sizeof(structure), size, structure)
            for field, offset in offsets.items():
                self.assertEqual(getattr(structure, field).offset, offset, (structure, field))


class Faults(unittest.TestCase):
    """What a file that is at fault raises."""

    def test_short_files(self) -> None:
        data = KINDS.read_bytes()
        for size in [0, 1, 31]:
            with self.assertRaises(mdmp.Fault) as raised:
                mdmp.Dump(data[:size]).header
            fault = raised.exception
            self.assertEqual((fault.kind, fault.size, fault.entry), (mdmp.FaultKind.FILE_TOO_SHORT, size, None))
            self.assertEqual(str(fault), f"file of {size} bytes is too short")

    def test_partial(self) -> None:
        cut = mdmp.Dump(KINDS.read_bytes()[:1334])
        with self.assertRaises(mdmp.Fault) as raised:
            cut.check()
        self.assertEqual((raised.exception.kind, raised.exception.size), (mdmp.FaultKind.BAD_ENTRIES, 4))
        self.assertEqual(len(raised.exception.partial.splitlines()), 12)
        with self.assertRaises(mdmp.Fault) as raised:
            cut.list()
        self.assertTrue(KINDS.with_suffix(".list").read_text("ascii").startswith(raised.exception.partial))
        self.assertEqual(raised.exception.entry, 7)
        bad = [entry for entry, fault in enumerate(cut.verdicts) if fault is not None]
        self.assertEqual(bad, [7, 8, 9, 10])
        written = io.StringIO()
        with self.assertRaises(mdmp.Fault):
            cut.write_list(written)
        self.assertEqual(written.getvalue(), raised.exception.partial)

    def test_records_before_a_fault(self) -> None:
        data = bytearray(KINDS.read_bytes())
        name = mdmp.Dump(data).modules[1].name_place.rva
        data[name] |= 1  # an odd length
        with self.assertRaises(mdmp.Fault) as raised:
            mdmp.Dump(data).modules
        fault = raised.exception
        self.assertEqual((fault.kind, fault.entry, fault.index, fault.offset), (mdmp.FaultKind.NAME_ODD, 2, 1, name))
        self.assertEqual([module.index for module in fault.partial], [0])

    def test_fault_is_sent_to_another_process(self) -> None:
        with self.assertRaises(mdmp.Fault) as raised:
            mdmp.Dump(b"").header
        again = pickle.loads(pickle.dumps(raised.exception))
        self.assertEqual((str(again), again.kind), ("file of 0 bytes is too short", mdmp.FaultKind.FILE_TOO_SHORT))

    def test_kind_of_a_later_library(self) -> None:
        fault = _fault.fault_of(_structures.Fault(kind=99))
        self.assertEqual((fault.kind, fault.kind.name, str(fault)), (99, "NUMBER_99", "fault 99"))

    def test_want_of_memory(self) -> None:
        with self.assertRaisesRegex(MemoryError, "out of memory"):
            _fault.expect_good(mdmp.Status.NO_MEMORY, _structures.Fault(kind=66))

    def test_great_numbers(self) -> None:
        for kind in (mdmp.FaultKind.TOO_MANY_RANGES, mdmp.FaultKind.MEMORY_LIMIT, mdmp.FaultKind.COPY_BUDGET):
            fault = _fault.fault_of(_structures.Fault(kind=kind, size=1, high=1))
            self.assertEqual((fault.size, isinstance(fault, mdmp.LimitReached)), ((1 << 64) + 1, kind > 70))

    def test_records_do_not_change(self) -> None:
        with mdmp.open(KINDS) as dump, self.assertRaises(dataclasses.FrozenInstanceError):
            dump.threads[0].teb = 0  # type: ignore[misc]

    def test_arguments(self) -> None:
        with mdmp.open(KINDS) as dump:
            refused = [
                ([], "between 1 and 16"),
                ([*range(17)], "between 1 and 16"),
                ([12], "type 12 is not copied"),
                ([-1], "type is not between"),
                ([3 + (1 << 32)], "type is not between"),
            ]
            for types, words in refused:
                with self.assertRaisesRegex(ValueError, words):
                    dump.copy(*types)
        with self.assertRaisesRegex(ValueError, "bad limits"):
            mdmp.Dump(b"", window=167).threads
        with self.assertRaisesRegex(ValueError, "window is not between"):
            mdmp.Dump(b"", window=65536 + (1 << 32))
        with self.assertRaisesRegex(ValueError, "name is not between"):
            mdmp.Dump(b"", name=-1)
        with self.assertRaisesRegex(ValueError, "budget is not between"):
            mdmp.Dump(b"", budget=1 << 64)
        with self.assertRaisesRegex(FileNotFoundError, "none.dmp"):
            mdmp.open("none.dmp")

    def test_budget(self) -> None:
        self.assertEqual(len(SYSTEM), 136)
        whole = mdmp.Dump(SYSTEM).list()
        with self.assertRaises(mdmp.Fault) as raised:
            mdmp.Dump(SYSTEM, budget=43).list()  # before the directory is read
        fault = raised.exception
        self.assertEqual((fault.kind, fault.offset, fault.size), (mdmp.FaultKind.BUDGET, 32, 12))
        self.assertEqual((fault.entry, fault.partial), (None, ""))
        self.assertEqual(str(fault), "fetch budget reached: offset 32 size 12")
        with self.assertRaises(mdmp.Fault) as raised:
            mdmp.Dump(SYSTEM, budget=131).list()  # before the name is read
        fault = raised.exception
        self.assertEqual((fault.kind, fault.offset, fault.size), (mdmp.FaultKind.BUDGET, 104, 28))
        self.assertEqual(fault.partial, "".join(whole.splitlines(keepends=True)[:2]))
        with self.assertRaises(mdmp.Fault) as raised:
            mdmp.Dump(SYSTEM, budget=0).systems
        fault = raised.exception
        self.assertEqual((fault.kind, fault.offset, fault.size, fault.partial), (mdmp.FaultKind.BUDGET, 0, 32, ()))
        within = mdmp.Dump(SYSTEM, budget=132)
        self.assertEqual((within.list(), within.verdicts), (whole, (None,)))
        self.assertEqual(within.systems[0].csd_version, "Service Pack 1")
        self.assertEqual(mdmp.Dump(SYSTEM, budget=(1 << 64) - 1).list(), whole)

    def test_long_name(self) -> None:
        with mdmp.open(KINDS, name=3) as dump:
            first = dump.modules[0]
            self.assertIsNone(first.name)
            self.assertEqual(first.name_place.state, mdmp.NameState.LONG)

    def test_long_name_of_a_symbol_file(self) -> None:
        data = strange_dumps.named("module.dll")
        for most, name, has_end in [
            (4096, b"module.dll", True),
            (11, b"module.dll", True),  # the zero byte is the last that is read
            (10, b"module.dll", False),
            (6, b"module", False),
            (0, b"", False),
        ]:
            found = mdmp.Dump(data, name=most).modules[0].symbols
            assert found is not None
            self.assertEqual((found.name, found.name_ended), (name, has_end), most)


class Writing(unittest.TestCase):
    """How often a file is listed to write its list."""

    def written(self, dump: mdmp.Dump) -> tuple[str, int]:
        """The text that is written, and how often the file was listed for it."""
        calls = 0
        call = library.mdmp_list_part_

        def counted(*arguments: Any) -> int:
            nonlocal calls
            calls += 1
            return int(call(*arguments))

        out = io.StringIO()
        with mock.patch.object(library, "mdmp_list_part_", counted):
            dump.write_list(out)
        return out.getvalue(), calls

    def test_a_file_is_listed_once(self) -> None:
        for data in (KINDS.read_bytes(), strange_dumps.many_modules(150_000)):
            text, calls = self.written(mdmp.Dump(data))
            self.assertTrue(text == mdmp.Dump(data).list())
            self.assertEqual(calls, 1)
        self.assertGreater(len(text), 16 << 20)

    def test_parts(self) -> None:
        whole = mdmp.Dump(KINDS.read_bytes()).list()
        for size in (4096, len(whole) - 1, len(whole), len(whole) + 1):
            with mock.patch.object(_dump, "_PART", size), mock.patch.object(_dump, "_WRITTEN", 100):
                text, calls = self.written(mdmp.Dump(KINDS.read_bytes()))
            self.assertEqual((text, calls), (whole, -(-len(whole) // size)))


class Buffers(unittest.TestCase):
    """Whose bytes are read, and for how long."""

    def test_any_buffer(self) -> None:
        data = KINDS.read_bytes()
        wanted = mdmp.Dump(data).list()
        numbers = array.array("B", data)
        buffers: list[mdmp.Bytes] = [bytearray(data), memoryview(data), numbers, memoryview(b"xx" + data)[2:]]
        for buffer in buffers:
            self.assertEqual(mdmp.Dump(buffer).list(), wanted)
        with self.assertRaises(BufferError):
            mdmp.Dump(memoryview(data)[::2]).header

    def test_empty_buffers(self) -> None:
        empty: list[mdmp.Bytes] = [b"", bytearray(), memoryview(b""), array.array("B")]
        for buffer in empty:
            with _buffer.Lent(buffer) as (address, size):
                self.assertNotEqual(address, 0)  # the library takes no NULL
                self.assertEqual(size, 0)
            with self.assertRaisesRegex(mdmp.Fault, "file of 0 bytes is too short"):
                mdmp.Dump(buffer).header

    def test_nothing_is_copied(self) -> None:
        data = bytearray(KINDS.read_bytes())
        with _buffer.Lent(data) as (address, size):
            self.assertEqual(size, len(data))
            self.assertEqual(ctypes.string_at(address, 4), b"MDMP")
            with self.assertRaises(BufferError):
                data.append(0)  # it stays in its place while it is lent
        data.append(0)

    def test_closed(self) -> None:
        dump = mdmp.open(CRASHPAD)
        memory, modules = dump.memory, dump.modules
        dump.close()
        asked: list[Callable[[], object]] = [
            lambda: dump.header, lambda: dump.streams, lambda: dump.modules, lambda: dump.verdicts, lambda: dump.memory,
            dump.list, dump.check, lambda: dump.copy(3), lambda: dump.where(0), lambda: memory[0:1], lambda: 0 in memory,
            lambda: dump.write_list(io.StringIO()),
        ]
        for ask in asked:
            with self.assertRaisesRegex(ValueError, "closed"):
                ask()
        self.assertEqual(modules[0].name, "/usr/sample/cpad")  # values outlive the dump
        dump.close()

    def test_mapping_of_the_caller(self) -> None:
        with open(CRASHPAD, "rb") as stream:
            mapping = mmap.mmap(stream.fileno(), 0, access=mmap.ACCESS_READ)
        dump = mdmp.Dump(mapping)
        self.assertEqual(len(dump.threads), 1)
        memory = dump.memory
        mapping.close()
        with self.assertRaises(ValueError):
            memory[0:1]
        with self.assertRaises(ValueError):
            dump.check()

    def test_close_while_it_is_read(self) -> None:
        dump = mdmp.open(CRASHPAD)
        with dump._lent():
            with self.assertRaises(BufferError):
                dump.close()
            self.assertEqual(len(dump.threads), 1)  # it is still open
        dump.close()

    def test_file_that_shrinks_to_nothing(self) -> None:
        with tempfile.NamedTemporaryFile() as stream, mdmp.open(stream.name) as dump:
            with self.assertRaisesRegex(mdmp.Fault, "file of 0 bytes"):
                dump.header

    def test_threads(self) -> None:
        wanted = (FOLDER / "wine8-child-normal.list").read_text("ascii")
        told: list[bool] = []
        with mdmp.open(FOLDER / "wine8-child-normal.dmp") as dump:
            threads = [threading.Thread(target=lambda: told.append(dump.list() == wanted)) for _ in range(8)]
            for thread in threads:
                thread.start()
            for thread in threads:
                thread.join()
        self.assertEqual(told, [True] * 8)


class Command(unittest.TestCase):
    """python -m mdmp"""

    def run_command(self, *words: str) -> tuple[int, str, str]:
        done = subprocess.run([sys.executable, "-m", "mdmp", *words], capture_output=True, text=True, encoding="utf-8")
        return done.returncode, done.stdout, done.stderr

    def test_output(self) -> None:
        given = [["--window=200"], ["list"], ["list", "--untrusted"], ["check"], ["--pdb"], ["list", "--pdb"]]
        for words, suffix in zip(given, [".list"] * 3 + [".check"] + [".pdb"] * 2):
            wanted = CRASHPAD.with_suffix(suffix).read_text("ascii")
            self.assertEqual(self.run_command(*words, str(CRASHPAD)), (0, wanted, ""))

    def test_objects(self) -> None:
        for words, suffix in [(["list", "--json", "--pdb"], ".pdb.sum"), (["check", "--json"], ".check.sum")]:
            status, out, err = self.run_command(*words, str(CRASHPAD))
            data = out.encode("utf-8")
            told = f"{len(data)}\n{hashlib.sha256(data).hexdigest()}\n"
            self.assertEqual((status, told, err), (0, CRASHPAD.with_suffix(suffix).read_text("ascii"), ""))

    def test_parts(self) -> None:
        good = [f"entry {number}: ok\n" for number in range(9)]
        self.assertEqual(self.run_command("check", "--parts", str(CRASHPAD)), (0, "".join(good), ""))
        lines, objects = list(good), [f'{{"line":"entry","entry":{number},"fault":null}}\n' for number in range(9)]
        for entry, part in ((2, "stack"), (7, "memory")):
            lines[entry] = f"entry {entry} item 0: {part} outside the file: offset 4720 size 7264\n{good[entry]}"
            told = f'{{"line":"part","entry":{entry},"item":"0","part":"{part}","offset":"4720","size":"7264"}}\n'
            objects[entry] = told + objects[entry]
        with tempfile.NamedTemporaryFile() as cut:
            cut.write(CRASHPAD.read_bytes()[:4708])
            cut.flush()
            bad = "mdmp: 2 bad entries\n"
            self.assertEqual(self.run_command("check", cut.name), (0, "".join(good), ""))
            self.assertEqual(self.run_command("check", "--parts", cut.name), (1, "".join(lines), bad))
            self.assertEqual(self.run_command("check", cut.name, "--json", "--parts"), (1, "".join(objects), bad))
        self.assertEqual(self.run_command("check", "--parts", "/dev/null"), (1, "", "mdmp: file of 0 bytes is too short\n"))

    def test_parts_up_to_a_limit(self) -> None:
        data = CRASHPAD.read_bytes()[:4708]
        with self.assertRaises(mdmp.Fault) as raised:
            mdmp.Dump(data).check(parts=True)
        whole, kinds, texts = raised.exception.partial, set(), set()
        for budget in range(0, len(data), 50):
            with self.assertRaises(mdmp.Fault) as raised:
                mdmp.Dump(data, budget=budget).check(parts=True)
            kinds.add(raised.exception.kind)
            texts.add(raised.exception.partial)
        self.assertEqual(kinds, {mdmp.FaultKind.BUDGET, mdmp.FaultKind.BAD_ENTRIES})
        self.assertTrue({whole, ""} < texts and all(whole.startswith(text) for text in texts))

    def test_memory(self) -> None:
        told = "0x0000000000000fff: ?? 00 01 02 03 ??\n"
        self.assertEqual(self.run_command("hex", str(KINDS), "0xfff", "6"), (0, told, ""))
        status, out, _ = self.run_command("hex", str(KINDS), "4096", "33")
        self.assertEqual((status, [len(line) for line in out.splitlines()]), (0, [67, 67, 22]))
        self.assertEqual(self.run_command("hex", str(KINDS), "0xffffffffffffffff", "1")[0], 0)
        for words in [("0xfff",), ("fff", "1"), ("0x", "1"), ("0xfff", "1048577"), ("0xfff", "-1"), ("1_0", "1")]:
            self.assertEqual(self.run_command("hex", str(KINDS), *words)[0], 2, words)
        self.assertEqual(self.run_command("hex", str(KINDS), "0xffffffffffffffff", "2")[0], 2)

    def test_copy(self) -> None:
        with tempfile.TemporaryDirectory() as folder:
            out = f"{folder}/out.dmp"
            types = ["modules", "ThreadListStream", "7"]
            self.assertEqual(self.run_command("copy", str(CRASHPAD), out, *types), (0, "", ""))
            with mdmp.open(CRASHPAD) as dump:
                self.assertEqual(pathlib.Path(out).read_bytes(), dump.copy(4, 3, 7))
            self.assertEqual(self.run_command("copy", str(CRASHPAD), out, "4"), (3, "", f"mdmp: cannot create {out}\n"))
            self.assertEqual(self.run_command("copy", str(CRASHPAD), f"{folder}/b", "12")[0], 2)
            self.assertEqual(self.run_command("copy", str(CRASHPAD), f"{folder}/b", "4", "--budget", "99")[0], 3)
            self.assertEqual(os.listdir(folder), ["out.dmp"])

    def test_summary(self) -> None:
        lines = [
            f'{CRASHPAD}: SIGSEGV at cpad+0x14d8, thread 22570 "cpad"',
            "code 0x0000000b flags 0x00000001 SEGV_MAPERR",
            "reached 0x0000000000000010",
            "address 0x0000000000000010 instruction 0x000055c6e269e4d8 stack 0x00007ffec51f8420 frame 0x00007ffec51f8430",
            "program cpad",
            "system Linux 6.18.44, x64, processors 4",
            "written 1795329936 seconds after 1970 in UTC",
            "streams 9 threads 1 modules 4 exceptions 1 ranges 1 memory 7264",
            "file good",
        ]
        self.assertEqual(self.run_command("summary", str(CRASHPAD)), (0, "\n  ".join(lines) + "\n", ""))
        wine = FOLDER / "wine8-child-normal.dmp"
        status, out, err = self.run_command("summary", str(wine), "/dev/null", "none.dmp", str(wine))
        self.assertEqual((status, out.count("no crash\n")), (3, 2))
        self.assertEqual(err, "mdmp: /dev/null: file of 0 bytes is too short\nmdmp: cannot open none.dmp\n")
        with tempfile.NamedTemporaryFile() as cut:
            cut.write(KINDS.read_bytes()[:1334])
            cut.flush()
            status, out, err = self.run_command("summary", cut.name)
            first = "entry 7: stream outside the file: offset 1321 size 14"
            self.assertEqual((status, out.splitlines()[-1], err), (1, f"  file damaged, 4 bad entries: {first}", ""))

    def test_summaries_are_those_of_the_command(self) -> None:
        stored = [path for path in sorted(SUMMARIES.glob("*.txt")) if (FOLDER / f"{path.stem}.dmp").is_file()]
        self.assertGreater(len(stored), 5)
        for path in stored:
            with self.subTest(path.name):
                name = f"{path.stem}.dmp"
                told = path.read_text(encoding="utf-8").replace(name, str(FOLDER / name), 1)
                self.assertEqual(self.run_command("summary", str(FOLDER / name))[1:], (told, ""))

    def printed_of(self, data: bytes, *words: str) -> tuple[str, str]:
        """The name of a file with these bytes, and what a command prints of it."""
        with tempfile.NamedTemporaryFile(suffix=".dmp") as file:
            file.write(data)
            file.flush()
            return file.name, self.run_command(*words, file.name)[1]

    def test_object_has_the_records_of_all_entries(self) -> None:
        # A bad list of threads before a good one, and modules: the second name of the first list is outside the file, and the
        # second list has four bytes before its record.
        file = File(4)
        place = file.name("one.dll")
        modules = [strange_dumps.module(name, base, 16) for name, base in ((place, 0x1000), ((1 << 32) - 1, 0x2000), (place, 0x3000))]
        context = file.placed(b"\x01\x02" * 616)
        file.entry(3, 4, (1 << 32) - 1)
        file.stream(4, counted(modules))
        file.stream(4, numbers(1, 0) + modules[2])
        file.stream(3, counted([strange_dumps.thread(7, 0x5000, (0, 0), context)]))
        _, out = self.printed_of(file.bytes(), "summary", "--json")
        told = json.loads(out)
        self.assertEqual((told["bad_entries"], told["counts"]["modules"], told["counts"]["threads"]), (2, "2", "1"))
        self.assertEqual([(row["filename"], int(row["base_addr"], 16)) for row in told["modules"]], [("one.dll", 0x1000), ("one.dll", 0x3000)])
        self.assertEqual(told["threads"], [{"thread_id": 7, "thread_name": None, "frames": []}])

    def test_summary_prints_the_units_of_names(self) -> None:
        data = strange_dumps.named("folder/\ud800\\\udc00x")
        name, out = self.printed_of(data, "summary")
        first, *lines = out.splitlines()
        self.assertTrue(first.startswith(f"{name}: STATUS_ACCESS_VIOLATION at \\udc00x+0x1234, thread 7 "), first)
        self.assertTrue(first.endswith('"folder/\\ud800\\u005c\\udc00x"'), first)
        self.assertIn("  program \\udc00x", lines)

    def test_summary_of_a_file_whose_name_is_no_text(self) -> None:
        with tempfile.TemporaryDirectory() as folder:
            name = os.fsdecode(os.fsencode(folder) + b"/\xff.dmp")
            os.symlink(CRASHPAD, name)
            status, out, err = self.run_command("summary", name)
            self.assertEqual((status, out.partition(": ")[0], err), (0, f"{folder}/\ufffd.dmp", ""))

    def test_summary_as_an_object(self) -> None:
        status, out, err = self.run_command("summary", "--json", str(CRASHPAD), str(FOLDER / "wine8-child-normal.dmp"))
        self.assertEqual((status, err), (0, ""))
        one, other = map(json.loads, out.split("\n")[:-1])
        self.assertEqual((one["file"], one["time"], one["bad_entries"]), (str(CRASHPAD), 1795329936, 0))
        crash, module = one["crash"], one["crash"]["module"]
        told = [crash[name] for name in ("code", "code_name", "flags_name", "thread", "thread_name", "near")]
        self.assertEqual(told, ["0x0000000b", "SIGSEGV", "SEGV_MAPERR", 22570, "cpad", None])
        self.assertEqual((module["file"], module["offset"], module["name"]), ("cpad", "5336", "/usr/sample/cpad"))
        self.assertEqual(crash["registers"]["instruction"], crash["address"])
        self.assertEqual((other["crash"], other["program"]["file"], other["counts"]["modules"]), (None, "mkdump.exe", "8"))
        self.assertEqual((other["crash_info"], len(other["modules"]), len(other["threads"])), (None, 8, 4))
        self.assertEqual(other["threads"][0]["frames"], [{"frame": 0, "offset": "0x000000017000d664", "trust": "context"}])

    def test_object_has_the_keys_of_minidump_stackwalk(self) -> None:
        status, out, err = self.run_command("summary", "--json", str(CRASHPAD), str(KINDS))
        self.assertEqual((status, err), (0, ""))
        linux, windows = map(json.loads, out.split("\n")[:-1])
        self.assertEqual(linux["system_info"], {"os": "Linux", "os_ver": "6.18.44", "cpu_arch": "amd64", "cpu_count": 4})
        module = {
            "filename": "/usr/sample/cpad",
            "base_addr": "0x000055c6e269d000",
            "end_addr": "0x000055c6e26a10e8",
            "version": "0.0.0.0",
            "code_id": "f8ff14c31729558d2d09b50efc20a6fd6c265072",
            "debug_file": None,
            "debug_id": "C314FFF829178D552D09B50EFC20A6FD0",
        }
        self.assertEqual(linux["modules"][linux["main_module"]], module)
        info = {"type": "SIGSEGV / SEGV_MAPERR", "address": "0x0000000000000010", "crashing_thread": 0}
        self.assertEqual((linux["status"], linux["crash_info"]), ("OK", info))
        self.assertEqual([(row["thread_id"], row["thread_name"]) for row in linux["threads"]], [(22570, "cpad")])
        one = windows["modules"][0]
        self.assertEqual((one["filename"], one["version"], one["code_id"]), ("C:\\dir\\one.exe", "1.2.3.4", "6553F10010000"))
        self.assertEqual((one["debug_file"], one["debug_id"]), ("one.pdb", "33221100554477668899AABBCCDDEEFF1"))
        # Its contexts are too short for registers. The third module has no CodeView record inside the file, and no time.
        self.assertEqual([row["frames"] for row in windows["threads"]], [[], []])
        self.assertEqual(windows["modules"][2]["code_id"], None)
        self.assertEqual(windows["crash_info"]["crashing_thread"], 1)

    def test_names_of_symbol_files_keep_to_the_limit_of_what_is_read_aside(self) -> None:
        count = len(mdmp.open(KINDS).modules)
        # Each module has 27 bytes: 24 that begin its record, and 3 of the name.
        dump = mdmp.open(KINDS, limits=mdmp.Limits(aside=27 * count))
        one = json.loads(_summary_lines.line(dump, "a.dmp"))["modules"][0]
        self.assertEqual((one["debug_file"], one["debug_id"]), ("one", "33221100554477668899AABBCCDDEEFF1"))

    def test_object_of_a_file_with_errors(self) -> None:
        with tempfile.NamedTemporaryFile() as cut:
            cut.write(KINDS.read_bytes()[:1334])
            cut.flush()
            status, out, err = self.run_command("summary", "--json", cut.name)
        told = json.loads(out)
        self.assertEqual((status, err, told["bad_entries"]), (1, "", 4))
        self.assertEqual(told["first_error"], "entry 7: stream outside the file: offset 1321 size 14")
        reached = f"mdmp: {CRASHPAD}: fetch budget reached: offset 0 size 32\n"
        self.assertEqual(self.run_command("summary", "--json", "--budget", "31", str(CRASHPAD)), (3, "", reached))

    def test_help(self) -> None:
        status, out, err = self.run_command("--help")
        self.assertEqual((status, err), (0, ""))
        for command in ("summary", "list", "check", "hex", "copy", "page", "day"):
            self.assertIn(f"\n    {command} ", out)
            self.assertTrue(self.run_command(command, "--help")[1].startswith(f"usage: python -m mdmp {command} "))
        self.assertEqual(self.run_command()[:2], (2, ""))
        self.assertEqual(self.run_command("--version"), (0, f"mdmp {mdmp.__version__}\n", ""))

    def test_statuses(self) -> None:
        self.assertEqual(self.run_command("/dev/null"), (1, "", "mdmp: file of 0 bytes is too short\n"))
        self.assertEqual(self.run_command("none.dmp"), (3, "", "mdmp: cannot open none.dmp\n"))
        self.assertEqual(self.run_command("--window", "167", str(CRASHPAD)), (2, "", "mdmp: bad limits\n"))
        self.assertEqual(self.run_command("--no-such-word")[0], 2)
        reached = "mdmp: fetch budget reached: offset 0 size 32\n"
        self.assertEqual(self.run_command("--budget", "31", str(CRASHPAD)), (3, "", reached))
        with tempfile.NamedTemporaryFile() as cut:
            cut.write(KINDS.read_bytes()[:1334])
            cut.flush()
            status, out, err = self.run_command("check", cut.name)
            self.assertEqual((status, len(out.splitlines()), err), (1, 12, "mdmp: 4 bad entries\n"))
        with open("/dev/full", "w", encoding="ascii") as full:
            words = [sys.executable, "-m", "mdmp", str(CRASHPAD)]
            done = subprocess.run(words, stdout=full, stderr=subprocess.PIPE, text=True)
            self.assertEqual((done.returncode, done.stderr), (3, "mdmp: output failed\n"))
