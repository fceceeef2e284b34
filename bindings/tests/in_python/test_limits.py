"""The limits of a dump: what each refuses at its edge, and what stands before it."""

from __future__ import annotations

import ctypes
import dataclasses
import io
import os
import pathlib
import pickle
import resource
import subprocess
import sys
import tempfile
import unittest
from typing import Any, Callable

import mdmp
from lib import strange_dumps
from lib.minidumps import File, counted, memory_range, thread_name
from lib.small_dumps import SYSTEM
from mdmp import _output, _structures
from mdmp.pages import crash, tables
from mdmp.pages.reading import Reading, page_limits

MIB = 1 << 20
NAMES = 4096


def named(count: int, size: int) -> bytes:
    """A dump of so many modules, which all have one CodeView record of so many bytes, whose name no zero byte ends."""
    file = File(1)
    name = file.name("module.dll")
    symbols = file.placed(strange_dumps.codeview(b"p" * (size - 24)))
    file.stream(4, counted([strange_dumps.module(name, at << 24, 0x8000, symbols) for at in range(count)]))
    return file.bytes()


def memory(count: int) -> bytes:
    """A dump with so many ranges of one byte, which all have the second byte of the file."""
    file = File(1)
    file.stream(5, counted([memory_range(0x1000 + at, (1, 1)) for at in range(count)]))
    return file.bytes()


class Numbers(unittest.TestCase):
    """The limits themselves."""

    def test_untrusted(self) -> None:
        most = 64 * MIB
        self.assertEqual(mdmp.Limits.untrusted(), mdmp.Limits(65536, NAMES, most, most, most, most))
        self.assertEqual(mdmp.Dump(b"").limits, mdmp.Limits.untrusted())
        self.assertEqual(mdmp.Dump(b"", limits=None).limits, mdmp.Limits())
        self.assertEqual(dataclasses.astuple(mdmp.Limits()), (65536, NAMES, None, None, None, None))
        with self.assertRaises(dataclasses.FrozenInstanceError):
            mdmp.Limits().budget = 1  # type: ignore[misc]

    def test_plain_numbers(self) -> None:
        none = (1 << 64) - 1
        for limits, plain in [
            (mdmp.Limits(), (65536, NAMES, none, none, none)),
            (mdmp.Limits(168, 0, 0, 1, 2, 3), (168, 0, 0, 1, 2)),
        ]:
            raw = limits._plain()
            self.assertEqual((raw.window, raw.name, raw.budget, raw.memory, raw.aside), plain)

    def test_keywords_win(self) -> None:
        dump = mdmp.Dump(b"", window=200, name=10, budget=7)
        wanted = dataclasses.replace(mdmp.Limits.untrusted(), window=200, name=10, budget=7)
        self.assertEqual(dump.limits, wanted)
        self.assertEqual(mdmp.Dump(b"", budget=None).limits, dataclasses.replace(wanted, window=65536, name=NAMES, budget=None))
        self.assertEqual(mdmp.Dump(b"", limits=None, budget=7).limits, mdmp.Limits(budget=7))
        with tempfile.NamedTemporaryFile() as stream, mdmp.open(stream.name, limits=mdmp.Limits(output=9), name=3) as opened:
            self.assertEqual(opened.limits, mdmp.Limits(name=3, output=9))

    def test_numbers_out_of_their_bounds(self) -> None:
        for name in ("budget", "memory", "aside", "output"):
            for given in (-1, 1 << 64):
                wrong: dict[str, Any] = {name: given}
                with self.assertRaisesRegex(ValueError, f"{name} is not between"):
                    mdmp.Limits(**wrong)
        with self.assertRaisesRegex(ValueError, "window is not between"):
            mdmp.Limits(window=1 << 32)


class Reached(unittest.TestCase):
    """The limits that the library has."""

    def reached(self, ask: Any) -> mdmp.LimitReached:
        with self.assertRaises(mdmp.LimitReached) as raised:
            ask()
        return raised.exception

    def test_budget(self) -> None:
        fault = self.reached(mdmp.Dump(SYSTEM, budget=43).list)
        self.assertEqual((fault.kind, fault.offset, fault.size), (mdmp.FaultKind.BUDGET, 32, 12))
        again = pickle.loads(pickle.dumps(fault))
        self.assertEqual((type(again), str(again)), (mdmp.LimitReached, "fetch budget reached: offset 32 size 12"))

    def test_memory(self) -> None:
        held = 65536 + NAMES + 12
        dump = mdmp.Dump(SYSTEM, limits=mdmp.Limits(memory=held - 1))
        fault = self.reached(lambda: dump.systems)
        self.assertEqual((fault.kind, fault.size, fault.partial), (mdmp.FaultKind.MEMORY_LIMIT, held, ()))
        self.assertEqual(str(fault), f"memory limit reached: {held}")
        self.assertEqual(self.reached(dump.check).partial, "")
        dump = mdmp.Dump(SYSTEM, limits=mdmp.Limits(memory=held))
        self.assertEqual((len(dump.systems), dump.verdicts), (1, (None,)))

    def test_ranges_take_memory(self) -> None:
        held = 65536 + NAMES + 12 + 24 * 100
        self.assertEqual(len(mdmp.Dump(memory(100), limits=mdmp.Limits(memory=held)).ranges), 100)
        fault = self.reached(lambda: mdmp.Dump(memory(100), limits=mdmp.Limits(memory=held - 1)).memory)
        self.assertEqual((fault.kind, fault.size), (mdmp.FaultKind.MEMORY_LIMIT, held))

    def test_aside(self) -> None:
        data = named(3, 40)
        whole = mdmp.Dump(data).list(pdb=True)
        self.assertEqual(mdmp.Dump(data, limits=mdmp.Limits(aside=120)).list(pdb=True), whole)
        dump = mdmp.Dump(data, limits=mdmp.Limits(aside=119))
        fault = self.reached(lambda: dump.list(pdb=True))
        self.assertEqual((fault.kind, fault.size), (mdmp.FaultKind.ASIDE_LIMIT, 40))
        self.assertEqual(fault.partial, "".join(whole.splitlines(keepends=True)[:-1]))
        self.assertEqual(dump.list(), mdmp.Dump(data).list())
        self.assertEqual(len(dump.modules), 3)

    def test_copy(self) -> None:
        fault = self.reached(lambda: mdmp.Dump(SYSTEM, budget=43).copy(7))
        self.assertEqual((fault.kind, fault.offset, fault.size), (mdmp.FaultKind.BUDGET, 32, 12))
        budget = 44
        while fault.kind == mdmp.FaultKind.BUDGET:  # as the file is opened
            fault = self.reached(lambda: mdmp.Dump(SYSTEM, budget=budget).copy(7))
            budget += 1
        self.assertEqual((fault.kind, fault.partial), (mdmp.FaultKind.COPY_BUDGET, None))
        self.assertEqual(str(fault), f"copy needs {fault.size} bytes")
        self.assertEqual(mdmp.Dump(SYSTEM, budget=fault.size).copy(7), SYSTEM)
        self.assertEqual(self.reached(lambda: mdmp.Dump(SYSTEM, budget=fault.size - 1).copy(7)).size, fault.size)

    def test_copy_into_a_file(self) -> None:
        with tempfile.TemporaryDirectory() as folder:
            path = pathlib.Path(folder) / "copy.dmp"
            dump = mdmp.Dump(SYSTEM, budget=0)
            dump.write_copy(path, 7)  # without limits
            self.assertEqual(path.read_bytes(), SYSTEM)
            with self.assertRaises(FileExistsError):
                dump.write_copy(path, 7)
            other = pathlib.Path(folder) / "other.dmp"
            self.reached(lambda: dump.write_copy(other, 7, limits=mdmp.Limits(budget=43)))
            self.assertEqual(os.listdir(folder), ["copy.dmp"])

    def test_copy_that_the_disk_has_no_room_for(self) -> None:
        soft, hard = resource.getrlimit(resource.RLIMIT_FSIZE)
        with tempfile.TemporaryDirectory() as folder:
            path = pathlib.Path(folder) / "copy.dmp"
            resource.setrlimit(resource.RLIMIT_FSIZE, (100, hard))  # a write takes what fits, and only the next one fails
            try:
                with self.assertRaises(OSError):
                    mdmp.Dump(SYSTEM).write_copy(path, 7)
            finally:
                resource.setrlimit(resource.RLIMIT_FSIZE, (soft, hard))
            self.assertEqual(path.read_bytes(), SYSTEM[:100])


class Output(unittest.TestCase):
    """How much a property keeps, and how long a text is."""

    def limited(self, ask: Any, most: int) -> Any:
        with self.assertRaises(mdmp.OutputLimit) as raised:
            ask()
        fault = raised.exception
        self.assertEqual((fault.kind, fault.size), (mdmp.FaultKind.NONE, most))
        self.assertEqual(str(fault), f"output limit of {most} bytes reached: limits=None lifts all limits")
        self.assertIsInstance(pickle.loads(pickle.dumps(fault)), mdmp.OutputLimit)
        return fault.partial

    def test_rows(self) -> None:
        data = memory(100)
        rows, size = mdmp.Dump(data).ranges, _output.row_size(mdmp.Range)
        for count in (0, 1, 99):
            dump = mdmp.Dump(data, limits=mdmp.Limits(output=(count + 1) * size - 1))
            partial = self.limited(lambda: dump.ranges, (count + 1) * size - 1)
            self.assertEqual(partial, rows[:count])
        self.assertEqual(mdmp.Dump(data, limits=mdmp.Limits(output=100 * size)).ranges, rows)

    def test_rows_are_counted_for_what_they_take(self) -> None:
        for record in (mdmp.Thread, mdmp.Module, mdmp.Region, mdmp.Range, mdmp.ExceptionRecord, mdmp.Stream):
            plain = _structures.LAYOUT[getattr(_structures, record.__name__)][0]
            self.assertGreater(_output.row_size(record), 2 * plain, record)
        with mdmp.Dump(named(1, 24)) as dump:
            module = dump.modules[0]
        kept = _output.size_of(dataclasses.replace(module, name=None))
        self.assertLess(kept, _output.row_size(mdmp.Module) + 100)

    def test_names_of_symbol_files_count(self) -> None:
        data = named(2000, 1 << 16)
        most = MIB
        partial = self.limited(lambda: mdmp.Dump(data, limits=mdmp.Limits(output=most)).modules, most)
        # the name of the record, and the file name of its ids
        each = _output.row_size(mdmp.Module) + 2 * NAMES
        self.assertLessEqual(len(partial), most // each)
        self.assertGreater(len(partial), most // (each + 200) - 1)
        self.assertEqual({(len(row.symbols.name), row.symbols.name_ended) for row in partial}, {(NAMES, False)})

    def test_texts(self) -> None:
        data = named(3, 40)
        asked: list[Callable[[mdmp.Dump], str]] = [
            mdmp.Dump.list, mdmp.Dump.list_json, mdmp.Dump.check, mdmp.Dump.check_json,
        ]
        for ask in asked:
            whole = ask(mdmp.Dump(data))
            lines = whole.splitlines(keepends=True)
            most = len(whole.encode())
            self.assertEqual(ask(mdmp.Dump(data, limits=mdmp.Limits(output=most))), whole)
            for left in (most - 1, len(lines[0]), len(lines[0]) - 1, 0):
                dump = mdmp.Dump(data, limits=mdmp.Limits(output=left))
                if left == most:
                    continue
                partial = self.limited(lambda: ask(dump), left)
                wanted = lines[:-1] if left == most - 1 else lines[: left >= len(lines[0])]
                self.assertEqual(partial, "".join(wanted))

    def test_letters_are_not_cut(self) -> None:
        file = File(1)
        file.stream(24, counted([thread_name(7, file.name("é😀" * 20))]))
        data = file.bytes()
        whole = mdmp.Dump(data).list_json().encode()
        for most in range(len(whole)):
            partial = self.limited(mdmp.Dump(data, limits=mdmp.Limits(output=most)).list_json, most)
            self.assertTrue(whole.startswith(partial.encode()) and partial[-1:] in ("", "\n"))

    def test_verdicts(self) -> None:
        file = File(100)
        for at in range(100):
            file.entry(3, 100, (1 << 31) if at % 2 else 0)
        data = file.bytes()
        whole = mdmp.Dump(data).verdicts
        partial = self.limited(lambda: mdmp.Dump(data, limits=mdmp.Limits(output=8000)).verdicts, 8000)
        self.assertTrue(0 < len(partial) < 100)
        self.assertEqual([str(each) for each in partial], [str(each) for each in whole[: len(partial)]])

    def test_parts(self) -> None:
        file = File(1)
        file.stream(3, counted([strange_dumps.thread(at, 0, (100, 1 << 31)) for at in range(20)]))
        data = file.bytes()
        whole = mdmp.Dump(data).parts_outside
        partial = self.limited(lambda: mdmp.Dump(data, limits=mdmp.Limits(output=8000)).parts_outside, 8000)
        self.assertTrue(0 < len(partial) < len(whole) == 20)
        self.assertEqual([str(each) for each in partial], [str(each) for each in whole[: len(partial)]])
        for text in (mdmp.Dump.check, mdmp.Dump.check_json):
            with self.assertRaises(mdmp.Fault) as raised:
                text(mdmp.Dump(data), parts=True)
            told = raised.exception.partial
            for most in range(0, len(told), 3):
                partial = self.limited(lambda: text(mdmp.Dump(data, limits=mdmp.Limits(output=most)), parts=True), most)
                self.assertTrue(told.startswith(partial) and partial[-1:] in ("", "\n"))

    def test_memory(self) -> None:
        size = 2 * ctypes.sizeof(_structures.Slot)  # an index has two for each range
        self.assertEqual(mdmp.Dump(memory(100), limits=mdmp.Limits(output=100 * size)).memory[0x1063], ord("D"))
        dump = mdmp.Dump(memory(100), limits=mdmp.Limits(output=100 * size - 1))
        self.assertIsNone(self.limited(lambda: dump.memory, 100 * size - 1))

    def test_a_text_that_is_written_has_no_such_limit(self) -> None:
        data = named(3, 40)
        written = io.StringIO()
        mdmp.Dump(data, limits=mdmp.Limits(output=0)).write_list(written)
        self.assertEqual(written.getvalue(), mdmp.Dump(data).list())

    def test_names_of_threads(self) -> None:
        file = File(2)
        file.stream(3, counted([strange_dumps.thread(at, 0, (0, 0)) for at in (1, 2)]))
        name = file.name("n" * 2000)
        file.stream(24, counted([thread_name(at, name) for at in (1, 2)]))
        dump = mdmp.Dump(file.bytes(), limits=mdmp.Limits(output=4000))
        self.assertEqual(len(self.limited(lambda: dump.thread_names, 4000)), 1)
        self.assertEqual([thread.name for thread in dump.threads], ["n" * 2000, None])


class Pages(unittest.TestCase):
    """Pages have the limits of strangers."""

    def test_limits(self) -> None:
        self.assertEqual(page_limits(5), dataclasses.replace(mdmp.Limits.untrusted(), budget=5))

    def test_all_lists_share_the_output(self) -> None:
        file = File(2)
        listed = counted([strange_dumps.thread(at, 0, (0, 0)) for at in range(20)])
        file.stream(3, listed)
        file.stream(24, counted([thread_name(at, 0) for at in range(20)]))
        verdicts, streams, threads, names = 2 * 64, 2 * 24, 20 * 88, 20 * 40
        data, all_of_it = file.bytes(), verdicts + streams + threads + names
        for most, fault in ((all_of_it, ""), (all_of_it - 1, "output limit")):
            reading = Reading(mdmp.Dump(data, limits=mdmp.Limits(output=most)), len(data), 10)
            self.assertEqual((len(reading.threads), len(reading.thread_names)), (20, 20 - bool(fault)))
            self.assertIn(fault, tables.told(reading.thread_names.fault))
            self.assertEqual(crash.badge(reading).kind, "long" if fault else "good")

    def test_memory_limit(self) -> None:
        held = 65536 + NAMES + 12
        reading = Reading(mdmp.Dump(SYSTEM, limits=mdmp.Limits(memory=held - 1)), len(SYSTEM), 10)
        self.assertEqual((reading.is_too_long, crash.badge(reading).kind), (True, "long"))
        data = memory(100)
        reading = Reading(mdmp.Dump(data, limits=mdmp.Limits(memory=held)), len(data), 10)
        self.assertEqual((reading.is_too_long, crash.badge(reading).kind), (False, "long"))
        self.assertIn("memory limit reached", crash.badge(reading).words)


class Command(unittest.TestCase):
    """python -m mdmp"""

    def test_limits_of_strangers(self) -> None:
        with tempfile.NamedTemporaryFile(suffix=".dmp") as stream:
            stream.write(SYSTEM)
            stream.flush()
            for option, told in (("0", "offset 0 size 32"), ("43", "offset 32 size 12")):
                words = [sys.executable, "-m", "mdmp", stream.name, "--budget", option]
                done = subprocess.run(words, capture_output=True, text=True)
                self.assertEqual((done.returncode, done.stdout), (3, ""))
                self.assertEqual(done.stderr, f"mdmp: fetch budget reached: {told}\n")
