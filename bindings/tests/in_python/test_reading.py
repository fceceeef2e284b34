"""The lists of a page, as they are read: each once, and none in vain."""

from __future__ import annotations

import os
import pathlib
import struct
import unittest
from ctypes import Array, Structure, c_uint8, sizeof
from typing import Any
from unittest import mock

import mdmp
from lib import strange_dumps
from lib.minidumps import File, counted, memory_range, thread_name
from mdmp._library import buffer_of, library
from mdmp.pages import crash
from mdmp.pages.reading import Reading

FOLDER = pathlib.Path(os.environ["MDMP_STORED"])


def read(data: bytes, limits: mdmp.Limits = mdmp.Limits.untrusted()) -> Reading:
    return Reading(mdmp.Dump(data, limits=limits), len(data), 500)


class Lists(unittest.TestCase):
    """The rows of lists, and their members."""

    def test_members_are_those_of_the_rows(self) -> None:
        def paths_of(raw: Any) -> list[str]:
            """The members that are numbers, with those of members."""
            found = []
            for name, kind, *_ in raw._fields_:
                if issubclass(kind, Structure):
                    found += [f"{name}.{inner}" for inner in paths_of(kind)]
                elif not issubclass(kind, Array):
                    found.append(name)
            return found

        def member(row: Any, path: str) -> Any:
            for name in path.split("."):
                row = getattr(row, name)
            return row

        rows = 0
        for path in [FOLDER / "llvm-all-kinds.dmp", FOLDER / "crashpad-one.dmp", FOLDER / "made.dmp"]:
            for listing in read(path.read_bytes()).lists:
                names = paths_of(type(listing.items[0]))
                given = list(listing.members(*names))
                wanted = [tuple(member(row, name) for name in names) for row in listing.raw()]
                self.assertEqual(given, wanted)
                self.assertEqual(list(listing.members(*names[1::2], most=1)), [row[1::2] for row in wanted[:1]])
                rows += len(wanted)
        self.assertGreater(rows, 60)

    def test_several_members_as_bytes(self) -> None:
        regions = read(strange_dumps.named("app.dll")).regions
        rows = [(row.base_address, struct.pack("=III", row.state, row.protect, row.memory_type)) for row in regions.raw()]
        self.assertEqual(list(regions.members("base_address", "state:memory_type")), rows)

    def test_each_list_is_read_once(self) -> None:
        file = File(3)
        for number, count in ((3, 3000), (24, 5000)):
            record = strange_dumps.thread(1, 0, (0, 0)) if number == 3 else thread_name(1, 0)
            file.stream(number, counted([record] * count))
        file.stream(0x10000, b"no list")
        with mock.patch("mdmp.pages.reading.library", wraps=library) as calls:
            made = read(file.bytes())
        self.assertEqual((len(made.streams), len(made.threads), len(made.thread_names)), (3, 3000, 5000))
        called = sorted(name for name, _, _ in calls.method_calls)
        self.assertEqual(called, ["mdmp_streams_", "mdmp_thread_names_", "mdmp_threads_", "mdmp_verdicts_"])

    def test_no_summary_that_cannot_be_whole(self) -> None:
        file = File(400)
        listed = file.placed(counted([memory_range(0, (0, 0))] * 1000))
        for _ in range(400):
            file.entry(5, *listed)
        for limits in (mdmp.Limits(budget=1 << 20), mdmp.Limits(memory=1 << 20)):
            made = read(file.bytes(), limits)
            with mock.patch.object(mdmp.Dump, "summary", property(lambda _: self.fail("a summary was made"))):
                self.assertIsNone(made.summary)
                self.assertEqual(crash.card(made).title, "A crash may be missing")
            self.assertIsInstance(made.summary_fault, mdmp.LimitReached)
            self.assertEqual(crash.badge(made).kind, "long")

    def test_list_without_room_is_not_counted(self) -> None:
        file = File(2)
        file.stream(3, counted([strange_dumps.thread(1, 0, (0, 0))] * 20))
        file.stream(24, counted([thread_name(1, 0)] * 20))
        limits = mdmp.Limits(output=2 * 24 + 2 * 64 + 20 * 88)
        with mock.patch("mdmp.pages.reading.library", wraps=library) as calls:
            made = read(file.bytes(), limits)
        self.assertEqual((len(made.threads), len(made.thread_names), made.threads.fault), (20, 0, None))
        self.assertIsInstance(made.thread_names.fault, mdmp.OutputLimit)
        self.assertNotIn("mdmp_thread_names_", [name for name, _, _ in calls.method_calls])


class Buffers(unittest.TestCase):
    """Buffers for what the library returns."""

    def test_long_buffer(self) -> None:
        for room in (1, 1 << 12, 1 << 24):
            made = buffer_of(c_uint8, room)
            self.assertEqual((sizeof(made), made[0], made[room - 1]), (room, 0, 0))
            made[room - 1] = 7
            self.assertEqual(bytes(memoryview(made)[-1:]), b"\7")

    def test_no_memory(self) -> None:
        with self.assertRaises(MemoryError):
            buffer_of(c_uint8, 1 << 60)

    def test_guess_that_there_is_no_memory_for(self) -> None:
        data = (FOLDER / "crashpad-one.dmp").read_bytes()
        text, rows = mdmp.Dump(data).list(), mdmp.Dump(data).modules

        def small(item: Any, room: int) -> Any:
            if room not in (1, len(text), len(rows)):
                raise MemoryError
            return buffer_of(item, room)

        dump = mdmp.Dump(data, limits=None)
        with mock.patch("mdmp._library.buffer_of", small):
            self.assertEqual(dump.list(), text)
        with mock.patch("mdmp._library.buffer_of", small), mock.patch.object(dump, "_name_at", return_value="name"):
            self.assertEqual([row.name for row in dump.modules], ["name"] * len(rows))
        with mock.patch("mdmp._library.buffer_of", side_effect=MemoryError), self.assertRaises(MemoryError):
            dump.threads
