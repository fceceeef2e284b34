"""Pages, as far as they can be tested without a template: what is read, gathered, drawn and told.

`tests/page` of the repository makes whole pages, reads them by html5lib and looks at them in a browser.
"""

from __future__ import annotations

import os
import pathlib
import random
import struct
import subprocess
import sys
import tempfile
import time
import unittest
import xml.etree.ElementTree
from unittest import mock

import mdmp
from lib import strange_dumps
from lib.minidumps import File, counted, memory_range
from mdmp.pages import crash, memory_tables, names, pictures, places, tables, text, texts
from mdmp.pages.ladder import heights, side_by_side, spread
from mdmp.pages.places import FILE_KINDS, Run, Span
from mdmp.pages.reading import BUDGET, Reading
from mdmp.pages.runs import joined, runs

FOLDER = pathlib.Path(os.environ["MDMP_STORED"])


def read(data: bytes, most: int = 500, budget: int = BUDGET) -> Reading:
    return Reading(mdmp.Dump(data, budget=budget), len(data), most)


def drawn(reading: Reading) -> list[str]:
    """Both pictures of a dump."""
    spans = list(places.in_file(reading))
    return [picture.svg for picture in (pictures.of_file(reading, spans), pictures.of_memory(reading)) if picture.svg]


class Words(unittest.TestCase):
    """Names and numbers as text."""

    def test_names(self) -> None:
        self.assertEqual(names.stream_type(9), "Memory64ListStream")
        self.assertEqual(names.stream_type(0x43500001), "MD_CRASHPAD_INFO_STREAM")
        self.assertEqual(names.stream_type(0x43500002), "0x43500002")
        self.assertEqual(names.exception_code(0xC0000005), "0xc0000005 STATUS_ACCESS_VIOLATION")
        self.assertEqual(names.exception_code(0xB), "0x0000000b")
        self.assertEqual(names.exception_code(0xB, 0x8201), "0x0000000b SIGSEGV")
        self.assertEqual(names.exception_code(0x1, 0x8101), "0x00000001 EXC_BAD_ACCESS")
        self.assertEqual(names.exception_code(0x80000003, 0x8101), "0x80000003")
        self.assertEqual([names.architecture(9), names.architecture(99)], ["x64", "architecture 99"])
        self.assertEqual([names.platform(0x8203), names.platform(0x9999)], ["Android", "platform 0x9999"])
        self.assertEqual(names.protection(0x104), "PAGE_READWRITE | PAGE_GUARD")
        self.assertEqual(names.protection(0x80000004), "PAGE_READWRITE | 0x80000000")
        self.assertEqual(names.state(0), "0x0")
        self.assertEqual([names.memory_type(0x1020000), names.memory_type(0)], ["MEM_PRIVATE | MEM_IMAGE", "none"])
        self.assertEqual(names.dump_flags(3), "MiniDumpWithDataSegs | MiniDumpWithFullMemory")
        self.assertEqual([names.exception_flags(1), names.exception_flags(1, 0x8201)], ["EXCEPTION_NONCONTINUABLE", "0x1"])

    def test_system_text(self) -> None:
        terms = [names.csd_term(platform) for platform in (2, 0x8201, 0x8203, 0x8101)]
        self.assertEqual(terms, ["Service pack", "Kernel", "Kernel", "Build of the system"])

    def test_numbers_that_are_no_facts(self) -> None:
        self.assertEqual([names.system_version(10, 0, 19045), names.system_version(1957910016, 32767, 0)], ["10.0.19045", ""])
        self.assertEqual([names.system_version(0, 0, 0), names.system_version(6, 1, 1957910016)], ["", ""])
        self.assertEqual([names.time(0), names.time(0xFFFFFFFF), names.time(1)], ["not set"] * 2 + ["1 second after 1970 began"])
        self.assertEqual([names.processors(count) for count in (0, 1, 4, 255)], ["", "1 processor", "4 processors", ""])
        self.assertEqual([names.protection(0xFFFFFFFF), names.state(0xFFFFFFFF)], ["0xffffffff"] * 2)

    def test_numbers(self) -> None:
        self.assertEqual(text.in_units(1), "1 byte")
        self.assertEqual(text.in_units(5 << 30), "5,368,709,120 bytes (5.0 GiB)")
        self.assertEqual(text.in_units(1 << 90), f"{1 << 90:,} bytes (1073741824.0 EiB)")
        self.assertEqual(text.of(2, "entry", "entries"), "2 entries")

    def test_what_is_not_seen_is_escaped(self) -> None:
        self.assertEqual(text.visible("a\0\n\u202eb\u2028\ufeff\ud800"), "a\\u0000\\u000a\\u202eb\\u2028\\ufeff\\ud800")
        self.assertEqual(text.visible("e" + "\u0301" * 4), "e\u0301\u0301\\u0301\\u0301")
        self.assertEqual(text.visible("été 😀 <b>"), "été 😀 <b>")

    def test_long_names(self) -> None:
        short = text.shortened("a" * 1000 + "b" * 1000)
        self.assertTrue(short.startswith("aaa") and short.endswith("bbb (2,000 characters)"))
        self.assertLess(len(short), 200)
        marked = "e" + "\u0301" * 200
        self.assertEqual(text.shortened(marked, 9), "e\u0301\u0301\\u0 .. 301 (201 characters)")
        for long in (marked, "a\0" * 100, "\u202e" + "ab\u0301\u0301\u0301" * 60):
            shown = text.visible(long)
            self.assertEqual(text.shortened(long, 90), f"{shown[:60]} .. {shown[-30:]} ({len(long)} characters)")
        self.assertEqual([text.fitting("abcdef", room) for room in (6, 5)], ["abcdef", "abcd…"])
        self.assertEqual(text.fitting("試験試験", 6), "試験…")
        self.assertEqual(text.last_part("C:\\one\\two.dll"), "two.dll")
        self.assertEqual(text.last_part("/"), "/")


class Tables(unittest.TestCase):
    """Rows, what is left out, and faults."""

    def test_good(self) -> None:
        reading = read((FOLDER / "llvm-all-kinds.dmp").read_bytes())
        self.assertEqual(crash.badge(reading).kind, "good")
        table = tables.modules(reading)
        self.assertEqual(table.rows[0].cells[1:4], ["C:\\dir\\one.exe", "program", "0x0000000140000000"])
        self.assertEqual(table.rows[0].cells[5], "1.2.3.4")
        self.assertEqual(table.rows[0].cells[7:], ["33221100554477668899AABBCCDDEEFF1", "one.pdb"])
        self.assertEqual((table.count, table.left_out, table.fault), (3, "", ""))

    def test_crash(self) -> None:
        reading = read(strange_dumps.named("app.dll"))
        card = crash.card(reading)
        self.assertEqual(card.title, "STATUS_ACCESS_VIOLATION at app.dll+0x1234")
        facts = dict(card.facts)
        self.assertEqual(facts["Where"], "app.dll+0x1234 (0x0000000140001234)")
        self.assertEqual(facts["Thread"], "app.dll (7)")
        self.assertEqual(facts["Reached"], "writing 0x0000000000000010")
        self.assertEqual((facts["Version"], facts["Service pack"]), ("1.2.3.4", "app.dll"))
        self.assertEqual(facts["When"], "2023-11-14 22:13:20 UTC")
        self.assertEqual(dict(card.more)["Parameters"], "0x1, 0x10")
        self.assertEqual(facts["What"], "0xc0000005 STATUS_ACCESS_VIOLATION")
        self.assertEqual([row.mark for row in tables.threads(reading).rows], ["crash", ""])
        self.assertEqual([row.cells[2] for row in tables.modules(reading).rows], ["crashed, program", "", ""])
        self.assertEqual([table.key for table in tables.of_process(reading)], ["threads", "modules", "unloaded"])

    def test_crashes_of_samples(self) -> None:
        card = crash.card(read((FOLDER / "crashpad-one.dmp").read_bytes()))
        self.assertEqual(card.title, "SIGSEGV / SEGV_MAPERR at cpad+0x14d8")
        self.assertEqual(dict(card.facts), {
            "What": "0x0000000b SIGSEGV / SEGV_MAPERR",
            "Where": "/usr/sample/cpad+0x14d8 (0x000055c6e269e4d8)",
            "Thread": "cpad (22570)",
            "Reached": "0x0000000000000010",
            "Registers": "instruction 0x55c6e269e4d8, stack 0x7ffec51f8420, frame 0x7ffec51f8430",
            "Program": "/usr/sample/cpad",
            "Debug id": "C314FFF829178D552D09B50EFC20A6FD0",
            "Code id": "f8ff14c31729558d2d09b50efc20a6fd6c265072",
            "System": "Linux 6.18.44, x64, 4 processors",
            "Kernel": "-fc-v595 #1 SMP PREEMPT_DYNAMIC @0 x86_64",
            "When": "2026-11-22 06:45:36 UTC",
        })  # fmt: skip
        reading = read((FOLDER / "lldb19-crash-stack.dmp").read_bytes())
        card = crash.card(reading)
        self.assertEqual(card.title, "SIGSEGV near crash+0x117b")
        facts = dict(card.facts)
        self.assertEqual(facts["Where"], "near /usr/sample/crash+0x117b (0x000055555555517b): no module has the address")
        self.assertEqual((facts["System"], facts["Command line"]), ("Linux, x64", "/usr/sample/crash"))
        self.assertEqual(tables.modules(reading).rows[0].cells[2], "near the crash, program")

    def test_module_that_is_not_the_program(self) -> None:
        data = strange_dumps.crowded([(0x1000, 0x1000), (0x8000, 0x1000)], [0x8010])
        reading = read(data)
        facts = dict(crash.card(reading).facts)
        self.assertEqual((facts["Module"], facts["Program"]), ("module_1.dll", "module_0.dll"))
        self.assertEqual([row.cells[:3] for row in tables.modules(reading).rows], [
            ["1", "module_1.dll", "crashed"], ["0", "module_0.dll", "program"]])  # fmt: skip

    def test_what_stopped_is_no_crash(self) -> None:
        file = File(2)
        file.stream(7, strange_dumps.system(0, platform=0x8201))
        file.stream(6, strange_dumps.exception(7, 19, 0x1234))
        reading = read(file.bytes())
        card = crash.card(reading)
        self.assertEqual((card.title, card.facts[0].words), (
            "No crash in the file", "1, of threads that stopped or of a dump that somebody asked for"))  # fmt: skip
        self.assertEqual([table.key for table in tables.of_process(reading)], ["exceptions", "threads", "modules"])

    def test_list_that_ends_early_is_no_list_without_exceptions(self) -> None:
        good = strange_dumps.named("app.dll")
        at = [stream.rva for stream in mdmp.Dump(good).streams if stream.stream_type == 6][0]
        entry = 32 + 12 * 3
        cut = good[: entry + 4] + struct.pack("<I", 100) + good[entry + 8 :]
        card = crash.card(read(cut))
        self.assertEqual(card.title, "A crash may be missing")
        self.assertEqual(dict(card.facts)["System"], "Windows 10.0.19045, x64, 4 processors")
        fault = f"entry 3: stream too short: offset {at} size 100"
        self.assertEqual(card.fault, f"The list of exceptions ends early: {fault}.")
        none = crash.card(read(strange_dumps.many_modules(2)))
        self.assertEqual((none.title, none.fault), ("No exception in the file", ""))
        self.assertEqual(dict(none.facts)["Program"], "C:\\programs\\part_000000.dll")
        limited = crash.card(read(good, budget=200))
        self.assertEqual(limited.title, "A crash may be missing")
        self.assertIn("fetch budget reached", limited.fault)

    def test_parts_outside(self) -> None:
        reading = read(strange_dumps.named("app.dll")[:-64])
        self.assertEqual(crash.badge(reading).kind, "bad")  # the last stream is cut
        file = File(2)
        file.stream(3, counted([strange_dumps.thread(7, 0x10000, (512, 0xFFFF), (1232, 0xFFFF))]))
        file.stream(4, counted([strange_dumps.module(0, 0x140000000, 0x1000, (24, 0xFFFF))]))
        reading = read(file.bytes())
        self.assertEqual(crash.badge(reading), ("Readable, but 3 parts lie outside the file.", "outside"))

    def test_empty_columns_go(self) -> None:
        file = File(1)
        file.stream(3, counted([struct.pack("<IIIIQQIIII", number, 0, 0, 0, 0, 0, 0, 0, 0, 0) for number in (7, 8)]))
        table = tables.threads(read(file.bytes()))
        titles = ["Number", "Thread id", "Stack in the file", "Registers in the file"]
        self.assertEqual([column.title for column in table.columns], titles)
        self.assertEqual(table.rows[1].cells, ["1", "8", "empty", "empty"])

    def test_first_rows(self) -> None:
        self.assertEqual(tables.modules(read(strange_dumps.many_modules(20))).show_all, "")
        self.assertEqual(tables.modules(read(strange_dumps.many_modules(21))).show_all, "Show all 21 modules")
        self.assertEqual(tables.modules(read(strange_dumps.many_modules(600))).show_all, "Show the first 500 modules")
        style = (pathlib.Path(tables.__file__).parent / "templates/style.css").read_text("utf-8")
        self.assertIn(f"tr:nth-child(n + {tables.SHOWN + 1})", style)

    def test_what_crashed_comes_first(self) -> None:
        for most in (500, 30):
            reading = read(strange_dumps.many_threads(201), most=most)
            shown = tables.threads(reading)
            self.assertEqual([row.cells[:4] for row in shown.rows[:2]], [
                ["100", "1100", "worker 1100", "crashed"], ["0", "1000", "worker 1000", ""]])  # fmt: skip
            self.assertEqual((len(shown.rows), shown.count), (min(most, 201), 201))
        file = strange_dumps.crowded([(at << 16, 0x1000) for at in range(1, 40)], [(30 << 16) + 5])
        self.assertEqual([row.cells[0] for row in tables.modules(read(file)).rows[:3]], ["29", "0", "1"])

    def test_several_exceptions(self) -> None:
        table = tables.of_process(read(strange_dumps.crowded([(0x1000, 0x1000)], [0x1010, 0x9999])))[0]
        self.assertEqual([row.cells[1] for row in table.rows], ["STATUS_ACCESS_VIOLATION"] * 2)
        self.assertEqual([row.cells[4] for row in table.rows], ["module_0.dll", ""])

    def test_greatest_numbers(self) -> None:
        reading = read(strange_dumps.greatest())
        card, badge = crash.card(reading), crash.badge(reading)
        facts = dict(card.facts + card.more + crash.about_file(reading))
        self.assertEqual(card.title, "0xffffffff at a module without a name+0x0")
        self.assertEqual(facts["System"], "platform 0xffffffff, unknown processor")
        self.assertEqual((facts["When"], "Code id" in facts, "Version" in facts), ("not set", False, False))
        self.assertEqual(facts["Flags"], "0xffffffffffffffff, which has bits without a name")
        self.assertEqual(badge.words, "Readable, but 5 parts lie outside the file.")
        shown = [*tables.of_process(reading), *memory_tables.of_memory(reading)]
        words = [cell for table in shown for row in table.rows for cell in row.cells]
        for number in ("65535.65535", "4,294,967,295", "18,446,744,073,709,551,615", "MEM_", "PAGE_"):
            self.assertFalse([cell for cell in words if number in cell], number)
        self.assertEqual(shown[-3].note, "Without 1 region whose size passes the last address.")
        self.assertEqual(pictures.of_memory(reading)[:2], ("", "Left out: 3 things whose size passes the last address."))

    def test_texts(self) -> None:
        file = File(6)
        file.stream(0x47670006, b"/bin/app\0--name\0two words\0")
        file.stream(0x47670007, b"SECRET=1\0")
        file.stream(0x47670009, "".join(f"{line:x} r-xp /lib/\u202e{line}.so\n" for line in range(300)).encode())
        file.stream(10, b"<b>comment\0")
        file.stream(11, "é".encode("utf-16-le"))
        file.entry(0x47670003, 100, 0xFFFFFF)
        reading = read(file.bytes())
        self.assertEqual(texts.command_line(reading), "/bin/app --name 'two words'")
        made_texts = texts.all_texts(reading)
        self.assertEqual([each.lines[0] for each in made_texts], [
            "/bin/app --name 'two words'", "0 r-xp /lib/\\u202e0.so", "<b>comment", "é"])  # fmt: skip
        self.assertEqual((len(made_texts[1].lines), made_texts[1].left_out[:24]), (200, "These are the first line"))
        self.assertNotIn("SECRET", str(made_texts))
        self.assertEqual(dict(crash.card(reading).facts)["Command line"], "/bin/app --name 'two words'")

    def test_protections(self) -> None:
        table = memory_tables.protections(read(strange_dumps.named("app.dll")))
        self.assertEqual(table.rows[0].cells, ["MEM_COMMIT", "PAGE_READWRITE", "MEM_PRIVATE", "2", "131,072"])
        self.assertEqual(table.count, 4)

    def test_left_out(self) -> None:
        reading = read(strange_dumps.many_modules(1200), most=500)
        table = tables.modules(reading)
        self.assertEqual((len(table.rows), table.count), (500, 1200))
        self.assertEqual(table.left_out, "Left out of this table: 700 of 1,200 modules.")
        self.assertEqual(table.rows[499].cells[1], "C:\\programs\\part_000499.dll")

    def test_bad_entries_are_not_left_out(self) -> None:
        reading = read((FOLDER / "llvm-all-kinds.dmp").read_bytes()[:1334], most=5)
        table = tables.verdicts(reading)
        self.assertEqual([row.cells[0] for row in table.rows], ["0", "7", "8", "9", "10"])
        self.assertEqual(table.rows[1].cells[-1], "entry 7: stream outside the file: offset 1321 size 14")
        self.assertEqual([row.mark for row in table.rows], ["", "bad", "bad", "bad", "bad"])
        self.assertEqual(crash.badge(reading), ("4 of 12 entries have an error.", "bad"))

    def test_what_stands_before_a_fault(self) -> None:
        data = bytearray(strange_dumps.many_modules(3))
        place = mdmp.Dump(data).modules[2].name_place.rva
        data[place] |= 1
        table = tables.modules(read(bytes(data)))
        self.assertEqual(len(table.rows), 2)
        self.assertIn("entry 0 item 2: odd name length", table.fault)

    def test_no_dump(self) -> None:
        reading = read(b"no dump at all, but more than 32 bytes")
        self.assertEqual(crash.badge(reading), ("The file can't be read as a dump: bad signature.", "bad"))
        self.assertEqual(list(places.in_file(reading)), [])

    def test_budget(self) -> None:
        data = strange_dumps.many_modules(100)
        reading = read(data, budget=2000)
        self.assertIn("fetch budget reached", tables.modules(reading).fault)
        self.assertEqual(crash.badge(reading).kind, "long")
        short = read(data, budget=43)
        self.assertEqual((short.is_too_long, crash.badge(short).kind, len(short.modules)), (True, "long", 0))


class Costs(unittest.TestCase):
    """What a page takes."""

    def test_many_ranges_cost_little(self) -> None:
        entries, ranges = 700, 500
        file = File(entries)
        stream = file.placed(counted([memory_range(number * 377_777 % 100_003, (1, 32)) for number in range(ranges)]))
        for _ in range(entries):
            file.entry(5, *stream)
        begin = time.process_time()
        reading = read(file.bytes())
        self.assertEqual(len(drawn(reading)), 2)
        self.assertEqual(memory_tables.ranges(reading).left_out, "Left out of this table: 349,500 of 350,000 ranges.")
        self.assertIn(" Of 350,000 ranges the first 19,300 are drawn.", places.not_drawn(reading))
        self.assertLess(time.process_time() - begin, 2)


class Places(unittest.TestCase):
    """What lies over what."""

    def test_overlaps(self) -> None:
        reading = read(strange_dumps.overlapping())
        spans = list(places.in_file(reading))
        kinds = {(first.kind, second.kind) for first, second in places.pairs(spans, 100)}
        self.assertTrue({("stream", "stream"), ("directory", "stream"), ("stack", "stack")} <= kinds)
        stretches = places.over_another(spans)
        self.assertEqual(stretches[0], (60, 100))  # a stream over the directory
        self.assertGreater(max(end - start for start, end in places.gaps(spans, reading.size)), 600)

    def test_no_overlap_after_the_end(self) -> None:
        spans = [Span(90, 120, "stream", 0), Span(95, 130, "stream", 1), Span(100, 110, "name", 2)]
        self.assertEqual(places.over_another(places.within(spans, 100)), [(95, 100)])

    def test_one_place_is_no_overlap(self) -> None:
        spans = [Span(0, 10, "stack", 0), Span(0, 10, "range", 0), Span(10, 20, "name", 0)]
        self.assertEqual((places.over_another(spans), list(places.pairs(spans, 9))), ([], []))
        self.assertEqual(places.over_another([*spans, Span(9, 12, "name", 1)]), [(9, 12)])

    def test_pairs_are_what_comparing_each_with_each_gives(self) -> None:
        numbers = random.Random(50)
        for _ in range(300):
            starts = [numbers.randrange(12) for _ in range(numbers.randrange(2, 20))]
            spans = sorted(Span(at, at + numbers.randrange(5), "name", which) for which, at in enumerate(starts))
            wanted = [
                (first, second)
                for at, second in enumerate(spans)
                for first in spans[:at]
                if first.end > second.start and first[:2] != second[:2]
            ]
            self.assertEqual(list(places.pairs(spans, 1000)), wanted)
            self.assertEqual(list(places.pairs(spans, 3)), wanted[:3])

    def test_many_things_at_one_place(self) -> None:
        spans = [Span(32, 33, "range", which) for which in range(100_000)]
        begin = time.process_time()
        self.assertEqual(list(places.pairs(spans, 9)), [])
        self.assertLess(time.process_time() - begin, 1)  # each with 64 others would take over 2 seconds

    def test_over_another_is_what_counting_bytes_gives(self) -> None:
        numbers = random.Random(49)
        for _ in range(300):
            spans = [Span(at, at + numbers.randrange(6), "name", 0) for at in [numbers.randrange(24) for _ in range(6)]]
            distinct = {(span.start, span.end) for span in spans}
            bytes_over = [at for at in range(40) if sum(start <= at < end for start, end in distinct) > 1]
            given = [at for start, end in places.over_another(spans) for at in range(start, end)]
            self.assertEqual(given, bytes_over, spans)
            free = [at for at in range(30) if not any(start <= at < end for start, end in distinct)]
            self.assertEqual([at for start, end in places.gaps(spans, 30) for at in range(start, end)], free)

    def test_what_is_not_drawn_is_told(self) -> None:
        reading = read(strange_dumps.many_modules(30))
        self.assertEqual(places.not_drawn(reading), "")
        with mock.patch.object(places, "DRAWN", 21):  # of which one is the entry of the directory
            self.assertEqual(places.not_drawn(reading), " Of 30 modules the first 20 are drawn.")
            self.assertEqual(sum(span.kind == "name" for span in places.in_file(reading)), 20)

    def test_no_list_is_cut_for_a_longer_one(self) -> None:
        reading = read(strange_dumps.named("app.dll", modules=5))
        counts = {"entries": 9, "threads": 2, "modules": 5, "unloaded modules": 1, "exceptions": 1, "systems": 1}
        counts |= {"names of threads": 2, "ranges": 1}
        self.assertEqual({name: len(rows) for name, rows in places._lists(reading).items()}, counts)
        for most in range(2 * sum(counts.values())):
            with mock.patch.object(places, "DRAWN", most):
                drawn = places.most_drawn(reading)
                rows = sum(min(count, drawn) for count in counts.values())
                self.assertLessEqual(rows, most)
                self.assertTrue(rows == sum(counts.values()) or rows > most - len(counts), most)

    def test_runs(self) -> None:
        spans = [Span(at * 100, at * 100 + 10, "name", at) for at in range(1000)] + [Span(5, 6, "stream", 0)]
        found = runs(spans, 40, FILE_KINDS, lambda span: span.kind)
        self.assertEqual(
            [(run.kind, run.things, run.label) for run in found],
            [("name", 1000, "1,000 names"), ("stream", 1, "stream")],
        )
        twice = runs([Span(0, 9, "name", 0)] * 2, 40, FILE_KINDS, lambda span: span.kind)
        self.assertEqual(twice, [Run(0, 9, "name", 2, "name, 2 times")])
        self.assertEqual(joined([(0, 1), (9, 10), (1000, 1001)], 2), [(0, 10), (1000, 1001)])


class Pictures(unittest.TestCase):
    """What is drawn is SVG, and no text of a file is more than text in it."""

    def test_markup_is_text(self) -> None:
        for picture in drawn(read(strange_dumps.named(strange_dumps.MARKUP))):
            root = xml.etree.ElementTree.fromstring(picture)
            tags = {part.tag for part in root.iter()}
            self.assertLessEqual(
                tags, {"svg", "title", "desc", "defs", "pattern", "rect", "line", "polyline", "text", "tspan"}
            )
            self.assertNotIn("<img", picture)
            self.assertFalse(
                [key for part in root.iter() for key in part.attrib if key.startswith("on") or key == "href"]
            )
        self.assertIn(
            "name “script><img src=x onerror=",
            "".join(xml.etree.ElementTree.fromstring(drawn(read(strange_dumps.named(strange_dumps.MARKUP)))[0]).itertext()),
        )

    def test_hostile(self) -> None:
        count = 0
        for name, data in strange_dumps.hostile():
            with self.subTest(name):
                reading = read(data)
                for picture in drawn(reading):
                    self.assertLess(len(xml.etree.ElementTree.fromstring(picture).findall(".//rect")), 400)
                    self.assertLess(len(picture), 100_000)
                shown = [*tables.of_process(reading), *memory_tables.of_memory(reading)]
                self.assertLessEqual(max(len(table.rows) for table in shown), 500)
                count += 1
        self.assertEqual(count, 20)

    def test_small_beside_large(self) -> None:
        size = 5 << 30
        places_of = heights([0, 24, size - 24, size], lambda start, end: True, 0)
        self.assertGreater(places_of[1], 8)
        self.assertGreater(places_of[3] - places_of[2], 8)
        self.assertLess(places_of[3], 120)

    def test_labels_do_not_meet(self) -> None:
        given = spread([5, 5, 5, 90, 91, 99], 10, 100)
        self.assertTrue(all(after - before >= 10 for before, after in zip(given, given[1:])))
        self.assertLessEqual(given[-1], 100)

    def test_side_by_side(self) -> None:
        found = [
            Run(0, 10, "stream", 1, ""),
            Run(5, 15, "stream", 1, ""),
            Run(10, 20, "stream", 1, ""),
            Run(20, 30, "stream", 1, ""),
        ]
        self.assertEqual([(at, count) for _, at, count in side_by_side(found)], [(0, 2), (1, 2), (0, 2), (0, 1)])

    def test_names_are_whole_or_left_out(self) -> None:
        for name, is_shown in (("worker", True), ("a thread with a name that is too long for a picture", False)):
            for picture in drawn(read(strange_dumps.named(name))):
                root = xml.etree.ElementTree.fromstring(picture)
                shown = ["".join(part.itertext()) for part in root.iter() if part.tag.endswith("text")]
                self.assertEqual(any(name in words for words in shown), is_shown)
                self.assertFalse([words for words in shown if "…" in words])

    def test_sample_pictures(self) -> None:
        for path in sorted(FOLDER.glob("*.dmp")):
            with self.subTest(path.name):
                for picture in drawn(read(path.read_bytes())):
                    root = xml.etree.ElementTree.fromstring(picture)
                    self.assertEqual(root.attrib["role"], "img")
                    self.assertEqual([part.tag for part in root[:2]], ["title", "desc"])


class Command(unittest.TestCase):
    """python -m mdmp page, where it makes no page."""

    def run_command(self, *words: str, without: str = "jinja2") -> tuple[int, str]:
        program = f"import sys; sys.modules[{without!r}] = None; from mdmp.__main__ import main; sys.exit(main())"
        done = subprocess.run([sys.executable, "-c", program, *words], capture_output=True, text=True)
        return done.returncode, done.stderr

    def test_without_jinja(self) -> None:
        with tempfile.TemporaryDirectory() as folder:
            status, told = self.run_command("page", str(FOLDER / "made.dmp"), "-o", f"{folder}/made.html")
            self.assertEqual(
                (status, told),
                (3, "mdmp: Jinja2 is missing, which pages are made with: apt-get install python3-jinja2\n"),
            )
            self.assertEqual(os.listdir(folder), [])

    def test_words(self) -> None:
        self.assertEqual(self.run_command("page")[0], 2)
        self.assertEqual(self.run_command("page", "one.dmp")[0], 2)
        self.assertEqual(self.run_command("page", "one.dmp", "-o", "one.html", "--rows", "0")[0], 2)
