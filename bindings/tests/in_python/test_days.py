"""What is counted of many dumps, as far as it can be tested without a template."""

from __future__ import annotations

import os
import pathlib
import random
import sys
import time
import tempfile
import unittest
import xml.etree.ElementTree
from collections import Counter
from typing import Any, Mapping
from unittest import mock

from lib import strange_dumps
from lib.minidumps import File, counted as listed
from mdmp.pages import command, counting, day, times
from mdmp.pages.counting import Build, Code, Counted, Group, Place
from mdmp.pages.day import Day

from .test_images import looked_for


def dies(*_: object) -> str:
    """Makes no page."""
    os._exit(9)


def may_die(paths: list[str], budget: int) -> Counted:
    """Counts as `count` does, and dies of a file of one name."""
    if any("deadly" in path for path in paths):
        dies()
    return Counted(dumps=len(paths), verdicts={"good": Group(len(paths))})


def counts(groups: Mapping[Any, Group]) -> dict[Any, int]:
    """How many dumps each group has."""
    return {key: group.count for key, group in groups.items()}


def violation(module: str | None, offset: int | None) -> Place:
    """An access violation on Windows."""
    return Place(0xC0000005, "STATUS_ACCESS_VIOLATION", module, offset)


class Days(unittest.TestCase):
    """A folder of dumps, some of which are bad."""

    def setUp(self) -> None:
        folder = tempfile.TemporaryDirectory()
        self.addCleanup(folder.cleanup)
        self.folder = pathlib.Path(folder.name)

    def put(self, name: str, data: bytes) -> str:
        path = self.folder / name
        path.parent.mkdir(parents=True, exist_ok=True)
        path.write_bytes(data)
        return str(path)

    def put_some(self) -> None:
        for number in range(7):
            self.put(f"deep/er/{number}.dmp", strange_dumps.named("one.dll"))
        self.put("b.mdmp", strange_dumps.named("two.dll"))
        self.put("a.DMP", strange_dumps.named("two.dll")[:600])
        self.put("none.dmp", strange_dumps.many_modules(2))
        self.put("no-dump.dmp", b"PK")
        self.put("notes.txt", b"no dump either")

    def test_counts(self) -> None:
        self.put_some()
        counted = counting.count_all(str(self.folder), 2)
        self.assertEqual(counted.dumps, 11)
        self.assertEqual(counts(counted.places), {violation("one.dll", 0x1234): 7, violation("two.dll", 0x1234): 1})
        self.assertEqual(counts(counted.codes), {Code(0xC0000005, "STATUS_ACCESS_VIOLATION"): 8})
        debug_id = "030201000504070608090A0B0C0D0E0F1"
        self.assertEqual(counts(counted.builds), {
            Build("one.dll", "1.2.3.4", debug_id): 7, Build("two.dll", "1.2.3.4", debug_id): 1})  # fmt: skip
        self.assertEqual(counts(counted.verdicts), {"good": 9, "stream outside": 1, "file too short": 1})
        self.assertEqual(sorted(counted.bad), sorted(str(self.folder / name) for name in ("a.DMP", "no-dump.dmp")))
        self.assertEqual((counted.bad_count, counted.crashes), (2, 8))
        group = counted.places[violation("one.dll", 0x1234)]
        self.assertEqual(group.paths, [str(self.folder / f"deep/er/{number}.dmp") for number in range(5)])
        self.assertEqual((group.first, group.last), (1_700_000_000, 1_700_000_000))

    def test_first_of_modules_that_overlap(self) -> None:
        numbers = random.Random(11)
        for count in (3, 40, 500):
            modules = [(base << 4, numbers.randrange(1 << 18)) for base in numbers.sample(range(1 << 16), count)]
            addresses = [numbers.randrange(1 << 21) for _ in range(20)] + [modules[0][0], sum(modules[0])]
            for address in addresses:
                counted = counting.count([self.put("one.dmp", strange_dumps.crowded(modules, [address]))])
                self.assertEqual(list(counted.places), [self.wanted(modules, address)])

    @staticmethod
    def wanted(modules: list[tuple[int, int]], address: int) -> Place:
        """The place of a crash: the first module that has the address, or the one below it."""
        at = looked_for(modules, address)
        below = [(base, number) for number, (base, _) in enumerate(modules) if base <= address]
        if at is None and not below:
            return Place(0xC0000005, None, None, None)
        found = max(below)[1] if at is None else at
        return Place(0xC0000005, None, f"module_{found}.dll", address - modules[found][0], at is None)

    def test_many_modules_and_exceptions(self) -> None:
        count = 8000
        nested = [(start, count) for start in range(count, 0, -1)]
        path = self.put("nested.dmp", strange_dumps.crowded(nested, list(range(1, count + 1))))
        begin = time.process_time()
        counted = counting.count([path])
        self.assertLess(time.process_time() - begin, 5)  # each for each would take over half a minute
        self.assertEqual(counts(counted.places), {Place(0xC0000005, None, f"module_{count - 1}.dll", 0): 1})

    def test_far_from_all_modules_is_near_none(self) -> None:
        path = self.put("far.dmp", strange_dumps.crowded([(0x1000, 0x1000)], [1 << 40]))
        self.assertEqual(list(counting.count([path]).places), [Place(0xC0000005, None, None, None)])

    def test_what_stopped_is_no_crash(self) -> None:
        file = File(3)
        file.stream(7, strange_dumps.system(0, platform=0x8201))
        file.stream(6, strange_dumps.exception(7, 19, 0x1234))
        file.stream(6, strange_dumps.exception(7, 0xFFFFFFFF, 0x1234))
        counted = counting.count([self.put("stopped.dmp", file.bytes())])
        self.assertEqual((counted.dumps, counted.crashes, counted.bad_count), (1, 0, 0))

    def test_parts_outside_are_counted(self) -> None:
        file = File(1)
        file.stream(3, listed([strange_dumps.thread(7, 0x10000, (512, 0xFFFF))]))
        counted = counting.count([self.put("lost.dmp", file.bytes()), self.put("good.dmp", strange_dumps.many_modules(1))])
        self.assertEqual(counts(counted.verdicts), {"parts outside the file": 1, "good": 1})
        self.assertEqual((counted.bad_count, counted.bad), (0, {}))
        self.assertEqual(Day(counted, ".", 9).sentence(), "2 dumps: 1 good, 1 with parts outside the file, 0 bad.")

    def test_any_number_of_workers_counts_the_same(self) -> None:
        for number in range(130):
            self.put(f"{number}.dmp", strange_dumps.named(f"{number % 3}.dll"))
        told: list[int] = []
        one, three = counting.count_all(str(self.folder), 1), counting.count_all(str(self.folder), 3, told=told.append)
        self.assertEqual(one, three)
        self.assertEqual((one.dumps, sum(told)), (130, 130))

    def test_only_plain_files_are_opened(self) -> None:
        self.put("good.dmp", strange_dumps.named("one.dll"))
        os.mkfifo(self.folder / "pipe.dmp")
        os.symlink(self.folder, self.folder / "again")
        os.symlink("nowhere", self.folder / "lost.dmp")
        os.symlink("self.dmp", self.folder / "self.dmp")
        self.assertEqual(list(counting.dumps_in(str(self.folder))), [str(self.folder / "good.dmp")])

    def test_file_that_is_gone(self) -> None:
        counted = counting.count([str(self.folder / "gone.dmp")])
        self.assertEqual(counts(counted.verdicts), {"cannot be opened": 1})
        self.assertEqual(list(counted.bad.values()), ["cannot be opened: No such file or directory"])

    def test_process_that_dies(self) -> None:
        for number in range(230):
            self.put(f"{number}.dmp", b"")
        self.put("deadly.dmp", b"")
        with mock.patch.object(counting, "count", may_die):
            counted = counting.count_all(str(self.folder), 2)
        self.assertEqual((counted.dumps, counts(counted.verdicts)), (231, {"good": 230, "its reader died": 1}))
        self.assertEqual(list(counted.bad), [str(self.folder / "deadly.dmp")])

    def test_memory_grows_with_groups(self) -> None:
        counted = Counted()
        for number in range(5000):
            counted.add(counting.count([f"/nowhere/{number:05}.dmp"]))
        self.assertEqual(counted.dumps, 5000)
        self.assertLessEqual(len(counted.bad), 2 * counting.LISTED)
        self.assertIn("/nowhere/00000.dmp", counted.bad)
        self.assertEqual(counted.verdicts["cannot be opened"].paths, [f"/nowhere/{number:05}.dmp" for number in range(5)])

    def test_times_that_are_no_facts_take_no_memory(self) -> None:
        one, other = Counted(), Counted()
        for number in range(2 * counting.MOST_HOURS):
            hour = Counted(hours=Counter([number]), days=Counter([number // 24]))
            (one if number % 3 else other).add(hour)
        self.assertEqual((one.hours, one.has_hours, len(other.hours)), (Counter(), False, 67))
        other.add(one)
        self.assertEqual((other.hours, other.has_hours, sum(other.days.values())), (Counter(), False, 200))

    def test_groups_of_the_page(self) -> None:
        self.put_some()
        page = Day(counting.count_all(str(self.folder), 1), str(self.folder), most=1)
        sections = {section.key: section for section in page.sections()}
        places = sections["places"]
        self.assertEqual(places.rows[0].cells, ["0xc0000005 STATUS_ACCESS_VIOLATION", "one.dll+0x1234"])
        self.assertEqual((places.rows[0].count, places.rows[0].share), ("7", 87.5))
        self.assertEqual(places.rows[0].seen, ("2023-11-14 22:13", "2023-11-14 22:13"))
        self.assertEqual([one.path for one in places.rows[0].examples], [f"deep/er/{number}.dmp" for number in range(5)])
        self.assertEqual(places.left_out, "Left out of this table: 1 of 2 groups.")
        self.assertEqual(
            [(len(page.bad_section().rows), page.bad_section().left_out)],
            [(1, "Left out of this table: 1 of 2 bad files.")],
        )
        names = {os.path.basename(path) for path in page.examples()}
        # The first of the first groups, and of the bad files.
        self.assertEqual(names, {"0.dmp", "1.dmp", "2.dmp", "3.dmp", "4.dmp", "a.DMP", "b.mdmp"})

    def test_samples(self) -> None:
        counted = counting.count_all(os.environ["MDMP_STORED"], 1)
        cells = [row.cells for row in Day(counted, "", most=99).sections()[0].rows]
        self.assertIn(["0x0000000b SIGSEGV", "cpad+0x14d8"], cells)
        self.assertIn(["0x0000000b SIGSEGV", "near crash+0x117b"], cells)
        counted = counting.count([os.path.join(os.environ["MDMP_STORED"], "crashpad-one.dmp")])
        builds = Day(counted, "", most=9).sections()[1]
        self.assertEqual([column.title for column in builds.columns], ["Module", "Debug id or code id"])
        self.assertEqual(builds.rows[0].cells, ["cpad", "C314FFF829178D552D09B50EFC20A6FD0"])

    def test_page_whose_process_dies(self) -> None:
        self.put_some()
        page = Day(counting.count_all(str(self.folder), 1), str(self.folder), most=9)
        with mock.patch.object(day, "make_page", dies):
            day.make_pages(page, str(self.folder / "pages"), str(self.folder / "day.html"), 1)
        self.assertEqual(page.links, {})

    def test_picture_of_times(self) -> None:
        def drawn(*moments: int) -> tuple[list[str], str]:
            counted = Counted()
            for moment in moments:
                hours, days = Counter([moment // 3600]), Counter([moment // 86400])
                counted.add(Counted(hours=hours, days=days, places={violation(None, None): Group(1)}))
            shown = times.draw(counted)
            root = xml.etree.ElementTree.fromstring(shown.svg)
            return [part.attrib["height"] for part in root.iter("rect") if part.attrib["class"] == "bar"], shown.about

        hour, day = 3600, 24 * 3600
        start = 1_700_000_000 // day * day
        self.assertEqual(drawn(start, start + 9, start + hour), (["96", "48"],
            "3 crashes by hour in UTC, from 2023-11-14 00:00 to 2023-11-14 01:00."))  # fmt: skip
        self.assertEqual(drawn(start, start + 3 * day)[1], "2 crashes by day in UTC, from 2023-11-14 to 2023-11-17.")
        self.assertEqual(drawn(700_000_000, start, start + hour)[1],
            "2 crashes by hour in UTC, from 2023-11-14 00:00 to 2023-11-14 01:00."
            " 1 other is of no time or of times far from these.")  # fmt: skip
        later = [start + number * day for number in range(5)]
        self.assertEqual(drawn(700_000_000, *later, 4_000_000_000)[1],
            "5 crashes by day in UTC, from 2023-11-14 to 2023-11-18."
            " 2 others are of no time or of times far from these.")  # fmt: skip
        self.assertEqual(times.draw(Counted()), ("", ""))

    def test_no_bar_of_progress_without_a_terminal(self) -> None:
        with mock.patch.object(sys.stderr, "isatty", lambda: False):
            progress = command.Progress("dumps", lambda: 1 // 0)  # nobody asks how many there are
            progress.told(3)
            progress.end()
