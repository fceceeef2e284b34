"""Which module holds an address, beside a search that looks at each of them."""

from __future__ import annotations

import random
import time
import unittest

import mdmp
from lib import strange_dumps
from mdmp import _structures
from mdmp._images import Images

END = 1 << 64


def images(places: list[tuple[int, int]]) -> Images:
    """An index of modules, each with its first address and its size."""
    rows = (_structures.Module * (len(places) + 1))()
    for row, (start, size) in zip(rows, places):
        row.base_of_image, row.size_of_image = start, size
    rows[len(places)].size_of_image = 0xFFFFFFFF  # a module that is none of them
    return Images(rows, len(places))


def looked_for(places: list[tuple[int, int]], address: int) -> int | None:
    """The first module that holds an address, by the definition."""
    for order, (start, size) in enumerate(places):
        if 0 <= address - start < size:
            return order
    return None


class Overlapping(unittest.TestCase):
    """Images that overlap in each way."""

    def compare(self, places: list[tuple[int, int]]) -> None:
        found = images(places)
        ends = {start + size for start, size in places} | {start for start, _ in places} | {0, END - 1, END}
        for address in sorted({end + step for end in ends for step in (-1, 0, 1)}):
            wanted = looked_for(places, address) if address < END else None
            self.assertEqual(found.first(address), wanted, (places, address))

    def test_by_hand(self) -> None:
        self.compare([])
        self.compare([(5, 0)])
        self.compare([(5, 0), (5, 1), (5, 1)])
        self.compare([(10, 10), (20, 10), (0, 40)])
        self.compare([(0, 40), (10, 10)])
        self.compare([(10, 10), (10, 5), (10, 20), (5, 30)])
        self.compare([(20, 10), (15, 10), (10, 10), (5, 10)])
        self.compare([(END - 16, 0xFFFFFFFF), (0, 0), (END - 1, 1)])

    def test_by_chance(self) -> None:
        numbers = random.Random(7)
        for _ in range(2000):
            most = numbers.choice([3, 10, 40])
            count = numbers.randrange(1, 14)
            self.compare([(numbers.randrange(most), numbers.randrange(most)) for _ in range(count)])

    def test_wide_by_chance(self) -> None:
        numbers = random.Random(8)
        for _ in range(50):
            self.compare([(numbers.randrange(END), numbers.randrange(1 << numbers.randrange(33))) for _ in range(60)])

    def test_modules_of_a_dump(self) -> None:
        numbers = random.Random(9)
        modules = [(numbers.randrange(1 << 16), numbers.randrange(1 << 14)) for _ in range(50)]
        dump = mdmp.Dump(strange_dumps.crowded(modules, []))
        for _ in range(500):
            address = numbers.randrange(1 << 17)
            at, found = looked_for(modules, address), dump.where(address)
            if at is None:
                self.assertIsNone(found)
            else:
                self.assertEqual(found, (dump.modules[at], address - modules[at][0]))

    def test_many(self) -> None:
        count = 50_000
        begin = time.process_time()
        nested = images([(start, 4 * count) for start in range(count, 0, -1)])
        for address in range(count):
            self.assertEqual(nested.first(address), count - address if address else None)
        self.assertLess(time.process_time() - begin, 5)  # each for each would take over a minute
