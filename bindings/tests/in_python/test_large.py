"""Bytes past 2 and 4 GiB, where a C int ends and a number of 32 bits does."""

from __future__ import annotations

import ctypes
import hashlib
import mmap
import os
import pathlib
import unittest

import mdmp
from mdmp import _buffer, _structures
from mdmp._library import Filled

GIB = 1 << 30
ENDS = [2 * GIB - 3, 4 * GIB - 3]  # places whose next bytes lie on both sides of an end


def sparse(size: int) -> mmap.mmap:
    """So many bytes that take no memory, but for a few at each end and about 2 and 4 GiB."""
    mapping = mmap.mmap(-1, size, flags=mmap.MAP_PRIVATE)  # of a shared one each page that is read takes memory
    for place in places(size):
        mapping[place : place + 6] = written(place)
    return mapping


def places(size: int) -> list[int]:
    return [0, *(place for place in ENDS if place < size), size - 6]


def written(place: int) -> bytes:
    return b"%06x" % (place % 0xFFFFFB)


def array_over(mapping: mmap.mmap) -> ctypes.Array[ctypes.c_uint8]:
    return (ctypes.c_uint8 * len(mapping)).from_buffer(mapping)


class Sparse(unittest.TestCase):
    """What is copied of a buffer that takes no memory itself."""

    def compare(self, size: int) -> None:
        mapping = sparse(size)
        filled = Filled(mdmp.Status.OK, array_over(mapping), size, _structures.Fault())
        copied = filled.bytes()
        self.assertEqual(len(copied), size)
        for place in places(size):
            self.assertEqual(copied[place : place + 6], written(place), place)
        self.assertEqual(size - copied.count(0), 6 * len(places(size)))

    def test_just_over_two_gib(self) -> None:
        self.compare(2 * GIB + 64)

    def test_just_over_four_gib(self) -> None:
        self.compare(4 * GIB + 64)

    def test_part_that_lies_far_on(self) -> None:
        mapping = sparse(5 * GIB)
        with _buffer.Lent(mapping) as (address, size):
            self.assertEqual(size, 5 * GIB)
            for place in places(size):
                self.assertEqual(_buffer.bytes_at(address + place, 6), written(place))

    def test_nothing(self) -> None:
        self.assertEqual(_buffer.bytes_at((ctypes.c_uint8 * 1)(), 0), b"")

    def test_more_than_there_is(self) -> None:
        with self.assertRaises(MemoryError):
            _buffer.bytes_at((ctypes.c_uint8 * 1)(), 1 << 62)


@unittest.skipUnless("MDMP_LARGE" in os.environ, "bindings/tests/large made no dumps, and said why")
class Copies(unittest.TestCase):
    """Copies of the dumps that bindings/tests/large makes are those of the command."""

    def compare(self, path: pathlib.Path) -> None:
        types, size, sha256 = path.with_name(path.stem + ".copy").read_text("ascii").splitlines()
        with mdmp.open(path, limits=None) as dump:
            copied = dump.copy(*[int(word) for word in types.split()])
        self.assertEqual(len(copied), int(size))
        self.assertEqual(hashlib.sha256(copied).hexdigest(), sha256)

    def test_copy_of_2_25_gib(self) -> None:
        self.compare(pathlib.Path(os.environ["MDMP_LARGE"]) / "2.25.dmp")

    def test_copy_of_4_5_gib(self) -> None:
        self.compare(pathlib.Path(os.environ["MDMP_LARGE"]) / "4.5.dmp")
