"""Each dump of the folder that MDMP_STORED names, against what is stored of it there."""

from __future__ import annotations

import dataclasses
import hashlib
import io
import json
import os
import pathlib
import unittest
from itertools import zip_longest
from typing import Any, Iterator

import mdmp
from mdmp import Extent, _structures

from . import records

FOLDER = pathlib.Path(os.environ["MDMP_STORED"])


def dumps() -> Iterator[pathlib.Path]:
    found = sorted(FOLDER.glob("*.dmp"))
    assert len(found) == 7, "six samples and one that was made"
    return iter(found)


def version(upper: int, lower: int) -> tuple[int, int, int, int]:
    return upper >> 16, upper & 0xFFFF, lower >> 16, lower & 0xFFFF


def stored(path: pathlib.Path, suffix: str) -> str:
    return path.with_suffix(suffix).read_text("ascii")


class Stored(unittest.TestCase):
    """What is given of each dump, and what is stored of it."""

    def test_texts(self) -> None:
        for path in dumps():
            with self.subTest(path.name), mdmp.open(path) as dump:
                self.assertTrue(dump.list() == stored(path, ".list"))
                self.assertTrue(dump.list(pdb=True) == stored(path, ".pdb"))
                self.assertTrue(dump.check() == stored(path, ".check"))
                written = io.StringIO()
                dump.write_list(written, pdb=True)
                self.assertTrue(written.getvalue() == stored(path, ".pdb"))

    def test_objects(self) -> None:
        for path in dumps():
            with self.subTest(path.name), mdmp.open(path) as dump:
                text = dump.list_json(pdb=True)
                self.assertTrue(text == path.with_suffix(".pdb.jsonl").read_text("utf-8"))
                self.assertTrue(dump.check_json() == path.with_suffix(".check.jsonl").read_text("utf-8"))
                objects = [json.loads(line) for line in text.split("\n")[:-1]]
                plain = dump.list(pdb=True).splitlines()
                self.assertEqual([each["line"] for each in objects], [line.split()[0] for line in plain])
                without = [json.loads(line) for line in dump.list_json().split("\n")[:-1]]
                self.assertEqual(without, [each for each in objects if each["line"] != "pdb"])

    def test_fields(self) -> None:
        for path in dumps():
            with self.subTest(path.name), mdmp.open(path) as dump:
                for line, wanted in zip_longest(records.lines(dump), stored(path, ".records").splitlines()):
                    self.assertEqual(line, wanted)
                for module in dump.modules:
                    self.assertEqual(module.file_version, version(module.file_version_ms, module.file_version_ls))
                    self.assertEqual(module.product_version, version(module.product_version_ms, module.product_version_ls))

    def test_copies(self) -> None:
        for path in dumps():
            if not path.with_suffix(".copy").exists():
                continue
            with self.subTest(path.name), mdmp.open(path) as dump:
                types, size, sha256 = stored(path, ".copy").splitlines()
                copied = dump.copy(*[int(word) for word in types.split()])
                self.assertEqual(len(copied), int(size))
                self.assertEqual(hashlib.sha256(copied).hexdigest(), sha256)

    def test_verdicts(self) -> None:
        for path in dumps():
            with self.subTest(path.name), mdmp.open(path) as dump:
                self.assertEqual(dump.verdicts, (None,) * len(dump.streams))

    def test_memory(self) -> None:
        for path in dumps():
            data = path.read_bytes()
            with self.subTest(path.name), mdmp.open(path) as dump:
                held = [found for found in dump.ranges if found.extent == Extent.INSIDE]
                for found in held[:1]:
                    end = min(found.start + found.size, 1 << 64)
                    wanted = data[found.offset : found.offset + end - found.start]
                    self.assertEqual(dump.memory[found.start : end], wanted)
                    self.assertEqual(dump.memory[found.start], wanted[0])
                for found in held[:200]:
                    self.assertIn(found.start, dump.memory)
                self.assertNotIn(0, dump.memory)
                self.assertNotIn(1 << 64, dump.memory)
                self.assertEqual(dump.memory[0:0], b"")
                with self.assertRaises(KeyError) as raised:
                    dump.memory[0:1]
                self.assertEqual(raised.exception.args, ("0x0",))
                with self.assertRaises(ValueError):
                    dump.memory[0:8:2]
                with self.assertRaises(ValueError):
                    dump.memory.read((1 << 64) - 1, 2)


class Made(unittest.TestCase):
    """Each field of a dump that was made with another number in each."""

    def setUp(self) -> None:
        self.dump = mdmp.open(FOLDER / "made.dmp")
        self.addCleanup(self.dump.close)
        self.wanted = json.loads((FOLDER / "made.dmp.json").read_text("utf-8"))

    def compare(self, name: str, records: tuple[Any, ...]) -> None:
        self.assertEqual(len(records), len(self.wanted[name]))
        for record, wanted in zip(records, self.wanted[name]):
            given = {field.name: getattr(record, field.name) for field in dataclasses.fields(record)}
            for field, value in wanted.items():
                if field == "name_rva":
                    self.assertEqual(given["name_place"].rva, value)
                elif field == "pdb":
                    self.assertEqual(given["symbols"].name.decode(), value)
                    self.assertEqual(given["symbols"].name_ended, value.endswith(".pdb"))
                elif field == "guid":
                    self.assertEqual(given["symbols"].guid.bytes_le.hex(), value)
                elif isinstance(given[field], mdmp.Place):
                    self.assertEqual([given[field].size, given[field].rva, given[field].extent], [*value, Extent.INSIDE])
                elif isinstance(given[field], bytes):
                    self.assertEqual(given[field].hex(), value)
                elif isinstance(given[field], tuple):
                    self.assertEqual(list(given[field]), value)
                else:
                    self.assertEqual(given[field], value, field)

    def test_fields(self) -> None:
        dump = self.dump
        self.compare("header", (dump.header,))
        self.compare("stream", dump.streams)
        for name, table in _structures.TABLES.items():
            self.compare((table.row.__doc__ or "").removeprefix("mdmp_"), getattr(dump, name))

    def test_entries_and_places(self) -> None:
        types = {stream.entry: stream.stream_type for stream in self.dump.streams}
        of_types: dict[int, tuple[Any, ...]] = {3: self.dump.threads, 4: self.dump.modules, 14: self.dump.unloaded}
        for kind, records in of_types.items():
            for index, record in enumerate(records):
                self.assertEqual((types[record.entry], record.index), (kind, index))

    def test_overlapping_memory(self) -> None:
        self.assertEqual(self.dump.memory[0x5000:0x500C], b"ABCDEFGHmnop")
        self.assertEqual(self.dump.memory[0x9000:0x9006], b"MEMORY")
        self.assertNotIn(0xA000, self.dump.memory)

    def test_where(self) -> None:
        module = self.dump.modules[1]
        self.assertEqual(self.dump.where(module.base_of_image + 5), (module, 5))
        self.assertEqual(str(self.dump.where(module.base_of_image)), f"{module.name}+0x0")
        self.assertIsNone(self.dump.where(module.base_of_image - 1))
        self.assertIsNone(self.dump.where(module.base_of_image + module.size_of_image))
