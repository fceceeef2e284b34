"""Where a page is written, and what stays of what was there."""

from __future__ import annotations

import os
import pathlib
import stat
import subprocess
import sys
import tempfile
import threading
import tty
import unittest
from unittest import mock

from mdmp.pages import output

PAGE = "<p>été</p>\n"
BYTES = PAGE.encode("utf-8")


class Output(unittest.TestCase):
    """output.write"""

    def setUp(self) -> None:
        folder = tempfile.TemporaryDirectory()
        self.addCleanup(folder.cleanup)
        self.folder = pathlib.Path(folder.name)

    def old(self, name: str, mode: int = 0o644) -> pathlib.Path:
        """A file that is there before."""
        path = self.folder / name
        path.write_bytes(b"what was there before, which is longer than the page")
        path.chmod(mode)
        return path

    def expect_only(self, *names: str) -> None:
        self.assertEqual(sorted(os.listdir(self.folder)), sorted(names))

    def test_new_file(self) -> None:
        path = self.folder / "new.html"
        before = os.umask(0o027)
        try:
            output.write(str(path), PAGE)
        finally:
            os.umask(before)
        self.assertEqual((path.read_bytes(), stat.S_IMODE(path.stat().st_mode)), (BYTES, 0o640))
        self.expect_only("new.html")

    def test_mode_and_owner_stay(self) -> None:
        path = self.old("private.html", 0o600)
        if os.geteuid() == 0:
            os.chown(path, 1234, 4321)
        before = path.stat()
        output.write(str(path), PAGE)
        after = path.stat()
        self.assertEqual(path.read_bytes(), BYTES)
        self.assertEqual((after.st_mode, after.st_uid, after.st_gid), (before.st_mode, before.st_uid, before.st_gid))
        self.assertNotEqual(after.st_ino, before.st_ino)  # it was replaced, and never half of a page
        self.expect_only("private.html")

    def test_owner_that_cannot_be_given(self) -> None:
        path = self.old("theirs.html", 0o666)
        before = path.stat()
        with mock.patch.object(output, "_keep", return_value=False):
            output.write(str(path), PAGE)
        self.assertEqual((path.read_bytes(), path.stat().st_ino), (BYTES, before.st_ino))
        self.expect_only("theirs.html")

    def test_links_are_followed(self) -> None:
        path = self.old("real.html", 0o600)
        (self.folder / "second").symlink_to("real.html")
        (self.folder / "first").symlink_to(self.folder / "second")
        output.write(str(self.folder / "first"), PAGE)
        self.assertEqual((path.read_bytes(), stat.S_IMODE(path.stat().st_mode)), (BYTES, 0o600))
        self.assertTrue((self.folder / "first").is_symlink() and (self.folder / "second").is_symlink())
        (self.folder / "ahead").symlink_to("later.html")
        output.write(str(self.folder / "ahead"), PAGE)
        self.assertEqual((self.folder / "later.html").read_bytes(), BYTES)
        self.expect_only("real.html", "first", "second", "ahead", "later.html")

    def test_link_to_itself(self) -> None:
        (self.folder / "itself").symlink_to("itself")
        with self.assertRaises(OSError):
            output.write(str(self.folder / "itself"), PAGE)
        self.expect_only("itself")

    def test_pipe_with_a_name(self) -> None:
        path, got = self.folder / "pipe", []
        os.mkfifo(path)
        reader = threading.Thread(target=lambda: got.append(path.read_bytes()))
        reader.start()
        output.write(str(path), PAGE)
        reader.join()
        self.assertEqual(got, [BYTES])
        self.assertTrue(stat.S_ISFIFO(path.stat().st_mode))
        self.expect_only("pipe")

    def test_device(self) -> None:
        controller, terminal = os.openpty()
        self.addCleanup(os.close, controller)
        self.addCleanup(os.close, terminal)
        tty.setraw(terminal)
        link = self.folder / "stdout"  # as in /dev
        link.symlink_to(os.ttyname(terminal))
        output.write(str(link), PAGE)
        self.assertEqual(os.read(controller, 100), BYTES)
        self.assertTrue(stat.S_ISCHR(link.stat().st_mode) and link.is_symlink())
        self.expect_only("stdout")

    def test_folder(self) -> None:
        with self.assertRaises(IsADirectoryError):
            output.write(str(self.folder), PAGE)
        self.expect_only()

    def test_standard_output_by_any_name(self) -> None:
        program = f"from mdmp.pages import output; import sys; print(1, flush=False); output.write(sys.argv[1], {PAGE!r})"
        for name in ("-", "/dev/stdout", "/proc/self/fd/1"):
            words = [sys.executable, "-c", program, name]
            with self.subTest(name):
                self.assertEqual(subprocess.run(words, capture_output=True, check=True).stdout, b"1\n" + BYTES)
                path = self.old("out.txt", 0o640)
                with path.open("ab") as stream:
                    subprocess.run(words, stdout=stream, check=True)
                self.assertTrue(path.read_bytes().endswith(b"page1\n" + BYTES))
                self.assertEqual(stat.S_IMODE(path.stat().st_mode), 0o640)
        self.expect_only("out.txt")

    def test_one_of_the_dumps(self) -> None:
        dump, other = self.old("one.dmp"), self.old("other.html")
        (self.folder / "link").symlink_to("one.dmp")
        os.link(dump, self.folder / "again")
        dumps = [str(self.folder / "gone.dmp"), str(dump)]
        for name in ("one.dmp", "link", "again"):
            self.assertTrue(output.is_one_of(str(self.folder / name), dumps), name)
        for path in (str(other), str(self.folder / "new.html"), os.devnull, "-"):
            self.assertFalse(output.is_one_of(path, dumps), path)

    def test_replacing_follows_no_link(self) -> None:
        dump = self.old("one.dmp")
        link = self.folder / "00001-one.dmp.html"
        link.symlink_to("one.dmp")
        output.replace(str(link), PAGE)
        self.assertEqual(link.read_bytes(), BYTES)
        self.assertFalse(link.is_symlink())
        self.assertTrue(dump.read_bytes().startswith(b"what was"))
