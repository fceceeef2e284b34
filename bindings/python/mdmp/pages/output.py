"""Writes a page: to standard output, to a file, or to what is no regular file, such as a device."""

from __future__ import annotations

import os
import stat
import sys
import tempfile
from typing import Iterable

STANDARD_OUTPUT = "-"


def _found(path: str) -> os.stat_result | None:
    """What is at a path, behind links; None if nothing is there."""
    try:
        return os.stat(path)
    except FileNotFoundError:
        return None


def _standard_output() -> os.stat_result | None:
    try:
        return os.fstat(1)
    except OSError:
        return None  # it is closed


def _target(out: str) -> tuple[bool, os.stat_result | None]:
    """Whether `out` is standard output, also by another name, and what is there."""
    standard = _standard_output()
    if out == STANDARD_OUTPUT:
        return True, standard
    found = _found(out)
    return bool(found and standard and os.path.samestat(found, standard)), found


def is_one_of(out: str, files: Iterable[str]) -> bool:
    """Whether a page at `out` would change one of these files."""
    try:
        found = _target(out)[1]
    except OSError:
        return False  # nothing can be written there
    if found is None or not stat.S_ISREG(found.st_mode):
        return False
    return any(_is_at(path, found) for path in files)


def _is_at(path: str, found: os.stat_result) -> bool:
    try:
        return os.path.samestat(os.stat(path), found)
    except OSError:
        return False  # it was removed


def write(out: str, page: str) -> None:
    """Writes a page, and raises OSError if that fails.

    `-` is standard output, and so is each other name of it. A link is followed. A regular file gets the whole page at
    once, and keeps its mode and its owner. What is no regular file is opened and written to.
    """
    data = page.encode("utf-8")
    is_standard, found = _target(out)
    if is_standard:
        sys.stdout.flush()
        _put(1, data)
    elif found is None or stat.S_ISREG(found.st_mode):
        replace(os.path.realpath(out), page)
    else:
        opened = os.open(out, os.O_WRONLY | os.O_NOCTTY)
        try:
            _put(opened, data)
        finally:
            os.close(opened)


def replace(path: str, page: str) -> None:
    """Writes a page to a regular file, all of it or none. A file that was there keeps its mode and its owner. A link is
    replaced by the file."""
    data, old = page.encode("utf-8"), None
    try:
        old = os.lstat(path)
    except FileNotFoundError:
        pass
    opened, made = tempfile.mkstemp(prefix=".mdmp-", suffix=".html", dir=os.path.dirname(os.path.abspath(path)))
    try:
        try:
            _put(opened, data)
            is_kept = _keep(opened, old if old and stat.S_ISREG(old.st_mode) else None)
        finally:
            os.close(opened)
        if is_kept:
            os.replace(made, path)
    except BaseException:
        os.unlink(made)
        raise
    if not is_kept:
        os.unlink(made)
        with open(path, "wb") as stream:
            stream.write(data)


def _put(opened: int, data: bytes) -> None:
    with open(opened, "wb", closefd=False) as stream:
        stream.write(data)


def _keep(opened: int, old: os.stat_result | None) -> bool:
    """Gives a file the owner and the mode of an old one, or those of a new file. False if only a privileged user can."""
    if old is None:
        mask = os.umask(0)
        os.umask(mask)
        os.fchmod(opened, 0o666 & ~mask)
        return True
    made = os.fstat(opened)
    if (made.st_uid, made.st_gid) != (old.st_uid, old.st_gid):
        try:
            os.fchown(opened, old.st_uid, old.st_gid)
        except PermissionError:
            return False
    os.fchmod(opened, stat.S_IMODE(old.st_mode))
    return True
