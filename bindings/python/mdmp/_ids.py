"""The ids by which symbol servers know a module."""

from __future__ import annotations

import re
from dataclasses import dataclass
from typing import TYPE_CHECKING
from uuid import UUID

if TYPE_CHECKING:
    from . import _structures
    from ._parts import SymbolFile
    from ._records import IdKind

# Of IdKind, whose module needs this one.
_RSDS, _PDB20, _ELF = 1, 2, 3
_FOLDERS = re.compile(r"[/\\]")


@dataclass(frozen=True, slots=True)
class ModuleIds:
    """The ids by which symbol servers know a module.

    >>> import mdmp
    >>> with mdmp.open("llvm-all-kinds.dmp") as dump:
    ...     ids = dump.modules[0].ids
    >>> print(ids.debug_id, ids.symbol_path)
    33221100554477668899AABBCCDDEEFF1 one.pdb/33221100554477668899AABBCCDDEEFF1/one.pdb
    """

    kind: IdKind
    """Which kind of CodeView record the debug id is from."""
    debug_id: str | None
    """The debug id as Breakpad writes it. RSDS: the digits of the GUID and the age. NB10: the time and the age. ELF: the
    first 16 bytes of the build id as a GUID, and 0. None for another kind."""
    code_id: str | None
    """ELF: the bytes of the build id as digits in lower case. Else TimeDateStamp and SizeOfImage of the module, or None if
    the time is 0."""
    build_id: bytes | None
    """ELF: the build id, of which at most 20 bytes are read."""
    build_id_cut: bool
    """ELF: True if the record has more bytes of the build id."""
    debug_file: str | None
    """RSDS: the file name of the symbol file, without folders. It is None if there is none, or if it should not be part of
    a path: it is not UTF-8, `.` or `..`, or has characters that are not printable."""
    code_file: str | None
    """The file name of the module, in the same way."""

    @property
    def symbol_path(self) -> str | None:
        """The path of the PDB file at a symbol server, as in app.pdb/GUIDAGE/app.pdb. None if there is no `debug_file`."""
        return _path(self.debug_file, self.debug_id)

    @property
    def image_path(self) -> str | None:
        """The path of the PE file at a symbol server, as in app.exe/TIMESIZE/app.exe. None if the module has no such code
        id or no `code_file`.

        >>> import mdmp
        >>> with mdmp.open("llvm-all-kinds.dmp") as dump:
        ...     print(dump.modules[0].ids.image_path)
        one.exe/6553F10010000/one.exe
        """
        return _path(self.code_file, self.code_id) if self.kind != _ELF else None


def _path(file: str | None, key: str | None) -> str | None:
    return None if file is None or key is None else f"{file}/{key}/{file}"


def file_name(path: str | None) -> str | None:
    """The last part of a path, or None if that cannot be part of another path."""
    name = _FOLDERS.split(path or "")[-1]
    is_plain = name not in ("", ".", "..") and name.isprintable()
    return name if is_plain else None


def _text(name: bytes) -> str | None:
    try:
        return name.decode("utf-8")
    except UnicodeDecodeError:
        return None


def _debug_id(raw: _structures.ModuleIds) -> str | None:
    if raw.kind == _PDB20:
        return f"{raw.signature:08X}{raw.age:x}"
    if raw.kind in (_RSDS, _ELF):
        return f"{UUID(bytes=bytes(raw.guid)).hex.upper()}{raw.age:x}"
    return None


def ids_of(
    raw: _structures.ModuleIds, kind: IdKind, name: str | None, symbols: SymbolFile | None
) -> ModuleIds:
    """The ids that the library returned for a module with this name and this symbol file."""
    build_id = bytes(raw.build_id)[: raw.build_id_size] if kind == _ELF else None
    code_id = f"{raw.time_date_stamp:08X}{raw.size_of_image:x}" if raw.time_date_stamp else None
    return ModuleIds(
        kind,
        _debug_id(raw),
        code_id if build_id is None else build_id.hex(),
        build_id,
        raw.build_id_cut == 1,
        file_name(_text(symbols.name)) if symbols and kind == _RSDS else None,
        file_name(name),
    )
