"""The bytes of a file, lent to the library without a copy; and copies of bytes at an address.

`ctypes` gives the address of a buffer only if the buffer may be written to, and a read-only mapping may not. Python's
own PyObject_GetBuffer gives the address of any buffer, and keeps the buffer in its place until PyBuffer_Release. Until
then no thread can close a mapping or change the length of a bytearray.
"""

from __future__ import annotations

import mmap
from array import array
from ctypes import Structure, addressof, byref, c_char_p, c_int, c_ssize_t, c_uint8, c_void_p, py_object, pythonapi
from typing import Any, Union

Bytes = Union[bytes, bytearray, memoryview, mmap.mmap, "array[int]"]


class _PyBuffer(Structure):
    """Py_buffer, as Python's limited API has it."""

    _fields_ = [
        ("buf", c_void_p),
        ("obj", c_void_p),
        ("len", c_ssize_t),
        ("itemsize", c_ssize_t),
        ("readonly", c_int),
        ("ndim", c_int),
        ("format", c_char_p),
        ("shape", c_void_p),
        ("strides", c_void_p),
        ("suboffsets", c_void_p),
        ("internal", c_void_p),
    ]


_get, _release = pythonapi.PyObject_GetBuffer, pythonapi.PyBuffer_Release
_get.argtypes, _get.restype = [py_object, c_void_p, c_int], c_int
_release.argtypes, _release.restype = [c_void_p], None
_SIMPLE = 0
_nothing = c_uint8()
# A function object of its own: the types of arguments of other packages do not meet these.
_copied = pythonapi["PyBytes_FromStringAndSize"]
_copied.argtypes, _copied.restype = [c_void_p, c_ssize_t], py_object


def bytes_at(place: Any, size: int) -> bytes:
    """A copy of the first bytes of an array, or of those at an address. `ctypes.string_at` takes the size as a C int: it
    raises an error from 2 GiB on, and from 4 GiB on it gives fewer bytes."""
    made: bytes = _copied(place, size)
    return made


class Lent:
    """A buffer's address and its length in bytes, while it is lent."""

    __slots__ = ("_data", "_view")

    def __init__(self, data: Bytes) -> None:
        self._data = data

    def __enter__(self) -> tuple[int, int]:
        self._view = _PyBuffer()
        # Raises BufferError if the buffer is not in one piece, and ValueError if it is a closed mapping.
        _get(self._data, byref(self._view), _SIMPLE)
        # Some empty buffers have no address, and the library takes no NULL.
        return self._view.buf or addressof(_nothing), int(self._view.len)

    def __exit__(self, *_: object) -> None:
        _release(byref(self._view))
