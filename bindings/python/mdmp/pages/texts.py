"""Streams of Linux, and comments, that are text: the command line, the memory map and others. They are shown as text."""

from __future__ import annotations

import shlex
from dataclasses import dataclass
from typing import Iterator

from ..names import StreamType
from . import names, text
from .reading import Reading

# What is shown of each text, and of all texts together. The environment is not shown: it may have secrets.
_BYTES, _LINES, _TEXTS = 16_384, 200, 12
_TITLES = {
    StreamType.MD_LINUX_CMD_LINE: "Command line",
    StreamType.MD_LINUX_MAPS: "Memory map",
    StreamType.MD_LINUX_PROC_STATUS: "Status of the process",
    StreamType.MD_LINUX_CPU_INFO: "Processors",
    StreamType.MD_LINUX_LSB_RELEASE: "Distribution",
    StreamType.LinuxProcStat: "Times of the process",
    StreamType.LinuxProcUptime: "Time since the start",
    StreamType.CommentStreamA: "Comment",
    StreamType.CommentStreamW: "Comment",
}


@dataclass
class Text:
    """A stream that is text: its lines, and what is left out of it."""

    title: str
    lines: list[str]
    left_out: str


def _decoded(stream_type: int, data: bytes) -> str:
    if stream_type == StreamType.CommentStreamW:
        return data.decode("utf-16-le", "replace").rstrip("\0")
    words = data.decode("utf-8", "replace").rstrip("\0")
    return shlex.join(words.split("\0")) if stream_type == StreamType.MD_LINUX_CMD_LINE and words else words


def _found(reading: Reading) -> Iterator[tuple[int, int, int, int]]:
    """The entries of texts: number, type, size and place. A stream that is not in the file is none."""
    if not reading.may_have(tuple(_TITLES)):
        return
    for entry, stream_type, size, rva in reading.streams.members("entry", "stream_type", "size", "rva"):
        if stream_type in _TITLES and size and rva + size <= reading.size:
            yield entry, stream_type, size, rva


def all_texts(reading: Reading) -> list[Text]:
    """The first texts of a dump."""
    made: list[Text] = []
    for entry, stream_type, size, rva in _found(reading):
        if len(made) == _TEXTS:
            break
        lines = _decoded(stream_type, reading.bytes_at(rva, min(size, _BYTES))).rstrip("\n").split("\n")
        is_cut = size > _BYTES or len(lines) > _LINES
        left_out = f"These are the first lines of {text.of(size, 'byte')}." if is_cut else ""
        title = f"{_TITLES[StreamType(stream_type)]} (entry {entry}, {names.stream_type(stream_type)})"
        made.append(Text(title, [text.visible(line.replace("\t", "  ")) for line in lines[:_LINES]], left_out))
    return made


def command_line(reading: Reading, most: int = text.LONGEST) -> str:
    """The command line, in one line of so many characters; nothing if the dump has none."""
    for _, stream_type, size, rva in _found(reading):
        if stream_type == StreamType.MD_LINUX_CMD_LINE:
            return text.shortened(_decoded(stream_type, reading.bytes_at(rva, min(size, _BYTES))), most)
    return ""
