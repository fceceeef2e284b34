"""Numbers and names of a dump as text that a page can show."""

from __future__ import annotations

import unicodedata

_UNITS = ("KiB", "MiB", "GiB", "TiB", "PiB", "EiB")
LONGEST = 160


# From so many marks on, the marks of a letter are escaped.
_MARKS = 3


def _pieces(text: str) -> list[str]:
    """What is shown of each character."""
    out, marks = [], 0
    for character in text:
        marks = marks + 1 if unicodedata.combining(character) else 0
        is_plain = character.isprintable() and marks < _MARKS
        out.append(character if is_plain else f"\\u{ord(character):04x}")
    return out


def visible(text: str) -> str:
    """A name of the file. Characters that cannot be seen or that change the order of others are escaped. So are the
    marks of a letter from the third on."""
    return text if text.isascii() and text.isprintable() else "".join(_pieces(text))


def shortened(text: str, most: int = LONGEST) -> str:
    """A name; if it is longer than `most` characters, its first and its last ones."""
    first = most * 2 // 3
    if len(text) <= most:
        begin = end = visible(text)
        if len(begin) <= most:
            return begin
    else:  # no character of the middle is looked at: none is shown as less than one
        begin = visible(text[:first])
        end = "".join(_pieces(text[first - most - _MARKS :])[_MARKS:])
    return f"{begin[:first]} .. {end[first - most :]} ({grouped(len(text))} characters)"


def name(text: str | None, most: int = LONGEST) -> str:
    """A name as a page shows it."""
    return "no name" if text is None else shortened(text, most) if text else "empty name"


def grouped(number: int) -> str:
    """A number of any size, with its digits in groups."""
    return f"{number:,}"


def of(count: int, one: str, many: str | None = None) -> str:
    """A count of things in words."""
    return f"{grouped(count)} {one if count == 1 else many or one + 's'}"


def _larger(size: int) -> str:
    unit = min((size.bit_length() - 1) // 10, len(_UNITS))
    return f"{size / (1 << 10 * unit):.1f} {_UNITS[unit - 1]}"


def in_units(size: int) -> str:
    """A size in bytes; a large size also in a larger unit."""
    told = of(size, "byte")
    return told if size < 10240 else f"{told} ({_larger(size)})"


def about(size: int) -> str:
    """A size in few letters; a large size only in a larger unit."""
    return of(size, "byte") if size < 1 << 20 else _larger(size)


def address(number: int) -> str:
    """An address of the dumped process, as the command prints it."""
    return f"0x{number:016x}"


def short_address(number: int) -> str:
    """An address without zeros in front."""
    return f"{number:#x}"


def last_part(path: str) -> str:
    """What follows the last slash or backslash of a path."""
    return path.replace("\\", "/").rstrip("/").rsplit("/", 1)[-1] or path


def _wide(character: str) -> int:
    return 2 if unicodedata.east_asian_width(character) in "WF" else 1


def columns(text: str) -> int:
    """How many columns a text takes in a font of one width."""
    return sum(map(_wide, text))


def fitting(text: str, room: int) -> str:
    """The first part of a text that fits into `room` columns of a font of one width."""
    columns = 0
    for at, character in enumerate(text):
        columns += _wide(character)
        if columns > room:
            while at > 0 and columns > room - 1:
                columns -= _wide(text[at])
                at -= 1
            return text[: at + 1].rstrip() + "…"
    return text
